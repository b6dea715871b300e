//! Answers on values, each called as its Rattle counterpart is, so that the two are timed alike. (C returns an array's worth of
//! floats by a pointer to where they go, which is how the Rattle functions take their last argument.)

use crate::answers::Six6;
use crate::dynamics::soft_body::soft_body_shape_matching;
use crate::dynamics::solver::soft_element_constraint as listed;
use crate::rows::{CorotationalRow, NeoHookeanRow, Points, Row, ScalarRow};
use crate::support::bodies::SolverBodies;
use crate::support::real::{self, Real};
use crate::support::vector::{Matrix, Rotation, Vector};
use std::hint::black_box;

/// Eigenvalues, and the eigenvectors as columns.
#[repr(C)]
pub struct Eigen {
    pub values: Vector,
    pub vectors: Matrix,
}

#[inline(never)]
pub extern "C" fn root(x: Real) -> Real {
    real::root(x)
}

#[inline(never)]
pub extern "C" fn mat_mul(a: &Six6, b: &Six6) -> Six6 {
    *a * *b
}

#[inline(never)]
pub extern "C" fn try_inverse(m: &Six6) -> Six6 {
    m.try_inverse().unwrap_or(Six6::zeros())
}

#[inline(never)]
pub extern "C" fn symmetric_eigen(m: Matrix) -> Eigen {
    let (values, vectors) = listed::symmetric_eigen(&m);
    Eigen { values, vectors }
}

#[inline(never)]
pub extern "C" fn extract_rotation(a: Matrix, warm: Rotation) -> Rotation {
    soft_body_shape_matching::extract_rotation(a, warm)
}

/// The least strain of the updates that are timed.
pub const LEAST_STRAIN: Real = 0.05;

/// What is timed of a row that is ready with its points.
pub trait RowCalls {
    /// Updates a copy of the row: peak, update and flag.
    fn update(&self);
    /// Solves the row as the last solve left it, and alters its points.
    fn solve(&mut self);
}

/// A row of the listed Rust, altered where it lies, as the listed sweeps do it.
struct InPlace<R: Row> {
    row: R::Listed,
    bodies: SolverBodies,
}

impl<R: Row> RowCalls for InPlace<R> {
    #[inline(never)]
    fn update(&self) {
        let mut row = self.row;
        R::begin(&mut row);
        R::update(&mut row, &self.bodies);
        black_box(R::is_strained(&row, LEAST_STRAIN));
        black_box(&row);
    }

    #[inline(never)]
    fn solve(&mut self) {
        R::solve(&mut self.row, &mut self.bodies);
    }
}

fn in_place<R: Row>(points: &Points, row: R) -> InPlace<R> {
    InPlace {
        row: row.to_listed(),
        bodies: points.bodies(),
    }
}

pub fn scalar(points: Points, row: ScalarRow) -> impl RowCalls {
    in_place(&points, row)
}

pub fn corotational(points: Points, row: CorotationalRow) -> impl RowCalls {
    in_place(&points, row)
}

pub fn neo_hookean(points: Points, row: NeoHookeanRow) -> impl RowCalls {
    in_place(&points, row)
}
