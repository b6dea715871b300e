//! Rows as a solver meets them, for timing: nothing special, the points near where the rest shape has them, the rotation's start
//! near its end.

use super::arithmetic::{near_rotation, stretched, unit_rotation};
use super::elastic::{corner, inverse};
use super::scalar::{unit_vector, worked_distance};
use crate::dynamics::solver::soft_element_constraint::{SoftElasticConstraint, StrainMatrix};
use crate::random::Random;
use crate::rows::{
    self, Corotational, CorotationalRow, ElasticRow, NeoHookean, NeoHookeanRow, POINTS, Point,
    Points, Row, ScalarRow,
};
use crate::support::na::SVector;
use crate::support::real::Real;
use crate::support::vector::{Matrix, Vector};

/// A row with its points, before an update and after it.
pub struct Typical<R> {
    pub points: Points,
    pub row: R,
    pub updated: R,
}

fn typical<R: Row>(points: Points, row: R) -> Typical<R> {
    Typical {
        points,
        row,
        updated: rows::update(&points, row),
    }
}

/// Points of which the first four are at these places, or near them.
fn near(random: &mut Random, places: [Vector; 4], far: f32) -> Points {
    let mut points = Points {
        n: POINTS as u32,
        points: std::array::from_fn(|_| Point {
            position: Vector::ZERO,
            velocity: unit_vector(random),
        }),
    };
    for (point, place) in points.points.iter_mut().zip(places) {
        point.position = place + unit_vector(random) * far;
    }
    points
}

/// A distance, a dihedral or a volume, as `kind` says.
pub fn typical_scalar(random: &mut Random, kind: u32) -> Typical<ScalarRow> {
    let folded = [
        Vector::ZERO,
        Vector::X,
        Vector::new(0.5, 1.0, 0.0),
        Vector::new(0.5, -0.8, 0.6),
    ];
    let (places, count, rest) = match kind {
        0 => (corner(), 2, 1.0),
        1 => (folded, 4, 0.6),
        _ => (corner(), 4, 1.0 / 6.0),
    };
    let row = ScalarRow {
        kind,
        count,
        ids: [0, 1, 2, 3],
        rest,
        erp_inv_dt: 30.0,
        cfm_coeff: 0.05,
        ..worked_distance(Vector::X).1
    };
    typical(near(random, places, 0.1), row)
}

/// A cell turned and stretched by a tenth, the start of its rotation near, and the inverse of its block, softened.
fn elastic<M>(random: &mut Random, model: M) -> (Points, ElasticRow<M>) {
    let rest = Matrix::from_cols(
        Vector::X + unit_vector(random) * 0.2,
        Vector::Y + unit_vector(random) * 0.2,
        Vector::Z + unit_vector(random) * 0.2,
    );
    let turn = unit_rotation(random);
    let edges = stretched(random, turn, 0.1) * rest;
    let places = [Vector::ZERO, edges.x_axis, edges.y_axis, edges.z_axis];
    let points = near(random, places, 0.0);
    let rotation = near_rotation(random, turn, 0.01);
    let inv_rest_matrix = inverse(rest);
    let coeffs = SoftElasticConstraint::coefficients(&inv_rest_matrix);
    let im = [1.0; 4];
    let block = SoftElasticConstraint::strain_block(&coeffs, &im)
        + StrainMatrix::from_diagonal(&SVector([SOFT; 6]));
    let row = ElasticRow {
        colour: 0,
        strained: false,
        inverted: false,
        spare: 1,
        ids: [0, 1, 2, 3],
        pos: places,
        im,
        coeffs,
        inv_rest_matrix,
        rotation,
        rot_mat: Matrix::from_quat(rotation),
        inv_a: block.try_inverse().expect("a soft block has its inverse"),
        strain_cap: SVector([0.5; 6]),
        strain: SVector::zeros(),
        strain_impulse: SVector::zeros(),
        vol_impulse: 0.0,
        model,
    };
    (points, row)
}

/// How soft a cell's strain rows are.
pub const SOFT: Real = 0.05;

pub fn soft_corotational() -> Corotational {
    Corotational {
        erp_strain: SVector([30.0; 6]),
        cfm_strain: SVector([SOFT; 6]),
        erp_vol: 30.0,
        cfm_coeff_vol: SOFT,
        vol_cap: 0.5,
        grad_vol: [Vector::ZERO; 4],
        cfm_gain_vol: 0.0,
        rhs_vol: 0.0,
        b: SVector::zeros(),
        z: SVector::zeros(),
        inv_s: 0.0,
    }
}

/// Its block was never made.
pub fn soft_neo_hookean() -> NeoHookean {
    NeoHookean {
        dt: 0.004,
        mu: 1000.0,
        lambda: 2000.0,
        damping: SVector([1.0; 6]),
        stiffness_strain: SVector([Real::MAX; 6]),
        m: StrainMatrix::zeros(),
        dt_grad: SVector::zeros(),
    }
}

pub fn typical_corotational(random: &mut Random) -> Typical<CorotationalRow> {
    let (points, row) = elastic(random, soft_corotational());
    typical(points, row)
}

/// A row whose update keeps its block, or renews it.
pub fn typical_neo_hookean(random: &mut Random, kept: bool) -> Typical<NeoHookeanRow> {
    let (points, row) = elastic(random, soft_neo_hookean());
    let renewed = typical(points, NeoHookeanRow { spare: 0, ..row });
    if !kept {
        return renewed;
    }
    // Its own block, and the rotation's start as before.
    let row = NeoHookeanRow {
        rotation: row.rotation,
        ..renewed.updated
    };
    typical(points, row)
}
