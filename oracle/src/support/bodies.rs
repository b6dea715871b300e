//! What the rows read and alter: the bodies, without their SIMD and their angular parts, and the set of rows.

use super::vector::Vector;
use crate::dynamics::solver::soft_constraints_set::{SoftColorRange, SoftGroupLayout};
use crate::dynamics::solver::soft_element_constraint::{
    SoftElasticConstraint, SoftScalarConstraint,
};

/// The listed Rust hangs its geometry on this type; no field of it is used by what is compiled.
pub struct SoftBody;

/// A body's velocity; only the linear part is carried.
#[derive(Copy, Clone, Debug, Default, PartialEq)]
pub struct SolverVel {
    pub linear: Vector,
}

/// A body's place; the rows read its translation alone.
#[derive(Copy, Clone, Debug, Default, PartialEq)]
pub struct SolverPose {
    pub translation: Vector,
}

/// The bodies by their ids, as solver_body.rs has them: an id that is not there reads zeros.
#[derive(Clone, Debug, Default, PartialEq)]
pub struct SolverBodies {
    pub vels: Vec<SolverVel>,
    pub poses: Vec<SolverPose>,
}

impl SolverBodies {
    #[inline]
    #[expect(clippy::len_without_is_empty, reason = "the listed Rust asks no more")]
    pub fn len(&self) -> usize {
        self.vels.len()
    }

    #[inline]
    pub fn get_vel(&self, i: u32) -> SolverVel {
        self.vels.get(i as usize).copied().unwrap_or_default()
    }

    #[inline]
    pub fn get_pose(&self, i: u32) -> SolverPose {
        self.poses.get(i as usize).copied().unwrap_or_default()
    }
}

/// The rows of a step: the fields of the listed struct that the sweeps use.
#[derive(Default)]
pub(crate) struct SoftConstraintsSet {
    pub scalar_constraints: Vec<SoftScalarConstraint>,
    pub elastic_constraints: Vec<SoftElasticConstraint>,
    pub strained: Vec<bool>,
    pub color_ranges: Vec<SoftColorRange>,
    pub groups: Vec<SoftGroupLayout>,
}
