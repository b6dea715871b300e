//! Rows and points as plain words, in the order of document 01's records, and the calls of the listed row functions on them.

use crate::dynamics::solver::soft_constraints_set::{
    SoftColorRange, SoftConstraintsSet, SoftGroupLayout,
};
use crate::dynamics::solver::soft_element_constraint::{
    CorotationalConstraint, NeoHookeanConstraint, SoftElasticConstraint, SoftElasticModel,
    SoftScalarConstraint, SoftScalarConstraintKind, SoftScalarConstraintWriteback, StrainMatrix,
    StrainVector, reach,
};
use crate::support::bodies::{SolverBodies, SolverPose, SolverVel};
use crate::support::real::{Real, max};
use crate::support::vector::{Matrix, Rotation, Vector};
use crate::words_of;

/// The points that a vector carries; ids below `n` are in range.
pub const POINTS: usize = 5;

/// A point's position and velocity.
#[derive(Copy, Clone, Debug)]
pub struct Point {
    pub position: Vector,
    pub velocity: Vector,
}

words_of!(Point {
    position: Vector,
    velocity: Vector
});

/// The first `n` of these are the frame's points.
#[derive(Copy, Clone, Debug)]
pub struct Points {
    pub n: u32,
    pub points: [Point; POINTS],
}

words_of!(Points {
    n: u32,
    points: [Point; POINTS]
});

impl Points {
    /// The points in range, as the listed Rust has them.
    pub fn bodies(&self) -> SolverBodies {
        let present = &self.points[..self.n as usize];
        SolverBodies {
            vels: present
                .iter()
                .map(|point| SolverVel {
                    linear: point.velocity,
                })
                .collect(),
            poses: present
                .iter()
                .map(|point| SolverPose {
                    translation: point.position,
                })
                .collect(),
        }
    }

    /// The velocities after a row function; those out of range as they were.
    pub fn velocities(&self, bodies: &SolverBodies) -> [Vector; POINTS] {
        std::array::from_fn(|i| {
            bodies
                .vels
                .get(i)
                .map_or(self.points[i].velocity, |vel| vel.linear)
        })
    }
}

/// A scalar row: document 01's kind 3.
#[derive(Copy, Clone, Debug)]
pub struct ScalarRow {
    pub colour: u32,
    pub strained: bool,
    pub kind: u32,
    pub count: u32,
    pub ids: [u32; 4],
    pub pos: [Vector; 4],
    pub im: [Real; 4],
    pub grad: [Vector; 4],
    pub rest: Real,
    pub erp_inv_dt: Real,
    pub cfm_coeff: Real,
    pub inv_lhs: Real,
    pub cfm_gain: Real,
    pub rhs: Real,
    pub impulse: Real,
    pub peak_impulse: Real,
    pub impulse_bounds: [Real; 2],
}

words_of!(ScalarRow {
    colour: u32,
    strained: bool,
    kind: u32,
    count: u32,
    ids: [u32; 4],
    pos: [Vector; 4],
    im: [Real; 4],
    grad: [Vector; 4],
    rest: Real,
    erp_inv_dt: Real,
    cfm_coeff: Real,
    inv_lhs: Real,
    cfm_gain: Real,
    rhs: Real,
    impulse: Real,
    peak_impulse: Real,
    impulse_bounds: [Real; 2],
});

/// Which kind of elastic row, and what it holds beside the common fields.
pub(crate) trait Model: Copy {
    fn wrap(self, spare: u32) -> SoftElasticModel;
    /// The model and the spare code.
    fn unwrap(model: &SoftElasticModel) -> (Self, u32);
}

/// An elastic row: the common fields of document 01's kinds 4 and 5, then the model's own.
#[derive(Copy, Clone, Debug)]
pub struct ElasticRow<M> {
    pub colour: u32,
    pub strained: bool,
    pub inverted: bool,
    /// `volumetric` of a corotational row; 0 of a neo-Hookean one.
    pub spare: u32,
    pub ids: [u32; 4],
    pub pos: [Vector; 4],
    pub im: [Real; 4],
    pub coeffs: [Vector; 4],
    pub inv_rest_matrix: Matrix,
    pub rotation: Rotation,
    pub rot_mat: Matrix,
    pub inv_a: StrainMatrix,
    pub strain_cap: StrainVector,
    pub strain: StrainVector,
    pub strain_impulse: StrainVector,
    pub vol_impulse: Real,
    pub model: M,
}

/// What a corotational row holds beside the common fields.
#[derive(Copy, Clone, Debug)]
pub struct Corotational {
    pub erp_strain: StrainVector,
    pub cfm_strain: StrainVector,
    pub erp_vol: Real,
    pub cfm_coeff_vol: Real,
    pub vol_cap: Real,
    pub grad_vol: [Vector; 4],
    pub cfm_gain_vol: Real,
    pub rhs_vol: Real,
    pub b: StrainVector,
    pub z: StrainVector,
    pub inv_s: Real,
}

words_of!(Corotational {
    erp_strain: StrainVector,
    cfm_strain: StrainVector,
    erp_vol: Real,
    cfm_coeff_vol: Real,
    vol_cap: Real,
    grad_vol: [Vector; 4],
    cfm_gain_vol: Real,
    rhs_vol: Real,
    b: StrainVector,
    z: StrainVector,
    inv_s: Real,
});

/// What a neo-Hookean row holds beside the common fields.
#[derive(Copy, Clone, Debug)]
pub struct NeoHookean {
    pub dt: Real,
    pub mu: Real,
    pub lambda: Real,
    pub damping: StrainVector,
    pub stiffness_strain: StrainVector,
    pub m: StrainMatrix,
    pub dt_grad: StrainVector,
}

words_of!(NeoHookean {
    dt: Real,
    mu: Real,
    lambda: Real,
    damping: StrainVector,
    stiffness_strain: StrainVector,
    m: StrainMatrix,
    dt_grad: StrainVector,
});

pub type CorotationalRow = ElasticRow<Corotational>;
pub type NeoHookeanRow = ElasticRow<NeoHookean>;

macro_rules! words_of_elastic_row {
    ($model:ty) => {
        words_of!(ElasticRow<$model> {
            colour: u32,
            strained: bool,
            inverted: bool,
            spare: u32,
            ids: [u32; 4],
            pos: [Vector; 4],
            im: [Real; 4],
            coeffs: [Vector; 4],
            inv_rest_matrix: Matrix,
            rotation: Rotation,
            rot_mat: Matrix,
            inv_a: StrainMatrix,
            strain_cap: StrainVector,
            strain: StrainVector,
            strain_impulse: StrainVector,
            vol_impulse: Real,
            model: $model,
        });
    };
}

words_of_elastic_row!(Corotational);
words_of_elastic_row!(NeoHookean);

impl Model for Corotational {
    fn wrap(self, spare: u32) -> SoftElasticModel {
        SoftElasticModel::Corotational(CorotationalConstraint {
            erp_strain: self.erp_strain,
            cfm_strain: self.cfm_strain,
            erp_vol: self.erp_vol,
            cfm_coeff_vol: self.cfm_coeff_vol,
            volumetric: spare != 0,
            vol_cap: self.vol_cap,
            grad_vol: self.grad_vol,
            cfm_gain_vol: self.cfm_gain_vol,
            rhs_vol: self.rhs_vol,
            b: self.b,
            z: self.z,
            inv_s: self.inv_s,
        })
    }

    fn unwrap(model: &SoftElasticModel) -> (Self, u32) {
        let SoftElasticModel::Corotational(c) = model else {
            unreachable!("a row keeps its model")
        };
        let own = Self {
            erp_strain: c.erp_strain,
            cfm_strain: c.cfm_strain,
            erp_vol: c.erp_vol,
            cfm_coeff_vol: c.cfm_coeff_vol,
            vol_cap: c.vol_cap,
            grad_vol: c.grad_vol,
            cfm_gain_vol: c.cfm_gain_vol,
            rhs_vol: c.rhs_vol,
            b: c.b,
            z: c.z,
            inv_s: c.inv_s,
        };
        (own, u32::from(c.volumetric))
    }
}

impl Model for NeoHookean {
    fn wrap(self, _spare: u32) -> SoftElasticModel {
        SoftElasticModel::NeoHookean(NeoHookeanConstraint {
            dt: self.dt,
            mu: self.mu,
            lambda: self.lambda,
            damping: self.damping,
            stiffness_strain: self.stiffness_strain,
            m: self.m,
            dt_grad: self.dt_grad,
        })
    }

    fn unwrap(model: &SoftElasticModel) -> (Self, u32) {
        let SoftElasticModel::NeoHookean(nh) = model else {
            unreachable!("a row keeps its model")
        };
        let own = Self {
            dt: nh.dt,
            mu: nh.mu,
            lambda: nh.lambda,
            damping: nh.damping,
            stiffness_strain: nh.stiffness_strain,
            m: nh.m,
            dt_grad: nh.dt_grad,
        };
        (own, 0)
    }
}

/// A row that the listed Rust can take and give back.
pub(crate) trait Row: Copy {
    type Listed: Copy;

    fn to_listed(self) -> Self::Listed;
    /// The row with the fields of `listed`, and with colour and flag, which the listed Rust keeps elsewhere.
    fn of(colour: u32, strained: bool, listed: &Self::Listed) -> Self;
    /// The row with the fields of `listed`; colour and flag as they are.
    fn with(self, listed: &Self::Listed) -> Self;
    fn strained_mut(&mut self) -> &mut bool;

    /// What `solve_color_constraint` does to the row before an update, and before a warm start.
    fn begin(listed: &mut Self::Listed);
    fn scale(listed: &mut Self::Listed, coeff: Real);

    fn update(listed: &mut Self::Listed, bodies: &SolverBodies);
    fn warmstart(listed: &Self::Listed, bodies: &mut SolverBodies);
    fn solve(listed: &mut Self::Listed, bodies: &mut SolverBodies);
    fn is_strained(listed: &Self::Listed, min_strain: Real) -> bool;

    /// A set that holds this row alone, and the range that names it.
    fn set(self) -> (SoftConstraintsSet, SoftColorRange);
    fn only(set: &SoftConstraintsSet) -> Self::Listed;
}

impl Row for ScalarRow {
    type Listed = SoftScalarConstraint;

    fn to_listed(self) -> SoftScalarConstraint {
        SoftScalarConstraint {
            kind: match self.kind {
                0 => SoftScalarConstraintKind::Distance,
                1 => SoftScalarConstraintKind::Dihedral,
                2 => SoftScalarConstraintKind::CellVolume,
                other => panic!("{other} is no type of a scalar row"),
            },
            num_particles: self.count as u8,
            // The next three have no part in update or solve.
            writeback: SoftScalarConstraintWriteback::Edge,
            soft_body: 0,
            element: 0,
            solver_ids: self.ids,
            pos: self.pos,
            im: self.im,
            grad: self.grad,
            rest: self.rest,
            erp_inv_dt: self.erp_inv_dt,
            cfm_coeff: self.cfm_coeff,
            inv_lhs: self.inv_lhs,
            cfm_gain: self.cfm_gain,
            rhs: self.rhs,
            impulse: self.impulse,
            peak_impulse: self.peak_impulse,
            impulse_bounds: self.impulse_bounds,
        }
    }

    fn with(self, listed: &SoftScalarConstraint) -> Self {
        Self::of(self.colour, self.strained, listed)
    }

    fn of(colour: u32, strained: bool, c: &SoftScalarConstraint) -> Self {
        Self {
            colour,
            strained,
            kind: c.kind as u32,
            count: u32::from(c.num_particles),
            ids: c.solver_ids,
            pos: c.pos,
            im: c.im,
            grad: c.grad,
            rest: c.rest,
            erp_inv_dt: c.erp_inv_dt,
            cfm_coeff: c.cfm_coeff,
            inv_lhs: c.inv_lhs,
            cfm_gain: c.cfm_gain,
            rhs: c.rhs,
            impulse: c.impulse,
            peak_impulse: c.peak_impulse,
            impulse_bounds: c.impulse_bounds,
        }
    }

    fn strained_mut(&mut self) -> &mut bool {
        &mut self.strained
    }

    fn begin(listed: &mut SoftScalarConstraint) {
        listed.peak_impulse = max(listed.peak_impulse, listed.impulse);
    }

    fn scale(listed: &mut SoftScalarConstraint, coeff: Real) {
        listed.impulse *= coeff;
    }

    fn update(listed: &mut SoftScalarConstraint, bodies: &SolverBodies) {
        listed.update(bodies);
    }

    fn warmstart(listed: &SoftScalarConstraint, bodies: &mut SolverBodies) {
        listed.warmstart(bodies);
    }

    fn solve(listed: &mut SoftScalarConstraint, bodies: &mut SolverBodies) {
        listed.solve(bodies);
    }

    fn is_strained(listed: &SoftScalarConstraint, min_strain: Real) -> bool {
        listed.is_strained(min_strain)
    }

    fn set(self) -> (SoftConstraintsSet, SoftColorRange) {
        let set = SoftConstraintsSet {
            scalar_constraints: vec![self.to_listed()],
            strained: vec![self.strained],
            ..Default::default()
        };
        let range = SoftColorRange {
            scalar_constraints: 0..1,
            elastic_constraints: 0..0,
        };
        (set, range)
    }

    fn only(set: &SoftConstraintsSet) -> SoftScalarConstraint {
        set.scalar_constraints[0]
    }
}

impl<M: Model> Row for ElasticRow<M> {
    type Listed = SoftElasticConstraint;

    fn to_listed(self) -> SoftElasticConstraint {
        SoftElasticConstraint {
            // `soft_body`, `element` and `strain_per_impulse` have no part in update or solve.
            soft_body: 0,
            element: 0,
            solver_ids: self.ids,
            pos: self.pos,
            im: self.im,
            coeffs: self.coeffs,
            inv_rest_matrix: self.inv_rest_matrix,
            rotation: self.rotation,
            rot_mat: self.rot_mat,
            inv_a: self.inv_a,
            strain_cap: self.strain_cap,
            strain: self.strain,
            inverted: self.inverted,
            strain_impulse: self.strain_impulse,
            strain_per_impulse: StrainVector::zeros(),
            vol_impulse: self.vol_impulse,
            model: self.model.wrap(self.spare),
        }
    }

    fn with(self, listed: &SoftElasticConstraint) -> Self {
        Self::of(self.colour, self.strained, listed)
    }

    fn of(colour: u32, strained: bool, c: &SoftElasticConstraint) -> Self {
        let (model, spare) = M::unwrap(&c.model);
        Self {
            colour,
            strained,
            inverted: c.inverted,
            spare,
            ids: c.solver_ids,
            pos: c.pos,
            im: c.im,
            coeffs: c.coeffs,
            inv_rest_matrix: c.inv_rest_matrix,
            rotation: c.rotation,
            rot_mat: c.rot_mat,
            inv_a: c.inv_a,
            strain_cap: c.strain_cap,
            strain: c.strain,
            strain_impulse: c.strain_impulse,
            vol_impulse: c.vol_impulse,
            model,
        }
    }

    fn strained_mut(&mut self) -> &mut bool {
        &mut self.strained
    }

    fn begin(_listed: &mut SoftElasticConstraint) {}

    fn scale(listed: &mut SoftElasticConstraint, coeff: Real) {
        listed.strain_impulse *= coeff;
        listed.vol_impulse *= coeff;
    }

    fn update(listed: &mut SoftElasticConstraint, bodies: &SolverBodies) {
        listed.update(bodies);
    }

    fn warmstart(listed: &SoftElasticConstraint, bodies: &mut SolverBodies) {
        listed.warmstart(bodies);
    }

    fn solve(listed: &mut SoftElasticConstraint, bodies: &mut SolverBodies) {
        listed.solve(bodies);
    }

    fn is_strained(listed: &SoftElasticConstraint, min_strain: Real) -> bool {
        listed.is_strained(min_strain)
    }

    fn set(self) -> (SoftConstraintsSet, SoftColorRange) {
        let set = SoftConstraintsSet {
            elastic_constraints: vec![self.to_listed()],
            strained: vec![self.strained],
            ..Default::default()
        };
        let range = SoftColorRange {
            scalar_constraints: 0..0,
            elastic_constraints: 0..1,
        };
        (set, range)
    }

    fn only(set: &SoftConstraintsSet) -> SoftElasticConstraint {
        set.elastic_constraints[0]
    }
}

/// What a run is asked for: document 01's head without its counts.
#[derive(Copy, Clone, Debug)]
pub struct Head {
    /// Bit 0: update; bit 1: warm start.
    pub mode: u32,
    pub warm_coefficient: Real,
    pub least_strain: Real,
}

words_of!(Head {
    mode: u32,
    warm_coefficient: Real,
    least_strain: Real
});

/// The row after `update`.
pub(crate) fn update<R: Row>(points: &Points, row: R) -> R {
    let mut listed = row.to_listed();
    R::update(&mut listed, &points.bodies());
    row.with(&listed)
}

/// The first phase of `solve_color_constraint`: the row with its peak, updated, and with its flag.
pub(crate) fn update_phase<R: Row>(points: &Points, row: R, min_strain: Real) -> R {
    let mut listed = row.to_listed();
    R::begin(&mut listed);
    R::update(&mut listed, &points.bodies());
    let mut row = row.with(&listed);
    *row.strained_mut() = R::is_strained(&listed, min_strain);
    row
}

/// The second: the row with its impulses scaled, and the velocities after `warmstart`.
pub(crate) fn warm_phase<R: Row>(points: &Points, row: R, coeff: Real) -> (R, [Vector; POINTS]) {
    let mut listed = row.to_listed();
    let mut bodies = points.bodies();
    R::scale(&mut listed, coeff);
    R::warmstart(&listed, &mut bodies);
    (row.with(&listed), points.velocities(&bodies))
}

/// The last phase, and that of a resweep: the row and the velocities after `solve`.
pub(crate) fn solve<R: Row>(points: &Points, row: R) -> (R, [Vector; POINTS]) {
    let mut listed = row.to_listed();
    let mut bodies = points.bodies();
    R::solve(&mut listed, &mut bodies);
    (row.with(&listed), points.velocities(&bodies))
}

/// The row and the velocities after `solve_color_constraint`.
pub(crate) fn main_step<R: Row>(head: &Head, points: &Points, row: R) -> (R, [Vector; POINTS]) {
    let (mut set, range) = row.set();
    let mut bodies = points.bodies();
    let update = head.mode & 1 != 0;
    let warmstart = (head.mode & 2 != 0).then_some(head.warm_coefficient);
    set.solve_color_constraint(&range, 0, &mut bodies, update, warmstart, head.least_strain);
    let mut row = row.with(&R::only(&set));
    *row.strained_mut() = set.strained[0];
    (row, points.velocities(&bodies))
}

/// The row and the velocities after `resweep_strained_constraints`.
pub(crate) fn resweep_step<R: Row>(points: &Points, row: R) -> (R, [Vector; POINTS]) {
    let (mut set, range) = row.set();
    set.groups = vec![SoftGroupLayout {
        serial: range,
        ..Default::default()
    }];
    let mut bodies = points.bodies();
    set.resweep_strained_constraints(0, &mut bodies);
    (row.with(&R::only(&set)), points.velocities(&bodies))
}

/// The row with its gradients, and the constraint's value.
pub(crate) fn compute_gradients(row: ScalarRow) -> (ScalarRow, Real) {
    let mut listed = row.to_listed();
    let value = reach::compute_gradients(&mut listed);
    (row.with(&listed), value)
}
