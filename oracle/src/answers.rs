//! Every function that the oracle answers for, in one table: its name, its words, its answer, how inputs for it are made and which
//! branches of the source an input takes. Vectors, replay and comparison go by this table alone.

use crate::branches::{self, Branches};
use crate::dynamics::SoftBody;
use crate::dynamics::soft_body::soft_body_shape_matching;
use crate::dynamics::solver::soft_element_constraint as listed;
use crate::inputs;
use crate::random::Random;
use crate::rows::{self, CorotationalRow, Head, NeoHookeanRow, POINTS, Points, ScalarRow};
use crate::support::na::{SMatrix, SVector};
use crate::support::real::{self, Real};
use crate::support::vector::{Matrix, Rotation, Vector};
use crate::utils;
use crate::words::Words;

/// A six-vector.
pub type Six = SVector<Real, 6>;
/// A 6×6 matrix.
pub type Six6 = SMatrix<Real, 6, 6>;
type Velocities = [Vector; POINTS];

/// A function of words.
pub type Call = fn(&[u32]) -> Vec<u32>;

/// One function of the table.
pub struct Function {
    pub name: &'static str,
    /// Words that it takes and gives.
    pub inputs: usize,
    pub outputs: usize,
    /// The answer to `inputs` words; any NaN in it is 0x7FC00000.
    pub answer: Call,
    /// Inputs: the number counts from 0, and the first ones are those that must never be missing.
    pub make: fn(&mut Random, usize) -> Vec<u32>,
    pub branches: Branches,
}

/// A function of values as a function of words.
#[macro_export]
macro_rules! called {
    (($($arg:ident: $type:ty),*) -> $out:ty = $body:expr) => {{
        fn call(words: &[u32]) -> Vec<u32> {
            #[allow(unused_mut)]
            let mut words = words;
            $(let $arg = <$type as $crate::words::Words>::read(&mut words);)*
            assert!(words.is_empty(), "too many words");
            let answer: $out = $body;
            $crate::words::words_of(&answer)
        }
        call
    }};
}

macro_rules! function {
    ($name:ident($($arg:ident: $type:ty),*) -> $out:ty = $body:expr, $make:expr, $branches:expr) => {
        Function {
            name: stringify!($name),
            inputs: 0 $(+ <$type as Words>::COUNT)*,
            outputs: <$out as Words>::COUNT,
            answer: called!(($($arg: $type),*) -> $out = $body),
            make: $make,
            branches: $branches,
        }
    };
}

/// The functions of modules 1 to 3 of document 01, then those of modules 4 and 5.
pub const FUNCTIONS: &[Function] = &[
    // One or a few f32.
    function!(root(x: Real) -> Real = real::root(x), inputs::root, branches::ROOT),
    function!(sin_cos(w: Real) -> (Real, Real) = real::sin_cos(w), inputs::angle, branches::SIN_COS),
    function!(acos(d: Real) -> Real = real::acos(d), inputs::cosine, branches::ACOS),
    function!(max(a: Real, b: Real) -> Real = real::max(a, b), inputs::two_reals, branches::MAX),
    function!(
        clamp(x: Real, lower: Real, upper: Real) -> Real =
            x.clamp(lower, upper),
        inputs::clamp,
        branches::CLAMP
    ),
    function!(signum(x: Real) -> Real = x.signum(), inputs::reals::<1>, branches::SIGN),
    function!(abs(x: Real) -> Real = x.abs(), inputs::reals::<1>, branches::SIGN),
    function!(inv(x: Real) -> Real = utils::inv(x), inputs::inv, branches::INV),
    function!(rem_turn(x: Real) -> Real = x % real::TURN, inputs::rem, branches::REM),
    // Vectors of three.
    function!(dot(a: Vector, b: Vector) -> Real = a.dot(b), inputs::reals::<6>, branches::NONE),
    function!(cross(a: Vector, b: Vector) -> Vector = a.cross(b), inputs::reals::<6>, branches::NONE),
    function!(length(a: Vector) -> Real = a.length(), inputs::reals::<3>, branches::NONE),
    function!(length_squared(a: Vector) -> Real = a.length_squared(), inputs::reals::<3>, branches::NONE),
    function!(element_sum(a: Vector) -> Real = a.element_sum(), inputs::reals::<3>, branches::NONE),
    function!(add(a: Vector, b: Vector) -> Vector = a + b, inputs::reals::<6>, branches::NONE),
    function!(sub(a: Vector, b: Vector) -> Vector = a - b, inputs::reals::<6>, branches::NONE),
    function!(scale(a: Vector, k: Real) -> Vector = a * k, inputs::reals::<4>, branches::NONE),
    function!(divide(a: Vector, k: Real) -> Vector = a / k, inputs::reals::<4>, branches::NONE),
    function!(neg(a: Vector) -> Vector = -a, inputs::reals::<3>, branches::NONE),
    // 3×3 matrices by columns.
    function!(mul_vec(m: Matrix, v: Vector) -> Vector = m * v, inputs::reals::<12>, branches::NONE),
    function!(mul_mat(m: Matrix, n: Matrix) -> Matrix = m * n, inputs::reals::<18>, branches::NONE),
    function!(add_mat(m: Matrix, n: Matrix) -> Matrix = m + n, inputs::reals::<18>, branches::NONE),
    function!(sub_mat(m: Matrix, n: Matrix) -> Matrix = m - n, inputs::reals::<18>, branches::NONE),
    function!(scale_mat(m: Matrix, k: Real) -> Matrix = m * k, inputs::reals::<10>, branches::NONE),
    function!(transpose(m: Matrix) -> Matrix = m.transpose(), inputs::reals::<9>, branches::NONE),
    function!(determinant(m: Matrix) -> Real = m.determinant(), inputs::reals::<9>, branches::NONE),
    // Quaternions.
    function!(product(p: Rotation, q: Rotation) -> Rotation = p * q, inputs::reals::<8>, branches::NONE),
    function!(normalise(q: Rotation) -> Rotation = q.normalize(), inputs::reals::<4>, branches::NONE),
    function!(to_matrix(q: Rotation) -> Matrix = Matrix::from_quat(q), inputs::reals::<4>, branches::NONE),
    function!(
        from_axis_angle(axis: Vector, w: Real) -> Rotation =
            Rotation::from_axis_angle(axis, w),
        inputs::axis_angle,
        branches::AXIS_ANGLE
    ),
    // Six rows.
    function!(add6(a: Six, b: Six) -> Six = a + b, inputs::reals::<12>, branches::NONE),
    function!(sub6(a: Six, b: Six) -> Six = a - b, inputs::reals::<12>, branches::NONE),
    function!(scale6(a: Six, k: Real) -> Six = a * k, inputs::reals::<7>, branches::NONE),
    function!(
        component_mul6(a: Six, b: Six) -> Six =
            a.component_mul(&b),
        inputs::reals::<12>,
        branches::NONE
    ),
    function!(dot6(a: Six, b: Six) -> Real = a.dot(&b), inputs::reals::<12>, branches::NONE),
    function!(mat_vec(m: Six6, v: Six) -> Six = m * v, inputs::reals::<42>, branches::NONE),
    function!(mat_mul(a: Six6, b: Six6) -> Six6 = a * b, inputs::reals::<72>, branches::NONE),
    function!(add36(a: Six6, b: Six6) -> Six6 = a + b, inputs::reals::<72>, branches::NONE),
    function!(scale36(m: Six6, k: Real) -> Six6 = m * k, inputs::reals::<37>, branches::NONE),
    function!(ger(factor: Real, w: Six, m: Six6) -> Six6 = {
        let mut m = m;
        m.ger(factor, &w, &w, 1.0);
        m
    }, inputs::reals::<43>, branches::NONE),
    function!(from_diagonal(d: Six) -> Six6 = Six6::from_diagonal(&d), inputs::reals::<6>, branches::NONE),
    function!(identity6() -> Six6 = Six6::identity(), inputs::reals::<0>, branches::NONE),
    function!(
        try_inverse(m: Six6) -> Six6 =
            m.try_inverse().unwrap_or(Six6::zeros()),
        inputs::six_rows,
        branches::TRY_INVERSE
    ),
    // soft_element_linalg.rs, soft_body_shape_matching.rs, soft_body_geometry.rs.
    function!(
        symmetric_eigen(m: Matrix) -> (Vector, Matrix) =
            listed::symmetric_eigen(&m),
        inputs::symmetric,
        branches::SYMMETRIC_EIGEN
    ),
    function!(cofactor(m: Matrix) -> Matrix = listed::cofactor(&m), inputs::reals::<9>, branches::NONE),
    function!(
        outer_product(a: Vector, b: Vector) -> Matrix =
            listed::outer_product(a, b),
        inputs::reals::<6>,
        branches::NONE
    ),
    function!(
        extract_rotation(a: Matrix, warm: Rotation) -> Rotation =
            soft_body_shape_matching::extract_rotation(a, warm),
        inputs::extraction,
        branches::EXTRACT_ROTATION
    ),
    function!(
        cell_volume(x: [Vector; 4]) -> Real =
            SoftBody::cell_volume(x),
        inputs::reals::<12>,
        branches::NONE
    ),
    function!(
        cell_volume_gradients(x: [Vector; 4]) -> [Vector; 4] =
            SoftBody::cell_volume_gradients(x),
        inputs::reals::<12>,
        branches::NONE
    ),
    function!(
        cell_edge_matrix(x: [Vector; 4]) -> Matrix =
            SoftBody::cell_edge_matrix(x),
        inputs::reals::<12>,
        branches::NONE
    ),
    // soft_scalar_constraint.rs.
    function!(dihedral_gradients(pos: [Vector; 4], rest: Real) -> ([Vector; 4], Real) = {
        let mut grad = [Vector::ZERO; 4];
        let error = listed::dihedral_gradients(&pos, rest, &mut grad);
        (grad, error)
    }, inputs::dihedral, branches::DIHEDRAL),
    function!(
        scalar_compute_gradients(row: ScalarRow) -> (ScalarRow, Real) =
            rows::compute_gradients(row),
        inputs::scalar_row,
        branches::SCALAR_GRADIENTS
    ),
    function!(
        scalar_update(points: Points, row: ScalarRow, min_strain: Real) -> ScalarRow =
            rows::update_phase(&points, row, min_strain),
        inputs::scalar_points_row_strain,
        branches::SCALAR_UPDATE
    ),
    function!(
        scalar_warmstart(points: Points, row: ScalarRow, coeff: Real) -> (ScalarRow, Velocities) =
            rows::warm_phase(&points, row, coeff),
        inputs::scalar_points_row_coeff,
        branches::SCALAR_WARMSTART
    ),
    function!(
        scalar_solve(points: Points, row: ScalarRow) -> (ScalarRow, Velocities) =
            rows::solve(&points, row),
        inputs::scalar_points_row,
        branches::SCALAR_SOLVE
    ),
    function!(
        scalar_main_step(head: Head, points: Points, row: ScalarRow) -> (ScalarRow, Velocities) =
            rows::main_step(&head, &points, row),
        inputs::scalar_head_points_row,
        branches::SCALAR_MAIN_STEP
    ),
    function!(
        scalar_resweep_step(points: Points, row: ScalarRow) -> (ScalarRow, Velocities) =
            rows::resweep_step(&points, row),
        inputs::scalar_points_row,
        branches::SCALAR_RESWEEP_STEP
    ),
    // soft_neo_hookean.rs.
    function!(
        neo_hookean_gradient(mu: Real, lambda: Real, strain: Six) -> (Matrix, Real, Six) =
            listed::NeoHookeanConstraint::gradient(mu, lambda, &strain),
        inputs::gradient,
        branches::NONE
    ),
    function!(
        neo_hookean_hessian(mu: Real, lambda: Real, s: Matrix, kappa: Real) -> Six6 =
            listed::NeoHookeanConstraint::hessian(mu, lambda, &s, kappa),
        inputs::hessian,
        branches::HESSIAN
    ),
    function!(
        strain_block_from_g(g: Matrix) -> Six6 =
            listed::reach::strain_block_from_g(&g),
        inputs::reals::<9>,
        branches::NONE
    ),
    // soft_elastic_constraint.rs.
    function!(
        strain_rows_of(m: Matrix) -> Six =
            listed::strain_rows_of(&m),
        inputs::reals::<9>,
        branches::NONE
    ),
    function!(
        strain_rows_dual(m: Matrix) -> Six =
            listed::strain_rows_dual(&m),
        inputs::reals::<9>,
        branches::NONE
    ),
    function!(
        strain_matrix(strain: Six) -> Matrix =
            listed::strain_matrix(&strain),
        inputs::reals::<6>,
        branches::NONE
    ),
    function!(
        outer_sum(a: [Vector; 4], b: [Vector; 4]) -> Matrix =
            listed::outer_sum(&a, &b),
        inputs::reals::<24>,
        branches::NONE
    ),
    function!(
        corotational_update(points: Points, row: CorotationalRow, min_strain: Real) -> CorotationalRow =
            rows::update_phase(&points, row, min_strain),
        inputs::corotational_points_row_strain,
        branches::COROTATIONAL_UPDATE
    ),
    function!(
        corotational_warmstart(points: Points, row: CorotationalRow, coeff: Real) -> (CorotationalRow, Velocities) =
            rows::warm_phase(&points, row, coeff),
        inputs::corotational_points_row_coeff,
        branches::COROTATIONAL_WARMSTART
    ),
    function!(
        corotational_solve(points: Points, row: CorotationalRow) -> (CorotationalRow, Velocities) =
            rows::solve(&points, row),
        inputs::corotational_points_row,
        branches::COROTATIONAL_SOLVE
    ),
    function!(
        corotational_main_step(head: Head, points: Points, row: CorotationalRow) -> (CorotationalRow, Velocities) =
            rows::main_step(&head, &points, row),
        inputs::corotational_head_points_row,
        branches::COROTATIONAL_MAIN_STEP
    ),
    function!(
        corotational_resweep_step(points: Points, row: CorotationalRow) -> (CorotationalRow, Velocities) =
            rows::resweep_step(&points, row),
        inputs::corotational_points_row,
        branches::COROTATIONAL_RESWEEP_STEP
    ),
    function!(
        neo_hookean_update(points: Points, row: NeoHookeanRow, min_strain: Real) -> NeoHookeanRow =
            rows::update_phase(&points, row, min_strain),
        inputs::neo_hookean_points_row_strain,
        branches::NEO_HOOKEAN_UPDATE
    ),
    function!(
        neo_hookean_warmstart(points: Points, row: NeoHookeanRow, coeff: Real) -> (NeoHookeanRow, Velocities) =
            rows::warm_phase(&points, row, coeff),
        inputs::neo_hookean_points_row_coeff,
        branches::NEO_HOOKEAN_WARMSTART
    ),
    function!(
        neo_hookean_solve(points: Points, row: NeoHookeanRow) -> (NeoHookeanRow, Velocities) =
            rows::solve(&points, row),
        inputs::neo_hookean_points_row,
        branches::NEO_HOOKEAN_SOLVE
    ),
    function!(
        neo_hookean_main_step(head: Head, points: Points, row: NeoHookeanRow) -> (NeoHookeanRow, Velocities) =
            rows::main_step(&head, &points, row),
        inputs::neo_hookean_head_points_row,
        branches::NEO_HOOKEAN_MAIN_STEP
    ),
    function!(
        neo_hookean_resweep_step(points: Points, row: NeoHookeanRow) -> (NeoHookeanRow, Velocities) =
            rows::resweep_step(&points, row),
        inputs::neo_hookean_points_row,
        branches::NEO_HOOKEAN_RESWEEP_STEP
    ),
];

/// The function of that name.
pub fn function(name: &str) -> &'static Function {
    FUNCTIONS
        .iter()
        .find(|function| function.name == name)
        .unwrap_or_else(|| panic!("no function is named {name}"))
}
