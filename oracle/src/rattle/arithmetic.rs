//! The arithmetic: the functions of `arith_ffi`.

use super::laid::Four;
use crate::answers::{Call, Six, Six6};
use crate::support::na::SVector;
use crate::support::real::Real;
use crate::support::vector::{Matrix, Rotation, Vector};
use crate::words::bits;
use crate::{direct, words_of};

/// A sine and a cosine.
#[repr(C)]
#[derive(Clone, Copy, Debug)]
pub struct SinCos {
    pub s: Real,
    pub c: Real,
}

words_of!(SinCos { s: Real, c: Real });

/// Eigenvalues, and the eigenvectors as columns.
#[repr(C)]
#[derive(Clone, Copy, Debug)]
pub struct Eigen {
    pub values: Vector,
    pub vectors: Matrix,
}

words_of!(Eigen {
    values: Vector,
    vectors: Matrix
});

type Row6 = [Real; 6];
type Flat36 = [Real; 36];

// A reference is a pointer that is neither null nor shared where it is written: the functions are safe to call so.
unsafe extern "C" {
    pub safe fn rt_root(x: Real) -> Real;
    pub safe fn rt_sin_cos(w: Real) -> SinCos;
    pub safe fn rt_acos(d: Real) -> Real;
    pub safe fn rt_max(a: Real, b: Real) -> Real;
    pub safe fn rt_clamp(x: Real, lower: Real, upper: Real) -> Real;
    pub safe fn rt_signum(x: Real) -> Real;
    pub safe fn rt_abs(x: Real) -> Real;
    pub safe fn rt_inv(x: Real) -> Real;
    pub safe fn rt_rem_turn(x: Real) -> Real;

    pub safe fn rt_dot(a: Vector, b: Vector) -> Real;
    pub safe fn rt_cross(a: Vector, b: Vector) -> Vector;
    pub safe fn rt_length(a: Vector) -> Real;
    pub safe fn rt_length_squared(a: Vector) -> Real;
    pub safe fn rt_element_sum(a: Vector) -> Real;
    pub safe fn rt_add(a: Vector, b: Vector) -> Vector;
    pub safe fn rt_sub(a: Vector, b: Vector) -> Vector;
    pub safe fn rt_scale(a: Vector, k: Real) -> Vector;
    pub safe fn rt_divide(a: Vector, k: Real) -> Vector;
    pub safe fn rt_neg(a: Vector) -> Vector;

    pub safe fn rt_mul_vec(m: Matrix, v: Vector) -> Vector;
    pub safe fn rt_mul_mat(m: Matrix, n: Matrix) -> Matrix;
    pub safe fn rt_add_mat(m: Matrix, n: Matrix) -> Matrix;
    pub safe fn rt_sub_mat(m: Matrix, n: Matrix) -> Matrix;
    pub safe fn rt_scale_mat(m: Matrix, k: Real) -> Matrix;
    pub safe fn rt_transpose(m: Matrix) -> Matrix;
    pub safe fn rt_determinant(m: Matrix) -> Real;

    pub safe fn rt_product(p: Rotation, q: Rotation) -> Rotation;
    pub safe fn rt_normalise(q: Rotation) -> Rotation;
    pub safe fn rt_to_matrix(q: Rotation) -> Matrix;
    pub safe fn rt_from_axis_angle(axis: Vector, w: Real) -> Rotation;

    pub safe fn rt_add6(a: &Row6, b: &Row6, out: &mut Row6);
    pub safe fn rt_sub6(a: &Row6, b: &Row6, out: &mut Row6);
    pub safe fn rt_scale6(a: &Row6, k: Real, out: &mut Row6);
    pub safe fn rt_component_mul6(a: &Row6, b: &Row6, out: &mut Row6);
    pub safe fn rt_dot6(a: &Row6, b: &Row6) -> Real;
    pub safe fn rt_mat_vec(m: &Flat36, v: &Row6, out: &mut Row6);
    pub safe fn rt_mat_mul(a: &Flat36, b: &Flat36, out: &mut Flat36);
    pub safe fn rt_add36(a: &Flat36, b: &Flat36, out: &mut Flat36);
    pub safe fn rt_scale36(m: &Flat36, k: Real, out: &mut Flat36);
    pub safe fn rt_ger(factor: Real, w: &Row6, m: &Flat36, out: &mut Flat36);
    pub safe fn rt_from_diagonal(d: &Row6, out: &mut Flat36);
    pub safe fn rt_identity6(out: &mut Flat36);
    pub safe fn rt_try_inverse(m: &Flat36, out: &mut Flat36);

    pub safe fn rt_symmetric_eigen(m: Matrix) -> Eigen;
    pub safe fn rt_cofactor(f: Matrix) -> Matrix;
    pub safe fn rt_outer_product(a: Vector, b: Vector) -> Matrix;
    pub safe fn rt_extract_rotation(a: Matrix, warm: Rotation) -> Rotation;
    pub safe fn rt_cell_volume(x: Four) -> Real;
    pub safe fn rt_cell_volume_gradients(x: Four) -> Four;
    pub safe fn rt_cell_edge_matrix(x: Four) -> Matrix;
}

/// What a function writes to its last place, where NaN stood before.
fn written<const N: usize>(call: impl FnOnce(&mut [Real; N])) -> [Real; N] {
    let mut out = [Real::NAN; N];
    call(&mut out);
    out
}

/// Column by column, as they lie.
fn flat(m: &Six6) -> &Flat36 {
    m.0.as_flattened()
        .try_into()
        .expect("six columns of six are thirty-six")
}

/// How many of the 2^32 patterns have a root that differs from the oracle's.
pub fn differing_roots() -> usize {
    let differs = |&pattern: &u32| {
        let x = Real::from_bits(pattern);
        bits(rt_root(x)) != bits(direct::root(x))
    };
    (0..=u32::MAX).filter(differs).count()
}

/// The linked functions, as functions of words.
#[rustfmt::skip]
pub const RATTLE: &[(&str, Call)] = rattle! {
    root(x: Real) -> Real = rt_root(x);
    sin_cos(w: Real) -> SinCos = rt_sin_cos(w);
    acos(d: Real) -> Real = rt_acos(d);
    max(a: Real, b: Real) -> Real = rt_max(a, b);
    clamp(x: Real, lower: Real, upper: Real) -> Real = rt_clamp(x, lower, upper);
    signum(x: Real) -> Real = rt_signum(x);
    abs(x: Real) -> Real = rt_abs(x);
    inv(x: Real) -> Real = rt_inv(x);
    rem_turn(x: Real) -> Real = rt_rem_turn(x);

    dot(a: Vector, b: Vector) -> Real = rt_dot(a, b);
    cross(a: Vector, b: Vector) -> Vector = rt_cross(a, b);
    length(a: Vector) -> Real = rt_length(a);
    length_squared(a: Vector) -> Real = rt_length_squared(a);
    element_sum(a: Vector) -> Real = rt_element_sum(a);
    add(a: Vector, b: Vector) -> Vector = rt_add(a, b);
    sub(a: Vector, b: Vector) -> Vector = rt_sub(a, b);
    scale(a: Vector, k: Real) -> Vector = rt_scale(a, k);
    divide(a: Vector, k: Real) -> Vector = rt_divide(a, k);
    neg(a: Vector) -> Vector = rt_neg(a);

    mul_vec(m: Matrix, v: Vector) -> Vector = rt_mul_vec(m, v);
    mul_mat(m: Matrix, n: Matrix) -> Matrix = rt_mul_mat(m, n);
    add_mat(m: Matrix, n: Matrix) -> Matrix = rt_add_mat(m, n);
    sub_mat(m: Matrix, n: Matrix) -> Matrix = rt_sub_mat(m, n);
    scale_mat(m: Matrix, k: Real) -> Matrix = rt_scale_mat(m, k);
    transpose(m: Matrix) -> Matrix = rt_transpose(m);
    determinant(m: Matrix) -> Real = rt_determinant(m);

    product(p: Rotation, q: Rotation) -> Rotation = rt_product(p, q);
    normalise(q: Rotation) -> Rotation = rt_normalise(q);
    to_matrix(q: Rotation) -> Matrix = rt_to_matrix(q);
    from_axis_angle(axis: Vector, w: Real) -> Rotation = rt_from_axis_angle(axis, w);

    add6(a: Six, b: Six) -> Six = SVector(written(|out| rt_add6(&a.0, &b.0, out)));
    sub6(a: Six, b: Six) -> Six = SVector(written(|out| rt_sub6(&a.0, &b.0, out)));
    scale6(a: Six, k: Real) -> Six = SVector(written(|out| rt_scale6(&a.0, k, out)));
    component_mul6(a: Six, b: Six) -> Six = SVector(written(|out| rt_component_mul6(&a.0, &b.0, out)));
    dot6(a: Six, b: Six) -> Real = rt_dot6(&a.0, &b.0);
    mat_vec(m: Six6, v: Six) -> Six = SVector(written(|out| rt_mat_vec(flat(&m), &v.0, out)));
    mat_mul(a: Six6, b: Six6) -> Flat36 = written(|out| rt_mat_mul(flat(&a), flat(&b), out));
    add36(a: Six6, b: Six6) -> Flat36 = written(|out| rt_add36(flat(&a), flat(&b), out));
    scale36(m: Six6, k: Real) -> Flat36 = written(|out| rt_scale36(flat(&m), k, out));
    ger(factor: Real, w: Six, m: Six6) -> Flat36 = written(|out| rt_ger(factor, &w.0, flat(&m), out));
    from_diagonal(d: Six) -> Flat36 = written(|out| rt_from_diagonal(&d.0, out));
    identity6() -> Flat36 = written(|out| rt_identity6(out));
    try_inverse(m: Six6) -> Flat36 = written(|out| rt_try_inverse(flat(&m), out));

    symmetric_eigen(m: Matrix) -> Eigen = rt_symmetric_eigen(m);
    cofactor(f: Matrix) -> Matrix = rt_cofactor(f);
    outer_product(a: Vector, b: Vector) -> Matrix = rt_outer_product(a, b);
    extract_rotation(a: Matrix, warm: Rotation) -> Rotation = rt_extract_rotation(a, warm);
    cell_volume(x: Four) -> Real = rt_cell_volume(x);
    cell_volume_gradients(x: Four) -> Four = rt_cell_volume_gradients(x);
    cell_edge_matrix(x: Four) -> Matrix = rt_cell_edge_matrix(x);
};
