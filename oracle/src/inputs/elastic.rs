//! Elastic rows with their points, and the neo-Hookean energy's inputs. As for scalar rows, what `check` accepts is kept.

use super::arithmetic::{near_rotation, unit_rotation};
use super::numbers::{
    SPECIALS, again, finite_special, mixed, next, plain, previous, special, words,
};
use super::scalar::{
    coefficient, finite, four_places, head, ids, masses, points, put, unit_vector,
};
use crate::dynamics::solver::soft_element_constraint::{
    NeoHookeanConstraint, SoftElasticConstraint, StrainMatrix, StrainVector, cofactor,
};
use crate::random::Random;
use crate::rows::{
    self, Corotational, CorotationalRow, ElasticRow, NeoHookean, NeoHookeanRow, POINTS, Point,
    Points, Row,
};
use crate::support::na::{SMatrix, SVector};
use crate::support::real::Real;
use crate::support::vector::{Matrix, Rotation, Vector};
use crate::words::{Words, bits, value_of, words_of};

/// How many inputs are fixed: see `first_cell`.
const FIRST: usize = 18;

pub(super) fn six(mut f: impl FnMut(usize) -> f32) -> StrainVector {
    SVector(std::array::from_fn(&mut f))
}

/// The inverse of a 3×3 matrix, near enough to make a rest shape.
pub(crate) fn inverse(m: Matrix) -> Matrix {
    cofactor(&m).transpose() * (1.0 / m.determinant())
}

/// The cell of the identity: its edges are the axes.
pub(super) fn corner() -> [Vector; 4] {
    [Vector::ZERO, Vector::X, Vector::Y, Vector::Z]
}

/// A flat cell from which, at the identity, the first step's `omega` is (w, 0, 0) exactly.
fn turning_by(w: f32) -> [Vector; 4] {
    [
        Vector::ZERO,
        Vector::X,
        Vector::new(0.0, 0.0, w),
        Vector::ZERO,
    ]
}

/// A cell whose stretch has an off-diagonal square that is exactly 1.0e-8 of the diagonal's: found by search.
fn tied(random: &mut Random) -> [Vector; 4] {
    for _ in 0..256 {
        let d = 1.0 + 0.5 * random.unit();
        let limit: f32 = 1.0e-8 * (d * d + 1.0 + 1.0);
        let near = limit.sqrt();
        for off in [near, next(near), previous(near)] {
            if off * off == limit {
                return [
                    Vector::ZERO,
                    Vector::new(d, off, 0.0),
                    Vector::new(off, 1.0, 0.0),
                    Vector::Z,
                ];
            }
        }
    }
    corner()
}

/// Cells at the limits of the branches: places, inverse rest matrix, start of the rotation, cap.
fn first_cell(number: usize) -> Option<([Vector; 4], Matrix, Rotation, f32)> {
    let (rest, start) = (Matrix::IDENTITY, Rotation::IDENTITY);
    let scaled = |k: f32| corner().map(|place| place * k);
    Some(match number {
        // At rest, exactly.
        0 => (corner(), rest, start, 0.5),
        // All points equal: the cell is flat, not inverted.
        1 => ([Vector::X; 4], rest, start, 0.5),
        // Inside out, with a cap below 1 that stays.
        2 => {
            let mut x = corner();
            x[3] = -x[3];
            (x, rest, start, 0.25)
        }
        3 => {
            let mut x = corner();
            x[3] = Vector::ZERO;
            (x, rest, start, 0.5)
        }
        // Stretched to three times: the strain 2 is cut to the cap 1, and to 1.5.
        4 => (scaled(3.0), rest, start, 0.5),
        5 => (scaled(3.0), rest, start, 1.5),
        6 => (scaled(1.02), rest, start, 0.0),
        7 => (scaled(-0.5), rest, start, -0.0),
        8 => (scaled(1.0e-20), rest, start, 1.0),
        9 => (scaled(1.0e20), rest, start, f32::MAX),
        10 => (scaled(1.0e38), rest * 100.0, start, 1.0),
        11 => (
            [Vector::ZERO, Vector::Y, Vector::Z, Vector::X],
            rest,
            Rotation::from_xyzw(0.6, 0.0, 0.0, 0.8),
            0.0,
        ),
        // The first step of the rotation is exactly 0.1, and exactly 2^-19.
        12 => (turning_by(0.1), rest, start, 1.0),
        13 => (turning_by(16.0 * f32::EPSILON), rest, start, 1.0),
        // At rest again: see `stiffness`, and `without_inverse`.
        14..FIRST => (corner(), rest, start, 0.5),
        _ => return None,
    })
}

/// A deformed cell: places, inverse rest matrix and a start for the rotation.
fn cell(random: &mut Random) -> ([Vector; 4], Matrix, Rotation) {
    if random.one_in(50) {
        return (tied(random), Matrix::IDENTITY, Rotation::IDENTITY);
    }
    let turn = unit_rotation(random);
    let rest = loop {
        let tilt = 0.3;
        let edges = Matrix::from_cols(
            Vector::X + unit_vector(random) * tilt,
            Vector::Y + unit_vector(random) * tilt,
            Vector::Z + unit_vector(random) * tilt,
        );
        if edges.determinant() > 0.1 {
            break edges * random.pick(&[1.0, 1.0, 1.0, 0.01, 100.0]);
        }
    };
    let rest = if random.one_in(6) {
        Matrix::IDENTITY
    } else {
        rest
    };
    let start = match random.below(4) {
        0 => unit_rotation(random),
        1 => turn,
        _ => {
            let far = random.pick(&[0.001, 0.01, 0.1]);
            near_rotation(random, turn, far)
        }
    };
    if random.one_in(5) {
        return (four_places(random), inverse(rest), start);
    }
    let mild = random.pick(&[0.001, 0.01, 0.05, 0.3, 2.0]);
    let mut stretch = Matrix::from_cols(
        Vector::X + unit_vector(random) * mild,
        Vector::Y + unit_vector(random) * mild,
        Vector::Z + unit_vector(random) * mild,
    );
    match random.below(8) {
        0 => stretch.x_axis = -stretch.x_axis,
        1 => stretch.y_axis = stretch.x_axis,
        _ => {}
    }
    let edges = Matrix::from_quat(turn) * stretch * rest;
    let from = unit_vector(random) * random.pick(&[0.0, 1.0, 50.0]);
    let places = [
        from,
        from + edges.x_axis,
        from + edges.y_axis,
        from + edges.z_axis,
    ];
    (places, inverse(rest), start)
}

/// Caps that `check` accepts: finite, not below 0; minus zero passes.
fn cap(random: &mut Random) -> f32 {
    match random.below(8) {
        0 => 0.0,
        1 => -0.0,
        2 => 1.0,
        3 => f32::MAX,
        4 => 5.0 * random.unit().abs(),
        5 => finite(random).abs(),
        _ => random.unit().abs(),
    }
}

/// A 6×6 matrix: the inverse of the row's own strain block, or numbers by chance.
fn block(random: &mut Random, coeffs: &[Vector; 4], im: &[Real; 4]) -> StrainMatrix {
    match random.below(6) {
        0 => SMatrix(std::array::from_fn(|_| {
            std::array::from_fn(|_| random.unit())
        })),
        1 => StrainMatrix::zeros(),
        2 => value_of(&words(&(0..36).map(|_| finite(random)).collect::<Vec<_>>())),
        _ => {
            let soft = StrainMatrix::from_diagonal(&six(|_| 0.1 + random.unit().abs()));
            let block = SoftElasticConstraint::strain_block(coeffs, im) + soft;
            block.try_inverse().unwrap_or(StrainMatrix::zeros())
        }
    }
}

/// The common fields of an elastic row and its points.
fn elastic<M>(random: &mut Random, number: usize, model: M, spare: u32) -> (Points, ElasticRow<M>) {
    let mut points = points(random);
    let mut ids = ids(random, points.n);
    let (places, inv_rest_matrix, rotation, caps) = match first_cell(number) {
        Some((places, rest, start, cap)) => {
            ids = [0, 1, 2, 3];
            points = Points {
                n: 4,
                points: [Point {
                    position: Vector::ZERO,
                    velocity: Vector::new(0.25, -0.5, 0.125),
                }; POINTS],
            };
            points.points[1].velocity = Vector::new(1.0, 0.5, -0.25);
            (places, rest, start, SVector([cap; 6]))
        }
        None => {
            let (places, rest, start) = cell(random);
            let one = cap(random);
            let caps = if random.one_in(2) {
                SVector([one; 6])
            } else {
                six(|_| cap(random))
            };
            (places, rest, start, caps)
        }
    };
    put(&mut points, ids, places);
    let im = masses(random);
    let coeffs = if random.one_in(8) {
        std::array::from_fn(|_| unit_vector(random))
    } else {
        SoftElasticConstraint::coefficients(&inv_rest_matrix)
    };
    let rot_mat = if random.one_in(4) {
        value_of(&words(&(0..9).map(|_| finite(random)).collect::<Vec<_>>()))
    } else {
        Matrix::from_quat(rotation)
    };
    let row = ElasticRow {
        colour: random.pick(&[0, 1, 7, 65535]),
        strained: random.one_in(2),
        inverted: random.one_in(2),
        spare,
        ids,
        pos: four_places(random),
        im,
        coeffs,
        inv_rest_matrix,
        rotation,
        rot_mat,
        inv_a: block(random, &coeffs, &im),
        strain_cap: caps,
        strain: six(|_| random.unit()),
        strain_impulse: six(|_| random.unit()),
        vol_impulse: random.unit(),
        model,
    };
    (points, row)
}

/// Six numbers of one sort: spring coefficients and the like.
fn coefficients(random: &mut Random) -> StrainVector {
    match random.below(5) {
        0 => StrainVector::zeros(),
        1 => six(|_| finite(random)),
        2 => six(|_| 10.0 * random.unit().abs()),
        _ => six(|_| random.unit().abs()),
    }
}

/// A corotational row and its points.
fn corotational(random: &mut Random, number: usize) -> (Points, CorotationalRow) {
    let model = Corotational {
        erp_strain: coefficients(random),
        cfm_strain: coefficients(random),
        erp_vol: finite(random),
        cfm_coeff_vol: random.unit().abs(),
        vol_cap: match first_cell(number) {
            Some((_, _, _, cap)) => cap,
            None => cap(random),
        },
        grad_vol: std::array::from_fn(|_| unit_vector(random)),
        cfm_gain_vol: random.unit(),
        rhs_vol: random.unit(),
        b: coefficients(random),
        z: coefficients(random),
        inv_s: random.unit(),
    };
    let volumetric = u32::from(number < FIRST || !random.one_in(3));
    elastic(random, number, model, volumetric)
}

/// The Lamé numbers and the time step: mostly of a material, else anything finite.
fn material(random: &mut Random) -> (f32, f32, f32) {
    match random.below(6) {
        0 => (finite(random), finite(random), finite(random)),
        1 => (1.0, 1.0, 1.0),
        2 => (0.0, random.unit().abs(), 0.01),
        _ => (
            random.unit().abs() * random.pick(&[1.0, 100.0, 1.0e4]),
            random.unit().abs() * random.pick(&[1.0, 100.0, 1.0e4]),
            random.pick(&[0.016666668, 0.004, 0.001]),
        ),
    }
}

/// A neo-Hookean row and its points.
fn neo_hookean(random: &mut Random, number: usize) -> (Points, NeoHookeanRow) {
    let (mu, lambda, dt) = if number < FIRST {
        (1.0, 1.0, 0.25)
    } else {
        material(random)
    };
    let model = NeoHookean {
        dt,
        mu,
        lambda,
        damping: coefficients(random),
        stiffness_strain: SVector([f32::MAX; 6]),
        m: value_of(&words(&(0..36).map(|_| random.unit()).collect::<Vec<_>>())),
        dt_grad: coefficients(random),
    };
    let (points, mut row) = elastic(random, number, model, 0);
    row.model.stiffness_strain = stiffness(random, number, rows::update(&points, row).strain);
    if number == 16 || number == 17 || random.one_in(100) {
        without_inverse(random, number, &mut row);
    }
    (points, row)
}

/// Makes `M A + I` singular: with these masses the strain block of the corner cell is diag(1, 1, 1, ½, ½, ½), and M is the damping.
fn without_inverse(random: &mut Random, number: usize, row: &mut NeoHookeanRow) {
    row.inv_rest_matrix = Matrix::IDENTITY;
    row.coeffs = SoftElasticConstraint::coefficients(&Matrix::IDENTITY);
    row.im = [0.0, 1.0, 1.0, 1.0];
    row.model.dt = 1.0;
    row.model.mu = 0.0;
    row.model.lambda = 0.0;
    row.model.stiffness_strain = SVector([f32::MAX; 6]);
    let from = match number {
        16 => 0,
        17 => 5,
        _ => random.below(6),
    };
    row.model.damping = six(|i| match i {
        _ if i < from => 1.0,
        0..3 => -1.0,
        _ => -2.0,
    });
}

/// The strain at which the block was made: never, the same, exactly 0.02 away in one part, the next f32 further, or elsewhere.
fn stiffness(random: &mut Random, number: usize, strain: StrainVector) -> StrainVector {
    const LIMIT: f32 = 0.02;
    let mut at = strain;
    match if number < FIRST {
        number % 4
    } else {
        random.below(8)
    } {
        0 => return SVector([f32::MAX; 6]),
        1 => {}
        2 => {
            let part = random.below(6);
            at.0[part] = away(random, strain.0[part], LIMIT);
        }
        3 => {
            let part = random.below(6);
            at.0[part] = away(random, strain.0[part], next(LIMIT));
        }
        4 => at = six(|i| strain.0[i] + 0.03 * random.unit()),
        5 => at.0[random.below(6)] = plain(random),
        6 => at = six(|i| strain.0[i] + 0.015 * random.unit()),
        _ => at = six(|_| finite(random)),
    }
    // Only what `check` accepts.
    at.map(|x| if x.is_finite() { x } else { f32::MAX })
}

/// A number whose difference from `x` is exactly `gap`, on either side; if none is found, one that is near.
fn away(random: &mut Random, x: f32, gap: f32) -> f32 {
    let sign = random.pick(&[1.0, -1.0]);
    let mut y = x - sign * gap;
    if !y.is_finite() || y.abs() < 1.0e-30 {
        return y;
    }
    for _ in 0..4 {
        y = previous(y);
    }
    for _ in 0..9 {
        if (x - y).abs() == gap {
            return y;
        }
        y = next(y);
    }
    y
}

/// One number of the row that is not a cap: special, and finite if asked.
fn spoil<R: Words>(random: &mut Random, row: &R, finite: bool) -> R {
    const STRAIN_CAP: std::ops::Range<usize> = 94..100;
    const VOL_CAP: usize = 127;
    let mut words = words_of(row);
    let place = loop {
        let place = 8 + random.below(words.len() - 8);
        if !STRAIN_CAP.contains(&place) && place != VOL_CAP {
            break place;
        }
    };
    let value = if finite {
        finite_special(random)
    } else {
        special(random)
    };
    words[place] = bits(value);
    value_of(&words)
}

fn points_row<R: Row + Words>(
    random: &mut Random,
    number: usize,
    make: fn(&mut Random, usize) -> (Points, R),
) -> Vec<u32> {
    let number = again(random, number, FIRST);
    let (points, mut row) = make(random, number);
    if number >= FIRST {
        if random.one_in(3) {
            row = rows::update(&points, row);
        }
        if random.one_in(8) {
            row = spoil(random, &row, false);
        }
    }
    words_of(&(points, row))
}

fn head_points_row<R: Row + Words>(
    random: &mut Random,
    number: usize,
    make: fn(&mut Random, usize) -> (Points, R),
) -> Vec<u32> {
    let number = again(random, number, FIRST);
    let head = head(random, number);
    let (points, mut row) = make(random, number);
    if number >= FIRST && random.one_in(8) {
        row = spoil(random, &row, true);
    }
    words_of(&(head, points, row))
}

fn points_row_strain<M: Copy>(
    random: &mut Random,
    number: usize,
    make: fn(&mut Random, usize) -> (Points, ElasticRow<M>),
) -> Vec<u32>
where
    ElasticRow<M>: Row + Words,
{
    let words = points_row(random, number, make);
    let (points, row): (Points, ElasticRow<M>) = value_of(&words);
    let largest = largest_strain(&points, row);
    // Often exactly the largest part, which does not count as above it.
    let least = match random.below(5) {
        0 => 0.0,
        1 => finite(random),
        2 => 0.2 * random.unit().abs(),
        3 if largest > 0.0 => previous(largest),
        _ => largest,
    };
    words_of(&(points, row, if least.is_finite() { least } else { 0.5 }))
}

/// The largest part of a row's strain after an update.
pub(crate) fn largest_strain<M: Copy>(points: &Points, row: ElasticRow<M>) -> f32
where
    ElasticRow<M>: Row,
{
    let strain = rows::update(points, row).strain;
    let parts = strain.iter().map(|part| part.abs());
    parts.fold(0.0, f32::max)
}

fn points_row_coeff<R: Row + Words>(
    random: &mut Random,
    number: usize,
    make: fn(&mut Random, usize) -> (Points, R),
) -> Vec<u32> {
    let mut words = points_row(random, number, make);
    words.push(bits(coefficient(random)));
    words
}

pub fn corotational_points_row(random: &mut Random, number: usize) -> Vec<u32> {
    points_row(random, number, corotational)
}

pub fn corotational_head_points_row(random: &mut Random, number: usize) -> Vec<u32> {
    head_points_row(random, number, corotational)
}

pub fn corotational_points_row_strain(random: &mut Random, number: usize) -> Vec<u32> {
    points_row_strain(random, number, corotational)
}

pub fn corotational_points_row_coeff(random: &mut Random, number: usize) -> Vec<u32> {
    points_row_coeff(random, number, corotational)
}

pub fn neo_hookean_points_row(random: &mut Random, number: usize) -> Vec<u32> {
    points_row(random, number, neo_hookean)
}

pub fn neo_hookean_head_points_row(random: &mut Random, number: usize) -> Vec<u32> {
    head_points_row(random, number, neo_hookean)
}

pub fn neo_hookean_points_row_strain(random: &mut Random, number: usize) -> Vec<u32> {
    points_row_strain(random, number, neo_hookean)
}

pub fn neo_hookean_points_row_coeff(random: &mut Random, number: usize) -> Vec<u32> {
    points_row_coeff(random, number, neo_hookean)
}

/// A strain: none, small, as large as caps let it, inside out, or anything.
fn strain(random: &mut Random) -> StrainVector {
    match random.below(6) {
        0 => six(|_| 0.01 * random.unit()),
        1 => six(|_| 0.3 * random.unit()),
        2 => six(|i| if i < 3 { -2.0 } else { 0.0 } + 0.3 * random.unit()),
        3 => value_of(&words(&mixed(random, 6))),
        _ => six(|_| random.unit()),
    }
}

/// mu, lambda and a strain.
pub fn gradient(random: &mut Random, number: usize) -> Vec<u32> {
    let first = [
        (1.0, 1.0, SVector([0.0; 6])),
        (1.0, 1.0, SVector([-0.0; 6])),
        (2.0, 3.0, SVector([-1.0, -1.0, -1.0, 0.0, 0.0, 0.0])),
        (2.0, 3.0, SVector([0.5, 0.25, -0.125, 0.5, -0.25, 0.125])),
    ];
    let number = again(random, number, first.len());
    if let Some(three) = first.get(number) {
        return words_of(three);
    }
    if number < first.len() + SPECIALS.len() {
        return super::reals::<8>(random, number - first.len());
    }
    let (mu, lambda, _) = material(random);
    words_of(&(mu, lambda, strain(random)))
}

/// mu, lambda, and mostly the stretch and the kappa that the gradient makes of a strain.
pub fn hessian(random: &mut Random, number: usize) -> Vec<u32> {
    match random.below(8) {
        0 => return words(&mixed(random, 12)),
        // A stretch of the eigen sweep's own branches.
        1 => {
            let (mu, lambda, kappa) = material(random);
            let s: Matrix = value_of(&super::symmetric(random, usize::MAX));
            return words_of(&((mu, lambda), s, kappa));
        }
        _ => {}
    }
    let words = gradient(random, number);
    let (mu, lambda, strain): (f32, f32, StrainVector) = value_of(&words);
    let (s, kappa, _) = NeoHookeanConstraint::gradient(mu, lambda, &strain);
    words_of(&((mu, lambda), s, kappa))
}
