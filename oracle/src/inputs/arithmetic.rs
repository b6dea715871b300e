//! Inputs for modules 1 to 3 of document 01.

use super::numbers::{
    SPECIALS, again, finite_special, mixed, next, pattern, plain, previous, reals, small_whole,
    special, words,
};
use crate::random::Random;
use crate::support::real::TURN;
use crate::support::vector::{Matrix, Rotation, Vector};
use crate::words::{bits, words_of};

/// One number from `first` while it lasts, then by `rest`.
fn first_then(
    first: &[f32],
    number: usize,
    random: &mut Random,
    rest: impl Fn(&mut Random) -> f32,
) -> f32 {
    let number = again(random, number, first.len() + SPECIALS.len());
    match first.get(number) {
        Some(&x) => x,
        None => match SPECIALS.get(number - first.len()) {
            Some(&pattern) => f32::from_bits(pattern),
            None => rest(random),
        },
    }
}

/// Squares and their neighbours, subnormals, powers of both parities.
pub fn root(random: &mut Random, number: usize) -> Vec<u32> {
    let first = [4.0, 2.0, 0.25, 9.0, 3.0, 1.0e-40, -1.0e-40];
    let x = first_then(&first, number, random, |random| match random.below(5) {
        0 => pattern(random),
        1 => f32::from_bits(random.bits() & 0x7FFF_FFFF).min(f32::MAX),
        // At most twelve digits: the square is exact, and its neighbours have roots next to the middle between two f32.
        2 => {
            let x = (random.bits() & 0xFFF) as f32;
            x * x
        }
        3 => {
            let x = (1 + random.below(0x00FF_FFFF)) as f32;
            let square = x * x;
            random.pick(&[square, next(square), previous(square)])
        }
        _ => f32::from_bits(random.bits() & 0x007F_FFFF),
    });
    vec![bits(x)]
}

/// Angles of a rotation, large ones and multiples of a turn among them.
pub fn angle(random: &mut Random, number: usize) -> Vec<u32> {
    let first = [
        0.1,
        1.0,
        0.5 * TURN,
        TURN,
        2.0 * TURN,
        next(2.0 * TURN),
        previous(2.0 * TURN),
    ];
    let x = first_then(&first, number, random, some_angle);
    vec![bits(x)]
}

fn some_angle(random: &mut Random) -> f32 {
    match random.below(5) {
        0 => pattern(random),
        1 => random.unit() * 100.0,
        2 => random.below(100) as f32 * TURN,
        _ => 4.0 * random.unit(),
    }
}

pub fn axis_angle(random: &mut Random, number: usize) -> Vec<u32> {
    if number < SPECIALS.len() {
        return reals::<4>(random, number);
    }
    if random.one_in(3) {
        return words(&mixed(random, 4));
    }
    words(&[
        random.unit(),
        random.unit(),
        random.unit(),
        some_angle(random),
    ])
}

/// Numbers in [-1, 1], its ends and their neighbours, and some outside.
pub fn cosine(random: &mut Random, number: usize) -> Vec<u32> {
    let first = [
        0.5,
        -0.5,
        previous(1.0),
        previous(-1.0),
        next(1.0),
        next(-1.0),
        0.25,
        -0.75,
    ];
    let x = first_then(&first, number, random, |random| match random.below(6) {
        0 => pattern(random),
        1 => 1.0 - random.unit().abs() * 1.0e-6,
        2 => random.unit().abs() * 1.0e-6 - 1.0,
        _ => random.unit(),
    });
    vec![bits(x)]
}

/// The difference of a number's remainder is seen near multiples of the turn.
pub fn rem(random: &mut Random, number: usize) -> Vec<u32> {
    let first = [
        TURN,
        -TURN,
        next(TURN),
        previous(TURN),
        2.0 * TURN,
        7.0,
        -7.0,
        1.0e30,
    ];
    let x = first_then(&first, number, random, |random| match random.below(4) {
        0 => pattern(random),
        1 => random.unit() * 1000.0,
        2 => random.below(1000) as f32 * TURN,
        _ => plain(random),
    });
    vec![bits(x)]
}

/// Numbers about 1.0e-20, below which the inverse is 0.
pub fn inv(random: &mut Random, number: usize) -> Vec<u32> {
    const LIMIT: f32 = 1.0e-20;
    let first = [
        LIMIT,
        -LIMIT,
        next(LIMIT),
        next(-LIMIT),
        previous(LIMIT),
        previous(-LIMIT),
        2.0,
        -4.0,
    ];
    let x = first_then(&first, number, random, |random| match random.below(3) {
        0 => pattern(random),
        1 => random.unit() * 4.0e-20,
        _ => plain(random),
    });
    vec![bits(x)]
}

/// All pairs of special values, then pairs by chance, equal ones among them.
pub fn two_reals(random: &mut Random, number: usize) -> Vec<u32> {
    let n = f32::NAN;
    let first = [
        [n, 1.0],
        [1.0, n],
        [n, n],
        [0.0, -0.0],
        [-0.0, 0.0],
        [1.0, 2.0],
        [2.0, 1.0],
        [1.0, 1.0],
    ];
    let count = SPECIALS.len();
    let number = again(random, number, first.len() + count * count);
    if let Some(pair) = first.get(number) {
        return words(pair);
    }
    let number = number - first.len();
    if number < count * count {
        // Each special value stands on both sides after `count` pairs.
        return vec![
            SPECIALS[number % count],
            SPECIALS[(number * 5 + number / count) % count],
        ];
    }
    let pair = mixed(random, 2);
    if random.one_in(8) {
        return words(&[pair[0], pair[0]]);
    }
    words(&pair)
}

/// A number and two bounds, the lower not above the upper, neither a NaN: elsewhere Rust's clamp has no answer.
pub fn clamp(random: &mut Random, number: usize) -> Vec<u32> {
    let (n, i) = (f32::NAN, f32::INFINITY);
    let first = [
        [n, 0.0, 1.0],
        [n, -i, i],
        [-0.0, 0.0, 1.0],
        [0.0, -0.0, -0.0],
        [-0.0, 0.0, -0.0],
        [0.0, 0.0, -0.0],
        [i, -1.0, 1.0],
        [-i, -1.0, 1.0],
        [i, -i, i],
        [0.5, -1.0, 1.0],
        [2.0, 2.0, 2.0],
        [1.0, -1.0, 1.0],
        [-1.0, -1.0, 1.0],
    ];
    let number = again(random, number, first.len() + SPECIALS.len());
    if let Some(three) = first.get(number) {
        return words(three);
    }
    let x = match SPECIALS.get(number - first.len()) {
        Some(&pattern) => f32::from_bits(pattern),
        None => mixed(random, 1)[0],
    };
    let (lower, upper) = bounds(random);
    words(&[x, lower, upper])
}

/// Two bounds that `check` accepts.
pub fn bounds(random: &mut Random) -> (f32, f32) {
    loop {
        let pair = match random.below(5) {
            0 => return (f32::NEG_INFINITY, f32::INFINITY),
            1 => [-random.unit().abs(), random.unit().abs()],
            2 => {
                let x = random.unit();
                [x, x]
            }
            3 => [special(random), special(random)],
            _ => [mixed(random, 1)[0], mixed(random, 1)[0]],
        };
        if pair[0] <= pair[1] {
            return (pair[0], pair[1]);
        }
        if pair[1] <= pair[0] {
            return (pair[1], pair[0]);
        }
    }
}

/// 6×6 matrices for the inverse: singular ones, equal pivots, zero pivots in each column, NaN among them.
pub fn six_rows(random: &mut Random, number: usize) -> Vec<u32> {
    let number = again(random, number, FIRST_SIX_ROWS);
    if let Some(m) = first_six_rows(number) {
        return words(&m);
    }
    let number = number - FIRST_SIX_ROWS;
    if number < SPECIALS.len() {
        return reals::<36>(random, number);
    }
    let mut m: Vec<f32> = (0..36).map(|_| random.unit()).collect();
    match random.below(8) {
        0 => {}
        // As the rows have it: heavy on the diagonal.
        1 => {
            for (place, x) in m.iter_mut().enumerate() {
                *x = 0.1 * *x + if place % 7 == 0 { 2.0 } else { 0.0 };
            }
        }
        2 => {
            for x in &mut m {
                if random.one_in(3) {
                    *x = 0.0;
                }
            }
        }
        3 => {
            for x in &mut m {
                *x = random.below(3) as f32 - 1.0;
            }
        }
        4 => {
            let (from, to) = (random.below(6), random.below(6));
            for column in 0..6 {
                m[to + 6 * column] = m[from + 6 * column];
            }
            let place = random.below(36);
            m[place] = special(random);
        }
        5 => {
            for x in &mut m {
                if random.one_in(6) {
                    *x = special(random);
                }
            }
        }
        6 => {
            for x in &mut m {
                *x = small_whole(random);
            }
        }
        _ => m = mixed(random, 36),
    }
    words(&m)
}

const FIRST_SIX_ROWS: usize = 14;

/// The identity, zeros, a zero of either sign as the pivot of each column, ties in the first column.
fn first_six_rows(number: usize) -> Option<[f32; 36]> {
    let mut m = [0.0; 36];
    for i in 0..6 {
        m[7 * i] = 1.0;
    }
    match number {
        0 => {}
        1 => m = [0.0; 36],
        2..=7 => m[7 * (number - 2)] = 0.0,
        8 => m[35] = -0.0,
        9 => {
            // Equal magnitudes: the first stays.
            m[0] = 2.0;
            m[1] = -2.0;
            m[7] = 3.0;
        }
        10 => {
            // The largest is the third, and its equal the fifth.
            m[..6].copy_from_slice(&[1.0, -1.0, 5.0, 0.0, -5.0, 1.0]);
        }
        11 => m[1] = f32::NAN,
        12 => m[0] = f32::NAN,
        13 => {
            // Rows in falling order: all are swapped.
            m = [0.0; 36];
            for i in 0..6 {
                m[5 - i + 6 * i] = (i + 1) as f32;
            }
        }
        _ => return None,
    }
    Some(m)
}

/// A symmetric matrix of these entries: the diagonal, then (0,1), (0,2), (1,2).
fn symmetric_of([a, b, c, d, e, f]: [f32; 6]) -> Vec<u32> {
    words(&[a, d, e, d, b, f, e, f, c])
}

/// Symmetric matrices, and some that are not.
pub fn symmetric(random: &mut Random, number: usize) -> Vec<u32> {
    const FIRST: [[f32; 6]; 16] = [
        [1.0, 2.0, 3.0, 0.0, 0.0, 0.0],
        [0.0; 6],
        [1.0, 1.0, 1.0, 0.5, 0.0, 0.0],
        // d = 0 and d = -0.
        [0.0, 0.0, 0.0, 1.0, 0.0, 0.0],
        [0.0, -0.0, -0.0, 1.0, 0.0, 0.0],
        [0.0, -0.0, -0.0, 1.0, 1.0, 1.0],
        // Squares that underflow together: off and the limit are both 0.
        [1.0e-30, 2.0e-30, 3.0e-30, 1.0e-30, 0.0, 0.0],
        [1.0e-30, 2.0e-30, 3.0e-30, 1.0e-30, 2.0e-30, -1.0e-30],
        [0.0, 0.0, 0.0, 1.0e-30, 1.0e-30, 1.0e-30],
        // The limit underflows though the diagonal's squares do not.
        [1.0e-20, 1.0e-20, 1.0e-20, 1.0e-25, 1.0e-25, 0.0],
        // Squares that overflow together: both are infinite.
        [1.0e30, 2.0e30, 3.0e30, 1.0e30, 1.0e30, 1.0e30],
        [1.0e20, 0.0, 0.0, 1.0e20, 0.0, 0.0],
        [f32::MAX, 1.0, 1.0, f32::MAX, 1.0, 0.0],
        // Close to settled.
        [1.0, 2.0, 3.0, 1.0e-4, 1.0e-4, 1.0e-4],
        [1.0, 2.0, 3.0, 3.0e-4, 2.0e-4, 1.0e-4],
        [1.0, 2.0, 3.0, f32::NAN, 0.0, 0.0],
    ];
    let number = again(random, number, FIRST.len());
    if let Some(&entries) = FIRST.get(number) {
        return symmetric_of(entries);
    }
    let number = number - FIRST.len();
    if number < SPECIALS.len() {
        let mut entries: [f32; 6] = std::array::from_fn(|_| random.unit());
        entries[number % 6] = f32::from_bits(SPECIALS[number]);
        return symmetric_of(entries);
    }
    match random.below(10) {
        0..=2 => symmetric_of(std::array::from_fn(|_| random.unit())),
        3 => symmetric_of(mixed(random, 6).try_into().expect("six")),
        // Near the identity, as a strained cell has it.
        4 => symmetric_of(std::array::from_fn(|i| {
            0.1 * random.unit() + if i < 3 { 1.0 } else { 0.0 }
        })),
        5 => exact_tie(random),
        // Two or three equal entries on the diagonal.
        6 => {
            let (a, b) = (random.unit(), random.unit());
            let equal = if random.one_in(2) { a } else { random.unit() };
            symmetric_of([a, a, equal, b, random.unit(), 0.0])
        }
        // Squares near either end of the range.
        7 => {
            let scale = random.pick(&[1.0e-23, 1.0e-22, 1.0e-21, 1.0e-20, 1.0e18, 1.0e19, 2.0e19]);
            symmetric_of(std::array::from_fn(|_| random.unit() * scale))
        }
        8 => reals::<9>(random, usize::MAX),
        _ => {
            let mut entries: [f32; 6] = std::array::from_fn(|_| small_whole(random));
            if random.one_in(2) {
                entries[random.below(6)] = finite_special(random);
            }
            symmetric_of(entries)
        }
    }
}

/// A matrix whose off-diagonal square is exactly the f32 product of 1.0e-8 and the diagonal's: found by search.
fn exact_tie(random: &mut Random) -> Vec<u32> {
    for _ in 0..64 {
        let d = 1.0 + random.unit().abs();
        let limit = 1.0e-8 * (d * d);
        let near = limit.sqrt();
        for off in [near, next(near), previous(near)] {
            if off * off == limit {
                return symmetric_of([d, 0.0, 0.0, off, 0.0, 0.0]);
            }
        }
    }
    symmetric_of([1.0, 2.0, 3.0, 0.0, 0.0, 0.0])
}

/// A unit quaternion.
pub fn unit_rotation(random: &mut Random) -> Rotation {
    loop {
        let q = Rotation::from_xyzw(random.unit(), random.unit(), random.unit(), random.unit());
        if q.length() > 0.1 {
            return q.normalize();
        }
    }
}

/// A rotation near this one.
pub fn near_rotation(random: &mut Random, q: Rotation, far: f32) -> Rotation {
    let part = |x: f32, random: &mut Random| x + far * random.unit();
    Rotation::from_xyzw(
        part(q.x, random),
        part(q.y, random),
        part(q.z, random),
        part(q.w, random),
    )
    .normalize()
}

/// A rotation's matrix, each column stretched by up to `stretch`.
pub fn stretched(random: &mut Random, q: Rotation, stretch: f32) -> Matrix {
    let m = Matrix::from_quat(q);
    let column = |c: Vector, random: &mut Random| {
        Vector::new(
            c.x * (1.0 + stretch * random.unit()),
            c.y * (1.0 + stretch * random.unit()),
            c.z * (1.0 + stretch * random.unit()),
        )
    };
    Matrix::from_cols(
        column(m.x_axis, random),
        column(m.y_axis, random),
        column(m.z_axis, random),
    )
}

/// A matrix from which, at the identity, the first step's `omega` is (w, 0, 0) exactly.
fn turning_by(w: f32) -> Matrix {
    let mut a = Matrix::ZERO;
    a.x_axis.x = 1.0;
    a.y_axis.z = w;
    a
}

/// Matrices with a start near and far, settled ones, the limits 2^-19 and 0.1 of a step hit exactly.
pub fn extraction(random: &mut Random, number: usize) -> Vec<u32> {
    let settled = 16.0 * f32::EPSILON;
    let first = [
        (Matrix::IDENTITY, Rotation::IDENTITY),
        (turning_by(0.1), Rotation::IDENTITY),
        (turning_by(next(0.1)), Rotation::IDENTITY),
        (turning_by(previous(0.1)), Rotation::IDENTITY),
        (turning_by(settled), Rotation::IDENTITY),
        (turning_by(previous(settled)), Rotation::IDENTITY),
        (turning_by(next(settled)), Rotation::IDENTITY),
        (turning_by(1.0e8), Rotation::IDENTITY),
        (turning_by(f32::INFINITY), Rotation::IDENTITY),
        (Matrix::ZERO, Rotation::IDENTITY),
        (Matrix::IDENTITY * -1.0, Rotation::IDENTITY),
        (Matrix::IDENTITY, Rotation::from_xyzw(0.0, 0.0, 0.0, 0.0)),
        (Matrix::IDENTITY, Rotation::from_xyzw(1.0, 0.0, 0.0, 0.0)),
        (
            Matrix::IDENTITY * 1.0e-30,
            Rotation::from_xyzw(0.6, 0.0, 0.0, 0.8),
        ),
    ];
    let number = again(random, number, first.len());
    if let Some(pair) = first.get(number) {
        return words_of(pair);
    }
    let number = number - first.len();
    if number < SPECIALS.len() {
        return reals::<13>(random, number);
    }
    let q = unit_rotation(random);
    match random.below(8) {
        0 | 1 => {
            let far = random.pick(&[0.001, 0.01, 0.1]);
            words_of(&(stretched(random, q, 0.1), near_rotation(random, q, far)))
        }
        2 => words_of(&(stretched(random, q, 0.5), unit_rotation(random))),
        // A rotation's own matrix: settled soon.
        3 => {
            let far = random.pick(&[1.0e-7, 1.0e-6, 1.0e-5, 0.01]);
            words_of(&(Matrix::from_quat(q), near_rotation(random, q, far)))
        }
        // Flat and inverted cells.
        4 => {
            let mut a = stretched(random, q, 0.2);
            a.z_axis = if random.one_in(2) {
                -a.z_axis
            } else {
                a.x_axis
            };
            words_of(&(a, near_rotation(random, q, 0.1)))
        }
        5 => {
            let scale = random.pick(&[1.0e-30, 1.0e-20, 1.0e-9, 1.0e10, 1.0e20, 1.0e38]);
            words_of(&(
                stretched(random, q, 0.1) * scale,
                near_rotation(random, q, 0.1),
            ))
        }
        6 => words_of(&(turning_by(0.1 + 1.0e-6 * random.unit()), Rotation::IDENTITY)),
        _ => words(&mixed(random, 13)),
    }
}
