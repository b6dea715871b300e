//! Scalar rows with their points.
//!
//! What `check` accepts is kept: positions are finite, bounds are in order and no NaN. Velocities, and in a solve the row's own
//! numbers, may be infinite or NaN, as earlier rows and the main sweep leave them.

use super::arithmetic::bounds;
use super::numbers::{
    SPECIALS, again, finite_pattern, finite_special, mixed, next, plain, previous, small_whole,
    special, words,
};
use crate::random::Random;
use crate::rows::{self, Head, POINTS, Point, Points, ScalarRow};
use crate::support::vector::{Rotation, Vector};
use crate::words::{bits, value_of, words_of};

/// The id that is skipped.
pub const SKIPPED: u32 = u32::MAX;

/// Some finite number.
pub fn finite(random: &mut Random) -> f32 {
    match random.below(8) {
        0 => small_whole(random),
        1 => finite_special(random),
        2 => finite_pattern(random),
        3 => plain(random),
        _ => random.unit(),
    }
}

/// A finite vector; its three parts are of one sort.
fn finite_vector(random: &mut Random) -> Vector {
    let sort: fn(&mut Random) -> f32 = random.pick(&[
        Random::unit as fn(&mut Random) -> f32,
        Random::unit,
        plain,
        small_whole,
        finite_special,
        finite_pattern,
    ]);
    Vector::new(sort(random), sort(random), sort(random))
}

pub fn unit_vector(random: &mut Random) -> Vector {
    Vector::new(random.unit(), random.unit(), random.unit())
}

/// A velocity: mostly plain, now and then infinite or NaN.
fn velocity(random: &mut Random) -> Vector {
    let mut v = if random.one_in(4) {
        finite_vector(random)
    } else {
        unit_vector(random)
    };
    if random.one_in(40) {
        v[random.below(3)] = special(random);
    }
    v
}

/// Four places: in general position, or coincident, in line, flat, huge, tiny.
pub fn four_places(random: &mut Random) -> [Vector; 4] {
    let mut x: [Vector; 4] = std::array::from_fn(|_| unit_vector(random));
    match random.below(12) {
        0..=3 => {}
        4 => x = [finite_vector(random); 4],
        5 => x[random.below(4)] = x[random.below(4)],
        6 => {
            let (from, along) = (unit_vector(random), unit_vector(random));
            x = std::array::from_fn(|_| from + along * small_whole(random));
        }
        7 => {
            for place in &mut x {
                place.z = 0.5;
            }
        }
        8 => {
            x = std::array::from_fn(|_| {
                Vector::new(
                    small_whole(random),
                    small_whole(random),
                    small_whole(random),
                )
            })
        }
        9 => {
            let scale = random.pick(&[
                1.0e-30, 1.0e-20, 1.0e-9, 1.0e-5, 1.0e6, 1.0e19, 1.0e30, 3.0e38,
            ]);
            x = x.map(|place| place * scale);
        }
        10 => x = std::array::from_fn(|_| finite_vector(random)),
        // Two triangles that are almost in one plane.
        _ => {
            let lift = random.pick(&[0.0, 1.0e-7, 1.0e-4, 1.0e-3]);
            let side = random.pick(&[1.0, -1.0]);
            let turn = super::unit_rotation(random);
            x = [
                Vector::ZERO,
                Vector::X,
                Vector::new(random.unit(), 1.0, 0.0),
                Vector::new(random.unit(), side, lift),
            ]
            .map(|place| rotated(turn, place));
        }
    }
    x
}

fn rotated(q: Rotation, v: Vector) -> Vector {
    crate::support::vector::Matrix::from_quat(q) * v
}

/// Four ids: mostly distinct points in range; skipped, absent and repeated ones among them.
pub fn ids(random: &mut Random, n: u32) -> [u32; 4] {
    let mut order = [0, 1, 2, 3, 4];
    for i in (1..POINTS).rev() {
        order.swap(i, random.below(i + 1));
    }
    let mut ids = [order[0], order[1], order[2], order[3]];
    if random.one_in(4) {
        let place = random.below(4);
        ids[place] = match random.below(5) {
            0 => SKIPPED,
            1 => SKIPPED - 1,
            2 => n,
            3 => ids[(place + 1) % 4],
            _ => random.bits(),
        };
    }
    ids
}

/// Points of which some `n` are in range, none placed yet.
pub fn points(random: &mut Random) -> Points {
    Points {
        n: random.pick(&[5, 5, 5, 5, 5, 4, 4, 3, 2, 1, 0]),
        points: std::array::from_fn(|_| Point {
            position: finite_vector(random),
            velocity: velocity(random),
        }),
    }
}

/// Puts the four places where the ids name a point.
pub fn put(points: &mut Points, ids: [u32; 4], places: [Vector; 4]) {
    for (id, place) in ids.into_iter().zip(places) {
        if let Some(point) = points.points.get_mut(id as usize) {
            point.position = place;
        }
    }
}

/// Inverse masses: one, zero, or some.
pub fn masses(random: &mut Random) -> [f32; 4] {
    match random.below(4) {
        0 => [1.0; 4],
        1 => std::array::from_fn(|_| random.pick(&[0.0, 0.0, -0.0, 1.0])),
        _ => std::array::from_fn(|_| random.unit().abs() * random.pick(&[0.1, 1.0, 100.0])),
    }
}

/// The distance row of document 01's worked example, along x.
pub fn worked_distance(second: Vector) -> (Points, ScalarRow) {
    let at = |position| Point {
        position,
        velocity: Vector::ZERO,
    };
    let mut points = [at(Vector::ZERO); POINTS];
    points[1] = at(second);
    let row = ScalarRow {
        colour: 0,
        strained: false,
        kind: 0,
        count: 2,
        ids: [0, 1, 0, 0],
        pos: [Vector::ZERO; 4],
        im: [1.0; 4],
        grad: [Vector::ZERO; 4],
        rest: 1.0,
        erp_inv_dt: 1.0,
        cfm_coeff: 0.0,
        inv_lhs: 0.0,
        cfm_gain: 0.0,
        rhs: 0.0,
        impulse: 0.0,
        peak_impulse: 0.0,
        impulse_bounds: [f32::NEG_INFINITY, f32::INFINITY],
    };
    (Points { n: 2, points }, row)
}

/// A dihedral row whose two triangles share the edge (0,0,0), (1,0,0).
fn dihedral_of(third: Vector, fourth: Vector) -> (Points, ScalarRow) {
    let (mut points, mut row) = worked_distance(Vector::X);
    points.n = 4;
    points.points[2].position = third;
    points.points[3].position = fourth;
    row.kind = 1;
    row.count = 4;
    row.ids = [0, 1, 2, 3];
    row.rest = 2.0;
    (points, row)
}

/// How many inputs are fixed: see `first_scalar`.
const FIRST: usize = 22;

/// Rows at the limits of the source's branches.
fn first_scalar(number: usize) -> Option<(Points, ScalarRow)> {
    const SHORT: f32 = 1.0e-9;
    let x = |x| Vector::new(x, 0.0, 0.0);
    let y = |y| Vector::new(0.0, y, 0.0);
    Some(match number {
        0 => worked_distance(x(2.0)),
        1 => {
            let (points, mut row) = worked_distance(x(2.0));
            row.impulse_bounds[1] = 0.25;
            (points, row)
        }
        2 => worked_distance(Vector::ZERO),
        // Not along x, which is the direction of a short edge.
        3 => worked_distance(y(SHORT)),
        4 => worked_distance(y(next(SHORT))),
        5 => worked_distance(y(previous(SHORT))),
        // Four equal points.
        6 => {
            let (mut points, row) = dihedral_of(Vector::ZERO, Vector::ZERO);
            points.points[1].position = Vector::ZERO;
            (points, row)
        }
        7 => dihedral_of(y(1.0), y(1.0)),
        8 => dihedral_of(y(1.0), y(-1.0)),
        9 => dihedral_of(y(1.0), Vector::Z),
        10 => dihedral_of(y(1.0), Vector::new(0.0, -1.0, 1.0)),
        11 => dihedral_of(y(SHORT), Vector::Z),
        12 => dihedral_of(y(previous(SHORT)), Vector::Z),
        13 => dihedral_of(Vector::Z, y(SHORT)),
        14 => dihedral_of(Vector::Z, y(previous(SHORT))),
        15 => dihedral_of(Vector::new(0.5, 1.0, 0.0), Vector::new(0.25, 0.75, 0.001)),
        // A cell, and the same cell inside out.
        16 => {
            let (points, mut row) = dihedral_of(Vector::Y, Vector::Z);
            row.kind = 2;
            (points, row)
        }
        17 => {
            let (points, mut row) = dihedral_of(Vector::Z, Vector::Y);
            row.kind = 2;
            (points, row)
        }
        // No mass: the effective mass is 0 and its inverse as well.
        18 => {
            let (points, mut row) = worked_distance(x(2.0));
            row.im = [0.0; 4];
            (points, row)
        }
        19 => {
            let (points, mut row) = worked_distance(x(2.0));
            row.impulse_bounds[0] = 0.75;
            row.impulse = f32::from_bits(1);
            (points, row)
        }
        // Never strained, though the error is above any limit.
        20 => {
            let (points, mut row) = worked_distance(x(2.0));
            row.rest = 0.0;
            (points, row)
        }
        21 => {
            let (points, mut row) = worked_distance(x(2.0));
            row.erp_inv_dt = 0.0;
            row.rhs = 1.0;
            (points, row)
        }
        _ => return None,
    })
}

/// A scalar row and its points.
fn scalar(random: &mut Random, number: usize) -> (Points, ScalarRow) {
    if let Some(pair) = first_scalar(number) {
        return pair;
    }
    let mut points = points(random);
    let ids = ids(random, points.n);
    let places = four_places(random);
    put(&mut points, ids, places);
    let kind = random.below(3) as u32;
    let own = if kind == 0 { 2 } else { 4 };
    let (lower, upper) = bounds(random);
    let wild = random.one_in(4);
    let number_of = |random: &mut Random| {
        if wild { finite(random) } else { random.unit() }
    };
    let row = ScalarRow {
        colour: random.pick(&[0, 1, 7, 65535]),
        strained: random.one_in(2),
        kind,
        count: if random.one_in(4) {
            random.below(5) as u32
        } else {
            own
        },
        ids,
        pos: if random.one_in(2) {
            places
        } else {
            four_places(random)
        },
        im: masses(random),
        grad: std::array::from_fn(|_| finite_vector(random)),
        rest: number_of(random),
        erp_inv_dt: number_of(random),
        cfm_coeff: number_of(random),
        inv_lhs: number_of(random),
        cfm_gain: number_of(random),
        rhs: number_of(random),
        impulse: number_of(random),
        peak_impulse: number_of(random),
        impulse_bounds: [lower, upper],
    };
    (points, row)
}

/// One number of the row that is not a bound: special, and finite if asked.
fn spoil(random: &mut Random, row: ScalarRow, finite: bool) -> ScalarRow {
    let mut words = words_of(&row);
    let value = if finite {
        finite_special(random)
    } else {
        special(random)
    };
    // From `pos` to `peak_impulse`.
    words[8 + random.below(36)] = bits(value);
    value_of(&words)
}

/// A row alone, its positions as an update leaves them.
pub fn scalar_row(random: &mut Random, number: usize) -> Vec<u32> {
    let number = again(random, number, FIRST);
    let (points, mut row) = scalar(random, number);
    if number < FIRST || random.one_in(2) {
        row.pos = rows::update(&points, row).pos;
    }
    if number >= FIRST && random.one_in(16) {
        row = spoil(random, row, false);
    }
    words_of(&row)
}

/// Points and a row: as they come, or after an update, now and then with one number spoilt.
pub fn scalar_points_row(random: &mut Random, number: usize) -> Vec<u32> {
    let number = again(random, number, FIRST);
    let (points, mut row) = scalar(random, number);
    if number < FIRST {
        return words_of(&(points, row));
    }
    if random.one_in(2) {
        row = rows::update(&points, row);
    }
    if random.one_in(8) {
        row = spoil(random, row, false);
    }
    words_of(&(points, row))
}

/// Points, a row and a least strain; often exactly the row's own, or the next.
pub fn scalar_points_row_strain(random: &mut Random, number: usize) -> Vec<u32> {
    let (points, mut row): (Points, ScalarRow) = value_of(&scalar_points_row(random, number));
    // Distances that can be strained, and their limits.
    if number >= FIRST && random.one_in(2) {
        row.kind = 0;
        row.count = 2;
        row.rest = random.pick(&[row.rest.abs(), row.rest.abs(), 1.0, 0.0, -0.0]);
        row.erp_inv_dt = random.pick(&[row.erp_inv_dt.abs(), row.erp_inv_dt.abs(), 0.0, -0.0]);
    }
    let least = own_strain(&points, row).filter(|own| own.is_finite());
    let least = match (least, random.below(4)) {
        (Some(own), 0) => own,
        (Some(own), 1) if own > 0.0 => next(own),
        (_, 2) => finite(random),
        _ => 0.5 * random.unit().abs(),
    };
    words_of(&(points, row, least))
}

/// The strain of a distance row after an update; with a rest of 1 it is exactly its limit.
pub fn own_strain(points: &Points, row: ScalarRow) -> Option<f32> {
    let updated = rows::update(points, row);
    (row.kind == 0).then_some((updated.rhs / updated.erp_inv_dt).abs() / updated.rest)
}

/// Points, a row and a warm coefficient.
pub fn scalar_points_row_coeff(random: &mut Random, number: usize) -> Vec<u32> {
    let mut words = scalar_points_row(random, number);
    words.push(bits(coefficient(random)));
    words
}

/// A warm coefficient.
pub fn coefficient(random: &mut Random) -> f32 {
    match random.below(4) {
        0 => 1.0,
        1 => finite(random),
        _ => random.unit().abs(),
    }
}

/// Mode, warm coefficient and least strain.
pub fn head(random: &mut Random, number: usize) -> Head {
    if number < FIRST {
        return Head {
            mode: if number < 3 {
                1
            } else {
                1 + 2 * (number & 1) as u32
            },
            warm_coefficient: 1.0,
            least_strain: 0.1,
        };
    }
    Head {
        mode: random.below(4) as u32,
        warm_coefficient: coefficient(random),
        least_strain: match random.below(4) {
            0 => 0.0,
            1 => finite(random),
            _ => 0.5 * random.unit().abs(),
        },
    }
}

/// What a run is asked for, points and a row, as `check` accepts them (but for velocities).
pub fn scalar_head_points_row(random: &mut Random, number: usize) -> Vec<u32> {
    let number = again(random, number, FIRST);
    let head = head(random, number);
    let (points, mut row) = scalar(random, number);
    if number >= FIRST && random.one_in(8) {
        row = spoil(random, row, true);
    }
    words_of(&(head, points, row))
}

/// Four positions and a rest angle.
pub fn dihedral(random: &mut Random, number: usize) -> Vec<u32> {
    let number = again(random, number, 10);
    // 6 to 15 are the dihedral rows of `first_scalar`.
    if let Some((points, row)) = first_scalar(number + 6).filter(|pair| pair.1.kind == 1) {
        return words_of(&(rows::update(&points, row).pos, row.rest));
    }
    if (10..10 + SPECIALS.len()).contains(&number) {
        let mut list: Vec<f32> = (0..13).map(|_| random.unit()).collect();
        list[number % 13] = f32::from_bits(SPECIALS[number - 10]);
        return words(&list);
    }
    if random.one_in(16) {
        return words(&mixed(random, 13));
    }
    words_of(&(four_places(random), 3.0 * random.unit()))
}
