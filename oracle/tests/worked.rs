//! The worked examples of document 01 that concern arithmetic and rows, and its near misses.

use oracle::answers::function;
use oracle::inputs::{SPECIALS, next, previous, worked_distance};
use oracle::random::Random;
use oracle::rows::{CorotationalRow, Head, NeoHookeanRow, POINTS, Points, ScalarRow};
use oracle::support::na::{SMatrix, SVector};
use oracle::support::vector::{Matrix, Vector};
use oracle::words::{Words, bits, value_of, words_of};

/// The answer of the function of that name.
fn ask<T: Words>(name: &str, input: &impl Words) -> T {
    value_of(&(function(name).answer)(&words_of(input)))
}

fn x(x: f32) -> Vector {
    Vector::new(x, 0.0, 0.0)
}

type Answer = (ScalarRow, [Vector; POINTS]);

/// The first step of a run in mode 1, without resweeps.
fn step(points: Points, row: ScalarRow) -> Answer {
    let head = Head {
        mode: 1,
        warm_coefficient: 1.0,
        least_strain: 0.1,
    };
    ask("scalar_main_step", &(head, points, row))
}

#[test]
fn roots() {
    assert_eq!(ask::<f32>("root", &4.0f32), 2.0);
    assert_eq!(ask::<u32>("root", &0x0000_0001u32), 0x1A35_04F3);
    assert_eq!(ask::<u32>("root", &bits(2.0)), 0x3FB5_04F3);
}

#[test]
fn distance_row() {
    let (points, row) = worked_distance(x(2.0));
    let (after, velocities) = step(points, row);
    assert_eq!(after.impulse, 0.5);
    assert_eq!(velocities[..2], [x(0.5), x(-0.5)]);
}

#[test]
fn distance_row_with_an_upper_bound() {
    let (points, mut row) = worked_distance(x(2.0));
    row.impulse_bounds[1] = 0.25;
    let (after, velocities) = step(points, row);
    assert_eq!(after.impulse, 0.25);
    assert_eq!(velocities[..2], [x(0.25), x(-0.25)]);
}

#[test]
fn distance_row_with_both_points_at_the_origin() {
    let (points, row) = worked_distance(Vector::ZERO);
    let (after, velocities) = step(points, row);
    assert_eq!(after.impulse, -0.5);
    assert_eq!(velocities[..2], [x(-0.5), x(0.5)]);
}

#[test]
fn inverse_of_a_tiny_number() {
    assert_eq!(ask::<u32>("inv", &1.0e-20f32), 0);
    assert_eq!(ask::<f32>("inv", &next(1.0e-20)), 1.0 / next(1.0e-20));
}

#[test]
fn eigen_of_a_diagonal() {
    let m = Matrix::from_cols(x(1.0), Vector::Y * 2.0, Vector::Z * 3.0);
    let (values, vectors): (Vector, Matrix) = ask("symmetric_eigen", &m);
    assert_eq!(values, Vector::new(1.0, 2.0, 3.0));
    assert_eq!(vectors, Matrix::IDENTITY);
}

#[test]
fn gradient_at_zero_strain() {
    let (_, _, gradient): (Matrix, f32, SVector<f32, 6>) =
        ask("neo_hookean_gradient", &([1.0f32, 1.0], [0.0f32; 6]));
    assert_eq!(gradient, SVector([0.0; 6]));
}

#[test]
fn dihedral_of_four_equal_points() {
    let (grad, error): ([Vector; 4], f32) = ask(
        "dihedral_gradients",
        &([Vector::new(1.0, 2.0, 3.0); 4], 2.0f32),
    );
    assert_eq!(grad, [Vector::ZERO; 4]);
    assert_eq!(error, 0.0);
}

/// A neo-Hookean row at rest whose block was made at a strain of `at` in its first part, and the row after an update.
fn updated_block(at: f32) -> (NeoHookeanRow, NeoHookeanRow) {
    // The fixed input that is at rest: strain 0 in every part.
    let made = function("neo_hookean_update");
    let words = (made.make)(&mut Random::new(1, ""), 0);
    let (points, mut row, least): (Points, NeoHookeanRow, f32) = value_of(&words);
    row.model.stiffness_strain = SVector([0.0; 6]);
    row.model.stiffness_strain.0[0] = at;
    (row, ask("neo_hookean_update", &(points, row, least)))
}

#[test]
fn block_kept_at_exactly_the_limit() {
    for at in [0.02, -0.02] {
        let (row, after) = updated_block(at);
        assert_eq!(after.strain, SVector([0.0; 6]));
        assert_eq!(after.inv_a, row.inv_a);
        assert_eq!(after.model.m, row.model.m);
        assert_eq!(after.model.stiffness_strain, row.model.stiffness_strain);
    }
}

#[test]
fn block_renewed_above_the_limit() {
    for at in [next(0.02), next(-0.02)] {
        let (row, after) = updated_block(at);
        assert_ne!(after.inv_a, row.inv_a);
        assert_ne!(after.model.m, row.model.m);
        assert_eq!(after.model.stiffness_strain, after.strain);
    }
}

#[test]
fn caps_of_an_inverted_cell_stay() {
    let update = function("corotational_update");
    // The fixed input whose cell is inside out, with caps of 0.25; and the one stretched to three times, with caps of 0.5.
    for (number, inverted, largest) in [(2, true, 0.25), (4, false, 1.0)] {
        let words = (update.make)(&mut Random::new(1, ""), number);
        let input: (Points, CorotationalRow, f32) = value_of(&words);
        let after: CorotationalRow = ask("corotational_update", &input);
        assert_eq!(after.inverted, inverted);
        let most = after
            .strain
            .iter()
            .fold(0.0f32, |most, x| most.max(x.abs()));
        assert_eq!(most, largest);
    }
}

#[test]
fn eigen_sweep_stops_where_off_equals_its_limit() {
    // The squares underflow: 0 <= 0 holds, and the matrix stays as it is.
    let m = Matrix::from_cols(
        Vector::new(1.0e-30, 1.0e-30, 0.0),
        Vector::new(1.0e-30, 2.0e-30, 0.0),
        Vector::new(0.0, 0.0, 3.0e-30),
    );
    let (values, vectors): (Vector, Matrix) = ask("symmetric_eigen", &m);
    assert_eq!(values, Vector::new(1.0e-30, 2.0e-30, 3.0e-30));
    assert_eq!(vectors, Matrix::IDENTITY);
}

#[test]
fn impulse_of_nan_is_not_drawn_into_its_bounds() {
    let (mut points, mut row) = worked_distance(x(2.0));
    row.impulse_bounds = [-1.0, 1.0];
    points.points[0].velocity = x(f32::NAN);
    let (after, _) = step(points, row);
    assert!(after.impulse.is_nan());
}

#[test]
fn signs_of_zeros() {
    assert_eq!(ask::<f32>("signum", &0.0f32), 1.0);
    assert_eq!(ask::<f32>("signum", &-0.0f32), -1.0);
    assert!(ask::<f32>("signum", &f32::NAN).is_nan());
    assert_eq!(ask::<u32>("max", &[0.0f32, -0.0]), bits(0.0));
    assert_eq!(ask::<u32>("max", &[-0.0f32, 0.0]), bits(-0.0));
    assert_eq!(ask::<u32>("clamp", &[-0.0f32, 0.0, 1.0]), bits(-0.0));
}

#[test]
fn nan_in_max() {
    assert_eq!(ask::<f32>("max", &[f32::NAN, 1.0]), 1.0);
    assert_eq!(ask::<f32>("max", &[1.0, f32::NAN]), 1.0);
    assert!(ask::<f32>("max", &[f32::NAN, f32::NAN]).is_nan());
}

#[test]
fn inverse_takes_the_first_of_equal_pivots_and_gives_zeros_for_none() {
    let identity: SMatrix<f32, 6, 6> = SMatrix::identity();
    assert_eq!(
        ask::<SMatrix<f32, 6, 6>>("try_inverse", &identity),
        identity
    );
    let mut singular = identity;
    singular.0[5][5] = -0.0;
    let zeros: Vec<u32> = words_of(&ask::<SMatrix<f32, 6, 6>>("try_inverse", &singular));
    assert_eq!(zeros, [0; 36]);
}

#[test]
fn steps_at_the_limits_of_the_rotation() {
    // At the identity these turn by (w, 0, 0) exactly; 16 EPSILON is 2^-19 and does not count as settled.
    let turned = |w: f32| -> [f32; 4] {
        let mut a = Matrix::ZERO;
        a.x_axis.x = 1.0;
        a.y_axis.z = w;
        ask("extract_rotation", &(a, [0.0f32, 0.0, 0.0, 1.0]))
    };
    let settled = 16.0 * f32::EPSILON;
    assert_eq!(settled.to_bits(), (127 - 19) << 23);
    assert_eq!(turned(previous(settled)), [0.0, 0.0, 0.0, 1.0]);
    assert_ne!(turned(settled), [0.0, 0.0, 0.0, 1.0]);
}

#[test]
fn nothing_is_fused() {
    // (1 + 2^-12)² is 1 + 2^-11 + 2^-24 and is rounded to 1 + 2^-11 before the sum; fused, 2^-24 would be left.
    let a = Vector::new(1.0 + 1.0 / 4096.0, 1.0 + 1.0 / 2048.0, 0.0);
    let b = Vector::new(1.0 + 1.0 / 4096.0, -1.0, 0.0);
    assert_eq!(ask::<u32>("dot", &(a, b)), 0);
    let six = |v: Vector| [v.x, v.y, 0.0, 0.0, 0.0, 0.0];
    assert_eq!(ask::<u32>("dot6", &(six(a), six(b))), 0);
}

/// The root over whole numbers, as document 01 has it: nearest, ties to even.
fn whole_root(pattern: u32) -> u32 {
    let x = f32::from_bits(pattern);
    if x == 0.0 || x.is_nan() || x < 0.0 || x.is_infinite() {
        return match pattern {
            0 | 0x8000_0000 | 0x7F80_0000 => pattern,
            _ => 0x7FC0_0000,
        };
    }
    // x = significand · 2^power, with a significand of 24 digits.
    let raw = pattern & 0x007F_FFFF;
    let (mut significand, mut power) = match pattern >> 23 {
        0 => (raw, -149),
        exponent => (raw | 0x0080_0000, exponent as i32 - 150),
    };
    let shift = significand.leading_zeros() as i32 - 8;
    significand <<= shift;
    power -= shift;
    // An even power, and a radicand whose root has 24 digits: its whole part, then the nearest.
    let extra = if power % 2 == 0 { 24 } else { 23 };
    let radicand = u64::from(significand) << extra;
    let mut root = radicand.isqrt();
    // root + 1/2 against the exact root; it is never equal, since its square is not whole.
    if root * root + root < radicand {
        root += 1;
    }
    let half = (power - extra) / 2;
    // 2^24 cannot come out: the largest significand's root stays below 2^24 - 1/2.
    assert!((1 << 23..1 << 24).contains(&root));
    let exponent = (half + 150) as u32;
    (exponent << 23) + (root as u32 - (1 << 23))
}

#[test]
fn root_is_the_nearest_over_whole_numbers() {
    let root = function("root");
    let check = |pattern: u32| {
        assert_eq!(
            (root.answer)(&[pattern]),
            [whole_root(pattern)],
            "{pattern:08x}"
        );
    };
    SPECIALS.into_iter().for_each(check);
    let mut random = Random::new(7, "root");
    for number in 0..2_000_000 {
        check((root.make)(&mut random, number)[0]);
        check(random.bits());
    }
}

#[test]
#[ignore = "every pattern of 32 bits: some minutes"]
fn every_root_is_the_nearest_over_whole_numbers() {
    let root = function("root");
    for pattern in 0..=u32::MAX {
        assert_eq!(
            (root.answer)(&[pattern]),
            [whole_root(pattern)],
            "{pattern:08x}"
        );
    }
}
