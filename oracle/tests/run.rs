//! The oracle's run: document 01's worked frames, the row functions one after another, and what a run may not do.

use oracle::branches::run_taken;
use oracle::frames::{Frame, Sizes, exchanged_overflow, relisting, runs};
use oracle::inputs::worked_distance;
use oracle::layout::{HEAD, OVERFLOW, POINT, SCALAR, START};
use oracle::random::Random;
use oracle::rows::{Points, ScalarRow};
use oracle::run::run;
use oracle::support::vector::Vector;
use oracle::words::words_of;

const SMALL: Sizes = Sizes {
    large: usize::MAX,
    resweeps: 5,
};

/// A frame of one scalar row, in this mode.
fn frame_of(points: &Points, row: &ScalarRow, mode: u32, resweeps: u32) -> Frame {
    let mut frame = Frame::default();
    let (warm, least) = (0.5f32.to_bits(), 0.1f32.to_bits());
    frame.push_words(&HEAD, &[points.n, 1, mode, resweeps, warm, least]);
    for point in &points.points[..points.n as usize] {
        frame.push_words(&POINT, &words_of(point));
    }
    frame.push_words(&SCALAR, &words_of(row));
    frame
}

fn float(frame: &Frame, record: usize, name: &str, index: usize) -> f32 {
    f32::from_bits(frame.get(record, name, index))
}

fn ran(mut frame: Frame) -> Frame {
    assert_eq!(run(&mut frame.bytes), (0, 0));
    frame
}

#[test]
fn empty_frame_and_head_alone() {
    assert_eq!(run(&mut []), (1, 0));
    let mut head = Frame::default();
    head.push_words(&HEAD, &[0; 6]);
    let mut bytes = head.bytes.clone();
    assert_eq!(run(&mut bytes), (0, 0));
    assert_eq!(bytes, head.bytes);
    bytes.push(0);
    assert_eq!(run(&mut bytes), (8, 26));
    assert_eq!(bytes[..26], head.bytes);
}

#[test]
fn worked_distances() {
    let x = |x| Vector::new(x, 0.0, 0.0);
    let cases = [
        (x(2.0), f32::INFINITY, 0.5),
        (x(2.0), 0.25, 0.25),
        (x(0.0), f32::INFINITY, -0.5),
    ];
    for (second, upper, impulse) in cases {
        let (points, mut row) = worked_distance(second);
        row.impulse_bounds[1] = upper;
        let after = ran(frame_of(&points, &row, 1, 0));
        assert_eq!(float(&after, 3, "impulse", 0), impulse);
        assert_eq!(float(&after, 1, "velocity", 0), impulse);
        assert_eq!(float(&after, 2, "velocity", 0), -impulse);
    }
}

/// The phases that the table of answers has, one after another: what `solve_color_constraint` does in one call.
#[test]
fn the_row_functions_one_after_another() {
    let random = &mut Random::new(1, "row by row");
    for _ in 0..2000 {
        let (_, frame) = runs(random, SMALL);
        let (expected, _) = run_taken(&frame);
        let after = ran(frame);
        assert!(after.bytes == expected.bytes);
    }
}

/// Resweeps read the flag as the main sweep left it: of any type of row without an update, of what the update says with one.
#[test]
fn resweeps_by_the_flag() {
    let (mut points, mut row) = worked_distance(Vector::X * 2.0);
    points.points[0].velocity = Vector::Y;
    row.grad = [-Vector::X, Vector::X, Vector::ZERO, Vector::ZERO];
    row.inv_lhs = 0.25;
    row.rhs = 1.0;
    row.kind = 1;
    let impulse = |row: &ScalarRow, mode, resweeps| {
        let after = ran(frame_of(&points, row, mode, resweeps));
        float(&after, 3, "impulse", 0)
    };
    row.strained = false;
    assert_eq!(impulse(&row, 0, 3), impulse(&row, 0, 0));
    row.strained = true;
    assert_ne!(impulse(&row, 0, 3), impulse(&row, 0, 0));
    assert_ne!(impulse(&row, 0, 3), impulse(&row, 0, 2));
    // An update takes the flag of a dihedral row away.
    assert_eq!(impulse(&row, 1, 3), impulse(&row, 1, 0));
    // And gives it to a distance row that is long by its own length.
    let flag = |row: &ScalarRow, mode| ran(frame_of(&points, row, mode, 1)).get(3, "strained", 0);
    assert_eq!((flag(&row, 0), flag(&row, 1)), (1, 0));
    row.kind = 0;
    row.strained = false;
    assert_eq!((flag(&row, 0), flag(&row, 1)), (0, 1));
}

/// Without an update a scalar row's impulse is all that is assigned; a skipped place keeps its old position, one out of range gets zeros.
#[test]
fn what_is_not_assigned_stays() {
    let (points, mut row) = worked_distance(Vector::X * 2.0);
    row.pos = [Vector::new(1.0, -0.0, 3.0); 4];
    row.grad = [-Vector::X, Vector::X, Vector::Y, Vector::Z];
    row.inv_lhs = 0.25;
    row.rhs = 1.0;
    let before = frame_of(&points, &row, 2, 4);
    let after = ran(before.clone());
    let (start, impulse) = (before.records[3].0, SCALAR.offset("impulse"));
    let (low, high) = (start + impulse, start + impulse + 4);
    assert_eq!(before.bytes[start..low], after.bytes[start..low]);
    assert_eq!(before.bytes[high..], after.bytes[high..]);
    assert_ne!(before.bytes[low..high], after.bytes[low..high]);
    for point in 1..3 {
        let start = before.records[point].0;
        assert_eq!(
            before.bytes[start..start + START + 12],
            after.bytes[start..start + START + 12]
        );
    }
    row.ids = [u32::MAX, u32::MAX - 1, 0, 0];
    let after = ran(frame_of(&points, &row, 1, 0));
    let pos: Vec<_> = (0..6)
        .map(|part| float(&after, 3, "pos", part).to_bits())
        .collect();
    let [one, minus, three] = [1.0f32, -0.0, 3.0].map(f32::to_bits);
    assert_eq!(pos, [one, minus, three, 0, 0, 0]);
    assert_eq!(float(&after, 1, "velocity", 0), 0.0);
}

#[test]
fn a_nan_is_written_as_one_pattern() {
    let (mut points, mut row) = worked_distance(Vector::X * 2.0);
    points.points[0].position = Vector::X * f32::MAX;
    points.points[1].position = Vector::X * f32::MIN;
    row.cfm_coeff = -1.0;
    let after = ran(frame_of(&points, &row, 1, 1));
    // An infinite length: the direction is NaN, and all that comes of it.
    assert_eq!(after.get(3, "grad", 0), 0x7FC0_0000);
    assert_eq!(after.get(3, "impulse", 0), 0x7FC0_0000);
    assert_eq!(after.get(1, "velocity", 0), 0x7FC0_0000);
}

/// Demand 3, of the oracle; and that it would not hold of exchanged overflow rows.
#[test]
fn relistings_end_alike() {
    let random = &mut Random::new(1, "relistings");
    let (mut moved, mut otherwise) = (0, 0);
    let alike = |frame: &Frame, (other, order): (Frame, Vec<usize>)| {
        let (one, two) = (ran(frame.clone()), ran(other));
        let first = frame.rows().start;
        let points = |of: &Frame| of.records.get(first).map_or(of.bytes.len(), |row| row.0);
        one.bytes[..points(&one)] == two.bytes[..points(&two)]
            && order
                .iter()
                .enumerate()
                .all(|(new, old)| one.words(first + old) == two.words(first + new))
    };
    for _ in 0..1000 {
        let (_, frame) = runs(random, SMALL);
        let other = relisting(random, &frame);
        moved += usize::from(other.1.iter().enumerate().any(|(new, &old)| new != old));
        assert!(alike(&frame, other));
        if let Some(other) = exchanged_overflow(random, &frame) {
            let colour = frame.get(frame.records.len() - 1, "colour", 0);
            assert_eq!(colour, OVERFLOW.into());
            otherwise += usize::from(!alike(&frame, other));
        }
    }
    assert!(moved > 100 && otherwise > 10, "{moved}, {otherwise}");
}
