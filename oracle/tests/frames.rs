//! The worked examples of document 01 that concern frames, of the independent check.

use oracle::check::check;
use oracle::frames::{ACCEPTED, Frame, Sizes, relisting, runs, some};
use oracle::layout::{OVERFLOW, SCALAR};
use oracle::random::Random;
use std::collections::BTreeSet;

#[test]
fn empty_frame() {
    assert_eq!(check(&[]), (1, 0));
}

/// A head with no points and no rows, byte by byte.
const HEAD_ALONE: [u8; 26] = [
    22, 0, 0, 0, 1, 0, 0, 0, 0, 0, 0, 0, 0, 0, 3, 0, 64, 0, 0, 0, 128, 63, 0, 0, 0, 128,
];

#[test]
fn head_alone() {
    assert_eq!(check(&HEAD_ALONE), (0, 0));
    assert_eq!(check(&HEAD_ALONE[..25]), (1, 0));
    assert_eq!(check(&[&HEAD_ALONE[..], &[0]].concat()), (8, 26));
}

/// Two rows that share point 0, every `im` 1.
fn sharing(colour: u16) -> Frame {
    let random = &mut Random::new(1, "sharing");
    let mut frame = Frame::new(random, 1, 2);
    for _ in 0..2 {
        let row = frame.push(random, &SCALAR);
        frame.put(row, "colour", 0, colour.into());
        frame.put(row, "count", 0, 2);
        frame.put_ids(row, [0; 4]);
        for place in 0..4 {
            frame.put(row, "im", place, 1.0f32.to_bits());
        }
    }
    frame
}

#[test]
fn shared_point() {
    assert_eq!(check(&sharing(OVERFLOW).bytes), (0, 0));
    let frame = sharing(0);
    assert_eq!(check(&frame.bytes), (9, frame.records[3].0 as u64));
    assert_eq!(frame.records[3].0, 26 + 30 + 182);
}

/// What is made to be accepted is accepted, and what is damaged gives every number.
#[test]
fn frames_by_chance() {
    let random = &mut Random::new(1, "frames by chance");
    let mut numbers = BTreeSet::new();
    for _ in 0..300 {
        some(random, &mut |sort, frame| {
            let (number, place) = check(frame);
            numbers.insert(number);
            if sort == ACCEPTED {
                assert_eq!((number, place), (0, 0));
            }
        });
    }
    assert!(numbers.into_iter().eq(0..=9));
}

/// What is made to be run is accepted, and so is every relisting of it.
#[test]
fn frames_for_runs() {
    for (count, large) in [(4000, usize::MAX), (100, 12)] {
        let sizes = Sizes {
            large,
            resweeps: 64,
        };
        let random = &mut Random::new(large as u64, "frames for runs");
        for _ in 0..count {
            let (_, frame) = runs(random, sizes);
            assert_eq!(check(&frame.bytes), (0, 0));
            let (other, _) = relisting(random, &frame);
            assert_eq!(check(&other.bytes), (0, 0));
        }
    }
}
