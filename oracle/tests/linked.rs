//! Every function of the table has its Rattle function, and the two agree on inputs of the table.
#![cfg(feature = "rattle")]

use oracle::answers::FUNCTIONS;
use oracle::frames::accepted;
use oracle::layout::ROWS;
use oracle::random::Random;
use oracle::rattle::{all_refuse, linked};
use oracle::words::NAN;

#[test]
fn linked_functions_agree() {
    for function in FUNCTIONS {
        let call = linked(function.name).unwrap_or_else(|| panic!("{}: not linked", function.name));
        let mut random = Random::new(2, function.name);
        for number in 0..200 {
            let input = (function.make)(&mut random, number);
            assert_eq!(
                call(&input),
                (function.answer)(&input),
                "{} {number}",
                function.name
            );
        }
    }
}

/// A record alone is taken. One byte less or more, another length, a kind that no row has or a NaN of another pattern than the one that is
/// written, and it is refused and left alone.
#[test]
fn only_a_rows_record_is_taken() {
    let random = &mut Random::new(1, "records alone");
    for record in ROWS {
        let frame = accepted(random, 0, &[record]);
        let bytes = &frame.bytes[frame.records[1].0..];
        assert!(!all_refuse(&mut bytes.to_vec()));
        let kind = |kind: u16| [&bytes[..4], &kind.to_le_bytes(), &bytes[6..]].concat();
        let length = |length: u32| [&length.to_le_bytes(), &bytes[4..]].concat();
        let mut others: Vec<_> = [0, 1, 2, 6, 259, 65535].map(kind).into();
        others.extend([0, record.length - 1, record.length + 1, u32::MAX].map(length));
        others.extend((0..bytes.len()).map(|end| bytes[..end].to_vec()));
        others.push([bytes, &[0]].concat());
        // Whole by its length, and too short for its kind.
        others.push(
            [
                &(record.length - 1).to_le_bytes(),
                &bytes[4..bytes.len() - 1],
            ]
            .concat(),
        );
        // Each float a NaN: of the pattern that is written, and of others.
        let float =
            |at: usize, bits: u32| [&bytes[..at], &bits.to_le_bytes(), &bytes[at + 4..]].concat();
        for at in (30..bytes.len()).step_by(4) {
            assert!(!all_refuse(&mut float(at, NAN)));
            others.extend(
                [0x7F80_0001, 0x7FFF_FFFF, 0xFF80_0001, 0xFFC0_0000, u32::MAX]
                    .map(|bits| float(at, bits)),
            );
        }
        for other in others {
            let mut after = other.clone();
            assert!(all_refuse(&mut after) && after == other);
        }
    }
}
