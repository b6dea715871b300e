//! Frames by rule: every truncation, every field at its limits, every kind and length, every order of records, every sort of clash and
//! every pair of faults, in small frames; and the largest frames.

use super::accepted::{Frame, accepted};
use super::values::{FLOATS, KINDS, LENGTHS, fault, values};
use super::{Visit, number_at, write};
use crate::layout::{
    COROTATIONAL, HEAD, MOST, NEO_HOOKEAN, OVERFLOW, Part, RECORDS, ROWS, Record, SCALAR, START,
};
use crate::random::Random;

/// So many times a rule is gone through, with other numbers by chance in the fields that it does not name.
const ROUNDS: usize = 5;

/// Visits them all.
pub fn all(random: &mut Random, visit: &mut Visit) {
    for _ in 0..ROUNDS {
        truncated(random, visit);
        limits(random, visit);
        bounds(random, visit);
        extra_bytes(random, visit);
    }
    kinds_and_lengths(random, visit);
    orders(random, visit);
    colours(random, visit);
    clashes(random, visit);
    colour_runs(random, visit);
    two_faults_in_a_record(random, visit);
    two_faults_in_two_records(random, visit);
    fault_and_other(random, visit);
    largest(random, visit);
}

/// Small accepted frames in which each kind of record is alone, first, between others and last.
fn hosts(random: &mut Random) -> Vec<Frame> {
    let (s, c, n) = (&SCALAR, &COROTATIONAL, &NEO_HOOKEAN);
    let lists: [(u32, &[&'static Record]); 9] = [
        (0, &[]),
        (1, &[]),
        (3, &[]),
        (0, &[s]),
        (2, &[c]),
        (0, &[n]),
        (2, &[s, c, n]),
        (1, &[n, s, c]),
        (5, &[c, n, s, s]),
    ];
    let of = |(points, kinds)| accepted(random, points, kinds);
    lists.map(of).into()
}

fn truncated(random: &mut Random, visit: &mut Visit) {
    for frame in hosts(random) {
        for end in 0..=frame.bytes.len() {
            visit("by rule: truncated", &frame.bytes[..end]);
        }
    }
}

/// Each part of each field at and around its limits.
fn limits(random: &mut Random, visit: &mut Visit) {
    for frame in hosts(random) {
        for &(start, record) in &frame.records {
            for part in record.parts() {
                let (at, holds) = (start + part.offset, part.field.holds);
                let now = number_at(&frame.bytes, at, holds.width());
                for value in values(holds, now) {
                    let mut bytes = frame.bytes.clone();
                    write(&mut bytes, at, value, holds.width());
                    visit("by rule: a field at its limits", &bytes);
                }
            }
        }
    }
}

/// Each pair of impulse bounds.
fn bounds(random: &mut Random, visit: &mut Visit) {
    let mut frame = accepted(random, 1, &[&COROTATIONAL, &SCALAR, &NEO_HOOKEAN]);
    for lower in FLOATS {
        for upper in FLOATS {
            frame.put(3, "lower bound", 0, lower);
            frame.put(3, "upper bound", 0, upper);
            visit("by rule: bounds", &frame.bytes);
        }
    }
}

/// Each kind with each length at each record, in a whole frame and in one that ends after them.
fn kinds_and_lengths(random: &mut Random, visit: &mut Visit) {
    let sort = "by rule: kinds and lengths";
    for frame in hosts(random) {
        for &(start, _) in &frame.records {
            for kind in KINDS {
                for length in LENGTHS {
                    let mut bytes = frame.bytes.clone();
                    write(&mut bytes, start, length, 4);
                    write(&mut bytes, start + 4, kind.into(), 2);
                    visit(sort, &bytes);
                    visit(sort, &bytes[..start + START]);
                }
            }
        }
    }
}

/// Up to four whole records of any kinds in any order, with heads for up to two points and rows.
fn orders(random: &mut Random, visit: &mut Visit) {
    for many in 0..=4 {
        for order in 0..RECORDS.len().pow(many) {
            let mut frame = Frame::default();
            for place in 0..many {
                frame.push(
                    random,
                    RECORDS[order / RECORDS.len().pow(place) % RECORDS.len()],
                );
            }
            for (points, rows) in (0..9).map(|both| (both / 3, both % 3)) {
                for number in 0..frame.records.len() {
                    if frame.records[number].1.kind == HEAD.kind {
                        frame.put(number, "points", 0, points);
                        frame.put(number, "rows", 0, rows);
                    }
                }
                visit("by rule: records in any order", &frame.bytes);
            }
        }
    }
}

/// Bytes after the last record, in accepted frames and in one with a clash.
fn extra_bytes(random: &mut Random, visit: &mut Visit) {
    let sort = "by rule: extra bytes";
    let mut frames = hosts(random);
    frames.push(clashing(random));
    for frame in &frames {
        for byte in [0, 255] {
            for more in 1..=40 {
                let bytes = [&frame.bytes[..], &vec![byte; more]].concat();
                visit(sort, &bytes);
            }
        }
    }
    for frame in [&frames[0], &frames[6], &frames[9]] {
        for record in RECORDS {
            let mut longer = frame.clone();
            longer.push(random, record);
            for end in frame.bytes.len() + 1..=longer.bytes.len() {
                visit(sort, &longer.bytes[..end]);
            }
        }
    }
}

/// Two rows of colour 0 that name point 0.
fn clashing(random: &mut Random) -> Frame {
    let mut frame = Frame::new(random, 1, 2);
    for record in [&NEO_HOOKEAN, &COROTATIONAL] {
        let row = frame.push(random, record);
        frame.put_ids(row, [0; 4]);
    }
    frame
}

/// Three rows of all kinds in any colours, with a point in common and without.
fn colours(random: &mut Random, visit: &mut Visit) {
    const COLOURS: [u32; 8] = [0, 1, 2, 255, 256, 257, 65534, 65535];
    for turn in 0..3 {
        for point in [0, u32::MAX] {
            let mut frame = Frame::new(random, 1, 3);
            for row in 0..3 {
                let row = frame.push(random, ROWS[(turn + row) % 3]);
                frame.put_ids(row, [point; 4]);
            }
            for all in 0..COLOURS.len().pow(3) {
                for row in 0..3 {
                    let colour = COLOURS[all / COLOURS.len().pow(row) % COLOURS.len()];
                    frame.put(2 + row as usize, "colour", 0, colour);
                }
                visit("by rule: colours", &frame.bytes);
            }
        }
    }
}

/// The counts that a row of that kind can have; only a scalar row has one.
fn counts(record: &Record) -> &'static [u32] {
    match record.kind == SCALAR.kind {
        true => &[0, 1, 2, 3, 4],
        false => &[4],
    }
}

/// Two rows with one id in common: rows of all kinds, the id at each place of each, named or cut off by the count, in range or not, in
/// one colour or two, with no row between them, one or four.
fn clashes(random: &mut Random, visit: &mut Visit) {
    for first in ROWS {
        for second in ROWS {
            for between in [0, 1, 4] {
                let mut frame = Frame::new(random, 3, between + 2);
                let a = frame.push(random, first);
                let kinds = ROWS.into_iter().cycle().take(between as usize);
                let others: Vec<usize> = kinds.map(|kind| frame.push(random, kind)).collect();
                let b = frame.push(random, second);
                for (x, y) in [
                    (0, 0),
                    (0, 1),
                    (1, 1),
                    (65534, 65534),
                    (65534, 65535),
                    (65535, 65535),
                ] {
                    for &row in [a].iter().chain(&others) {
                        frame.put(row, "colour", 0, x);
                    }
                    frame.put(b, "colour", 0, y);
                    share(&mut frame, a, b, visit);
                }
            }
        }
    }
}

/// An id in common of two rows, at each place of each, for each of their counts. Beside it the first names point 1, the second point 2.
fn share(frame: &mut Frame, a: usize, b: usize, visit: &mut Visit) {
    for places in 0..16 {
        for id in [0, 3, 0x1_0000, u32::MAX] {
            let [mut of_a, mut of_b] = [[1; 4], [2; 4]];
            of_a[places / 4] = id;
            of_b[places % 4] = id;
            frame.put_ids(a, of_a);
            frame.put_ids(b, of_b);
            for &count in counts(frame.records[a].1) {
                put_count(frame, a, count);
                for &count in counts(frame.records[b].1) {
                    put_count(frame, b, count);
                    visit("by rule: clashes", &frame.bytes);
                }
            }
        }
    }
}

/// Sets a scalar row's count.
fn put_count(frame: &mut Frame, row: usize, count: u32) {
    if frame.records[row].1.kind == SCALAR.kind {
        frame.put(row, "count", 0, count);
    }
}

/// Four rows that each name one of two points or none, in all runs of colours: what was taken in one colour is free in the next.
fn colour_runs(random: &mut Random, visit: &mut Visit) {
    let mut frame = Frame::new(random, 2, 4);
    for _ in 0..4 {
        let row = frame.push(random, &SCALAR);
        frame.put(row, "count", 0, 1);
    }
    for from in [0, 1, 65531, 65533] {
        for steps in 0..8 {
            for ids in 0..81 {
                let mut colour = from;
                for row in 0..4 {
                    frame.put(3 + row, "colour", 0, colour);
                    frame.put(3 + row, "ids", 0, ids / 3u32.pow(row as u32) % 3);
                    colour = (colour + (steps >> row & 1)).min(OVERFLOW.into());
                }
                visit("by rule: runs of colours", &frame.bytes);
            }
        }
    }
}

/// What makes one fault: where, what and how wide. All of a record's, or only those of each field's first part.
fn faults(frame: &Frame, number: usize, all: bool) -> Vec<(usize, u32, usize)> {
    let (start, record) = frame.records[number];
    let parts = record.parts().filter(|part| all || part.index == 0);
    let each = |part: Part| {
        let holds = part.field.holds;
        let fault = move |&number| (start + part.offset, fault(number, holds), holds.width());
        holds.numbers().iter().map(fault)
    };
    parts.flat_map(each).collect()
}

/// A point and a row of each kind, of colour 1 but for the first, so that a row of colour 0 is a fault.
fn one_of_each(random: &mut Random) -> Frame {
    let mut frame = Frame::new(random, 1, 4);
    for record in [&SCALAR, &SCALAR, &COROTATIONAL, &NEO_HOOKEAN] {
        let row = frame.push(random, record);
        frame.put(row, "colour", 0, 1);
    }
    frame
}

/// The bytes of a frame with such faults.
fn with(frame: &Frame, faults: &[(usize, u32, usize)]) -> Vec<u8> {
    let mut bytes = frame.bytes.clone();
    for &(at, value, width) in faults {
        write(&mut bytes, at, value, width);
    }
    bytes
}

/// Each two faults of one record.
fn two_faults_in_a_record(random: &mut Random, visit: &mut Visit) {
    let frame = one_of_each(random);
    for number in [0, 1, 3, 4, 5] {
        let faults = faults(&frame, number, true);
        for (i, &first) in faults.iter().enumerate() {
            for &second in &faults[i + 1..] {
                visit(
                    "by rule: two faults in a record",
                    &with(&frame, &[first, second]),
                );
            }
        }
    }
}

/// Each two faults of two records, by fields.
fn two_faults_in_two_records(random: &mut Random, visit: &mut Visit) {
    let frame = one_of_each(random);
    for second in 1..frame.records.len() {
        for first in 0..second {
            for a in faults(&frame, first, false) {
                for b in faults(&frame, second, false) {
                    visit("by rule: two faults in two records", &with(&frame, &[a, b]));
                }
            }
        }
    }
}

/// Each fault of each record beside one of another sort: the record cut short, of a wrong kind or length, a byte more at the end, a clash.
fn fault_and_other(random: &mut Random, visit: &mut Visit) {
    let sort = "by rule: a fault and one of another sort";
    let mut frame = one_of_each(random);
    for row in 4..6 {
        frame.put_ids(row, [0; 4]);
    }
    for number in 0..frame.records.len() {
        let (start, record) = frame.records[number];
        for fault in faults(&frame, number, true) {
            let mut bytes = with(&frame, &[fault]);
            visit(sort, &bytes);
            visit(sort, &bytes[..start + record.size() - 1]);
            bytes.push(0);
            visit(sort, &bytes);
            bytes[start + 4] ^= 8;
            visit(sort, &bytes);
            bytes[start + 4] ^= 8;
            bytes[start + 3] ^= 1;
            visit(sort, &bytes);
        }
    }
}

/// As many points and rows as there may be, one more, and a clash of the first row with the last.
fn largest(random: &mut Random, visit: &mut Visit) {
    let most = MOST as usize;
    let mut see = |frame: &[u8]| visit("by rule: the largest", frame);
    for points in [0, MOST - 1, MOST] {
        for rows in [0, most - 1, most] {
            for kind in 0..4 {
                let kinds: Vec<_> = (0..rows)
                    .map(|row| ROWS[if kind < 3 { kind } else { row % 3 }])
                    .collect();
                see(&accepted(random, points, &kinds).bytes);
            }
        }
    }
    for (points, rows) in [(MOST + 1, 0), (0, most + 1), (MOST + 1, most + 1)] {
        see(&accepted(random, points, &vec![&SCALAR; rows]).bytes);
    }
    for record in ROWS {
        let mut frame = Frame::new(random, MOST, MOST);
        for number in 0..most {
            let row = frame.push(random, record);
            frame.put_ids(row, [number as u32; 4]);
            put_count(&mut frame, row, 4);
        }
        see(&frame.bytes);
        let (first, last) = (most + 1, 2 * most);
        for (row, point) in [
            (last, 0),
            (last, 1),
            (last, MOST - 2),
            (first, MOST - 1),
            (first + 1, 0),
        ] {
            let mut frame = frame.clone();
            frame.put(row, "ids", 3, point);
            see(&frame.bytes);
            see(&frame.bytes[..frame.bytes.len() - 1]);
            frame.bytes.push(0);
            see(&frame.bytes);
        }
        for row in first..=last {
            frame.put(row, "colour", 0, OVERFLOW.into());
        }
        frame.put(last, "ids", 3, 0);
        see(&frame.bytes);
    }
}
