//! Frames by chance: an accepted one, then the same with one fault, with several, and bytes of no meaning.

use super::accepted::{Frame, Placed, accepted, kinds};
use super::values::{KINDS, LENGTHS, values};
use super::{Visit, number_at, write};
use crate::layout::{HEAD, MOST, OVERFLOW, POINT, ROWS, START};
use crate::random::Random;

/// The sort of frame that is always accepted.
pub const ACCEPTED: &str = "by chance: accepted";
/// How many damaged frames are made of one accepted frame.
const DAMAGED: usize = 12;

/// An accepted frame, and frames made from it.
pub fn some(random: &mut Random, visit: &mut Visit) {
    let (points, rows) = sizes(random);
    let kinds = kinds(random, rows);
    let frame = accepted(random, points, &kinds);
    visit(ACCEPTED, &frame.bytes);
    for _ in 0..DAMAGED {
        let mut bytes = frame.bytes.clone();
        damage(random, &frame, &mut bytes);
        if random.one_in(2) {
            visit("by chance: one fault", &bytes);
            continue;
        }
        for _ in 0..=random.below(2) {
            damage(random, &frame, &mut bytes);
        }
        visit("by chance: two or three faults", &bytes);
    }
    visit("by chance: bytes of no meaning", &meaningless(random));
}

/// How many points and rows: mostly few, one time in two hundred up to the most.
fn sizes(random: &mut Random) -> (u32, usize) {
    let (points, rows) = match random.below(200) {
        0 => (MOST as usize, MOST as usize),
        1..10 => (300, 150),
        _ => (9, 5),
    };
    let mut up_to = |most| match random.one_in(4) {
        true => most,
        false => random.below(most),
    };
    (up_to(points) as u32, up_to(rows))
}

/// The bytes of a frame with one fault, or with two or three.
pub fn damaged(random: &mut Random, frame: &Frame) -> Vec<u8> {
    let mut bytes = frame.bytes.clone();
    for _ in 0..random.pick(&[1, 1, 1, 2, 3]) {
        damage(random, frame, &mut bytes);
    }
    bytes
}

/// Makes one fault, or what looks like one. `frame` says where the records were before.
fn damage(random: &mut Random, frame: &Frame, bytes: &mut Vec<u8>) {
    let (start, record) = random.pick(&frame.records);
    match random.below(13) {
        0..4 => field(random, frame, (start, record), bytes),
        4 => write(bytes, start, random.pick(&LENGTHS), 4),
        5 => write(bytes, start + 4, random.pick(&KINDS).into(), 2),
        6 => {
            let place = match random.below(3) {
                0 => random.below(bytes.len() + 1),
                1 => start + random.below(START + 2),
                _ => start + record.size() - 1,
            };
            bytes.truncate(place);
        }
        7 => {
            let more = 1 + random.below(40);
            bytes.extend((0..more).map(|_| random.bits() as u8));
        }
        8 if !bytes.is_empty() => {
            let place = random.below(bytes.len());
            bytes[place] ^= 1 << random.below(8);
        }
        9 if !bytes.is_empty() => {
            let place = random.below(bytes.len());
            if random.one_in(2) {
                bytes.insert(place, random.bits() as u8);
            } else {
                bytes.remove(place);
            }
        }
        10 => exchange((start, record), random.pick(&frame.records), bytes),
        _ => share(random, frame, bytes),
    }
}

/// Sets some part of a record to a value at or around its limits.
fn field(random: &mut Random, frame: &Frame, (start, record): Placed, bytes: &mut [u8]) {
    let parts: Vec<_> = record.parts().collect();
    let part = random.pick(&parts);
    let (at, width) = (start + part.offset, part.field.holds.width());
    let now = number_at(&frame.bytes, at, width);
    let value = random.pick(&values(part.field.holds, now));
    write(bytes, at, value, width);
}

/// Two records of one size change places.
fn exchange((first, record): Placed, (second, other): Placed, bytes: &mut [u8]) {
    let size = record.size();
    if other.size() == size && first.max(second) + size <= bytes.len() {
        for i in 0..size {
            bytes.swap(first + i, second + i);
        }
    }
}

/// Lets two rows name one id, and mostly be of one colour, the rows between them too.
fn share(random: &mut Random, frame: &Frame, bytes: &mut [u8]) {
    let is_row = |&&(_, record): &&Placed| record.kind > POINT.kind;
    let rows: Vec<_> = frame.records.iter().filter(is_row).collect();
    if rows.is_empty() {
        return;
    }
    let mut two = [random.below(rows.len()), random.below(rows.len())];
    two.sort_unstable();
    let ids = two.map(|row| rows[row].0 + rows[row].1.offset("ids") + 4 * random.below(4));
    let points = number_at(&frame.bytes, HEAD.offset("points"), 4);
    let id = match random.below(3) {
        0 => number_at(&frame.bytes, ids[0], 4),
        1 => points.wrapping_sub(1),
        _ => random.below(points as usize + 2) as u32,
    };
    for at in ids {
        write(bytes, at, id, 4);
    }
    if random.one_in(4) {
        return;
    }
    let colour = match random.one_in(4) {
        true => OVERFLOW.into(),
        false => number_at(
            &frame.bytes,
            rows[two[0]].0 + rows[two[0]].1.offset("colour"),
            2,
        ),
    };
    for (start, record) in &rows[two[0]..=two[1]] {
        write(bytes, start + record.offset("colour"), colour, 2);
    }
}

/// Bytes by chance: all of them, those after a head, or those after the start of a row.
fn meaningless(random: &mut Random) -> Vec<u8> {
    let mut bytes = Vec::new();
    if !random.one_in(3) {
        let (points, rows) = (random.below(2) as u32, 1 + random.below(2) as u32);
        bytes = Frame::new(random, points, rows).bytes;
    }
    if random.one_in(2) {
        let record = random.pick(&ROWS);
        bytes.extend(record.length.to_le_bytes());
        bytes.extend(record.kind.to_le_bytes());
    }
    // Mostly zeros, so that some floats are finite and some codes are among their values.
    let dense = random.pick(&[1, 4, 64, 512]);
    let more = random.below(1500);
    bytes.extend((0..more).map(|_| match random.one_in(dense) {
        true => random.bits() as u8,
        false => 0,
    }));
    bytes
}
