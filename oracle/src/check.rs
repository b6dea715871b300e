//! An independent `check`, written from document 01 alone ("Returned by check and by run", "The frame") and from the readings of
//! its open points, for the proved one to be held against. It is meant to be read beside the table, and to be plain, not fast.

use crate::layout::{HEAD, Holds, OVERFLOW, POINT, Part, ROWS, Record, SCALAR, START};
use std::collections::HashSet;

/// Why a frame is refused, and where.
#[derive(Clone, Copy, PartialEq, Eq, Debug)]
pub struct Refusal {
    /// From document 01's table, as is the place, a byte offset in the frame.
    pub number: u32,
    pub place: usize,
    /// What the place is called: a record and a field with its part, or a record and what is wrong with it.
    pub record: &'static str,
    pub field: &'static str,
    pub part: usize,
}

impl Refusal {
    fn of_record(number: u32, place: usize, record: &'static str, field: &'static str) -> Self {
        Self {
            number,
            place,
            record,
            field,
            part: 0,
        }
    }
}

/// The number and the place that `check` has to return.
pub fn check(frame: &[u8]) -> (u32, u64) {
    match test(frame) {
        Ok(()) => (0, 0),
        Err(refusal) => (refusal.number, refusal.place as u64),
    }
}

/// What the test for 9 has to know of a row.
struct Row {
    start: usize,
    record: &'static Record,
    colour: u16,
    /// Those in range are below the number of points.
    named: Vec<u32>,
}

/// The whole table: each record in frame order, then 8, then 9.
pub fn test(frame: &[u8]) -> Result<(), Refusal> {
    test_record(frame, 0, "head", &[&HEAD], 0)?;
    let points = u32_at(frame, HEAD.offset("points"));
    let rows = u32_at(frame, HEAD.offset("rows"));
    let mut place = HEAD.size();
    for _ in 0..points {
        test_record(frame, place, "point", &[&POINT], 0)?;
        place += POINT.size();
    }
    let mut listed: Vec<Row> = Vec::new();
    for _ in 0..rows {
        let previous = listed.last().map_or(0, |row| row.colour);
        let record = test_record(frame, place, "row", &ROWS, previous)?;
        listed.push(row_at(frame, place, record));
        place += record.size();
    }
    if place < frame.len() {
        return Err(Refusal::of_record(8, place, "end", "extra byte"));
    }
    test_clashes(&listed, points)
}

/// Tests the record that starts at `start`, where one of `due` is due, and says which of them it is.
fn test_record(
    frame: &[u8],
    start: usize,
    name: &'static str,
    due: &[&'static Record],
    previous_colour: u16,
) -> Result<&'static Record, Refusal> {
    let rest = &frame[start..];
    if rest.len() < START {
        return Err(Refusal::of_record(1, start, name, "fewer than 6 bytes"));
    }
    let (length, kind) = (u32_at(rest, 0), u16_at(rest, 4));
    let mut due = due.iter();
    let Some(record) = due.find(|record| (record.length, record.kind) == (length, kind)) else {
        return Err(Refusal::of_record(2, start, name, "kind or length"));
    };
    if rest.len() < record.size() {
        return Err(Refusal::of_record(1, start, name, "not whole"));
    }
    for number in 3..=7 {
        for part in record.parts() {
            if fails(number, part, rest, previous_colour) {
                return Err(Refusal {
                    number,
                    place: start + part.offset,
                    record: record.name,
                    field: part.field.name,
                    part: part.index,
                });
            }
        }
    }
    Ok(record)
}

/// Whether a part of a record fails the test of that number, one of 3 to 7.
fn fails(number: u32, part: Part, record: &[u8], previous_colour: u16) -> bool {
    let at = part.offset;
    match (number, part.field.holds) {
        (3, Holds::Count32(most)) => u32_at(record, at) > most,
        (3, Holds::Count16(most)) => u16_at(record, at) > most,
        (4, Holds::Code(most)) => u16_at(record, at) > most,
        (5, Holds::Float | Holds::Cap) => !f32_at(record, at).is_finite(),
        (5, Holds::LowerBound | Holds::UpperBound) => f32_at(record, at).is_nan(),
        (6, Holds::LowerBound) => f32_at(record, at) > f32_at(record, at + 4),
        (6, Holds::Cap) => f32_at(record, at) < 0.0,
        (7, Holds::Colour) => u16_at(record, at) < previous_colour,
        _ => false,
    }
}

/// The row that starts at `start`, as 9 sees it.
fn row_at(frame: &[u8], start: usize, record: &'static Record) -> Row {
    let u16_of = |name| u16_at(frame, start + record.offset(name));
    let ids = start + record.offset("ids");
    let count = if record.kind == SCALAR.kind {
        usize::from(u16_of("count"))
    } else {
        4
    };
    Row {
        start,
        record,
        colour: u16_of("colour"),
        named: (0..count).map(|i| u32_at(frame, ids + 4 * i)).collect(),
    }
}

/// 9: the first row that names a point in range which an earlier row of its colour names too, the overflow apart.
fn test_clashes(rows: &[Row], points: u32) -> Result<(), Refusal> {
    let mut taken = HashSet::new();
    for row in rows.iter().filter(|row| row.colour != OVERFLOW) {
        let in_range = row.named.iter().filter(|&&id| id < points);
        let named: Vec<_> = in_range.map(|&id| (row.colour, id)).collect();
        if named.iter().any(|name| taken.contains(name)) {
            return Err(Refusal::of_record(9, row.start, row.record.name, "clash"));
        }
        taken.extend(named);
    }
    Ok(())
}

fn u16_at(bytes: &[u8], at: usize) -> u16 {
    u16::from_le_bytes([bytes[at], bytes[at + 1]])
}

fn u32_at(bytes: &[u8], at: usize) -> u32 {
    u32::from_le_bytes([bytes[at], bytes[at + 1], bytes[at + 2], bytes[at + 3]])
}

fn f32_at(bytes: &[u8], at: usize) -> f32 {
    f32::from_bits(u32_at(bytes, at))
}
