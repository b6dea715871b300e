//! A refusal in words: which record, which field, and what is wrong with it.

use crate::Answer;
use crate::layout::{
    HEAD, Holds, MOST, OVERFLOW, POINT, ROWS, Record, SCALAR, START, u16_at, u32_at,
};

/// Says in words why [`check`](crate::check) or [`run`](crate::run) answered so of this frame: which point or row, which field by name,
/// and what is wrong. Records are numbered from 0. Empty if the frame is accepted.
pub fn explain(frame: &[u8], answer: Answer) -> String {
    if answer.accepted() {
        return String::new();
    }
    told(frame, answer).unwrap_or_else(|| format!("this is not what {answer} was said of"))
}

/// None if the answer is not this frame's.
fn told(frame: &[u8], answer: Answer) -> Option<String> {
    let place = usize::try_from(answer.place).ok()?;
    match answer.number {
        8 => {
            let more = frame.len().checked_sub(place)?;
            let (bytes, follow) = if more == 1 {
                ("byte", "follows")
            } else {
                ("bytes", "follow")
            };
            Some(format!("{more} {bytes} {follow} the last record"))
        }
        number => {
            let at = located(frame, place)?;
            let which = at.which();
            let wrong = match number {
                1 => at.missing(frame),
                2 => at.not_due(frame)?,
                3..=6 => at.field(frame, place)?,
                7 => at.colour(frame)?,
                9 => at.clash(frame)?,
                _ => return None,
            };
            Some(format!("{which}{wrong}"))
        }
    }
}

/// Which of the frame's records.
#[derive(Clone, Copy)]
enum Which {
    Head,
    /// The number of a point or row, and how many the head says there are.
    Point(usize, u32),
    Row(usize, u32),
}

struct Located {
    which: Which,
    start: usize,
    /// The kind of the record, if it is one that is due there.
    record: Option<&'static Record>,
}

/// The row that a record starts, if it is one.
pub(crate) fn row_at(frame: &[u8], start: usize) -> Option<&'static Record> {
    let (length, kind) = (u32_at(frame, start)?, u16_at(frame, start + 4)?);
    let mut rows = ROWS.iter().copied();
    rows.find(|record| (record.length, record.kind) == (length, kind))
}

/// The record that a place lies in, or that should start there.
fn located(frame: &[u8], place: usize) -> Option<Located> {
    if place < HEAD.size() {
        return Some(Located {
            which: Which::Head,
            start: 0,
            record: Some(&HEAD),
        });
    }
    let (points, rows) = (u32_at(frame, 6)?, u32_at(frame, 10)?);
    let point = (place - HEAD.size()) / POINT.size();
    if point < points as usize {
        return Some(Located {
            which: Which::Point(point, points),
            start: HEAD.size() + point * POINT.size(),
            record: Some(&POINT),
        });
    }
    let mut start = HEAD.size() + points as usize * POINT.size();
    for row in 0..(rows as usize).min(MOST) {
        let record = row_at(frame, start);
        let size = record.map_or(1, Record::size);
        if place < start + size {
            return Some(Located {
                which: Which::Row(row, rows),
                start,
                record,
            });
        }
        start += record?.size();
    }
    None
}

impl Located {
    fn which(&self) -> String {
        match (self.which, self.record) {
            (Which::Head, _) => "the head".into(),
            (Which::Point(number, of), _) => format!("point {number} of {of}"),
            (Which::Row(number, of), None) => format!("row {number} of {of}"),
            (Which::Row(number, of), Some(record)) => {
                format!("row {number} of {of} ({})", record.name)
            }
        }
    }

    fn missing(&self, frame: &[u8]) -> String {
        let left = frame.len().saturating_sub(self.start);
        match self.record {
            Some(record) if left >= START => {
                format!(
                    " is not whole: it takes {} bytes, and {left} remain",
                    record.size()
                )
            }
            _ => format!(" is due, and {left} of the 6 bytes that start a record remain"),
        }
    }

    fn not_due(&self, frame: &[u8]) -> Option<String> {
        let (length, kind) = (u32_at(frame, self.start)?, u16_at(frame, self.start + 4)?);
        let due = match self.which {
            Which::Head => &[&HEAD][..],
            Which::Point(..) => &[&POINT],
            Which::Row(..) => &ROWS,
        };
        let due: Vec<_> = due
            .iter()
            .map(|it| format!("kind {} with length {} ({})", it.kind, it.length, it.name))
            .collect();
        Some(format!(
            ": kind {kind} with length {length} is not due here, but {}",
            due.join(", or ")
        ))
    }

    /// What is wrong with the field at a place: numbers 3 to 6.
    fn field(&self, frame: &[u8], place: usize) -> Option<String> {
        let mut parts = self.record?.parts();
        let (_, part) = parts.find(|(at, _)| self.start + at == place)?;
        let name = part.name();
        let float = |at| Some(f32::from_bits(u32_at(frame, at)?));
        Some(match part.field.holds {
            Holds::Count32(most) => format!(": {name} is {}, above {most}", u32_at(frame, place)?),
            Holds::Count16(most) => format!(": {name} is {}, above {most}", u16_at(frame, place)?),
            Holds::Code(values) => {
                let value = u16_at(frame, place)?;
                format!(": {name} is {value}, not {}", listed(values))
            }
            Holds::Cap if float(place)? < 0.0 => format!(": {name} is {}, below 0", float(place)?),
            Holds::Float | Holds::Cap => {
                format!(": {name} is {}, not finite", unusual(u32_at(frame, place)?))
            }
            Holds::Bound if float(place)?.is_nan() => format!(
                ": {name} is {}; it may be infinite, but no NaN",
                unusual(u32_at(frame, place)?)
            ),
            Holds::Bound => {
                let (lower, upper) = (float(place)?, float(place + 4)?);
                format!(": {name} {lower} is above the upper one, {upper}")
            }
            Holds::Colour | Holds::Id => return None,
        })
    }

    fn colour(&self, frame: &[u8]) -> Option<String> {
        let colour = u16_at(frame, self.start + START)?;
        let Which::Row(number, _) = self.which else {
            return None;
        };
        let before = rows(frame)?.nth(number.checked_sub(1)?)?;
        let other = u16_at(frame, before.0 + START)?;
        Some(format!(
            ": colour is {colour}, less than {other}, the row's before it"
        ))
    }

    fn clash(&self, frame: &[u8]) -> Option<String> {
        let points = u32_at(frame, 6)?;
        let colour = u16_at(frame, self.start + START)?;
        let own = named(frame, self.start, self.record?)?;
        let earlier = rows(frame)?
            .enumerate()
            .take_while(|row| row.1.0 < self.start);
        for (number, (start, record)) in earlier {
            if u16_at(frame, start + START)? != colour || colour == OVERFLOW {
                continue;
            }
            let others = named(frame, start, record)?;
            let mut shared = own.iter().filter(|id| **id < points && others.contains(id));
            if let Some(id) = shared.next() {
                return Some(format!(
                    " names point {id}, as does row {number} ({}) of the same colour, {colour}",
                    record.name
                ));
            }
        }
        None
    }
}

/// The rows of a frame, where they start and their kinds, as far as they can be told.
pub(crate) fn rows(frame: &[u8]) -> Option<impl Iterator<Item = (usize, &'static Record)>> {
    let (points, rows) = (u32_at(frame, 6)?, u32_at(frame, 10)?);
    let first = HEAD.size() + points as usize * POINT.size();
    let from = |start| Some((start, row_at(frame, start)?));
    let each = std::iter::successors(from(first), move |(start, record)| {
        from(start + record.size())
    });
    Some(each.take(rows as usize))
}

/// The ids that a row names.
fn named(frame: &[u8], start: usize, record: &Record) -> Option<Vec<u32>> {
    let count = match record.kind == SCALAR.kind {
        true => u16_at(frame, start + record.offset("count")?)?.min(4),
        false => 4,
    };
    let ids = start + record.offset("ids")?;
    (0..usize::from(count))
        .map(|i| u32_at(frame, ids + 4 * i))
        .collect()
}

/// The values of a code with their meanings: `0 (no) or 1 (yes)`.
fn listed(values: &[&str]) -> String {
    let each: Vec<_> = values
        .iter()
        .enumerate()
        .map(|(value, name)| format!("{value} ({name})"))
        .collect();
    match each.split_last() {
        Some((last, rest)) if !rest.is_empty() => format!("{} or {last}", rest.join(", ")),
        _ => each.join(""),
    }
}

/// An f32 that is not finite.
fn unusual(bits: u32) -> String {
    match f32::from_bits(bits) {
        x if x.is_nan() => format!("a NaN (0x{bits:08X})"),
        x if x > 0.0 => "plus infinity".into(),
        _ => "minus infinity".into(),
    }
}
