//! Frames that `check` accepts, made record by record.

use super::number_at;
use crate::inputs::{finite_pattern, finite_special};
use crate::layout::{HEAD, Holds, OVERFLOW, POINT, ROWS, Record, SCALAR};
use crate::random::Random;

/// Where a record starts, and its kind.
pub type Placed = (usize, &'static Record);

/// A frame, and where its records start.
#[derive(Clone, Debug, Default)]
pub struct Frame {
    pub bytes: Vec<u8>,
    pub records: Vec<Placed>,
}

impl Frame {
    /// A head for so many points and rows, and the points.
    pub fn new(random: &mut Random, points: u32, rows: u32) -> Self {
        let mut frame = Self::default();
        frame.push(random, &HEAD);
        frame.put(0, "points", 0, points);
        frame.put(0, "rows", 0, rows);
        for _ in 0..points {
            frame.push(random, &POINT);
        }
        frame
    }

    /// Adds a record with allowed values by chance; counts of a head and a row's colour are 0, and the ids are out of range. Gives its
    /// number in `records`.
    pub fn push(&mut self, random: &mut Random, record: &'static Record) -> usize {
        let start = self.bytes.len();
        self.bytes.extend(record.length.to_le_bytes());
        self.bytes.extend(record.kind.to_le_bytes());
        let (mut lower, mut upper) = (bound(random), bound(random));
        if lower > upper {
            (lower, upper) = (upper, lower);
        }
        for part in record.parts() {
            let value = match part.field.holds {
                Holds::Count32(_) | Holds::Colour => 0,
                Holds::Count16(most) | Holds::Code(most) => {
                    random.below(usize::from(most) + 1) as u32
                }
                Holds::Id => u32::MAX - part.index as u32,
                Holds::Float => float(random).to_bits(),
                Holds::Cap if random.one_in(8) => (-0.0f32).to_bits(),
                Holds::Cap => float(random).abs().to_bits(),
                Holds::LowerBound => lower.to_bits(),
                Holds::UpperBound => upper.to_bits(),
            };
            let bytes = value.to_le_bytes();
            self.bytes.extend(&bytes[..part.field.holds.width()]);
        }
        self.records.push((start, record));
        self.records.len() - 1
    }

    /// Adds a record of these words, one for each part of its fields. Gives its number in `records`.
    pub fn push_words(&mut self, record: &'static Record, words: &[u32]) -> usize {
        let start = self.bytes.len();
        self.bytes.extend(record.length.to_le_bytes());
        self.bytes.extend(record.kind.to_le_bytes());
        let mut words = words.iter();
        for (part, word) in record.parts().zip(&mut words) {
            self.bytes
                .extend(&word.to_le_bytes()[..part.field.holds.width()]);
        }
        assert!(words.next().is_none(), "too many words");
        assert_eq!(self.bytes.len(), start + record.size(), "too few words");
        self.records.push((start, record));
        self.records.len() - 1
    }

    /// Where one part of a field of a record lies, and how many bytes it takes.
    fn place(&self, number: usize, name: &str, index: usize) -> (usize, usize) {
        let (start, record) = self.records[number];
        let mut parts = record.parts();
        let part = parts.find(|part| part.field.name == name && part.index == index);
        let part = part.expect("a part of this record");
        (start + part.offset, part.field.holds.width())
    }

    /// Writes one part of a field of a record.
    pub fn put(&mut self, number: usize, name: &str, index: usize, value: u32) {
        let (at, width) = self.place(number, name, index);
        self.bytes[at..at + width].copy_from_slice(&value.to_le_bytes()[..width]);
    }

    /// Reads one part of a field of a record.
    pub fn get(&self, number: usize, name: &str, index: usize) -> u32 {
        let (at, width) = self.place(number, name, index);
        number_at(&self.bytes, at, width)
    }

    /// The words of a record, one for each part of its fields.
    pub fn words(&self, number: usize) -> Vec<u32> {
        let (start, record) = self.records[number];
        let parts = record.parts();
        parts
            .map(|part| number_at(&self.bytes, start + part.offset, part.field.holds.width()))
            .collect()
    }

    /// The numbers in `records` of the rows.
    pub fn rows(&self) -> std::ops::Range<usize> {
        let is_row = |placed: &Placed| placed.1.kind > POINT.kind;
        let first = self.records.iter().position(is_row);
        first.unwrap_or(self.records.len())..self.records.len()
    }

    /// Writes the four ids of a row.
    pub fn put_ids(&mut self, number: usize, ids: [u32; 4]) {
        for (index, id) in ids.into_iter().enumerate() {
            self.put(number, "ids", index, id);
        }
    }

    /// How many ids a row names.
    pub fn count(&self, number: usize) -> usize {
        let (start, record) = self.records[number];
        match record.kind == SCALAR.kind {
            true => usize::from(self.bytes[start + record.offset("count")]),
            false => 4,
        }
    }
}

/// A finite number: plain, special or any.
fn float(random: &mut Random) -> f32 {
    match random.below(4) {
        0 => finite_special(random),
        1 => finite_pattern(random),
        2 => 0.0,
        _ => random.unit(),
    }
}

/// An impulse bound: any number, an infinity too.
fn bound(random: &mut Random) -> f32 {
    match random.below(4) {
        0 => f32::INFINITY,
        1 => f32::NEG_INFINITY,
        _ => float(random),
    }
}

/// Ids that are out of range where there are at most 4,096 points.
const FAR: [u32; 7] = [
    4096,
    4097,
    0xFFFF,
    0x1_0000,
    0x8000_0000,
    u32::MAX - 1,
    u32::MAX,
];

/// Which points the rows of the present colour name already.
pub(super) struct Taken {
    pub(super) points: u32,
    pub(super) colour: u32,
    /// For each point the last colour that named it, plus one.
    pub(super) last: Vec<u32>,
}

impl Taken {
    /// An id for a row of this colour to name: mostly a point in range, never one that is taken.
    pub(super) fn free(&self, random: &mut Random) -> u32 {
        for _ in 0..8 {
            if self.points == 0 || random.one_in(8) {
                break;
            }
            let id = random.below(self.points as usize) as u32;
            if self.last[id as usize] != self.colour + 1 {
                return id;
            }
        }
        match random.below(3) {
            0 => self.points,
            1 => self.points + 1 + random.bits() % 0x8000_0000,
            _ => random.pick(&FAR),
        }
    }

    /// The ids of a row that names the first `count` of them. It may name a point twice; the others may be any.
    fn ids(&mut self, random: &mut Random, count: usize) -> [u32; 4] {
        let mut ids = [0; 4];
        for index in 0..4 {
            ids[index] = if index >= count || self.colour == u32::from(OVERFLOW) {
                random.below(self.points as usize + 2) as u32
            } else if index > 0 && random.one_in(8) {
                ids[index - 1]
            } else {
                self.free(random)
            };
        }
        for &id in ids[..count].iter().filter(|&&id| id < self.points) {
            self.last[id as usize] = self.colour + 1;
        }
        ids
    }
}

/// How colours go from row to row.
pub(super) struct Colours {
    pub(super) now: u32,
    /// One row in so many has another colour than the row before, one in so many begins the overflow; 0 for none.
    pub(super) step: usize,
    pub(super) overflow: usize,
}

impl Colours {
    pub(super) fn new(random: &mut Random, rows: usize) -> Self {
        Self {
            now: random.pick(&[0, 0, 0, 1, 255, 256, 65534, 65535]),
            step: random.pick(&[0, 1, 2, 8, 64]),
            overflow: random.pick(&[0, 2, rows, rows]),
        }
    }

    pub(super) fn next(&mut self, random: &mut Random) -> u32 {
        if self.step != 0 && random.one_in(self.step) {
            let up = random.pick(&[1, 1, 1, 2, 255, 256]);
            self.now = (self.now + up).min(OVERFLOW.into());
        }
        if self.overflow != 0 && random.one_in(self.overflow) {
            self.now = OVERFLOW.into();
        }
        self.now
    }
}

/// An accepted frame with rows of these kinds: colours never fall, and rows of one colour share no point, the overflow apart.
pub fn accepted(random: &mut Random, points: u32, kinds: &[&'static Record]) -> Frame {
    let mut frame = Frame::new(random, points, kinds.len() as u32);
    let mut colours = Colours::new(random, kinds.len());
    let mut taken = Taken {
        points,
        colour: 0,
        last: vec![0; points as usize],
    };
    for record in kinds {
        let row = frame.push(random, record);
        taken.colour = colours.next(random);
        frame.put(row, "colour", 0, taken.colour);
        let count = frame.count(row);
        frame.put_ids(row, taken.ids(random, count));
    }
    frame
}

/// Kinds of so many rows: all of one, or mixed.
pub fn kinds(random: &mut Random, rows: usize) -> Vec<&'static Record> {
    let few = random.pick(&[&ROWS[..], &ROWS, &ROWS[..1], &ROWS[1..2], &ROWS[2..]]);
    (0..rows).map(|_| random.pick(few)).collect()
}
