//! Whole runs: the frame's bytes and the order of its rows are ours, the sweeps are the listed Rust's own.
//!
//! A frame is read once into the listed structs, swept by `solve_color_constraint` and `resweep_strained_constraints` of
//! soft_constraint_solve.rs, and written back at the end. The Rust takes the scalar rows of a range before its elastic ones; the
//! frame's listing binds. So the ranges are cut where an elastic row is followed by a scalar one: then both orders are one.

use crate::check::check;
use crate::dynamics::solver::soft_constraints_set::{
    SoftColorRange, SoftConstraintsSet, SoftGroupLayout,
};
use crate::layout::{COROTATIONAL, HEAD, NEO_HOOKEAN, POINT, Record, SCALAR, START};
use crate::rows::{CorotationalRow, NeoHookeanRow, Point, Row, ScalarRow};
use crate::support::bodies::{SolverBodies, SolverPose, SolverVel};
use crate::support::real::Real;
use crate::words::{Words, value_of};

/// A row's fields from its colour on: four of two bytes, then all others of four.
const CODES: usize = 4;

/// What the run of a frame returns; the frame is afterwards as the run leaves it.
pub fn run(frame: &mut [u8]) -> (u32, u64) {
    let answer = check(frame);
    if answer == (0, 0) {
        let mut sheet = Sheet::default();
        sheet.read(frame);
        sheet.sweeps();
        sheet.write(frame);
    }
    answer
}

/// Where a row lies in the frame, and what is kept of it beside the listed struct.
struct Listed {
    start: usize,
    record: &'static Record,
    colour: u32,
    /// Its number among the scalar rows, or among the elastic ones.
    number: usize,
}

/// An accepted frame as the listed Rust has it.
#[derive(Default)]
pub struct Sheet {
    mode: u32,
    resweeps: u32,
    warm_coefficient: Real,
    least_strain: Real,
    bodies: SolverBodies,
    set: SoftConstraintsSet,
    /// The set's own once more, to be lent beside it.
    ranges: Vec<SoftColorRange>,
    rows: Vec<Listed>,
}

impl Sheet {
    /// Reads an accepted frame. What was read before goes; its memory is used again.
    pub fn read(&mut self, frame: &[u8]) {
        let field = |name| HEAD.offset(name);
        self.mode = u16_at(frame, field("mode"));
        self.resweeps = u16_at(frame, field("resweeps"));
        self.warm_coefficient = Real::from_bits(u32_at(frame, field("warm coefficient")));
        self.least_strain = Real::from_bits(u32_at(frame, field("least strain")));
        self.clear();
        let (points, rows) = (u32_at(frame, field("points")), u32_at(frame, field("rows")));
        let (points, rest) = frame[HEAD.size()..].split_at(points as usize * POINT.size());
        for point in points.chunks_exact(POINT.size()) {
            self.read_point(point);
        }
        let (mut start, mut elastic_flags) = (frame.len() - rest.len(), Vec::new());
        let mut words = Vec::new();
        for _ in 0..rows {
            let record = kind_at(frame, start);
            read_words(&frame[start..start + record.size()], &mut words);
            self.read_row(start, record, &words, &mut elastic_flags);
            start += record.size();
        }
        self.set.strained.append(&mut elastic_flags);
        self.set.color_ranges.clone_from(&self.ranges);
        self.set.groups = vec![SoftGroupLayout {
            colors: 0..self.ranges.len(),
            ..Default::default()
        }];
    }

    fn clear(&mut self) {
        self.bodies.poses.clear();
        self.bodies.vels.clear();
        self.set.scalar_constraints.clear();
        self.set.elastic_constraints.clear();
        self.set.strained.clear();
        self.ranges.clear();
        self.rows.clear();
    }

    fn read_point(&mut self, record: &[u8]) {
        let words: [u32; 6] = std::array::from_fn(|i| u32_at(record, START + 4 * i));
        let point: Point = value_of(&words);
        self.bodies.poses.push(SolverPose {
            translation: point.position,
        });
        self.bodies.vels.push(SolverVel {
            linear: point.velocity,
        });
    }

    /// Adds a row. The flags of all scalar rows come before those of the elastic rows, which are collected aside.
    fn read_row(
        &mut self,
        start: usize,
        record: &'static Record,
        words: &[u32],
        elastic_flags: &mut Vec<bool>,
    ) {
        let strained = words[1] != 0;
        let set = &mut self.set;
        let (scalars, elastics) = (set.scalar_constraints.len(), set.elastic_constraints.len());
        let scalar = record.kind == SCALAR.kind;
        if scalar {
            let row: ScalarRow = value_of(words);
            set.scalar_constraints.push(row.to_listed());
            set.strained.push(strained);
        } else {
            let listed = match record.kind == COROTATIONAL.kind {
                true => value_of::<CorotationalRow>(words).to_listed(),
                false => value_of::<NeoHookeanRow>(words).to_listed(),
            };
            set.elastic_constraints.push(listed);
            elastic_flags.push(strained);
        }
        self.rows.push(Listed {
            start,
            record,
            colour: words[0],
            number: if scalar { scalars } else { elastics },
        });
        let last = self.ranges.last();
        if last.is_none_or(|range| scalar && !range.elastic_constraints.is_empty()) {
            self.ranges.push(SoftColorRange {
                scalar_constraints: scalars..scalars,
                elastic_constraints: elastics..elastics,
            });
        }
        let range = self.ranges.last_mut().expect("one was pushed");
        match scalar {
            true => range.scalar_constraints.end += 1,
            false => range.elastic_constraints.end += 1,
        }
    }

    /// The main sweep and the resweeps.
    pub fn sweeps(&mut self) {
        let update = self.mode & 1 != 0;
        let warmstart = (self.mode & 2 != 0).then_some(self.warm_coefficient);
        for range in &self.ranges {
            for idx in 0..range.len() {
                self.set.solve_color_constraint(
                    range,
                    idx,
                    &mut self.bodies,
                    update,
                    warmstart,
                    self.least_strain,
                );
            }
        }
        for _ in 0..self.resweeps {
            self.set.resweep_strained_constraints(0, &mut self.bodies);
        }
    }

    /// Writes velocities and rows back to the frame that was read. What the Rust did not assign is written as it was read: no float
    /// of an accepted frame is a NaN, the only value whose bytes could change on the way.
    pub fn write(&self, frame: &mut [u8]) {
        let velocity = POINT.offset("velocity");
        let mut words = Vec::new();
        for (number, vel) in self.bodies.vels.iter().enumerate() {
            words.clear();
            vel.linear.write(&mut words);
            let start = HEAD.size() + number * POINT.size() + velocity;
            write_words(&words, &mut frame[start..start + 12]);
        }
        for row in &self.rows {
            words.clear();
            self.row_words(row, &mut words);
            let record = &mut frame[row.start..row.start + row.record.size()];
            let (codes, rest) = record[START..].split_at_mut(2 * CODES);
            for (code, word) in codes.chunks_exact_mut(2).zip(&words) {
                code.copy_from_slice(&(*word as u16).to_le_bytes());
            }
            write_words(&words[CODES..], rest);
        }
    }

    fn row_words(&self, row: &Listed, words: &mut Vec<u32>) {
        let set = &self.set;
        if row.record.kind == SCALAR.kind {
            let (listed, strained) = (
                &set.scalar_constraints[row.number],
                set.strained[row.number],
            );
            return ScalarRow::of(row.colour, strained, listed).write(words);
        }
        let listed = &set.elastic_constraints[row.number];
        let strained = set.strained[set.scalar_constraints.len() + row.number];
        match row.record.kind == COROTATIONAL.kind {
            true => CorotationalRow::of(row.colour, strained, listed).write(words),
            false => NeoHookeanRow::of(row.colour, strained, listed).write(words),
        }
    }
}

/// The kind of the row that starts there.
fn kind_at(frame: &[u8], start: usize) -> &'static Record {
    match u16_at(frame, start + 4) {
        kind if kind == u32::from(SCALAR.kind) => &SCALAR,
        kind if kind == u32::from(COROTATIONAL.kind) => &COROTATIONAL,
        _ => &NEO_HOOKEAN,
    }
}

/// The words of a row's record.
fn read_words(record: &[u8], words: &mut Vec<u32>) {
    let (codes, rest) = record[START..].split_at(2 * CODES);
    words.clear();
    words.extend(codes.chunks_exact(2).map(|code| u16_at(code, 0)));
    words.extend(rest.chunks_exact(4).map(|word| u32_at(word, 0)));
}

fn write_words(words: &[u32], bytes: &mut [u8]) {
    for (place, word) in bytes.chunks_exact_mut(4).zip(words) {
        place.copy_from_slice(&word.to_le_bytes());
    }
}

fn u16_at(bytes: &[u8], at: usize) -> u32 {
    u16::from_le_bytes([bytes[at], bytes[at + 1]]).into()
}

fn u32_at(bytes: &[u8], at: usize) -> u32 {
    u32::from_le_bytes([bytes[at], bytes[at + 1], bytes[at + 2], bytes[at + 3]])
}
