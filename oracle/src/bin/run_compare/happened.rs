//! What the frames had in them and what a run did, counted. Nothing here enters the comparison.

use oracle::frames::Frame;
use oracle::layout::{COROTATIONAL, MOST, OVERFLOW, Record, SCALAR};
use oracle::words::NAN;
use std::collections::{HashMap, HashSet};

/// All that is counted, in the order in which it is printed.
const LABELS: &[&str] = &[
    "mode 0",
    "mode 1 (update)",
    "mode 2 (warm)",
    "mode 3 (update, warm)",
    "resweeps 0",
    "resweeps 1 to 63",
    "resweeps 64",
    "no points",
    "no rows",
    "4,096 points",
    "4,096 rows",
    "rows: distance, count 0",
    "rows: distance, count 1",
    "rows: distance, count 2",
    "rows: distance, count 3",
    "rows: distance, count 4",
    "rows: dihedral, count 0",
    "rows: dihedral, count 1",
    "rows: dihedral, count 2",
    "rows: dihedral, count 3",
    "rows: dihedral, count 4",
    "rows: cell volume, count 0",
    "rows: cell volume, count 1",
    "rows: cell volume, count 2",
    "rows: cell volume, count 3",
    "rows: cell volume, count 4",
    "rows: corotational, volumetric 0",
    "rows: corotational, volumetric 1",
    "rows: neo-Hookean",
    "rows of the overflow",
    "rows of the overflow that share a point with an earlier one",
    "ids in range",
    "ids 0xFFFFFFFF",
    "ids out of range",
    "rows that name a point twice",
    "rows with a zero mass",
    "updates: strained stays 0",
    "updates: strained stays 1",
    "updates: strained becomes 0",
    "updates: strained becomes 1",
    "no update: strained 0",
    "no update: strained 1, reswept",
    "no update: strained dihedral or cell volume, reswept",
    "updates: cell is inverted",
    "updates: cell is not inverted",
    "updates: inverted becomes 0",
    "updates: neo-Hookean block kept",
    "updates: neo-Hookean block renewed",
    "updates: neo-Hookean block renewed, without an inverse",
    "updates: peak impulse raised",
    "impulse ends at its lower bound",
    "impulse ends at its upper bound",
    "rows that end with a NaN",
    "rows that end with an infinity",
    "rows that end with a subnormal",
    "velocities altered",
    "velocities that end with a NaN",
    "velocities that end with an infinity",
    "frames whose run alters nothing",
];

const TYPES: [&str; 3] = ["distance", "dihedral", "cell volume"];

#[derive(Default)]
pub struct Happened {
    counts: HashMap<String, u64>,
    /// How often each number was given.
    numbers: [u64; 10],
}

/// A row before and after a run.
struct Row<'a> {
    before: &'a Frame,
    after: &'a Frame,
    number: usize,
    record: &'static Record,
    mode: u32,
}

impl Row<'_> {
    fn before(&self, name: &str) -> u32 {
        self.before.get(self.number, name, 0)
    }

    fn after(&self, name: &str) -> u32 {
        self.after.get(self.number, name, 0)
    }

    fn updated(&self) -> bool {
        self.mode & 1 != 0
    }

    /// All parts of a field afterwards.
    fn all(&self, name: &str, parts: usize) -> Vec<u32> {
        (0..parts)
            .map(|part| self.after.get(self.number, name, part))
            .collect()
    }
}

impl Happened {
    /// Counts an answer.
    pub fn refused(&mut self, number: u32) {
        self.numbers[number as usize] += 1;
    }

    fn hit(&mut self, label: &str) {
        match self.counts.get_mut(label) {
            Some(count) => *count += 1,
            None => {
                assert!(LABELS.contains(&label), "{label}: not listed");
                self.counts.insert(label.into(), 1);
            }
        }
    }

    fn hit_if(&mut self, happened: bool, label: &str) {
        if happened {
            self.hit(label);
        }
    }

    /// Counts what an accepted frame has in it, and what its run did.
    pub fn mark(&mut self, before: &Frame, after: &Frame) {
        let head = |name| before.get(0, name, 0);
        let (mode, resweeps) = (head("mode"), head("resweeps"));
        self.hit(LABELS[mode as usize]);
        self.hit(match resweeps {
            0 => "resweeps 0",
            64 => "resweeps 64",
            _ => "resweeps 1 to 63",
        });
        let (points, rows) = (head("points"), head("rows"));
        self.hit_if(points == 0, "no points");
        self.hit_if(rows == 0, "no rows");
        self.hit_if(points == MOST, "4,096 points");
        self.hit_if(rows == MOST, "4,096 rows");
        self.hit_if(
            before.bytes == after.bytes,
            "frames whose run alters nothing",
        );
        for point in 1..before.rows().start {
            self.mark_point(before, after, point);
        }
        let mut shared = HashSet::new();
        for number in before.rows() {
            let row = Row {
                before,
                after,
                number,
                record: before.records[number].1,
                mode,
            };
            self.mark_ids(&row, points, &mut shared);
            self.mark_flags(&row, resweeps);
            match row.record.kind == SCALAR.kind {
                true => self.mark_scalar(&row),
                false => self.mark_elastic(&row),
            }
            self.mark_floats(&row);
        }
    }

    fn mark_point(&mut self, before: &Frame, after: &Frame, point: usize) {
        let now: Vec<_> = (0..3).map(|i| after.get(point, "velocity", i)).collect();
        let altered = (0..3).any(|i| before.get(point, "velocity", i) != now[i]);
        self.hit_if(altered, "velocities altered");
        self.hit_if(now.contains(&NAN), "velocities that end with a NaN");
        let infinite = now.iter().any(|&bits| f32::from_bits(bits).is_infinite());
        self.hit_if(infinite, "velocities that end with an infinity");
    }

    fn mark_ids(&mut self, row: &Row, points: u32, shared: &mut HashSet<u32>) {
        let count = row.before.count(row.number);
        let ids: Vec<_> = (0..count)
            .map(|i| row.before.get(row.number, "ids", i))
            .collect();
        for &id in &ids {
            self.hit(match id {
                u32::MAX => "ids 0xFFFFFFFF",
                _ if id < points => "ids in range",
                _ => "ids out of range",
            });
        }
        let named: Vec<_> = ids.into_iter().filter(|&id| id < points).collect();
        let twice = (0..named.len()).any(|i| named[..i].contains(&named[i]));
        self.hit_if(twice, "rows that name a point twice");
        if row.before("colour") == u32::from(OVERFLOW) {
            self.hit("rows of the overflow");
            self.hit_if(
                named.iter().any(|id| shared.contains(id)),
                "rows of the overflow that share a point with an earlier one",
            );
            shared.extend(named);
        }
        let massless = |i| row.before.get(row.number, "im", i) << 1 == 0;
        self.hit_if((0..count).any(massless), "rows with a zero mass");
    }

    fn mark_flags(&mut self, row: &Row, resweeps: u32) {
        let flags = (row.before("strained"), row.after("strained"));
        if row.updated() {
            self.hit(match flags {
                (0, 0) => "updates: strained stays 0",
                (0, _) => "updates: strained becomes 1",
                (_, 0) => "updates: strained becomes 0",
                _ => "updates: strained stays 1",
            });
            return;
        }
        if flags.0 == 0 || resweeps == 0 {
            return self.hit_if(flags.0 == 0, "no update: strained 0");
        }
        self.hit("no update: strained 1, reswept");
        let never = row.record.kind == SCALAR.kind && row.before("type") != 0;
        self.hit_if(
            never,
            "no update: strained dihedral or cell volume, reswept",
        );
    }

    fn mark_scalar(&mut self, row: &Row) {
        let kind = TYPES[row.before("type") as usize];
        self.hit(&format!("rows: {kind}, count {}", row.before("count")));
        let raised = row.after("peak_impulse") != row.before("peak_impulse");
        self.hit_if(raised, "updates: peak impulse raised");
        let impulse = row.after("impulse");
        self.hit_if(
            impulse == row.after("lower bound"),
            "impulse ends at its lower bound",
        );
        self.hit_if(
            impulse == row.after("upper bound"),
            "impulse ends at its upper bound",
        );
    }

    fn mark_elastic(&mut self, row: &Row) {
        let corotational = row.record.kind == COROTATIONAL.kind;
        match corotational {
            true => self.hit(match row.before("volumetric") {
                0 => "rows: corotational, volumetric 0",
                _ => "rows: corotational, volumetric 1",
            }),
            false => self.hit("rows: neo-Hookean"),
        }
        if !row.updated() {
            return;
        }
        self.hit(match row.after("inverted") {
            0 => "updates: cell is not inverted",
            _ => "updates: cell is inverted",
        });
        let turned = row.before("inverted") != 0 && row.after("inverted") == 0;
        self.hit_if(turned, "updates: inverted becomes 0");
        if corotational {
            return;
        }
        // Where the block is renewed, some part of the strain lies elsewhere, or is a NaN, which no part was before.
        let renewed = (0..6).any(|part| {
            let of = |frame: &Frame| frame.get(row.number, "stiffness_strain", part);
            of(row.before) != of(row.after)
        });
        self.hit(match renewed {
            true => "updates: neo-Hookean block renewed",
            false => "updates: neo-Hookean block kept",
        });
        if renewed && row.after("inv_a") == 0 {
            let zeros = row.all("inv_a", 36).iter().all(|&bits| bits == 0);
            self.hit_if(
                zeros,
                "updates: neo-Hookean block renewed, without an inverse",
            );
        }
    }

    fn mark_floats(&mut self, row: &Row) {
        let start = row.after.records[row.number].0;
        let record = &row.after.bytes[start..start + row.record.size()];
        // From `pos` on all fields are floats; the bounds of a scalar row may be infinite from the start.
        let end = record.len() - if row.record.kind == SCALAR.kind { 8 } else { 0 };
        let floats = record[row.record.offset("pos")..end].chunks_exact(4);
        let floats = floats.map(|it| f32::from_le_bytes([it[0], it[1], it[2], it[3]]));
        let (mut nan, mut infinite, mut subnormal) = (false, false, false);
        for x in floats {
            nan |= x.is_nan();
            infinite |= x.is_infinite();
            subnormal |= x.is_subnormal();
        }
        self.hit_if(nan, "rows that end with a NaN");
        self.hit_if(infinite, "rows that end with an infinity");
        self.hit_if(subnormal, "rows that end with a subnormal");
    }

    fn count(&self, label: &str) -> u64 {
        self.counts.get(label).copied().unwrap_or(0)
    }

    /// Whether something of the list never happened, or some number was never given.
    pub fn missing(&self) -> bool {
        self.numbers.contains(&0) || LABELS.iter().any(|label| self.count(label) == 0)
    }

    pub fn print(&self) {
        for (number, count) in self.numbers.iter().enumerate() {
            println!("    {count:>9} number {number}");
        }
        for label in LABELS {
            println!("    {:>9} {label}", self.count(label));
        }
    }
}
