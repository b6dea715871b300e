//! What an accepted frame holds: its head, its rows by kind and by colour, and which are strained.

use crate::check;
use crate::explained::rows;
use crate::layout::{
    COROTATIONAL, HEAD, Holds, OVERFLOW, Record, SCALAR, START, TYPES, u16_at, u32_at,
};
use std::collections::BTreeMap;
use std::fmt;

/// The kinds of row that are told apart: the types of a scalar row, and the two elastic ones.
const KINDS: [&str; 5] = [
    "distance",
    "dihedral",
    "cell volume",
    "corotational",
    "neo-Hookean",
];
/// So many strained rows are named.
const NAMED: usize = 20;

/// A summary of an accepted frame, to be displayed.
#[derive(Clone, PartialEq, Debug)]
pub struct Summary {
    pub bytes: usize,
    pub points: u32,
    pub rows: u32,
    /// 0 to 3: bit 0 update, bit 1 warm start.
    pub mode: u16,
    pub resweeps: u16,
    pub warm_coefficient: f32,
    pub least_strain: f32,
    /// How many rows there are of each kind (distance, dihedral, cell volume, corotational, neo-Hookean), and how many of them are
    /// strained and inverted.
    pub kinds: [Kind; 5],
    /// For each colour how many rows there are of each kind; 65535 is the overflow.
    pub colours: BTreeMap<u16, [u32; 5]>,
    /// The numbers of the strained rows.
    pub strained: Vec<usize>,
}

/// Rows of one kind.
#[derive(Clone, Copy, PartialEq, Eq, Default, Debug)]
pub struct Kind {
    pub rows: u32,
    pub strained: u32,
    pub inverted: u32,
}

impl Summary {
    /// The summary of a frame, if it is accepted.
    pub fn of(frame: &[u8]) -> Option<Self> {
        if !check(frame).accepted() {
            return None;
        }
        let at = |name| HEAD.offset(name);
        let float = |name| Some(f32::from_bits(u32_at(frame, at(name)?)?));
        let mut summary = Self {
            bytes: frame.len(),
            points: u32_at(frame, at("points")?)?,
            rows: u32_at(frame, at("rows")?)?,
            mode: u16_at(frame, at("mode")?)?,
            resweeps: u16_at(frame, at("resweeps")?)?,
            warm_coefficient: float("warm coefficient")?,
            least_strain: float("least strain")?,
            kinds: Default::default(),
            colours: BTreeMap::new(),
            strained: Vec::new(),
        };
        for (number, (start, record)) in rows(frame)?.enumerate() {
            summary.count(number, &frame[start..start + record.size()], record)?;
        }
        Some(summary)
    }

    fn count(&mut self, number: usize, row: &[u8], record: &Record) -> Option<()> {
        // Colour, strained, and the third code: the type of a scalar row, else whether it is inverted.
        let code = |index: usize| u16_at(row, START + 2 * index);
        let scalar = record.kind == SCALAR.kind;
        let kind = match scalar {
            true => usize::from(code(2)?).min(TYPES.len() - 1),
            false => TYPES.len() + usize::from(record.kind - COROTATIONAL.kind),
        };
        let counts = &mut self.kinds[kind];
        counts.rows += 1;
        counts.inverted += u32::from(!scalar && code(2)? == 1);
        if code(1)? == 1 {
            counts.strained += 1;
            self.strained.push(number);
        }
        self.colours.entry(code(0)?).or_default()[kind] += 1;
        Some(())
    }
}

impl fmt::Display for Summary {
    fn fmt(&self, to: &mut fmt::Formatter) -> fmt::Result {
        let mut parts = HEAD.parts();
        let mode = parts.find(|(_, part)| part.field.name == "mode");
        let mode = match mode.map(|(_, part)| part.field.holds) {
            Some(Holds::Code(values)) => values.get(usize::from(self.mode)).copied().unwrap_or(""),
            _ => "",
        };
        writeln!(to, "bytes             {}", self.bytes)?;
        writeln!(to, "points            {}", self.points)?;
        writeln!(to, "rows              {}", self.rows)?;
        writeln!(to, "mode              {} ({mode})", self.mode)?;
        writeln!(to, "resweeps          {}", self.resweeps)?;
        writeln!(to, "warm coefficient  {}", self.warm_coefficient)?;
        writeln!(to, "least strain      {}", self.least_strain)?;
        if self.rows == 0 {
            return Ok(());
        }
        writeln!(
            to,
            "\n{:<14}{:>6}{:>10}{:>10}",
            "kind", "rows", "strained", "inverted"
        )?;
        for (number, (name, kind)) in KINDS.iter().zip(&self.kinds).enumerate() {
            if kind.rows == 0 {
                continue;
            }
            write!(to, "{name:<14}{:>6}{:>10}", kind.rows, kind.strained)?;
            match number < TYPES.len() {
                true => writeln!(to, "{:>10}", "-")?,
                false => writeln!(to, "{:>10}", kind.inverted)?,
            }
        }
        writeln!(to, "\ncolour        rows")?;
        for (colour, counts) in &self.colours {
            let each = KINDS.iter().zip(counts).filter(|(_, count)| **count > 0);
            let each: Vec<_> = each
                .map(|(name, count)| format!("{count} {name}"))
                .collect();
            match *colour {
                OVERFLOW => writeln!(to, "overflow      {}", each.join(", "))?,
                colour => writeln!(to, "{colour:<14}{}", each.join(", "))?,
            }
        }
        let named: Vec<_> = self
            .strained
            .iter()
            .take(NAMED)
            .map(usize::to_string)
            .collect();
        let more = self.strained.len() - named.len();
        match (named.is_empty(), more) {
            (true, _) => writeln!(to, "\nstrained rows: none"),
            (_, 0) => writeln!(to, "\nstrained rows: {}", named.join(", ")),
            _ => writeln!(to, "\nstrained rows: {} and {more} more", named.join(", ")),
        }
    }
}
