//! Compares the Rattle `check` with the independent one: `check_compare [N] [SEED]`.
//!
//! On N frames at least (1,000,000): number and place, and that no byte of the buffer is altered. Prints how often each number was
//! given, and at which record and field. Ends with 1 if an answer differs or a byte is altered, with 2 if some number was never given
//! at some place where it can be.

use oracle::check::{Refusal, test};
use oracle::exported::{self, Lent};
use oracle::frames;
use oracle::layout::{RECORDS, ROWS};
use std::collections::HashMap;
use std::env;
use std::process::ExitCode;

/// What was found so far.
#[derive(Default)]
struct Found {
    frames: u64,
    bytes: u64,
    accepted: u64,
    sorts: Vec<(&'static str, u64)>,
    /// For each number, record, field and part, how often it was given there.
    refused: HashMap<(u32, &'static str, &'static str, usize), u64>,
    differing: u64,
    altered: u64,
    /// The shortest frame on which the answers differ.
    shortest: Option<Vec<u8>>,
    lent: Lent,
}

impl Found {
    fn compare(&mut self, sort: &'static str, frame: &[u8]) {
        let tested = test(frame);
        self.count(sort, frame, &tested);
        let expected = tested.map_or_else(
            |refusal| (refusal.number, refusal.place as u64),
            |()| (0, 0),
        );
        if self.rattle(frame) != expected {
            self.differing += 1;
            let shorter = |shortest: &Vec<u8>| frame.len() < shortest.len();
            if self.shortest.as_ref().is_none_or(shorter) {
                self.shortest = Some(frame.to_vec());
            }
        }
    }

    fn count(&mut self, sort: &'static str, frame: &[u8], tested: &Result<(), Refusal>) {
        self.frames += 1;
        self.bytes += frame.len() as u64;
        match self.sorts.iter_mut().find(|entry| entry.0 == sort) {
            Some(entry) => entry.1 += 1,
            None => self.sorts.push((sort, 1)),
        }
        match tested {
            Ok(()) => self.accepted += 1,
            Err(it) => {
                *self
                    .refused
                    .entry((it.number, it.record, it.field, it.part))
                    .or_default() += 1
            }
        }
    }

    /// The answer of the Rattle `check` on a copy of the frame, at any alignment; the copy and what lies around it are looked at afterwards.
    fn rattle(&mut self, frame: &[u8]) -> (u32, u64) {
        let (answer, left, stayed) = self.lent.call(frame, |lent| exported::check(lent));
        self.altered += u64::from(left != frame || !stayed);
        answer
    }

    /// One line for a number at a field of that many parts; says whether it was given at all of them.
    fn print(&self, number: u32, record: &'static str, field: &'static str, parts: usize) -> bool {
        let hits = |part| {
            self.refused
                .get(&(number, record, field, part))
                .copied()
                .unwrap_or(0)
        };
        let each: Vec<u64> = (0..parts).map(hits).collect();
        let (all, least) = (each.iter().sum::<u64>(), each.iter().min().unwrap_or(&0));
        let parts = match parts {
            1 => String::new(),
            _ => format!(", {parts} parts, each at least {least} times"),
        };
        println!("    {all:>8} {record}: {field}{parts}");
        *least > 0
    }

    /// The counts of one number; says whether it was given wherever it can be.
    fn print_number(&self, number: u32) -> bool {
        let all = self.refused.iter().filter(|(key, _)| key.0 == number);
        println!(
            "number {number}: {}",
            all.map(|(_, hits)| hits).sum::<u64>()
        );
        let mut everywhere = true;
        match number {
            1 | 2 => {
                for due in ["head", "point", "row"] {
                    let wrong: &[_] = match number {
                        1 => &["fewer than 6 bytes", "not whole"],
                        _ => &["kind or length"],
                    };
                    for wrong in wrong {
                        everywhere &= self.print(number, due, wrong, 1);
                    }
                }
            }
            8 => everywhere &= self.print(8, "end", "extra byte", 1),
            9 => {
                for record in ROWS {
                    everywhere &= self.print(9, record.name, "clash", 1);
                }
            }
            _ => {
                let given =
                    |part: &oracle::layout::Part| part.field.holds.numbers().contains(&number);
                for record in RECORDS {
                    for part in record.parts().filter(|part| part.index == 0).filter(given) {
                        everywhere &=
                            self.print(number, record.name, part.field.name, part.field.parts);
                    }
                }
            }
        }
        everywhere
    }
}

fn main() -> ExitCode {
    let args: Vec<String> = env::args().skip(1).collect();
    let number = |place: usize, default: u64| match args.get(place) {
        Some(text) => text.parse().expect("a number"),
        None => default,
    };
    let (count, seed) = (number(0, 1_000_000), number(1, 1));
    let mut found = Found::default();
    frames::each(seed, count, &mut |sort, frame| found.compare(sort, frame));

    println!(
        "{} frames of seed {seed}, {} bytes",
        found.frames, found.bytes
    );
    for (sort, frames) in &found.sorts {
        println!("    {frames:>8} {sort}");
    }
    println!("number 0: {}", found.accepted);
    let everywhere = (1..=9).map(|number| found.print_number(number));
    // All of them are printed before any is asked about.
    let everywhere = everywhere
        .collect::<Vec<_>>()
        .into_iter()
        .all(|given| given);
    if !everywhere {
        println!("some number was never given at some place where it can be");
    }
    if let Some(frame) = &found.shortest {
        println!(
            "the shortest frame with different answers, {} bytes: {frame:02x?}",
            frame.len()
        );
        println!("  independent {:?}", oracle::check::check(frame));
        println!("  Rattle      {:?}", exported::check(frame));
    }
    println!(
        "{} answers differ, {} buffers altered",
        found.differing, found.altered
    );
    match (found.differing + found.altered, everywhere) {
        (0, true) => ExitCode::SUCCESS,
        (0, false) => ExitCode::from(2),
        _ => ExitCode::FAILURE,
    }
}
