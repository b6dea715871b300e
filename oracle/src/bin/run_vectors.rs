//! Writes whole runs: `run_vectors DIR [SEED]`.
//!
//! DIR/runs holds frames one behind the other: the frame's length, the number and the place, each a u32, little-endian, then the frame,
//! and then the frame afterwards. The samples stand first, and frames without rows; then frames of one to five rows, each of which takes
//! a branch of the row functions that too few before it take; then frames that are refused, with every number and at every kind of
//! record.
//!
//! Prints each branch with how many of the small frames take it. Ends with 2 if a branch is never taken and `NEVER` does not say why,
//! if one that it names is taken, or if a number is missing.

use oracle::branches::{Taken, run_taken};
use oracle::check::check;
use oracle::frames::{Frame, alone, damaged, few};
use oracle::layout::{HEAD, RECORDS, ROWS};
use oracle::random::Random;
use oracle::run::run;
use oracle::samples::samples;
use std::collections::BTreeSet;
use std::process::ExitCode;
use std::{env, fs, path::PathBuf};

/// How many frames are looked through for branches, and for refusals.
const SOUGHT: usize = 400_000;
const DAMAGED: usize = 20_000;
/// So many frames are to take each branch.
const TIMES: u64 = 2;

/// Branches that the run of an accepted frame does not take, and why: the phase, the branch, the reason.
const NEVER: &[(&str, &str, &str)] = &[
    (
        "scalar, update",
        "distance, length is NaN",
        ": needs a position that is not finite; no accepted frame has one, and a run alters none",
    ),
    (
        "neo_hookean, update",
        "d = -0",
        ": never met; it needs a +0 and a -0 on one diagonal, and 1 + x is never -0, while the zeros of the Hessian's diagonal have one \
         sign until products within a turn underflow",
    ),
];

fn never(phase: &str, label: &str) -> Option<&'static str> {
    let mut list = NEVER.iter();
    let entry = list.find(|entry| (entry.0, entry.1) == (phase, label));
    entry.map(|entry| entry.2)
}

fn main() -> ExitCode {
    let mut args = env::args().skip(1);
    let Some(place) = args.next() else {
        eprintln!("run_vectors DIR [SEED]");
        return ExitCode::from(2);
    };
    let seed = args
        .next()
        .map_or(1, |text| text.parse().expect("a number"));
    let mut file = File::default();
    for sample in samples() {
        file.push(&sample.frame.bytes);
    }
    let samples = file.frames;
    bare(&mut file);
    let taken = branches(seed, &mut file);
    let small = file.frames - samples - 3;
    let missing = refusals(seed, &mut file);
    let wrong = report(&taken);
    fs::create_dir_all(&place).expect("the folder");
    fs::write(PathBuf::from(place).join("runs"), &file.bytes).expect("the file");
    println!(
        "{samples} samples, 3 bare frames, {small} frames by branches, {} refused: {} frames, {} bytes",
        file.frames - samples - 3 - small,
        file.frames,
        file.bytes.len()
    );
    println!("{wrong} branches are missing, {missing} refusals");
    ExitCode::from(if wrong + missing == 0 { 0 } else { 2 })
}

/// The stored frames.
#[derive(Default)]
struct File {
    bytes: Vec<u8>,
    frames: usize,
}

impl File {
    /// Adds a frame with what the oracle's run answers and leaves.
    fn push(&mut self, frame: &[u8]) {
        let mut after = frame.to_vec();
        let (number, place) = run(&mut after);
        assert_eq!((number, place), check(frame));
        assert!(
            number == 0 || after == frame,
            "a refused frame is unaltered"
        );
        for word in [frame.len() as u32, number, place as u32] {
            self.bytes.extend(word.to_le_bytes());
        }
        self.bytes.extend(frame);
        self.bytes.extend(after);
        self.frames += 1;
    }
}

/// Adds document 01's three frames without points and rows: no byte, a head, and a head with a byte behind it.
fn bare(file: &mut File) {
    let mut head = Frame::default();
    head.push_words(&HEAD, &[0; 6]);
    file.push(&[]);
    file.push(&head.bytes);
    file.push(&[&head.bytes[..], &[0]].concat());
}

/// Adds frames that together take every branch. Each kind of row alone comes first, so that most frames are small.
fn branches(seed: u64, file: &mut File) -> Taken {
    let random = &mut Random::new(seed, "frames by branches");
    let mut taken = Taken::none();
    for number in 0..SOUGHT {
        if is_complete(&taken) {
            break;
        }
        let frame = match number < SOUGHT / 2 {
            true => alone(random, ROWS[number % 3], number / 3),
            false => few(random),
        };
        let (after, own) = run_taken(&frame);
        if !taken.gains(&own, TIMES) {
            continue;
        }
        let mut ran = frame.bytes.clone();
        assert_eq!(run(&mut ran), (0, 0), "{number} is accepted");
        assert!(ran == after.bytes, "{number}: the run is its rows' phases");
        taken.add(&own);
        file.push(&frame.bytes);
    }
    taken
}

fn is_complete(taken: &Taken) -> bool {
    let mut list = taken.list();
    list.all(|(phase, label, count)| count >= TIMES || never(phase, label).is_some())
}

/// Adds refused frames, one for each number at each kind of record. Gives how many numbers are missing.
fn refusals(seed: u64, file: &mut File) -> usize {
    let random = &mut Random::new(seed, "refused frames");
    let mut found = BTreeSet::new();
    for _ in 0..DAMAGED {
        let frame = few(random);
        let bytes = damaged(random, &frame);
        let (number, place) = check(&bytes);
        if number != 0 && found.insert((number, kind_at(&frame, place))) {
            file.push(&bytes);
        }
    }
    for number in 1..=9 {
        let kinds = found.iter().filter(|entry| entry.0 == number);
        let names: Vec<_> = kinds.map(|entry| entry.1).collect();
        println!("refused {number}: {}", names.join(", "));
    }
    (1..=9)
        .filter(|&number| found.iter().all(|entry| entry.0 != number))
        .count()
}

/// The kind of the record that lay there before the frame was damaged.
fn kind_at(frame: &Frame, place: u64) -> &'static str {
    let before = frame.records.iter().rev();
    let at = before.clone().find(|record| record.0 as u64 <= place);
    at.map_or(RECORDS[0].name, |record| record.1.name)
}

/// Prints the table, and gives how many branches are taken that cannot be, or the other way round.
fn report(taken: &Taken) -> usize {
    let (mut last, mut wrong) = ("", 0);
    for (phase, label, count) in taken.list() {
        if phase != last {
            println!("{phase}");
            last = phase;
        }
        let why = never(phase, label);
        let fault = (count == 0) != why.is_some();
        wrong += usize::from(fault);
        let mark = if fault { " <- !" } else { "" };
        println!("    {count:>6} {label}{}{mark}", why.unwrap_or(""));
    }
    wrong
}
