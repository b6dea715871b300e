//! Writes vectors: `vectors OUTDIR [SEED] [COUNT] [NAME..]`.
//!
//! OUTDIR/NAME.bin holds the records of one function, each the input words and then the answer's, little-endian, with nothing
//! between them: the first COUNT inputs of the seed, and after them those that take a branch which no earlier record takes.
//! OUTDIR/index.txt has a line for each file: name, words in, words out, records. A NAME is a function's, or the beginning of some.

use oracle::answers::{FUNCTIONS, Function};
use oracle::branches::Tally;
use oracle::random::Random;
use std::fmt::Write as _;
use std::{env, fs, path::PathBuf};

/// How many inputs are looked through for branches that the first ones do not take.
const SOUGHT: usize = 100_000;

fn main() -> std::io::Result<()> {
    let mut args = env::args().skip(1);
    let Some(place) = args.next() else {
        eprintln!("vectors OUTDIR [SEED] [COUNT] [NAME..]");
        std::process::exit(2);
    };
    let place = PathBuf::from(place);
    let number = |arg: Option<String>, default: u64| match arg {
        Some(text) => text.parse().expect("a number"),
        None => default,
    };
    let seed = number(args.next(), 1);
    let count = number(args.next(), 1000) as usize;
    let names: Vec<String> = args.collect();

    fs::create_dir_all(&place)?;
    let mut index = String::new();
    for function in FUNCTIONS {
        if !names.is_empty() && !names.iter().any(|name| function.name.starts_with(name)) {
            continue;
        }
        let (bytes, records) = records(function, seed, count);
        fs::write(place.join(format!("{}.bin", function.name)), bytes)?;
        writeln!(
            index,
            "{} {} {} {records}",
            function.name, function.inputs, function.outputs
        )
        .expect("a string grows");
    }
    fs::write(place.join("index.txt"), index)
}

/// The bytes of one function's records, and how many there are.
fn records(function: &Function, seed: u64, count: usize) -> (Vec<u8>, usize) {
    // Without inputs there is one answer.
    let count = if function.inputs == 0 { 1 } else { count };
    let mut random = Random::new(seed, function.name);
    let mut tally = Tally::new(function.branches.labels);
    let mut bytes = Vec::new();
    let mut records = 0;
    for number in 0..count.max(SOUGHT) {
        if number >= count && tally.missing() == 0 {
            break;
        }
        let input = (function.make)(&mut random, number);
        let missing = tally.missing();
        (function.branches.mark)(&input, &mut tally);
        if number < count || tally.missing() < missing {
            records += 1;
            for word in input.iter().chain(&(function.answer)(&input)) {
                bytes.extend(word.to_le_bytes());
            }
        }
    }
    for (label, hits) in tally.counts() {
        if *hits == 0 {
            println!("{}: no record takes: {label}", function.name);
        }
    }
    (bytes, records)
}
