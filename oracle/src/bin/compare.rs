//! Compares the Rattle functions with the oracle: `compare [N] [SEED] [NAME..]`, or `compare all-roots`.
//!
//! For each function: how many inputs, how many answers differ in a bit, and how often each branch of the source was taken.
//! Ends with 1 if an answer differs, with 2 if no function is linked (without the feature `rattle` the branches are counted all
//! the same). A NAME is a function's, or the beginning of some. `all-roots` compares the root of every pattern of 32 bits.

use oracle::answers::{Call, FUNCTIONS, Function};
use oracle::branches::{RARE, Tally};
use oracle::random::Random;
use oracle::words::NAN;
use std::env;
use std::process::ExitCode;

#[cfg(feature = "rattle")]
use oracle::rattle::linked;

/// Without the feature none is.
#[cfg(not(feature = "rattle"))]
fn linked(_name: &str) -> Option<Call> {
    None
}

fn main() -> ExitCode {
    let args: Vec<String> = env::args().skip(1).collect();
    if args.first().is_some_and(|arg| arg == "all-roots") {
        return all_roots();
    }
    let number = |place: usize, default: u64| match args.get(place) {
        Some(text) => text.parse().expect("a number"),
        None => default,
    };
    let (count, seed) = (number(0, 1_000_000) as usize, number(1, 1));
    let names = args.get(2..).unwrap_or_default();

    let (mut compared, mut alone, mut differing) = (0, 0, 0u64);
    for function in FUNCTIONS {
        if !names.is_empty() && !names.iter().any(|name| function.name.starts_with(name)) {
            continue;
        }
        let call = linked(function.name);
        match call {
            Some(_) => compared += 1,
            None => alone += 1,
        }
        differing += compare(function, call, count, seed);
    }
    println!(
        "{compared} functions compared, {alone} without a Rattle function linked, {differing} answers differ"
    );
    match (compared, differing) {
        (0, _) => ExitCode::from(2),
        (_, 0) => ExitCode::SUCCESS,
        _ => ExitCode::FAILURE,
    }
}

/// What sort of answers there were.
#[derive(Default)]
struct Sorts {
    nan: u64,
    infinite: u64,
    finite: u64,
}

impl Sorts {
    fn count(&mut self, answer: &[u32]) {
        let infinite = |word: &u32| word & 0x7FFF_FFFF == 0x7F80_0000;
        *if answer.contains(&NAN) {
            &mut self.nan
        } else if answer.iter().any(infinite) {
            &mut self.infinite
        } else {
            &mut self.finite
        } += 1;
    }
}

/// Compares one function on `count` inputs, prints what was found, and gives the number of differing answers.
fn compare(function: &Function, call: Option<Call>, count: usize, seed: u64) -> u64 {
    let count = if function.inputs == 0 { 1 } else { count };
    let mut random = Random::new(seed, function.name);
    let mut tally = Tally::new(function.branches.labels);
    let mut sorts = Sorts::default();
    let mut differing = 0;
    for number in 0..count {
        let input = (function.make)(&mut random, number);
        (function.branches.mark)(&input, &mut tally);
        let answer = (function.answer)(&input);
        sorts.count(&answer);
        let Some(call) = call else { continue };
        let other = call(&input);
        if other != answer {
            if differing < 3 {
                println!("{}: input {number} differs", function.name);
                println!("  input  {input:08x?}");
                println!("  oracle {answer:08x?}");
                println!("  Rattle {other:08x?}");
            }
            differing += 1;
        }
    }
    let verdict = match call {
        Some(_) => format!("{differing} differ"),
        None => "not linked".into(),
    };
    println!("{}: {count} inputs, {verdict}", function.name);
    println!(
        "    answers: {} finite, {} with an infinity, {} with a NaN",
        sorts.finite, sorts.infinite, sorts.nan
    );
    for (label, hits) in tally.counts() {
        let why = RARE.iter().find(|rare| *hits == 0 && rare.0 == *label);
        println!("    {hits:>10} {label}{}", why.map_or("", |rare| rare.1));
    }
    differing
}

/// The root of every pattern, all NaNs among them.
#[cfg(feature = "rattle")]
fn all_roots() -> ExitCode {
    let differing = oracle::rattle::differing_roots();
    println!("root: all 4294967296 patterns, {differing} differ");
    ExitCode::from(u8::from(differing != 0))
}

#[cfg(not(feature = "rattle"))]
fn all_roots() -> ExitCode {
    println!("root: not linked");
    ExitCode::from(2)
}
