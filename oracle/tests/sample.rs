//! The samples in the repository are what the oracle answers, and what their seed makes.

use oracle::answers::{FUNCTIONS, function};
use oracle::random::Random;
use oracle::run::run;
use std::{fs, path::Path};

/// Where they lie, seen from here: the data of the programs that replay them.
const ARITHMETIC: &str = "../crates/replay_arith/data";
const RUNS: &str = "../crates/replay_runs";

/// The words of a little-endian file.
fn words(place: &Path) -> Vec<u32> {
    let bytes = fs::read(place).expect("a file of the sample");
    let word = |four: &[u8]| u32::from_le_bytes(four.try_into().expect("four bytes"));
    bytes.chunks_exact(4).map(word).collect()
}

#[test]
fn arithmetic_is_the_oracles() {
    let sample = Path::new(env!("CARGO_MANIFEST_DIR")).join(ARITHMETIC);
    let index = fs::read_to_string(sample.join("index.txt")).expect("the index");
    for line in index.lines() {
        let [name, inputs, outputs, records] = line.split(' ').collect::<Vec<_>>()[..] else {
            panic!("{line}");
        };
        let function = function(name);
        assert_eq!(inputs.parse(), Ok(function.inputs), "{name}");
        assert_eq!(outputs.parse(), Ok(function.outputs), "{name}");
        let words = words(&sample.join(format!("{name}.bin")));
        let each = function.inputs + function.outputs;
        assert_eq!(records.parse(), Ok(words.len() / each), "{name}");
        let mut random = Random::new(1, name);
        for (number, record) in words.chunks_exact(each).enumerate() {
            let (input, answer) = record.split_at(function.inputs);
            assert_eq!((function.answer)(input), answer, "{name} {number}");
            // What follows the first forty was sought.
            if number < 40 {
                assert_eq!(
                    (function.make)(&mut random, number),
                    input,
                    "{name} {number}"
                );
            }
        }
    }
}

#[test]
fn runs_are_the_oracles() {
    let sample = Path::new(env!("CARGO_MANIFEST_DIR")).join(RUNS);
    let file = fs::read(sample.join("data/runs")).expect("the runs");
    let (mut rest, mut frames) = (&file[..], 0);
    while let Some((head, more)) = rest.split_first_chunk::<12>() {
        let [length, number, place] = [0, 4, 8]
            .map(|at| u32::from_le_bytes(head[at..at + 4].try_into().expect("four bytes")));
        let (frame, more) = more.split_at(length as usize);
        let (after, more) = more.split_at(length as usize);
        let mut own = frame.to_vec();
        assert_eq!(run(&mut own), (number, place.into()), "{frames}");
        assert!(own == after, "{frames}");
        (rest, frames) = (more, frames + 1);
    }
    let said = fs::read_to_string(sample.join("stdout")).expect("what the program writes");
    assert_eq!(said, format!("{frames} frames, 0 end otherwise\n"));
}

#[test]
fn names_are_not_repeated() {
    for (place, function) in FUNCTIONS.iter().enumerate() {
        assert!(
            FUNCTIONS[..place]
                .iter()
                .all(|other| other.name != function.name)
        );
    }
}
