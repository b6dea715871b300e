//! The program `formrun`: one process for each frame.

use oracle::frames::{Frame, Sizes, accepted, damaged, runs};
use oracle::layout::{COROTATIONAL, SCALAR};
use oracle::random::Random;
use oracle::run;
use std::io::{Read, Write};
use std::path::Path;
use std::process::{Command, Stdio};

/// Input of more bytes is too long.
const MOST: usize = 65_536;
/// How many frames by chance are sent.
const FRAMES: usize = 2000;

/// What the program has to write.
fn expected(input: &[u8]) -> Vec<u8> {
    if input.len() > MOST {
        return b"too long\n".into();
    }
    let mut frame = input.to_vec();
    match run::run(&mut frame) {
        (0, _) => frame,
        (number, place) => format!("refused {number} at {place}\n").into(),
    }
}

/// What the program writes.
fn written(program: &Path, input: &[u8]) -> Vec<u8> {
    let mut child = Command::new(program)
        .stdin(Stdio::piped())
        .stdout(Stdio::piped())
        .spawn()
        .unwrap_or_else(|error| panic!("{}: {error}", program.display()));
    let mut stdin = child.stdin.take().expect("it is piped");
    // It need not read all of an input that is too long.
    let sent = stdin.write_all(input);
    assert!(sent.is_ok() || input.len() > MOST, "{sent:?}");
    drop(stdin);
    let mut output = Vec::new();
    let mut stdout = child.stdout.take().expect("it is piped");
    stdout.read_to_end(&mut output).expect("a pipe can be read");
    let status = child.wait().expect("it was started");
    assert!(status.code().is_some(), "{}: {status}", program.display());
    output
}

/// An accepted frame of exactly the most bytes: 26 + 2157·30 + 182 + 618.
fn longest(random: &mut Random) -> Frame {
    let frame = accepted(random, 2157, &[&SCALAR, &COROTATIONAL]);
    assert_eq!(frame.bytes.len(), MOST);
    frame
}

/// Sends frames through the program, and gives how many answers differ.
pub fn compare(program: &Path, seed: u64) -> u64 {
    let random = &mut Random::new(seed, "formrun");
    let mut inputs = vec![Vec::new(), vec![0], vec![0; MOST], vec![0; MOST + 1]];
    inputs.push(vec![7; 1 << 20]);
    let whole = longest(random).bytes;
    let more = [&whole[..], &[0]].concat();
    inputs.extend([whole[..MOST - 1].to_vec(), whole, more]);
    let sizes = Sizes {
        large: 100,
        resweeps: 64,
    };
    while inputs.len() < FRAMES {
        let (_, frame) = runs(random, sizes);
        inputs.push(damaged(random, &frame));
        inputs.push(frame.bytes);
    }
    let (mut accepted, mut refused, mut long, mut differ) = (0, 0, 0, 0);
    for input in &inputs {
        let due = expected(input);
        match () {
            () if input.len() > MOST => long += 1,
            () if due.len() == input.len() && !due.starts_with(b"refused") => accepted += 1,
            () => refused += 1,
        }
        if written(program, input) != due {
            differ += 1;
            println!("formrun differs on {} bytes", input.len());
        }
    }
    println!(
        "formrun: {} inputs, {accepted} accepted, {refused} refused, {long} too long; {differ} differ",
        inputs.len()
    );
    differ
}
