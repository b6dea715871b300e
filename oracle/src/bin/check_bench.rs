//! Times the Rattle `check` on accepted frames with as many points as rows, from 64 rows to 4,096, beside a memory copy of the same
//! bytes, in one run: the shortest time of several.

use oracle::exported;
use oracle::frames::Frame;
use oracle::layout::{COROTATIONAL, MOST, NEO_HOOKEAN, OVERFLOW, ROWS, Record, SCALAR};
use oracle::random::Random;
use std::hint::black_box;
use std::time::Instant;

/// Each size is half the next.
const SIZES: [u32; 7] = [64, 128, 256, 512, 1024, 2048, MOST];
/// How many timings of each frame there are; each goes through 4,096 rows.
const TIMINGS: usize = 60;

/// How a row's colour depends on its number and on the number of rows.
type Colour = fn(u32, u32) -> u32;

/// Rows that each name four points, one after another, so that four colours have each point once.
fn frame(random: &mut Random, rows: u32, kinds: &[&'static Record], colour: Colour) -> Vec<u8> {
    let mut frame = Frame::new(random, rows, rows);
    for (number, kind) in (0..rows).zip(kinds.iter().cycle()) {
        let row = frame.push(random, kind);
        frame.put(row, "colour", 0, colour(number, rows));
        frame.put_ids(row, [0, 1, 2, 3].map(|i| (4 * number + i) % rows));
        if kind.kind == SCALAR.kind {
            frame.put(row, "count", 0, 4);
        }
    }
    assert_eq!(exported::check(&frame.bytes), (0, 0));
    frame.bytes
}

/// A frame, and the shortest times of one `check` and of one copy of it so far, in nanoseconds.
struct Case {
    rows: u32,
    frame: Vec<u8>,
    checking: f64,
    copying: f64,
}

impl Case {
    /// Takes each time once more, after a call that is not timed.
    fn time(&mut self, copy: &mut [u8]) {
        let (frame, rounds) = (&self.frame[..], MOST / self.rows);
        let copy = &mut copy[..frame.len()];
        let timing = |call: &mut dyn FnMut()| {
            call();
            let start = Instant::now();
            for _ in 0..rounds {
                call();
            }
            start.elapsed().as_nanos() as f64 / f64::from(rounds)
        };
        let checking = timing(&mut || {
            black_box(exported::check(black_box(frame)));
        });
        let copying = timing(&mut || {
            copy.copy_from_slice(black_box(frame));
            black_box(&*copy);
        });
        self.checking = self.checking.min(checking);
        self.copying = self.copying.min(copying);
    }

    fn for_each_row(&self) -> f64 {
        self.checking / f64::from(self.rows)
    }
}

/// The frames of one line of what is printed: one of each size.
fn line(random: &mut Random, kinds: &[&'static Record], colour: Colour) -> [Case; 7] {
    SIZES.map(|rows| Case {
        rows,
        frame: frame(random, rows, kinds, colour),
        checking: f64::INFINITY,
        copying: f64::INFINITY,
    })
}

fn print(name: &str, cases: &[Case; 7]) {
    print!("{name:<30}");
    cases
        .iter()
        .for_each(|case| print!("{:>7.1}", case.for_each_row()));
    let [smallest, .., largest] = cases;
    let bytes = largest.frame.len() as f64;
    println!(
        "{:>8.2}{:>8.2}{:>8.2}{:>8.2}",
        largest.for_each_row() / smallest.for_each_row(),
        bytes / largest.checking,
        bytes / largest.copying,
        largest.checking / largest.copying
    );
}

fn main() {
    let random = &mut Random::new(1, "check_bench");
    let kinds: [(&str, &[&'static Record]); 4] = [
        ("scalar", &[&SCALAR]),
        ("corotational", &[&COROTATIONAL]),
        ("neo-Hookean", &[&NEO_HOOKEAN]),
        ("all kinds", &ROWS),
    ];
    let colours: [(&str, Colour); 3] = [
        ("four colours", |number, rows| 4 * number / rows),
        ("a colour each", |number, _| number),
        ("overflow", |_, _| OVERFLOW.into()),
    ];
    let mut lines = Vec::new();
    for (kind, records) in kinds {
        for (name, colour) in colours {
            lines.push((format!("{kind}, {name}"), line(random, records, colour)));
        }
    }
    let largest = lines
        .iter()
        .flat_map(|(_, cases)| cases)
        .map(|case| case.frame.len())
        .max();
    let mut copy = vec![0; largest.unwrap_or(0)];
    // All take turns, so that what else the machine does meets all alike.
    for _ in 0..TIMINGS {
        for (_, cases) in &mut lines {
            cases.iter_mut().for_each(|case| case.time(&mut copy));
        }
    }
    println!("nanoseconds of check for each row, with its point; growth is the last by the first");
    println!(
        "the largest frame: gigabytes in a second, and how many times as long as a copy check takes"
    );
    print!("{:<30}", "rows");
    SIZES.iter().for_each(|rows| print!("{rows:>7}"));
    println!("  growth   check    copy   ratio");
    for (name, cases) in &lines {
        print(name, cases);
    }
}
