//! Times the exported `run` beside the oracle's, in one process, on the same frames: `run_bench [ROUNDS]`.
//!
//! Sheets of scalar rows, of corotational cells, of neo-Hookean cells and of all together, in each mode: with 8 resweeps of 64, 512 and
//! 4,096 rows, the larger ones the smallest several times; with 16 and with 64 resweeps of 4,096 rows. The more resweeps, the less the
//! oracle's reading and writing counts. Every run starts from the frame as it was made; the copy is not timed.
//! The oracle's time is that of reading the frame into the listed structs, in memory that is there, of the sweeps and of writing it back,
//! without any test of the frame; the library's includes its `check`, whose time is printed too. Times are the processor's for this
//! thread, so that other load on the machine counts little; the shortest of several is taken, and all take turns.

use oracle::exported;
use oracle::frames::{Element, Frame, Sheet, sheet};
use oracle::run;
use std::env;
use std::hint::black_box;

const SIZES: [usize; 3] = [64, 512, LARGEST];
const LARGEST: usize = 4096;
/// Resweeps, and the frames that are timed with so many.
const RESWEEPS: [(u32, &[usize]); 3] = [(8, &SIZES), (16, &[LARGEST]), (64, &[LARGEST])];
/// How many timings there are of each frame, where the command says no other number.
const ROUNDS: usize = 20;

use Element::{Corotational, Dihedral, Distance, NeoHookean, Volume};

const SHEETS: [(&str, &[Element]); 4] = [
    ("scalar", &[Distance, Dihedral, Volume]),
    ("corotational", &[Corotational]),
    ("neo-Hookean", &[NeoHookean]),
    (
        "mixed",
        &[Distance, Dihedral, Volume, Corotational, NeoHookean],
    ),
];

/// The shortest times so far, in nanoseconds.
#[derive(Clone, Copy)]
struct Times {
    library: f64,
    check: f64,
    oracle: f64,
    sweeps: f64,
}

struct Case {
    resweeps: u32,
    rows: usize,
    /// How often a row is solved, in all sweeps.
    solves: usize,
    frame: Vec<u8>,
    times: Times,
}

/// So many sheets alike side by side, in one frame: a row of it meets the same whatever their number.
fn tiled(sheet: &Frame, copies: usize) -> Frame {
    let points = sheet.get(0, "points", 0);
    let rows = sheet.rows();
    let mut frame = Frame::default();
    let mut push = |number: usize| {
        let (start, record) = sheet.records[number];
        frame.records.push((frame.bytes.len(), record));
        frame
            .bytes
            .extend(&sheet.bytes[start..start + record.size()]);
    };
    push(0);
    (0..copies).for_each(|_| (1..rows.start).for_each(&mut push));
    // All copies of a row one after another, so that colours go up.
    rows.clone()
        .for_each(|row| (0..copies).for_each(|_| push(row)));
    frame.put(0, "points", 0, points * copies as u32);
    frame.put(0, "rows", 0, (rows.len() * copies) as u32);
    for (place, number) in frame.rows().enumerate() {
        let ids = [0, 1, 2, 3].map(|i| frame.get(number, "ids", i));
        frame.put_ids(number, ids.map(|id| id + points * (place % copies) as u32));
    }
    frame
}

/// Sheets of 64 rows, so many that there are that many rows, in this mode. All rows are flagged strained in the frame, so that without
/// update each resweep solves every row; an update sets the flags anew, by a least strain of 0.
fn case(elements: &'static [Element], mode: u32, resweeps: u32, rows: usize) -> Case {
    let asked = |side| Sheet {
        elements,
        side,
        rows: SIZES[0],
        colours: 64,
        mode,
        resweeps,
        warm_coefficient: 0.9,
        least_strain: 0.0,
    };
    let mut sides = 3..;
    let mut frame = loop {
        let frame = sheet(&asked(sides.next().expect("there is a larger one")));
        if frame.rows().len() == SIZES[0] {
            break tiled(&frame, rows / SIZES[0]);
        }
    };
    for row in frame.rows() {
        frame.put(row, "strained", 0, 1);
    }
    let mut after = frame.clone();
    assert_eq!(run::run(&mut after.bytes), (0, 0));
    let strained = after
        .rows()
        .filter(|&row| after.get(row, "strained", 0) == 1);
    Case {
        resweeps,
        rows,
        solves: rows + strained.count() * resweeps as usize,
        frame: frame.bytes,
        times: Times {
            library: f64::INFINITY,
            check: f64::INFINITY,
            oracle: f64::INFINITY,
            sweeps: f64::INFINITY,
        },
    }
}

/// As C has it.
#[repr(C)]
struct Timespec {
    seconds: i64,
    nanoseconds: i64,
}

unsafe extern "C" {
    fn clock_gettime(clock: i32, time: *mut Timespec) -> i32;
}

/// The processor's time for this thread, in nanoseconds: Linux's clock 3.
fn now() -> f64 {
    let mut time = Timespec {
        seconds: 0,
        nanoseconds: 0,
    };
    // SAFETY: the clock writes one `Timespec`, which is lent for the call.
    let status = unsafe { clock_gettime(3, &mut time) };
    assert_eq!(status, 0, "no clock of the thread's time");
    time.seconds as f64 * 1.0e9 + time.nanoseconds as f64
}

/// The time of one call on a fresh copy.
fn timed(frame: &[u8], copy: &mut Vec<u8>, call: &mut dyn FnMut(&mut [u8])) -> f64 {
    copy.clear();
    copy.extend(frame);
    let start = now();
    call(black_box(copy));
    now() - start
}

impl Case {
    fn time(&mut self, copy: &mut Vec<u8>, sheet: &mut run::Sheet) {
        let (frame, times) = (&self.frame, &mut self.times);
        // Small frames are timed more often, so that each size has its share of quiet moments.
        for _ in 0..LARGEST / self.rows {
            let library = timed(frame, copy, &mut |frame| {
                assert_eq!(black_box(exported::run(frame)), (0, 0));
            });
            let left = std::mem::take(copy);
            let check = timed(frame, copy, &mut |frame| {
                black_box(exported::check(frame));
            });
            let oracle = timed(frame, copy, &mut |frame| {
                sheet.read(frame);
                sheet.sweeps();
                sheet.write(frame);
            });
            assert!(left == *copy, "library and oracle end otherwise");
            sheet.read(frame);
            let start = now();
            black_box(&mut *sheet).sweeps();
            let sweeps = now() - start;
            times.library = times.library.min(library);
            times.check = times.check.min(check);
            times.oracle = times.oracle.min(oracle);
            times.sweeps = times.sweeps.min(sweeps);
        }
    }

    /// Nanoseconds for each row and sweep, a row that is not strained counting as swept.
    fn each(&self, time: f64) -> f64 {
        time / (self.rows * (1 + self.resweeps as usize)) as f64
    }
}

/// A sheet in one mode with so many resweeps, in each size that is timed.
struct Line {
    name: &'static str,
    mode: u32,
    cases: Vec<Case>,
}

/// The lines of one number of resweeps.
fn lines(resweeps: u32, sizes: &[usize]) -> Vec<Line> {
    let of = |(name, elements): (&'static str, &'static [Element]), mode| Line {
        name,
        mode,
        cases: sizes
            .iter()
            .map(|&rows| case(elements, mode, resweeps, rows))
            .collect(),
    };
    let all = SHEETS.iter();
    all.flat_map(|&sheet| (0..4).map(move |mode| of(sheet, mode)))
        .collect()
}

fn main() {
    let rounds = env::args().nth(1);
    let rounds = rounds.map_or(ROUNDS, |text| text.parse().expect("a number"));
    let mut tables = RESWEEPS.map(|(resweeps, sizes)| lines(resweeps, sizes));
    let (mut copy, mut sheet) = (Vec::new(), run::Sheet::default());
    for _ in 0..rounds {
        for line in tables.iter_mut().flatten() {
            for case in &mut line.cases {
                case.time(&mut copy, &mut sheet);
            }
        }
    }
    println!(
        "nanoseconds for each row and sweep (a main sweep and the resweeps); the shortest of {rounds} rounds"
    );
    println!(
        "oracle: reads, sweeps, writes; sweeps: the oracle's sweeps alone; growth: the library's by that of the smallest frame"
    );
    println!(
        "modes 0 and 2: every row is flagged strained in the frame, so that each resweep solves every row"
    );
    println!(
        "modes 1 and 3: the update sets the flags, by a least strain of 0; solved: how often a row is solved, in all sweeps"
    );
    for ((resweeps, _), lines) in RESWEEPS.iter().zip(&tables) {
        print_table(*resweeps, lines);
    }
    println!();
    for ((resweeps, sizes), lines) in RESWEEPS.iter().zip(&tables) {
        for (size, rows) in sizes.iter().enumerate() {
            print_all(
                *resweeps,
                *rows,
                lines.iter().map(|line| &line.cases[size].times),
            );
        }
    }
}

fn print_table(resweeps: u32, lines: &[Line]) {
    println!("\n{resweeps} resweeps");
    println!(
        "{:<14}{:>5}{:>6}{:>8}{:>9}{:>7}{:>8}{:>8}{:>11}{:>11}{:>8}",
        "sheet",
        "mode",
        "rows",
        "solved",
        "library",
        "check",
        "oracle",
        "sweeps",
        "to oracle",
        "to sweeps",
        if lines[0].cases.len() > 1 {
            "growth"
        } else {
            ""
        }
    );
    for Line { name, mode, cases } in lines {
        for case in cases {
            let times = &case.times;
            let growth = match cases.len() {
                1 => String::new(),
                _ => format!(
                    "{:.2}",
                    case.each(times.library) / cases[0].each(cases[0].times.library)
                ),
            };
            println!(
                "{name:<14}{mode:>5}{:>6}{:>8}{:>9.1}{:>7.1}{:>8.1}{:>8.1}{:>11.2}{:>11.2}{growth:>8}",
                case.rows,
                case.solves,
                case.each(times.library),
                case.each(times.check),
                case.each(times.oracle),
                case.each(times.sweeps),
                times.library / times.oracle,
                times.library / times.sweeps,
            );
        }
    }
}

fn print_all<'a>(resweeps: u32, rows: usize, times: impl Iterator<Item = &'a Times> + Clone) {
    let sum = |of: fn(&Times) -> f64| -> f64 { times.clone().map(of).sum() };
    println!(
        "all {} sheets of {rows} rows, {resweeps} resweeps: {:.2} of the oracle, {:.2} of its sweeps alone",
        times.clone().count(),
        sum(|times| times.library) / sum(|times| times.oracle),
        sum(|times| times.library) / sum(|times| times.sweeps)
    );
}
