//! Compares whole runs of the exported library with the oracle's: `run_compare [N] [SEED..] [--formrun PATH] [--small]`.
//!
//! On N frames by chance at least (100,000) for each seed (1, 2, 3), and on all frames by rule: number, place and every byte. Relistings run in pairs alongside: the same
//! number and place, the same head and points, the same bytes in the two rows of each pair. Prints what the frames had in them and what
//! happened. Ends with 1 if anything differs, with 2 if something of the list never happened.
//!
//! `--formrun` sends frames of at most 65,536 bytes, and longer input, through that program too. `--small` makes small frames alone,
//! lent from memory of their own size, for valgrind.

mod formrun;
mod happened;

use happened::Happened;
use oracle::exported::{self, Lent};
use oracle::frames::{self, Frame, SORTS, Sizes, damaged, exchanged_overflow, relisting, runs};
use oracle::layout::Record;
use oracle::random::Random;
use oracle::run;
use std::env;
use std::hint::black_box;
use std::path::PathBuf;
use std::process::ExitCode;

/// What is asked for.
struct Asked {
    count: u64,
    seeds: Vec<u64>,
    formrun: Option<PathBuf>,
    small: bool,
}

impl Asked {
    fn read() -> Self {
        let (mut numbers, mut formrun, mut small) = (Vec::new(), None, false);
        let mut words = env::args().skip(1);
        while let Some(word) = words.next() {
            match word.as_str() {
                "--formrun" => formrun = Some(words.next().expect("a path").into()),
                "--small" => small = true,
                number => numbers.push(number.parse().expect("a number")),
            }
        }
        let mut numbers = numbers.into_iter();
        let count = numbers.next().unwrap_or(100_000);
        let mut seeds: Vec<u64> = numbers.collect();
        if seeds.is_empty() {
            seeds = vec![1, 2, 3];
        }
        Self {
            count,
            seeds,
            formrun,
            small,
        }
    }

    fn sizes(&self) -> Sizes {
        match self.small {
            true => Sizes {
                large: usize::MAX,
                resweeps: 4,
            },
            false => Sizes {
                large: 1000,
                resweeps: 64,
            },
        }
    }
}

/// A frame on which something differs.
struct Differing {
    what: &'static str,
    frame: Vec<u8>,
    told: String,
}

/// What was found so far.
#[derive(Default)]
struct Found {
    frames: u64,
    bytes: u64,
    /// How many frames of each sort there were.
    sorts: Vec<(&'static str, u64)>,
    happened: Happened,
    relisted: u64,
    /// Relistings in which some row has another number.
    moved: u64,
    exchanged: u64,
    ended_otherwise: u64,
    differ: u64,
    shortest: Option<Differing>,
    small: bool,
    lent: Lent,
}

impl Found {
    /// Runs a frame through the oracle and through the library. Gives what the library left of it.
    fn compare(&mut self, sort: &'static str, frame: &[u8]) -> (u32, Vec<u8>) {
        self.frames += 1;
        self.bytes += frame.len() as u64;
        match self.sorts.iter_mut().find(|entry| entry.0 == sort) {
            Some(entry) => entry.1 += 1,
            None => self.sorts.push((sort, 1)),
        }
        let mut expected = frame.to_vec();
        let answer = run::run(&mut expected);
        self.happened.refused(answer.0);
        let (given, left, kept) = self.library(frame);
        if given != answer {
            self.differs(
                "number and place",
                frame,
                format!("{given:?}, not {answer:?}"),
            );
        } else if left != expected {
            let first = left.iter().zip(&expected).position(|(a, b)| a != b);
            let count = left.iter().zip(&expected).filter(|(a, b)| a != b).count();
            let told = format!("{count} bytes, the first at {}", first.unwrap_or(0));
            self.differs("bytes afterwards", frame, told);
        } else if !kept {
            self.differs("bytes around the frame", frame, String::new());
        }
        if answer.0 != 0 && expected != frame {
            self.differs("the oracle altered a refused frame", frame, String::new());
        }
        if exported::check(frame) != answer {
            self.differs("check", frame, format!("not {answer:?}"));
        }
        (answer.0, left)
    }

    /// What the library's run answers and leaves of a frame, and whether the bytes around it stayed.
    fn library(&mut self, frame: &[u8]) -> ((u32, u64), Vec<u8>, bool) {
        if self.small {
            let mut own = frame.to_vec().into_boxed_slice();
            let answer = exported::run(black_box(&mut own));
            return (answer, own.into_vec(), true);
        }
        let (answer, left, stayed) = self.lent.call(frame, exported::run);
        (answer, left.to_vec(), stayed)
    }

    fn differs(&mut self, what: &'static str, frame: &[u8], told: String) {
        self.differ += 1;
        let shorter = |it: &Differing| frame.len() < it.frame.len();
        if self.shortest.as_ref().is_none_or(shorter) {
            self.shortest = Some(Differing {
                what,
                frame: frame.to_vec(),
                told,
            });
        }
    }

    /// An accepted frame, a relisting of it, and what is made of it by damage and by exchange.
    fn accepted(&mut self, random: &mut Random, sort: usize, frame: &Frame) {
        let (number, left) = self.compare(SORTS[sort], &frame.bytes);
        assert_eq!(number, 0, "frames are made to be accepted");
        let after = Frame {
            bytes: left,
            records: frame.records.clone(),
        };
        self.happened.mark(frame, &after);
        let (other, order) = relisting(random, frame);
        self.relisted += 1;
        self.moved += u64::from(order.iter().enumerate().any(|(new, &old)| new != old));
        let (number, left) = self.compare("relisted", &other.bytes);
        if number != 0 {
            self.differs("a relisting is refused", &other.bytes, String::new());
        } else if !alike(&after, &order, &other.records, &left) {
            self.differs("a relisting", &other.bytes, String::new());
        }
        if let Some((other, order)) = exchanged_overflow(random, frame) {
            let (_, left) = self.compare("overflow rows exchanged", &other.bytes);
            self.exchanged += 1;
            self.ended_otherwise += u64::from(!alike(&after, &order, &other.records, &left));
        }
        self.compare("damaged", &damaged(random, frame));
    }

    fn print(&self) {
        println!("{} frames, {} bytes", self.frames, self.bytes);
        for (sort, count) in &self.sorts {
            println!("    {count:>9} {sort}");
        }
        println!(
            "{} relistings, {} of them with rows at other places",
            self.relisted, self.moved
        );
        println!(
            "{} times two overflow rows were exchanged, which is no relisting; {} ended otherwise",
            self.exchanged, self.ended_otherwise
        );
        self.happened.print();
        if self.happened.missing() && !self.small {
            println!("something of the list never happened");
        }
        if let Some(it) = &self.shortest {
            println!(
                "the shortest frame that differs, {} bytes, in {}: {}",
                it.frame.len(),
                it.what,
                it.told
            );
            println!("{:02x?}", &it.frame[..it.frame.len().min(2000)]);
        }
    }
}

/// Whether a frame and its relisting ended alike: heads, points, and the two rows of each pair.
fn alike(
    after: &Frame,
    order: &[usize],
    others: &[(usize, &'static Record)],
    other: &[u8],
) -> bool {
    let first = after.rows().start;
    let until = after
        .records
        .get(first)
        .map_or(after.bytes.len(), |row| row.0);
    let same = |(new, &old): (usize, &usize)| {
        let ((at, record), (place, _)) = (after.records[first + old], others[first + new]);
        after.bytes[at..at + record.size()] == other[place..place + record.size()]
    };
    after.bytes[..until] == other[..until] && order.iter().enumerate().all(same)
}

fn main() -> ExitCode {
    let asked = Asked::read();
    let mut found = Found {
        small: asked.small,
        ..Default::default()
    };
    if !asked.small {
        // Those by rule are mostly refused; they come on top.
        frames::each(asked.seeds[0], 0, &mut |sort, frame| {
            found.compare(sort, frame);
        });
    }
    for &seed in &asked.seeds {
        let until = found.frames + asked.count;
        let random = &mut Random::new(seed, "runs");
        while found.frames < until {
            let (sort, frame) = runs(random, asked.sizes());
            found.accepted(random, sort, &frame);
        }
    }
    println!("seeds {:?}", asked.seeds);
    found.print();
    let mut differ = found.differ;
    if let Some(program) = &asked.formrun {
        differ += formrun::compare(program, asked.seeds[0]);
    }
    println!("{differ} differ");
    match (differ, found.happened.missing()) {
        (1.., _) => ExitCode::FAILURE,
        (0, true) if !asked.small => ExitCode::from(2),
        _ => ExitCode::SUCCESS,
    }
}
