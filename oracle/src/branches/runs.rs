//! Which branches of the row functions the run of a whole frame takes: its rows in listed order, with the points as they are then,
//! phase by phase, in the main sweep and in the resweeps.

use super::Tally;
use crate::answers::function;
use crate::frames::Frame;
use crate::layout::{HEAD, POINT, Record, SCALAR};
use crate::rows::{Head, POINTS, Point, Points};
use crate::support::vector::Vector;
use crate::words::{value_of, words_of};
use std::collections::BTreeMap;

/// The phases of a row in a run. The first two are asked for by the mode.
pub const PHASES: [&str; 4] = ["update", "warm start", "solve", "solve in a resweep"];
const WARM: usize = 1;
const SOLVE: usize = 2;
const RESWEEP: usize = 3;

/// What a row's place names.
const NAMES: [&str; 4] = [
    "a point in range",
    "a skipped id",
    "an id out of range",
    "nothing",
];

/// What the numbers may be that earlier phases left.
const NUMBERS: [&str; 4] = [
    "a number of the row is a NaN",
    "a number of the row is infinite",
    "a velocity is a NaN",
    "a velocity is infinite",
];

/// Which branches were taken: under the phase, by its name, how often.
#[derive(Clone, Debug, Default)]
pub struct Taken(BTreeMap<(String, String), u64>);

impl Taken {
    /// Every branch of every row function, none taken.
    pub fn none() -> Self {
        let mut list = BTreeMap::new();
        for kind in ["scalar", "corotational", "neo_hookean"] {
            for (phase, name) in PHASES.iter().enumerate() {
                let key = format!("{kind}, {name}");
                let branches = function(&format!("{kind}_{}", listed_name(phase))).branches;
                let numbers = match phase {
                    0 => &NUMBERS[..0],
                    WARM => &NUMBERS[..2],
                    _ => &NUMBERS,
                };
                // An elastic row names all four.
                let names = if kind == "scalar" {
                    &NAMES[..]
                } else {
                    &NAMES[..3]
                };
                let own = (0..4).flat_map(|place| names.iter().map(move |what| named(place, what)));
                let labels = branches.labels.iter().chain(numbers);
                for label in labels.map(|label| label.to_string()).chain(own) {
                    list.insert((key.clone(), label), 0);
                }
            }
            for step in ["main_step", "resweep_step"] {
                for label in step_labels(kind, step) {
                    list.insert((format!("{kind}, {step}"), label.to_string()), 0);
                }
            }
        }
        Self(list)
    }

    /// The phases and their branches, in order, with how often each was taken.
    pub fn list(&self) -> impl Iterator<Item = (&str, &str, u64)> {
        let parts = self.0.iter();
        parts.map(|((phase, label), count)| (phase.as_str(), label.as_str(), *count))
    }

    /// Adds one for each branch that the other takes at all.
    pub fn add(&mut self, other: &Self) {
        for (count, more) in self.0.values_mut().zip(other.0.values()) {
            *count += u64::from(*more > 0);
        }
    }

    /// Whether the other takes a branch that is taken fewer than so many times here.
    pub fn gains(&self, other: &Self, times: u64) -> bool {
        let mut both = self.0.values().zip(other.0.values());
        both.any(|(count, more)| *count < times && *more > 0)
    }

    fn hit(&mut self, phase: &str, label: &str) {
        let count = self.0.get_mut(&(phase.into(), label.into()));
        *count.unwrap_or_else(|| panic!("{phase}: {label}: not listed")) += 1;
    }

    /// Marks the branches of a function of the table of answers, under this phase.
    fn mark(&mut self, phase: &str, name: &str, input: &[u32]) {
        let branches = function(name).branches;
        let mut tally = Tally::new(branches.labels);
        (branches.mark)(input, &mut tally);
        for (label, _) in tally.counts().iter().filter(|entry| entry.1 > 0) {
            self.hit(phase, label);
        }
    }

    /// Marks the branches of a step that none of its phases has.
    fn mark_step(&mut self, kind: &str, step: &str, input: &[u32]) {
        let branches = function(&format!("{kind}_{step}")).branches;
        let mut tally = Tally::new(branches.labels);
        (branches.mark)(input, &mut tally);
        for label in step_labels(kind, step) {
            if tally.counts().contains(&(label, 0)) {
                continue;
            }
            self.hit(&format!("{kind}, {step}"), label);
        }
    }
}

/// The branches of a step that none of its phases has.
fn step_labels(kind: &str, step: &str) -> impl Iterator<Item = &'static str> {
    let of = |name: &str| function(&format!("{kind}_{name}")).branches.labels;
    let phases = [of("update"), of("solve")].concat();
    let labels = of(step).iter().copied();
    labels.filter(move |label| !phases.contains(label))
}

/// The end of the name that the table of answers has for a phase.
fn listed_name(phase: usize) -> &'static str {
    ["update", "warmstart", "solve", "solve"][phase]
}

fn named(place: usize, what: &str) -> String {
    format!("place {place} names {what}")
}

/// A row in a run.
struct Row {
    record: &'static Record,
    words: Vec<u32>,
}

impl Row {
    /// The kind's name in the table of answers.
    fn kind(&self) -> String {
        self.record.name.replace('-', "_").to_lowercase()
    }

    /// The ids that it names.
    fn named(&self) -> &[u32] {
        let count = match self.record.kind == SCALAR.kind {
            true => self.words[3] as usize,
            false => 4,
        };
        &self.words[4..4 + count]
    }

    fn strained(&self) -> bool {
        self.words[1] != 0
    }
}

/// The run of an accepted frame by the answers of the row functions, and the branches that it takes.
pub fn run_taken(frame: &Frame) -> (Frame, Taken) {
    let [n, r, mode, resweeps, warm, least] = frame.words(0).try_into().expect("a head");
    let numbers = 1..=n as usize;
    let mut run = Run {
        head: value_of(&[mode, warm, least]),
        points: numbers.map(|point| value_of(&frame.words(point))).collect(),
        taken: Taken::none(),
    };
    let of = |row: usize| Row {
        record: frame.records[row].1,
        words: frame.words(row),
    };
    let mut rows: Vec<_> = frame.rows().map(of).collect();
    rows.iter_mut().for_each(|row| run.main_step(row));
    for _ in 0..resweeps {
        rows.iter_mut().for_each(|row| run.resweep_step(row));
    }
    let mut after = Frame::default();
    after.push_words(&HEAD, &[n, r, mode, resweeps, warm, least]);
    for point in &run.points {
        after.push_words(&POINT, &words_of(point));
    }
    for row in rows {
        after.push_words(row.record, &row.words);
    }
    (after, run.taken)
}

struct Run {
    head: Head,
    points: Vec<Point>,
    taken: Taken,
}

impl Run {
    fn main_step(&mut self, row: &mut Row) {
        let kind = row.kind();
        let head = self.head;
        let (points, local) = self.local(row);
        let input = words_of(&head).into_iter().chain(words_of(&points));
        let input: Vec<_> = input.chain(local).collect();
        self.taken.mark_step(&kind, "main_step", &input);
        if head.mode & 1 != 0 {
            self.phase(0, row, Some(head.least_strain));
        }
        if head.mode & 2 != 0 {
            self.phase(WARM, row, Some(head.warm_coefficient));
        }
        self.phase(SOLVE, row, None);
    }

    fn resweep_step(&mut self, row: &mut Row) {
        let kind = row.kind();
        let (points, local) = self.local(row);
        let input: Vec<_> = words_of(&points).into_iter().chain(local).collect();
        self.taken.mark_step(&kind, "resweep_step", &input);
        if row.strained() {
            self.phase(RESWEEP, row, None);
        }
    }

    /// The points that a row names as the functions of the table have them, at most four, and the row with their numbers.
    fn local(&self, row: &Row) -> (Points, Vec<u32>) {
        let none = Point {
            position: Vector::ZERO,
            velocity: Vector::ZERO,
        };
        let mut points = Points {
            n: 0,
            points: [none; POINTS],
        };
        let mut words = row.words.clone();
        for (place, &id) in row.named().iter().enumerate() {
            let earlier = row.named()[..place].iter().position(|&other| other == id);
            words[4 + place] = match (self.points.get(id as usize), earlier) {
                (None, _) if id == u32::MAX => id,
                (None, _) => u32::MAX - 1,
                (_, Some(earlier)) => words[4 + earlier],
                (Some(&point), None) => {
                    points.points[points.n as usize] = point;
                    points.n += 1;
                    points.n - 1
                }
            };
        }
        (points, words)
    }

    /// One phase of a row, with the number that it is given beside points and row.
    fn phase(&mut self, phase: usize, row: &mut Row, number: Option<f32>) {
        let kind = row.kind();
        let key = format!("{kind}, {}", PHASES[phase]);
        self.mark_names(&key, row);
        let (points, local) = self.local(row);
        if phase != 0 {
            self.mark_numbers(&key, phase, row, &points);
        }
        let name = format!("{kind}_{}", listed_name(phase));
        let input = words_of(&points).into_iter().chain(local.iter().copied());
        let input: Vec<_> = input.chain(number.map(f32::to_bits)).collect();
        self.taken.mark(&key, &name, &input);
        let output = (function(&name).answer)(&input);
        let (after, velocities) = output.split_at(row.words.len());
        // Its own ids stay.
        row.words[..4].copy_from_slice(&after[..4]);
        row.words[8..].copy_from_slice(&after[8..]);
        if phase == 0 {
            return;
        }
        let velocities: [Vector; POINTS] = value_of(velocities);
        for (&id, &number) in row.named().iter().zip(&local[4..8]) {
            if let Some(point) = self.points.get_mut(id as usize) {
                point.velocity = velocities[number as usize];
            }
        }
    }

    fn mark_names(&mut self, key: &str, row: &Row) {
        for place in 0..4 {
            let what = match row.named().get(place) {
                None => NAMES[3],
                Some(&u32::MAX) => NAMES[1],
                Some(&id) if id as usize >= self.points.len() => NAMES[2],
                Some(_) => NAMES[0],
            };
            self.taken.hit(key, &named(place, what));
        }
    }

    fn mark_numbers(&mut self, key: &str, phase: usize, row: &Row, points: &Points) {
        // All but the bounds of a scalar row, which may be infinite in any frame.
        let end = match row.record.kind == SCALAR.kind {
            true => row.words.len() - 2,
            false => row.words.len(),
        };
        let numbers: Vec<_> = row.words[8..end]
            .iter()
            .map(|&w| f32::from_bits(w))
            .collect();
        let named = &points.points[..points.n as usize];
        let velocities: Vec<_> = named
            .iter()
            .flat_map(|point| [point.velocity.x, point.velocity.y, point.velocity.z])
            .collect();
        let lists = [numbers, velocities];
        for (of, list) in lists
            .iter()
            .enumerate()
            .take(if phase == WARM { 1 } else { 2 })
        {
            if list.iter().any(|x| x.is_nan()) {
                self.taken.hit(key, NUMBERS[2 * of]);
            }
            if list.iter().any(|x| x.is_infinite()) {
                self.taken.hit(key, NUMBERS[2 * of + 1]);
            }
        }
    }
}
