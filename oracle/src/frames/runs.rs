//! Accepted frames for whole runs: rows at the limits of the source's branches, disturbed sheets, and numbers of no meaning; and the
//! relistings of a frame.

use super::accepted::{Colours, Frame, Taken, accepted, kinds};
use super::sheet::{Element, Sheet, sheet};
use crate::check::check;
use crate::inputs::{
    corotational_head_points_row, finite, finite_pattern, finite_special, head, largest_strain,
    neo_hookean_head_points_row, own_strain, plain, scalar_head_points_row,
};
use crate::layout::{COROTATIONAL, HEAD, Holds, MOST, OVERFLOW, POINT, Record, SCALAR};
use crate::random::Random;
use crate::rows::{Corotational, Head, NeoHookean, POINTS, Point, Points, ScalarRow};
use crate::run::run;
use crate::support::vector::Vector;
use crate::words::{Words, value_of, words_of};

/// The sorts of frame that `runs` makes.
pub const SORTS: [&str; 3] = [
    "rows at the limits of branches",
    "a sheet, disturbed",
    "numbers of no meaning",
];

/// How far a frame may go.
#[derive(Clone, Copy, Debug)]
pub struct Sizes {
    /// One frame in so many has up to the most points and rows, nine have up to some hundred; of the others one in eight has up to 60.
    pub large: usize,
    /// Resweeps, at most.
    pub resweeps: usize,
}

/// An accepted frame, and its number in `SORTS`.
pub fn runs(random: &mut Random, sizes: Sizes) -> (usize, Frame) {
    let (points, rows) = counts(random, sizes);
    let sort = random.pick(&[0, 0, 0, 1, 1, 2]);
    let mut frame = match sort {
        0 => of_rows(random, points, rows),
        1 => disturbed_sheet(random, points, rows),
        _ => {
            let kinds = kinds(random, rows);
            accepted(random, points as u32, &kinds)
        }
    };
    let most = sizes.resweeps;
    let resweeps = random.pick(&[0, 1, 2, 3, most]).min(most);
    let resweeps = match random.one_in(8) {
        true => random.below(most + 1),
        false => resweeps,
    };
    frame.put(0, "resweeps", 0, resweeps as u32);
    (sort, frame)
}

/// An accepted frame of one to five rows, with up to twelve points, and up to three resweeps.
pub fn few(random: &mut Random) -> Frame {
    let (points, rows) = (random.below(13), 1 + random.below(5));
    let mut frame = match random.below(4) {
        0 => disturbed_sheet(random, points, rows),
        1 => {
            let kinds = kinds(random, rows);
            accepted(random, points as u32, &kinds)
        }
        _ => of_rows(random, points, rows),
    };
    frame.put(0, "resweeps", 0, random.below(4) as u32);
    frame
}

/// A row alone with the points and the head that it asks for; the number is that of the input. Its least strain is now and then exactly
/// the row's own.
pub fn alone(random: &mut Random, record: &'static Record, number: usize) -> Frame {
    let (head, mut points, mut row) = asked(random, record, number);
    for point in &mut points.points {
        for part in 0..3 {
            if !point.velocity[part].is_finite() {
                point.velocity[part] = finite(random);
            }
        }
    }
    let mut least = head.least_strain;
    if random.one_in(4) {
        least = own_least(record, &points, &mut row).unwrap_or(least);
    }
    let mut frame = Frame::default();
    let (warm, least) = (head.warm_coefficient.to_bits(), least.to_bits());
    let resweeps = random.below(3) as u32;
    frame.push_words(&HEAD, &[points.n, 1, head.mode, resweeps, warm, least]);
    for point in &points.points[..points.n as usize] {
        frame.push_words(&POINT, &words_of(point));
    }
    frame.push_words(record, &row);
    frame
}

/// A row of this kind as it is made for its main step: what is asked of the run, points, and the row's words.
fn asked(random: &mut Random, record: &Record, number: usize) -> (Head, Points, Vec<u32>) {
    let make = match record.kind {
        kind if kind == SCALAR.kind => scalar_head_points_row,
        kind if kind == COROTATIONAL.kind => corotational_head_points_row,
        _ => neo_hookean_head_points_row,
    };
    let words = make(random, number);
    let (head, rest) = words.split_at(Head::COUNT);
    let (points, row) = rest.split_at(Points::COUNT);
    (value_of(head), value_of(points), row.to_vec())
}

/// The least strain that is exactly the row's own after an update, if it is finite. A distance gets a rest of 1.
fn own_least(record: &Record, points: &Points, row: &mut [u32]) -> Option<f32> {
    let own = match record.kind {
        kind if kind == SCALAR.kind => {
            let mut scalar: ScalarRow = value_of(row);
            scalar.rest = 1.0;
            row.copy_from_slice(&words_of(&scalar));
            own_strain(points, scalar)?
        }
        kind if kind == COROTATIONAL.kind => largest_strain::<Corotational>(points, value_of(row)),
        _ => largest_strain::<NeoHookean>(points, value_of(row)),
    };
    own.is_finite().then_some(own)
}

fn counts(random: &mut Random, sizes: Sizes) -> (usize, usize) {
    let most = MOST as usize;
    let (points, rows) = match random.below(sizes.large) {
        0 => (most, most),
        n if n < 10 => (300, 200),
        n if n % 8 == 0 => (60, 30),
        _ => (12, 6),
    };
    let mut up_to = |most| match random.one_in(4) {
        true => most,
        false => random.below(most + 1),
    };
    (up_to(points), up_to(rows))
}

/// A head as rows ask for it.
fn head_words(random: &mut Random, points: usize, rows: usize) -> [u32; 6] {
    let Head {
        mode,
        warm_coefficient,
        least_strain,
    } = head(random, usize::MAX);
    let [warm, least] = [warm_coefficient, least_strain].map(f32::to_bits);
    [points as u32, rows as u32, mode, 0, warm, least]
}

/// Frames of rows as they are made for the row functions: each comes with points, which the frame has unless an earlier row placed them.
fn of_rows(random: &mut Random, points: usize, rows: usize) -> Frame {
    let mut colours = match random.one_in(2) {
        true => Colours::new(random, rows),
        // Rows enough in each colour to be listed otherwise.
        false => Colours {
            now: 0,
            step: random.pick(&[0, 8]),
            overflow: 0,
        },
    };
    let mut taken = Taken {
        points: points as u32,
        colour: 0,
        last: vec![0; points],
    };
    let mut placed: Vec<Option<Point>> = vec![None; points];
    let mut list = Vec::with_capacity(rows);
    for record in kinds(random, rows) {
        let number = match random.one_in(4) {
            true => random.below(32),
            false => usize::MAX,
        };
        let (_, own, mut row) = asked(random, record, number);
        taken.colour = colours.next(random);
        row[0] = taken.colour;
        name(random, &mut taken, &own, record, &mut row, &mut placed);
        list.push((record, row));
    }
    let mut frame = Frame::default();
    frame.push_words(&HEAD, &head_words(random, points, rows));
    for place in placed {
        let point = place.unwrap_or_else(|| Point {
            position: vector(random),
            velocity: vector(random),
        });
        frame.push_words(&POINT, &words_of(&point));
    }
    for (record, words) in list {
        frame.push_words(record, &words);
    }
    frame
}

fn vector(random: &mut Random) -> Vector {
    Vector::new(finite(random), finite(random), finite(random))
}

/// Gives a row ids of the frame in place of those of its own points.
fn name(
    random: &mut Random,
    taken: &mut Taken,
    own: &Points,
    record: &Record,
    row: &mut [u32],
    placed: &mut [Option<Point>],
) {
    let points = taken.points;
    let count = match record.kind == SCALAR.kind {
        true => row[3] as usize,
        false => 4,
    };
    // One id of the frame for each of the row's own points.
    let ids: [u32; POINTS] = std::array::from_fn(|_| match taken.colour == OVERFLOW.into() {
        true => random.below(points as usize + 2) as u32,
        false => taken.free(random),
    });
    for place in 0..4 {
        let id = row[4 + place];
        row[4 + place] = match ids.get(id as usize) {
            _ if place >= count => random.below(points as usize + 2) as u32,
            _ if id == u32::MAX => id,
            Some(&named) if id < own.n => named,
            // Out of range here as there.
            _ => random.pick(&[points, points + 1, 0x8000_0000, u32::MAX - 1]),
        };
        let named = row[4 + place] as usize;
        if place >= count || named >= placed.len() {
            continue;
        }
        taken.last[named] = taken.colour + 1;
        if placed[named].is_none() {
            let mut point = own.points[id as usize];
            for part in 0..3 {
                if !point.velocity[part].is_finite() {
                    point.velocity[part] = finite(random);
                }
            }
            placed[named] = Some(point);
        }
    }
}

/// A sheet with at most so many points and rows, half of the time with something wrong with it.
fn disturbed_sheet(random: &mut Random, points: usize, rows: usize) -> Frame {
    const ALL: [Element; 5] = [
        Element::Distance,
        Element::Dihedral,
        Element::Volume,
        Element::Corotational,
        Element::NeoHookean,
    ];
    let elements = random.pick(&[&ALL[..], &ALL, &ALL[..3], &ALL[..1], &ALL[3..4], &ALL[4..]]);
    let side = ((points / 2) as f32).sqrt() as usize;
    let [_, _, mode, _, warm, least] = head_words(random, 0, 0);
    let mut frame = sheet(&Sheet {
        elements,
        side: side.max(2),
        rows,
        colours: random.pick(&[0, 2, 8, 64, 64]),
        mode,
        resweeps: 0,
        warm_coefficient: f32::from_bits(warm),
        least_strain: match random.one_in(2) {
            true => random.pick(&[0.0, 0.01, 0.1]),
            false => f32::from_bits(least),
        },
    });
    if random.one_in(2) {
        updated(&mut frame, random.below(3) as u32);
    }
    let tame = random.one_in(2);
    let sort = match tame {
        true => 0,
        false => random.below(10),
    };
    disturb_points(random, &mut frame, sort);
    if !tame {
        for row in frame.rows() {
            disturb_row(random, &mut frame, row);
        }
    }
    frame
}

/// The frame as a run with an update leaves it, if its numbers stay finite: rows that were updated before, blocks that may be kept.
fn updated(frame: &mut Frame, resweeps: u32) {
    let mut after = frame.clone();
    after.put(0, "mode", 0, 1);
    after.put(0, "resweeps", 0, resweeps);
    if run(&mut after.bytes) == (0, 0) && check(&after.bytes) == (0, 0) {
        after.put(0, "mode", 0, frame.get(0, "mode", 0));
        *frame = after;
    }
}

/// Points that are moved, turned inside out, flat, in one place, huge or tiny, as the sort says; and their velocities.
fn disturb_points(random: &mut Random, frame: &mut Frame, sort: usize) {
    let far = random.pick(&[0.001, 0.01, 0.1, 1.0]);
    let scale = random.pick(&[1.0e-30, 1.0e-20, 1.0e-3, 1.0e6, 1.0e19, 3.0e37]);
    for point in 1..frame.rows().start {
        for part in 0..3 {
            let now = f32::from_bits(frame.get(point, "position", part));
            let place = match (sort, part) {
                (0..4, _) => now + far * random.unit(),
                (4, 2) => -now,
                (5, 2) => 0.0,
                (6, _) => 1.0,
                (7, _) => now * scale,
                (8, _) if random.one_in(8) => finite_pattern(random),
                _ => now,
            };
            if place.is_finite() {
                frame.put(point, "position", part, place.to_bits());
            }
            let velocity = match random.below(16) {
                0 if sort > 0 => finite(random),
                1..4 => plain(random),
                4..8 => random.unit(),
                _ => continue,
            };
            frame.put(point, "velocity", part, velocity.to_bits());
        }
    }
}

/// Changes something of a row, or nothing; the frame stays accepted.
fn disturb_row(random: &mut Random, frame: &mut Frame, row: usize) {
    let (start, record) = frame.records[row];
    let scalar = record.kind == SCALAR.kind;
    let points = frame.get(0, "points", 0);
    let place = random.below(4);
    match random.below(20) {
        0 => frame.put(row, "ids", place, u32::MAX),
        1 => {
            let far = random.pick(&[points, points + 1, u32::MAX - 1, 0x8000_0000]);
            frame.put(row, "ids", place, far);
        }
        // A point named twice.
        2 => {
            let other = frame.get(row, "ids", (place + 1) % 4);
            frame.put(row, "ids", place, other);
        }
        3 => frame.put(
            row,
            "im",
            place,
            random.pick(&[0.0f32, -0.0, -1.0, 1.0e6]).to_bits(),
        ),
        4..7 => frame.put(row, "strained", 0, 1),
        // The ids of a distance row are its two points once more, so that any count will do.
        7 if scalar && frame.get(row, "type", 0) == 0 => {
            frame.put(row, "type", 0, random.below(3) as u32);
            frame.put(row, "count", 0, random.below(5) as u32);
        }
        7 if scalar => frame.put(row, "count", 0, random.below(5) as u32),
        8 if scalar => {
            let (lower, upper) = crate::inputs::bounds(random);
            frame.put(row, "lower bound", 0, lower.to_bits());
            frame.put(row, "upper bound", 0, upper.to_bits());
        }
        8 => frame.put(
            row,
            "strain_cap",
            random.below(6),
            finite(random).abs().to_bits(),
        ),
        9 if record.kind == COROTATIONAL.kind => {
            frame.put(row, "volumetric", 0, random.below(2) as u32);
            frame.put(row, "vol_cap", 0, finite(random).abs().to_bits());
        }
        9 if !scalar => {
            frame.put(row, "mu", 0, plain(random).to_bits());
            frame.put(row, "lambda", 0, plain(random).to_bits());
        }
        10..13 => {
            let name = if scalar { "impulse" } else { "strain_impulse" };
            frame.put(row, name, 0, random.unit().to_bits());
        }
        // Some number of the row.
        13..15 => {
            let is_float = |part: &crate::layout::Part| part.field.holds == Holds::Float;
            let floats: Vec<_> = record.parts().filter(is_float).collect();
            let at = start + random.pick(&floats).offset;
            let value = match random.one_in(2) {
                true => finite_special(random),
                false => finite(random),
            };
            frame.bytes[at..at + 4].copy_from_slice(&value.to_bits().to_le_bytes());
        }
        _ => {}
    }
}

/// A relisting of an accepted frame: the rows of each colour shuffled, the overflow in place. Also, for each of its rows, the number that
/// its partner has in the frame.
pub fn relisting(random: &mut Random, frame: &Frame) -> (Frame, Vec<usize>) {
    let rows = frame.rows();
    let colours: Vec<_> = rows
        .clone()
        .map(|row| frame.get(row, "colour", 0))
        .collect();
    let mut order: Vec<usize> = (0..rows.len()).collect();
    let mut from = 0;
    for colour in colours.chunk_by(|a, b| a == b) {
        let part = &mut order[from..from + colour.len()];
        from += colour.len();
        if colour[0] != u32::from(OVERFLOW) {
            for i in (1..part.len()).rev() {
                part.swap(i, random.below(i + 1));
            }
        }
    }
    (listed(frame, &order), order)
}

/// The frame with two of its overflow rows exchanged, if it has two: no relisting.
pub fn exchanged_overflow(random: &mut Random, frame: &Frame) -> Option<(Frame, Vec<usize>)> {
    let rows = frame.rows();
    let overflow = |&row: &usize| frame.get(rows.start + row, "colour", 0) == u32::from(OVERFLOW);
    let first = (0..rows.len()).find(overflow)?;
    if rows.len() - first < 2 {
        return None;
    }
    let mut order: Vec<usize> = (0..rows.len()).collect();
    let one = first + random.below(rows.len() - first - 1);
    order.swap(one, one + 1);
    Some((listed(frame, &order), order))
}

/// The frame with its rows in another order.
fn listed(frame: &Frame, order: &[usize]) -> Frame {
    let rows = frame.rows();
    let (kept, first) = match frame.records.get(rows.start) {
        Some(&(first, _)) => (&frame.records[..rows.start], first),
        None => (&frame.records[..], frame.bytes.len()),
    };
    let mut other = Frame {
        bytes: frame.bytes[..first].to_vec(),
        records: kept.to_vec(),
    };
    for &row in order {
        let (start, record) = frame.records[rows.start + row];
        other.records.push((other.bytes.len(), record));
        other
            .bytes
            .extend(&frame.bytes[start..start + record.size()]);
    }
    other
}
