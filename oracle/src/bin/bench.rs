//! Times the Rattle functions beside the oracle in one run: nanoseconds of each, best of several repetitions, and the ratio.

use oracle::answers::Six6;
use oracle::direct::{self, RowCalls};
use oracle::inputs::{
    Typical, near_rotation, stretched, typical_corotational, typical_neo_hookean, typical_scalar,
    unit_rotation,
};
use oracle::random::Random;
use oracle::rattle::{self, Linked, ready};
use oracle::rows::Points;
use oracle::support::na::SMatrix;
use oracle::support::vector::{Matrix, Rotation};
use std::hint::black_box;
use std::time::Instant;

/// How many inputs are gone through again and again.
const INPUTS: usize = 512;
/// How many times the inputs are gone through for one timing, and how many timings there are.
const ROUNDS: usize = 2;
const TIMINGS: usize = 1000;

/// The shortest time of each of these, in nanoseconds by input. They take turns, so that what else the machine does meets all.
fn shortest<const N: usize>(inputs: usize, mut runs: [&mut dyn FnMut(); N]) -> [f64; N] {
    let calls = (ROUNDS * inputs) as f64;
    let mut shortest = [f64::INFINITY; N];
    for _ in 0..TIMINGS {
        for (run, shortest) in runs.iter_mut().zip(&mut shortest) {
            let start = Instant::now();
            for _ in 0..ROUNDS {
                run();
            }
            *shortest = shortest.min(start.elapsed().as_nanos() as f64 / calls);
        }
    }
    shortest
}

fn line(name: &str, rattle: f64, oracle: f64) -> String {
    let ratio = rattle / oracle;
    format!("{name:<30} Rattle {rattle:>7.1} ns   oracle {oracle:>7.1} ns   ratio {ratio:.2}")
}

/// Prints the time of a call of each.
fn race<T>(name: &str, inputs: &[T], mut rattle: impl FnMut(&T), mut oracle: impl FnMut(&T)) {
    let [first, second] = shortest(
        inputs.len(),
        [&mut || inputs.iter().for_each(&mut rattle), &mut || {
            inputs.iter().for_each(&mut oracle)
        }],
    );
    println!("{}", line(name, first, second));
}

fn main() {
    let random = &mut Random::new(1, "bench");
    roots(random);
    six_rows(random);
    eigen(random);
    rotations(random);
    scalar_rows(random);
    elastic_rows(random);
}

fn roots(random: &mut Random) {
    let numbers: Vec<f32> = (0..INPUTS)
        .map(|_| f32::from_bits(0x3000_0000 + random.bits() % 0x2000_0000))
        .collect();
    // The lowest bit of each root goes into the next number, so that one waits for the other.
    let after = |x: f32, last: u32| f32::from_bits(x.to_bits() ^ (last & 1));
    let (mut last, mut also) = (0, 0);
    race(
        "root, serial",
        &numbers,
        |&x| last = rattle::rt_root(after(x, last)).to_bits(),
        |&x| also = direct::root(after(x, also)).to_bits(),
    );
    black_box((last, also));
    let (mut all, mut also) = (0, 0);
    race(
        "root, throughput",
        &numbers,
        |&x| all ^= rattle::rt_root(x).to_bits(),
        |&x| also ^= direct::root(x).to_bits(),
    );
    black_box((all, also));
}

fn flat(m: &Six6) -> &[f32; 36] {
    m.0.as_flattened().try_into().expect("thirty-six")
}

fn six_rows(random: &mut Random) {
    let mut matrices = |diagonal: f32| -> Vec<Six6> {
        let part = |i, j, random: &mut Random| random.unit() + if i == j { diagonal } else { 0.0 };
        (0..INPUTS)
            .map(|_| SMatrix::from_fn(|i, j| part(i, j, random)))
            .collect()
    };
    let general = matrices(0.0);
    let heavy = matrices(20.0);
    let mut out = [0.0; 36];
    let pairs: Vec<(Six6, Six6)> = general.iter().copied().zip(heavy.clone()).collect();
    race(
        "six-row product",
        &pairs,
        |(a, b)| {
            rattle::rt_mat_mul(flat(a), flat(b), &mut out);
            black_box(&out);
        },
        |(a, b)| {
            black_box(&direct::mat_mul(a, b));
        },
    );
    for (name, list) in [
        ("try_inverse, any", &general),
        ("try_inverse, heavy diagonal", &heavy),
    ] {
        race(
            name,
            list,
            |m| {
                rattle::rt_try_inverse(flat(m), &mut out);
                black_box(&out);
            },
            |m| {
                black_box(&direct::try_inverse(m));
            },
        );
    }
}

fn eigen(random: &mut Random) {
    let matrices: Vec<Matrix> = (0..INPUTS)
        .map(|_| {
            let [a, b, c, d, e, f] = std::array::from_fn(|_| random.unit());
            Matrix::from_cols_array_2d(&[[a, d, e], [d, b, f], [e, f, c]])
        })
        .collect();
    race(
        "symmetric_eigen",
        &matrices,
        |&m| {
            black_box(rattle::rt_symmetric_eigen(m));
        },
        |&m| {
            black_box(direct::symmetric_eigen(m));
        },
    );
}

fn rotations(random: &mut Random) {
    for (name, far) in [
        ("extract_rotation, warm", 0.01),
        ("extract_rotation, far", 0.5),
    ] {
        let pairs: Vec<(Matrix, Rotation)> = (0..INPUTS)
            .map(|_| {
                let q = unit_rotation(random);
                (stretched(random, q, 0.1), near_rotation(random, q, far))
            })
            .collect();
        race(
            name,
            &pairs,
            |&(a, warm)| {
                black_box(rattle::rt_extract_rotation(a, warm));
            },
            |&(a, warm)| {
                black_box(direct::extract_rotation(a, warm));
            },
        );
    }
}

/// The rows of one kind, ready for Rattle and for the oracle.
fn both_ready<R: Linked, B: RowCalls>(
    rows: &[Typical<R>],
    oracle: impl Fn(Points, R) -> B,
    of: impl Fn(&Typical<R>) -> R,
) -> (Vec<impl RowCalls>, Vec<B>) {
    let ours = rows.iter().map(|row| ready(row.points, of(row))).collect();
    let theirs = rows.iter().map(|row| oracle(row.points, of(row))).collect();
    (ours, theirs)
}

/// Times the update with peak and flag: each call gathers the positions of the row's points and alters a copy of the row.
fn race_update<R: Linked, B: RowCalls>(
    name: &str,
    rows: &[Typical<R>],
    oracle: impl Fn(Points, R) -> B,
) {
    let (ours, theirs) = both_ready(rows, oracle, |row| row.row);
    let [first, second] = shortest(
        rows.len(),
        [&mut || ours.iter().for_each(RowCalls::update), &mut || {
            theirs.iter().for_each(RowCalls::update)
        }],
    );
    println!("{}", line(name, first, second));
}

/// Times the solve after an update: each call gathers the velocities of the row's points, alters the row's impulses, and takes from
/// the points what they lose.
fn race_solve<R: Linked, B: RowCalls>(
    name: &str,
    rows: &[Typical<R>],
    oracle: impl Fn(Points, R) -> B,
) {
    let (mut ours, mut theirs) = both_ready(rows, oracle, |row| row.updated);
    let [first, second] = shortest(
        rows.len(),
        [
            &mut || ours.iter_mut().for_each(RowCalls::solve),
            &mut || theirs.iter_mut().for_each(RowCalls::solve),
        ],
    );
    println!("{}", line(name, first, second));
}

fn scalar_rows(random: &mut Random) {
    for (kind, name) in ["distance", "dihedral", "cell volume"]
        .into_iter()
        .enumerate()
    {
        let rows: Vec<_> = (0..INPUTS)
            .map(|_| typical_scalar(random, kind as u32))
            .collect();
        race_update(&format!("{name}, update"), &rows, direct::scalar);
        race_solve(&format!("{name}, solve"), &rows, direct::scalar);
    }
}

fn elastic_rows(random: &mut Random) {
    let rows: Vec<_> = (0..INPUTS).map(|_| typical_corotational(random)).collect();
    race_update("corotational, update", &rows, direct::corotational);
    race_solve("corotational, solve", &rows, direct::corotational);
    for (name, kept) in [("kept", true), ("renewed", false)] {
        let rows: Vec<_> = (0..INPUTS)
            .map(|_| typical_neo_hookean(random, kept))
            .collect();
        race_update(
            &format!("neo-Hookean, update, {name}"),
            &rows,
            direct::neo_hookean,
        );
        if kept {
            race_solve("neo-Hookean, solve", &rows, direct::neo_hookean);
        }
    }
}
