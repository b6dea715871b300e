//! Which branches of the source an input takes: the conditions written once more, beside the source, and counted.
//!
//! Nothing here enters an answer. What is counted twice within one call (a turn, a sweep, a pivot) counts as often as it is met.

/// Joins lists of labels at compile time.
macro_rules! joined {
    ($($part:expr),+ $(,)?) => {{
        const PARTS: &[&[&str]] = &[$(&$part),+];
        const COUNT: usize = {
            let (mut count, mut i) = (0, 0);
            while i < PARTS.len() {
                count += PARTS[i].len();
                i += 1;
            }
            count
        };
        const ALL: [&str; COUNT] = {
            let mut all = [""; COUNT];
            let (mut at, mut i) = (0, 0);
            while i < PARTS.len() {
                let mut j = 0;
                while j < PARTS[i].len() {
                    all[at] = PARTS[i][j];
                    at += 1;
                    j += 1;
                }
                i += 1;
            }
            all
        };
        &ALL
    }};
}

mod arithmetic;
mod rows;
mod runs;

pub use arithmetic::*;
pub use rows::*;
pub use runs::{Taken, run_taken};

/// The branches of one function.
#[derive(Clone, Copy)]
pub struct Branches {
    /// Every branch, also those that an input may never take.
    pub labels: &'static [&'static str],
    /// Marks the branches that these words take.
    pub mark: fn(&[u32], &mut Tally),
}

/// A function without branches.
pub const NONE: Branches = Branches {
    labels: &[],
    mark: |_, _| {},
};

/// Branches that may stay at 0, and why.
pub const RARE: &[(&str, &str)] = &[
    (
        "d = -0",
        ": the diagonal of I + strain is never -0; met in symmetric_eigen and neo_hookean_hessian",
    ),
    (
        "distance, length is NaN",
        ": needs a NaN in a `pos` that no point refreshes, one input in 40,000; met in scalar_compute_gradients",
    ),
];

/// How often each branch was taken.
pub struct Tally(Vec<(&'static str, u64)>);

impl Tally {
    pub fn new(labels: &[&'static str]) -> Self {
        Self(labels.iter().map(|&label| (label, 0)).collect())
    }

    pub fn counts(&self) -> &[(&'static str, u64)] {
        &self.0
    }

    /// How many branches were never taken.
    pub fn missing(&self) -> usize {
        self.0.iter().filter(|entry| entry.1 == 0).count()
    }

    /// Counts a branch that its function has listed.
    pub fn hit(&mut self, label: &'static str) {
        let entry = self.0.iter_mut().find(|entry| entry.0 == label);
        entry.unwrap_or_else(|| panic!("{label}: not listed")).1 += 1;
    }

    /// Counts a branch where it is taken.
    pub fn hit_if(&mut self, taken: bool, label: &'static str) {
        if taken {
            self.hit(label);
        }
    }
}
