//! Frames from a seed, accepted and damaged, for two checks to be held against each other.
//!
//! First those made by rule, which miss no field, no limit and no pair of faults; then those made by chance.

mod accepted;
mod chance;
mod rule;
mod runs;
mod sheet;
mod values;

pub use accepted::{Frame, accepted, kinds};
pub use chance::{ACCEPTED, damaged, some};
pub use runs::{SORTS, Sizes, alone, exchanged_overflow, few, relisting, runs};
pub use sheet::{Element, Sheet, sheet};

use crate::random::Random;
use std::cell::Cell;

/// What is called with each frame, and with what sort of frame it is.
pub type Visit<'a> = dyn FnMut(&'static str, &[u8]) + 'a;

/// Visits all frames by rule, and then frames by chance until there were `count`.
pub fn each(seed: u64, count: u64, visit: &mut Visit) {
    let seen = Cell::new(0);
    let mut counted = |sort, frame: &[u8]| {
        seen.set(seen.get() + 1);
        visit(sort, frame);
    };
    rule::all(&mut Random::new(seed, "frames by rule"), &mut counted);
    let random = &mut Random::new(seed, "frames by chance");
    while seen.get() < count {
        chance::some(random, &mut counted);
    }
}

/// The number of two or four bytes at a place.
fn number_at(bytes: &[u8], at: usize, width: usize) -> u32 {
    let part = bytes[at..at + width].iter().rev();
    part.fold(0, |number, &byte| number << 8 | u32::from(byte))
}

/// Writes a number of two or four bytes, as far as the bytes go.
fn write(bytes: &mut [u8], at: usize, value: u32, width: usize) {
    for (i, byte) in value.to_le_bytes().into_iter().take(width).enumerate() {
        if let Some(place) = bytes.get_mut(at + i) {
            *place = byte;
        }
    }
}
