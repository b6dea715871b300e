//! The oracle: the listed Rust, compiled as it stands over a support module written from document 01's section Arithmetic.
//!
//! No operation is fused. Rust never contracts `a * b + c` into one rounding by itself: only `mul_add` and intrinsics of one
//! machine do that, and neither is called here (build.rs refuses `mul_add` in the listed text). No flag such as
//! `-C target-cpu` or a fast-math attribute is set, and on x86-64 each f32 operation is an SSE instruction with one rounding.
//!
//! Beside it, from document 01 alone, since the Rust has no frames: `layout`, `check` and `frames`. `run` joins the two.

pub mod answers;
pub mod branches;
pub mod check;
pub mod direct;
#[cfg(feature = "run")]
pub mod exported;
pub mod frames;
pub mod inputs;
pub mod layout;
mod listed;
pub mod random;
#[cfg(feature = "rattle")]
pub mod rattle;
pub mod rows;
pub mod run;
pub mod samples;
pub mod support;
pub mod words;

// The places where the listed text looks for what it imports.
use listed::{dynamics, glamx, math, utils};

/// What was left out of the listed Rust and what was edited, as build.rs did it.
pub const TAKEN: &str = include_str!(concat!(env!("OUT_DIR"), "/taken.txt"));
