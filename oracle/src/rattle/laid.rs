//! The structs that the functions take and give, field by field those of the Rattle crates, as C lays them out.
//!
//! What a Rattle struct has for each of four places, one field after another, is an array here, which lies in the same way.

use crate::dynamics::solver::soft_element_constraint::StrainVector;
use crate::support::real::Real;
use crate::support::vector::{Matrix, Vector};
use crate::words_of;

/// A vector for each place.
#[repr(C)]
#[derive(Clone, Copy, Debug)]
pub struct Four {
    pub places: [Vector; 4],
}

words_of!(Four {
    places: [Vector; 4]
});

/// What a place holds, a position or a velocity.
#[repr(C)]
#[derive(Clone, Copy, Debug)]
pub struct Held {
    /// Whether the row names the place: a `bool` there, here a word of 1 or 0, so that no byte is without a value.
    named: u32,
    value: Vector,
}

impl Held {
    #[inline]
    pub fn new(named: bool, value: Vector) -> Self {
        Self {
            named: u32::from(named),
            value,
        }
    }
}

#[repr(C)]
#[derive(Clone, Copy, Debug)]
pub struct Holds {
    pub places: [Held; 4],
}

/// What each place is to lose after a warm start or a solve; `done` is false, and nothing is, where the bytes are no row's record.
#[repr(C)]
#[derive(Clone, Copy, Debug)]
pub struct Lost {
    pub done: bool,
    pub loss: [Vector; 4],
}

/// The crate `gradients`.
#[repr(C)]
#[derive(Clone, Copy, Debug)]
pub struct Gradients {
    pub grad: [Vector; 4],
    pub error: Real,
}

words_of!(Gradients {
    grad: [Vector; 4],
    error: Real
});

/// The crate `energy`: S, kappa and the gradient.
#[repr(C)]
#[derive(Clone, Copy, Debug)]
pub struct Energy {
    s: Matrix,
    kappa: Real,
    grad: StrainVector,
}

words_of!(Energy {
    s: Matrix,
    kappa: Real,
    grad: StrainVector
});
