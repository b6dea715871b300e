//! What the listed Rust imports from glam, nalgebra and the rest of its crate, written from document 01's section Arithmetic (and,
//! where that is silent, from the readings of its open points). Only what the compiled items use is here.

pub mod bodies;
pub mod na;
pub mod real;
pub mod vector;
