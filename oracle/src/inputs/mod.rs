//! Inputs for each function: by chance from a seed, with the special values, the ties and the branch limits never missing.
//!
//! A NaN among the inputs is always 0x7FC00000, the paper's pattern.

mod arithmetic;
mod elastic;
mod numbers;
mod scalar;
mod typical;

pub use arithmetic::*;
pub use elastic::*;
pub use numbers::*;
pub use scalar::*;
pub use typical::*;
