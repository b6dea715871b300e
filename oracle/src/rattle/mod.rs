//! The Rattle functions of the static libraries `arith_ffi` and `rows_ffi`, under the names of the table of answers.
//!
//! This is the one place that says how they are called: `rt_NAME`, structs by value as C lays them out, arrays by pointer with the answer's
//! place last, a row's record by pointer and length. A function is added by its declaration and its line in the `RATTLE` of its file.

/// Functions of values under their names, as functions of words.
macro_rules! rattle {
    ($($name:ident($($arg:ident: $type:ty),*) -> $out:ty = $body:expr;)*) => {
        &[$((stringify!($name), $crate::called!(($($arg: $type),*) -> $out = $body)),)*]
    };
}

mod arithmetic;
mod laid;
mod rows;

pub use arithmetic::{
    differing_roots, rt_extract_rotation, rt_mat_mul, rt_root, rt_symmetric_eigen, rt_try_inverse,
};
pub use rows::{Linked, all_refuse, ready};

use crate::answers::Call;

/// The Rattle function of that name, if it is linked.
pub fn linked(name: &str) -> Option<Call> {
    let mut all = arithmetic::RATTLE.iter().chain(rows::RATTLE);
    let entry = all.find(|entry| entry.0 == name)?;
    Some(entry.1)
}
