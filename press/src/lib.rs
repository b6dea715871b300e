//! Frames of a formed sheet: [`check`] and [`run`] of the proved library, safely, and what they say in words.
//!
//! A frame is a byte buffer of the caller's: a head, points and rows, described in docs/FORMAT.md. The library is
//! `librun.a`, which `tools/staticlib run` makes; build.rs looks for it in `RATTLE_LIB`, or in `../target/staticlib`. For C there is `include/formed_sheet.h`.
//!
//! ```
//! // A head without points and rows, and one byte too many.
//! let mut frame = vec![0; 26];
//! frame[0] = 22;
//! frame[4] = 1;
//! assert!(press::check(&frame).accepted());
//! frame.push(0);
//! let answer = press::run(&mut frame);
//! assert_eq!((answer.number, answer.place), (8, 26));
//! assert_eq!(press::explain(&frame, answer), "1 byte follows the last record");
//! ```

mod explained;
pub mod layout;
mod summary;

pub use explained::explain;
pub use summary::Summary;

use std::fmt;

/// What [`check`] and [`run`] return.
#[repr(C)]
#[derive(Clone, Copy, PartialEq, Eq, Hash, Debug)]
pub struct Answer {
    /// 0 if the frame is accepted; else why it is refused, 1 to 9 (docs/FORMAT.md has the table, [`explain`] the words).
    pub number: u32,
    /// Where the frame is refused: a byte offset in it, at most its length. 0 if it is accepted.
    pub place: u64,
}

impl Answer {
    /// Whether the frame was accepted.
    pub fn accepted(self) -> bool {
        self.number == 0
    }
}

/// `accepted`, or `refused NUMBER at PLACE`.
impl fmt::Display for Answer {
    fn fmt(&self, to: &mut fmt::Formatter) -> fmt::Result {
        match self.number {
            0 => to.write_str("accepted"),
            number => write!(to, "refused {number} at {}", self.place),
        }
    }
}

mod exported {
    use super::Answer;

    unsafe extern "C" {
        pub fn check(frame: *const u8, length: usize) -> Answer;
        pub fn run(frame: *mut u8, length: usize) -> Answer;
    }
}

/// Tests a frame. It is never altered.
pub fn check(frame: &[u8]) -> Answer {
    // SAFETY: the pointer and the length are a slice's, which is lent for the call; `check` reads no other byte and writes none.
    unsafe { exported::check(frame.as_ptr(), frame.len()) }
}

/// Tests a frame as [`check`] does and, if it is accepted, runs it where it lies: the main sweep, then the resweeps. A refused frame stays
/// as it is, to the last byte.
pub fn run(frame: &mut [u8]) -> Answer {
    // SAFETY: as above, and the slice is lent to be altered; `run` writes no other byte.
    unsafe { exported::run(frame.as_mut_ptr(), frame.len()) }
}
