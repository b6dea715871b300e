//! `check` and `run` of the static library `run`, as any program calls them.

use std::hint::black_box;

/// What both return.
#[repr(C)]
struct Answer {
    number: u32,
    place: u64,
}

unsafe extern "C" {
    // A slice is lent as a pointer and a length.
    #[link_name = "check"]
    fn exported_check(frame: *const u8, length: usize) -> Answer;
    #[link_name = "run"]
    fn exported_run(frame: *mut u8, length: usize) -> Answer;
}

/// The number and the place that `check` returns.
pub fn check(frame: &[u8]) -> (u32, u64) {
    // SAFETY: the pointer and the length are a slice's, which is lent for the call.
    let answer = unsafe { exported_check(frame.as_ptr(), frame.len()) };
    (answer.number, answer.place)
}

/// The number and the place that `run` returns; the frame is afterwards as it leaves it.
pub fn run(frame: &mut [u8]) -> (u32, u64) {
    // SAFETY: as above, and the slice is lent to be altered.
    let answer = unsafe { exported_run(frame.as_mut_ptr(), frame.len()) };
    (answer.number, answer.place)
}

/// What lies on both sides of a frame while the library has it.
const AROUND: [u8; 64] = [0xA5; 64];

/// Memory in which frames are lent to the library, each at the next alignment.
#[derive(Default)]
pub struct Lent {
    held: Vec<u8>,
    times: usize,
}

impl Lent {
    /// Calls with a copy of the frame. Gives the answer, the copy as it was left, and whether the bytes around it stayed.
    pub fn call<A>(&mut self, frame: &[u8], call: impl FnOnce(&mut [u8]) -> A) -> (A, &[u8], bool) {
        let held = &mut self.held;
        held.clear();
        held.extend(&AROUND[self.times % 8..]);
        self.times += 1;
        let start = held.len();
        held.extend(frame);
        held.extend(&AROUND);
        let answer = call(black_box(&mut held[start..start + frame.len()]));
        let (before, rest) = black_box(held).split_at(start);
        let (left, after) = rest.split_at(frame.len());
        let stayed = before.iter().chain(after).all(|&byte| byte == AROUND[0]);
        (answer, left, stayed)
    }
}
