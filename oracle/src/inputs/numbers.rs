//! Single numbers and lists of them.

use crate::random::Random;
use crate::words::{NAN, bits};

/// The values that no list of inputs may miss: both zeros, the subnormals' ends, the normals' ends, infinities, NaN, one and its neighbours.
pub const SPECIALS: [u32; 24] = [
    0x0000_0000, // 0
    0x8000_0000, // -0
    0x3F80_0000, // 1
    0xBF80_0000, // -1
    0x7F80_0000, // infinity
    0xFF80_0000,
    NAN,
    0x0000_0001, // the smallest
    0x8000_0001,
    0x007F_FFFF, // the largest subnormal
    0x807F_FFFF,
    0x0080_0000, // the smallest normal
    0x8080_0000,
    0x7F7F_FFFF, // the largest
    0xFF7F_FFFF,
    0x3F7F_FFFF, // 1 and its neighbours
    0x3F80_0001,
    0x3F00_0000, // 1/2
    0xC000_0000, // -2
    0x3400_0000, // 2^-23
    0x5F80_0000, // 2^64: its square is infinite
    0x1F80_0000, // 2^-64: its square is subnormal
    0x4B80_0001, // 2^24 + 2
    0x4040_0000, // 3
];

/// A special value.
pub fn special(random: &mut Random) -> f32 {
    f32::from_bits(random.pick(&SPECIALS))
}

/// A special value that is finite.
pub fn finite_special(random: &mut Random) -> f32 {
    loop {
        let x = special(random);
        if x.is_finite() {
            return x;
        }
    }
}

/// Any pattern at all, NaNs as one.
pub fn pattern(random: &mut Random) -> f32 {
    f32::from_bits(bits(f32::from_bits(random.bits())))
}

/// Any finite pattern.
pub fn finite_pattern(random: &mut Random) -> f32 {
    loop {
        let x = pattern(random);
        if x.is_finite() {
            return x;
        }
    }
}

/// A small whole number: equal magnitudes, exact sums and cancellations.
pub fn small_whole(random: &mut Random) -> f32 {
    random.below(7) as f32 - 3.0
}

/// A number of a magnitude that sheets have.
pub fn plain(random: &mut Random) -> f32 {
    random.unit() * random.pick(&[0.01, 1.0, 1.0, 1.0, 10.0, 1000.0])
}

/// A power of two with a random significand, of a magnitude whose squares leave the range at one end.
fn extreme(random: &mut Random) -> f32 {
    let power = random.pick(&[0x1F00_0000, 0x0100_0000, 0x5F00_0000, 0x7E00_0000]);
    f32::from_bits(power + (random.bits() & 0x00FF_FFFF) + (random.bits() & 0x8000_0000))
}

/// Numbers by chance; how they are mixed is by chance too.
pub fn mixed(random: &mut Random, n: usize) -> Vec<f32> {
    let mut list: Vec<f32> = (0..n).map(|_| random.unit()).collect();
    match random.below(9) {
        0 => {}
        1 => list.fill_with(|| plain(random)),
        2 | 3 if n > 0 => {
            for _ in 0..=random.below(2) {
                let place = random.below(n);
                list[place] = special(random);
            }
        }
        4 => list.fill_with(|| small_whole(random)),
        5 => list.fill_with(|| special(random)),
        6 => list.fill_with(|| pattern(random)),
        7 => list.fill_with(|| extreme(random)),
        _ => list.fill_with(|| match random.below(4) {
            0 => plain(random),
            1 => small_whole(random),
            2 => finite_special(random),
            _ => finite_pattern(random),
        }),
    }
    list
}

/// The number of an input; now and then one of the first `fixed`, which are made by hand, comes again.
pub fn again(random: &mut Random, number: usize, fixed: usize) -> usize {
    if number >= fixed && random.one_in(50) {
        random.below(fixed)
    } else {
        number
    }
}

/// The words of a list of numbers.
pub fn words(list: &[f32]) -> Vec<u32> {
    list.iter().map(|&x| bits(x)).collect()
}

/// `N` numbers; the first inputs have each special value at some place.
pub fn reals<const N: usize>(random: &mut Random, number: usize) -> Vec<u32> {
    let number = again(random, number, SPECIALS.len());
    if N > 0 && number < SPECIALS.len() {
        let mut list: Vec<f32> = (0..N).map(|_| plain(random)).collect();
        list[number % N] = f32::from_bits(SPECIALS[number]);
        return words(&list);
    }
    words(&mixed(random, N))
}

/// The next pattern up in magnitude, and the next down.
pub fn next(x: f32) -> f32 {
    f32::from_bits(x.to_bits() + 1)
}

pub fn previous(x: f32) -> f32 {
    f32::from_bits(x.to_bits() - 1)
}
