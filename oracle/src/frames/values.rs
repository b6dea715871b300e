//! Values at and around the limits of each field, of a record's kind and of its length.

use crate::layout::{Holds, MOST};

/// Floats that are read wrongly with ease: both zeros, the ends of the subnormals and of the normals, infinities, NaNs of all sorts, and
/// an infinity and a NaN with their bytes turned round, which are finite.
pub const FLOATS: [u32; 22] = [
    0x0000_0000,
    0x8000_0000,
    0x3F80_0000,
    0xBF80_0000,
    0x0000_0001,
    0x8000_0001,
    0x007F_FFFF,
    0x807F_FFFF,
    0x7F7F_FFFF,
    0xFF7F_FFFF,
    0x7F80_0000,
    0xFF80_0000,
    0x7F80_0001,
    0xFF80_0001,
    0x7FBF_FFFF,
    0x7FC0_0000,
    0xFFC0_0000,
    0x7FFF_FFFF,
    0xFFFF_FFFF,
    0x7F80_8000,
    0x0000_807F,
    0x0100_C07F,
];

/// Kinds beside the one that is due: the others of the paper and of its later changes, and due ones with a wrong upper byte.
pub const KINDS: [u16; 22] = [
    0, 1, 2, 3, 4, 5, 6, 7, 8, 9, 10, 255, 256, 257, 258, 259, 260, 261, 512, 768, 0x8003, 65535,
];

/// Lengths beside the one that is due: all of the paper and their neighbours, those with wrong upper bytes, and those that leave the frame.
pub const LENGTHS: [u32; 38] = [
    0,
    1,
    2,
    3,
    4,
    5,
    6,
    21,
    22,
    23,
    25,
    26,
    27,
    177,
    178,
    179,
    182,
    613,
    614,
    615,
    673,
    674,
    675,
    22 + 0x100,
    26 + 0x1_0000,
    178 + 0x100,
    614 + 0x1_0000,
    674 + 0x100_0000,
    178 + 0x8000_0000,
    22 << 8,
    26 << 24,
    178 << 16,
    0x7FFF_FFFF,
    0x8000_0000,
    0xFFFF_FFEA,
    0xFFFF_FFFB,
    0xFFFF_FFFC,
    0xFFFF_FFFF,
];

/// Values for a part that holds `now`.
pub fn values(holds: Holds, now: u32) -> Vec<u32> {
    let around = [now.wrapping_sub(1), now, now.wrapping_add(1)];
    let mut list = match holds {
        Holds::Count32(most) => counts(most, &[16, 24]),
        Holds::Count16(most) | Holds::Code(most) => counts(most.into(), &[]),
        Holds::Colour => vec![0, 1, 2, 127, 128, 255, 256, 257, 32767, 32768, 65534, 65535],
        Holds::Id => vec![
            0,
            1,
            MOST - 1,
            MOST,
            now.wrapping_add(0x1_0000),
            now | 0x8000_0000,
            u32::MAX,
        ],
        Holds::Float | Holds::Cap | Holds::LowerBound | Holds::UpperBound => {
            return FLOATS.to_vec();
        }
    };
    list.extend(around);
    list
}

/// Values around a limit, with the upper bytes set in several ways.
fn counts(most: u32, shifts: &[u32]) -> Vec<u32> {
    let near = [
        0,
        1,
        2,
        3,
        most.saturating_sub(1),
        most,
        most + 1,
        most + 2,
        2 * most,
    ];
    let upper = [
        0xFF,
        0x100,
        0x101,
        0x7FFF,
        0x8000,
        0x8001,
        0xFFFF,
        0x7FFF_FFFF,
        0x8000_0000,
        u32::MAX,
    ];
    let mut list = [&near[..], &upper].concat();
    for shift in [&[8][..], shifts].concat() {
        list.extend([1 << shift, most << shift, (most + 1) << shift]);
    }
    list
}

/// A value of a part that gives just this number, where the row before has colour 1 or more.
pub fn fault(number: u32, holds: Holds) -> u32 {
    match (number, holds) {
        (3, Holds::Count32(most)) => most + 1,
        (3, Holds::Count16(most)) | (4, Holds::Code(most)) => u32::from(most) + 1,
        (5, Holds::Float | Holds::Cap) => f32::NEG_INFINITY.to_bits(),
        (5, Holds::LowerBound | Holds::UpperBound) => f32::NAN.to_bits(),
        (6, Holds::Cap) => (-1.0f32).to_bits(),
        (6, Holds::LowerBound) => f32::INFINITY.to_bits(),
        (7, Holds::Colour) => 0,
        _ => panic!("{number} is never given at such a part"),
    }
}
