//! Frames and folders for the tests.
#![allow(dead_code, reason = "each test uses some of it")]

use std::fs;
use std::path::PathBuf;

/// A file of the sample frames.
pub fn sample(name: &str) -> PathBuf {
    PathBuf::from(env!("CARGO_MANIFEST_DIR"))
        .join("../samples")
        .join(name)
}

/// The samples that are accepted.
pub const SAMPLES: [&str; 6] = [
    "distances",
    "dihedrals",
    "volumes",
    "corotational",
    "neo_hookean",
    "mixed",
];

pub fn bytes(name: &str) -> Vec<u8> {
    fs::read(sample(name)).expect("a sample")
}

/// A folder of the test's own, empty.
pub fn folder(name: &str) -> PathBuf {
    let folder = PathBuf::from(env!("CARGO_TARGET_TMPDIR")).join(name);
    let _ = fs::remove_dir_all(&folder);
    fs::create_dir_all(&folder).expect("a folder");
    folder
}

/// Overwrites some bytes.
pub fn put(frame: &mut [u8], at: usize, bytes: &[u8]) {
    frame[at..at + bytes.len()].copy_from_slice(bytes);
}

/// Where the points and the rows of the sample of distances start.
pub const POINTS: usize = 26;
pub const ROWS: usize = 26 + 25 * 30;

/// Frames that are refused, one for each number and more, with the number, the place and the words.
pub fn refusals() -> Vec<(Vec<u8>, u32, usize, String)> {
    let whole = bytes("distances.frame");
    let cells = bytes("corotational.frame");
    let neo = bytes("neo_hookean.frame");
    let cell = 26 + 18 * 30;
    let with = |frame: &[u8], at, bytes: &[u8]| {
        let mut frame = frame.to_vec();
        put(&mut frame, at, bytes);
        frame
    };
    let row = |number: usize| ROWS + number * 182;
    let float = |x: f32| x.to_le_bytes();
    let other_row = "row 3 of 48: kind 4 with length 178 is not due here, but kind 3 with length 178 (scalar), \
        or kind 4 with length 614 (corotational), or kind 5 with length 674 (neo-Hookean)";
    let list: Vec<(Vec<u8>, u32, usize, &str)> = vec![
        (
            vec![],
            1,
            0,
            "the head is due, and 0 of the 6 bytes that start a record remain",
        ),
        (
            whole[..20].into(),
            1,
            0,
            "the head is not whole: it takes 26 bytes, and 20 remain",
        ),
        (
            whole[..POINTS + 33].into(),
            1,
            POINTS + 30,
            "point 1 of 25 is due, and 3 of the 6 bytes that start a record remain",
        ),
        (
            whole[..POINTS + 29].into(),
            1,
            POINTS,
            "point 0 of 25 is not whole: it takes 30 bytes, and 29 remain",
        ),
        (
            whole[..ROWS].into(),
            1,
            ROWS,
            "row 0 of 48 is due, and 0 of the 6 bytes that start a record remain",
        ),
        (
            whole[..row(2) - 1].into(),
            1,
            row(1),
            "row 1 of 48 (scalar) is not whole: it takes 182 bytes, and 181 remain",
        ),
        (
            with(&whole, 4, &[2]),
            2,
            0,
            "the head: kind 2 with length 22 is not due here, but kind 1 with length 22 (head)",
        ),
        (
            with(&whole, POINTS + 30, &[27]),
            2,
            POINTS + 30,
            "point 1 of 25: kind 2 with length 27 is not due here, but kind 2 with length 26 (point)",
        ),
        (with(&whole, row(3) + 4, &[4]), 2, row(3), other_row),
        (
            with(&whole, 6, &4097u32.to_le_bytes()),
            3,
            6,
            "the head: points is 4097, above 4096",
        ),
        (
            with(&whole, 10, &5000u32.to_le_bytes()),
            3,
            10,
            "the head: rows is 5000, above 4096",
        ),
        (
            with(&whole, 16, &[65]),
            3,
            16,
            "the head: resweeps is 65, above 64",
        ),
        (
            with(&whole, row(1) + 12, &[5]),
            3,
            row(1) + 12,
            "row 1 of 48 (scalar): count is 5, above 4",
        ),
        (
            with(&whole, 14, &[4]),
            4,
            14,
            "the head: mode is 4, not 0 (solve), 1 (update), 2 (warm start) or 3 (update and warm start)",
        ),
        (
            with(&whole, row(0) + 10, &[3]),
            4,
            row(0) + 10,
            "row 0 of 48 (scalar): type is 3, not 0 (distance), 1 (dihedral) or 2 (cell volume)",
        ),
        (
            with(&cells, cell + 8, &[2]),
            4,
            cell + 8,
            "row 0 of 24 (corotational): strained is 2, not 0 (no) or 1 (yes)",
        ),
        (
            with(&neo, cell + 12, &[1]),
            4,
            cell + 12,
            "row 0 of 24 (neo-Hookean): the u16 after inverted is 1, not 0 (always)",
        ),
        (
            with(&whole, 22, &float(f32::NEG_INFINITY)),
            5,
            22,
            "the head: least strain is minus infinity, not finite",
        ),
        (
            with(&whole, POINTS + 22, &0x7F80_0001u32.to_le_bytes()),
            5,
            POINTS + 22,
            "point 0 of 25: velocity.y is a NaN (0x7F800001), not finite",
        ),
        (
            with(&whole, row(47) + 58, &float(f32::INFINITY)),
            5,
            row(47) + 58,
            "row 47 of 48 (scalar): pos[2].y is plus infinity, not finite",
        ),
        (
            with(&cells, cell + 262, &float(f32::INFINITY)),
            5,
            cell + 262,
            "row 0 of 24 (corotational): inv_a[row 2, column 1] is plus infinity, not finite",
        ),
        (
            with(&whole, row(0) + 178, &float(f32::NAN)),
            5,
            row(0) + 178,
            "row 0 of 48 (scalar): upper impulse bound is a NaN (0x7FC00000); it may be infinite, but no NaN",
        ),
        (
            with(&whole, row(0) + 174, &[float(2.0), float(1.5)].concat()),
            6,
            row(0) + 174,
            "row 0 of 48 (scalar): lower impulse bound 2 is above the upper one, 1.5",
        ),
        (
            with(&cells, cell + 374 + 8, &float(-0.5)),
            6,
            cell + 374 + 8,
            "row 0 of 24 (corotational): strain_cap[2] is -0.5, below 0",
        ),
        (
            with(&whole, row(47) + 6, &[0, 0]),
            7,
            row(47) + 6,
            "row 47 of 48 (scalar): colour is 0, less than ",
        ),
        (
            [&whole[..], &[0; 3]].concat(),
            8,
            whole.len(),
            "3 bytes follow the last record",
        ),
    ];
    let mut list: Vec<_> = list
        .into_iter()
        .map(|(frame, number, place, words)| (frame, number, place, words.to_string()))
        .collect();
    // Row 1 names the first point of row 0, which has its colour.
    let first = &whole[row(0) + 14..row(0) + 18];
    let point = u32::from_le_bytes(first.try_into().expect("four bytes"));
    let clash = format!(
        "row 1 of 48 (scalar) names point {point}, as does row 0 (scalar) of the same colour, 0"
    );
    list.push((with(&whole, row(1) + 18, first), 9, row(1), clash));
    list
}
