//! Branches of modules 1 to 3 of document 01.

use super::{Branches, Tally};
use crate::answers::Six6;
use crate::support::real::{Real, TURN, root as root_of};
use crate::support::vector::{Matrix, Rotation, Vector};
use crate::words::value_of;

pub const ROOT: Branches = Branches {
    labels: &[
        "NaN",
        "below 0",
        "minus zero",
        "plus zero",
        "plus infinity",
        "subnormal",
        "normal, even power",
        "normal, odd power",
        "exact",
        "rounded up",
        "rounded down",
    ],
    mark: root,
};

fn root(words: &[u32], tally: &mut Tally) {
    let x: Real = value_of(words);
    if x.is_nan() {
        return tally.hit("NaN");
    }
    if x == 0.0 {
        let minus = x.is_sign_negative();
        return tally.hit(if minus { "minus zero" } else { "plus zero" });
    }
    if x < 0.0 {
        return tally.hit("below 0");
    }
    if x.is_infinite() {
        return tally.hit("plus infinity");
    }
    let power = x.to_bits() >> 23;
    tally.hit(match power {
        0 => "subnormal",
        _ if power.is_multiple_of(2) => "normal, even power",
        _ => "normal, odd power",
    });
    // The square of an f32 is exact in f64.
    let square = f64::from(root_of(x)) * f64::from(root_of(x));
    tally.hit(match square.total_cmp(&f64::from(x)) {
        std::cmp::Ordering::Equal => "exact",
        std::cmp::Ordering::Greater => "rounded up",
        std::cmp::Ordering::Less => "rounded down",
    });
}

pub const SIN_COS: Branches = Branches {
    labels: &ANGLES,
    mark: |words, tally| angle(value_of(words), tally),
};

pub const AXIS_ANGLE: Branches = Branches {
    labels: &ANGLES,
    mark: |words, tally| angle(value_of::<[Real; 4]>(words)[3], tally),
};

const ANGLES: [&str; 4] = [
    "less than a turn",
    "reduced",
    "reduced to 0",
    "infinite or NaN",
];

fn angle(w: Real, tally: &mut Tally) {
    let half = w * 0.5;
    if !half.is_finite() {
        tally.hit("infinite or NaN");
    } else if half.abs() < TURN {
        tally.hit("less than a turn");
    } else if half % TURN == 0.0 {
        tally.hit("reduced to 0");
    } else {
        tally.hit("reduced");
    }
}

pub const REM: Branches = Branches {
    labels: &[
        "less than the divisor",
        "reduced",
        "reduced to 0",
        "infinite or NaN",
    ],
    mark: rem,
};

fn rem(words: &[u32], tally: &mut Tally) {
    let x: Real = value_of(words);
    if !x.is_finite() {
        tally.hit("infinite or NaN");
    } else if x.abs() < TURN {
        tally.hit("less than the divisor");
    } else if x % TURN == 0.0 {
        tally.hit("reduced to 0");
    } else {
        tally.hit("reduced");
    }
}

pub const ACOS: Branches = Branches {
    labels: &["NaN", "d >= 0", "d < 0", "minus zero", "outside [-1, 1]"],
    mark: acos,
};

fn acos(words: &[u32], tally: &mut Tally) {
    let d: Real = value_of(words);
    if d.is_nan() {
        return tally.hit("NaN");
    }
    tally.hit(if d >= 0.0 { "d >= 0" } else { "d < 0" });
    tally.hit_if(d == 0.0 && d.is_sign_negative(), "minus zero");
    tally.hit_if(d.abs() > 1.0, "outside [-1, 1]");
}

pub const MAX: Branches = Branches {
    labels: &[
        "a is NaN",
        "both are NaN",
        "b is NaN",
        "a > b",
        "a < b",
        "equal",
        "0 and -0",
        "-0 and 0",
    ],
    mark: max,
};

fn max(words: &[u32], tally: &mut Tally) {
    let [a, b]: [Real; 2] = value_of(words);
    if a.is_nan() {
        tally.hit("a is NaN");
        return tally.hit_if(b.is_nan(), "both are NaN");
    }
    if b.is_nan() {
        return tally.hit("b is NaN");
    }
    if a != b {
        return tally.hit(if a > b { "a > b" } else { "a < b" });
    }
    tally.hit(match (a.is_sign_negative(), b.is_sign_negative()) {
        (false, true) => "0 and -0",
        (true, false) => "-0 and 0",
        _ => "equal",
    });
}

pub const CLAMP: Branches = Branches {
    labels: &CLAMPS,
    mark: |words, tally| {
        let [x, lower, upper]: [Real; 3] = value_of(words);
        clamp(x, lower, upper, tally);
    },
};

pub(super) const CLAMPS: [&str; 5] = [
    "NaN stays",
    "raised to the lower bound",
    "cut to the upper bound",
    "within the bounds",
    "equal to a bound, other zero",
];

pub(super) fn clamp(x: Real, lower: Real, upper: Real, tally: &mut Tally) {
    tally.hit(if x.is_nan() {
        "NaN stays"
    } else if x < lower {
        "raised to the lower bound"
    } else if x > upper {
        "cut to the upper bound"
    } else {
        "within the bounds"
    });
    let other = |bound: Real| x == bound && x.to_bits() != bound.to_bits();
    tally.hit_if(other(lower) || other(upper), "equal to a bound, other zero");
}

pub const SIGN: Branches = Branches {
    labels: &["NaN", "plus zero", "minus zero", "above 0", "below 0"],
    mark: sign,
};

fn sign(words: &[u32], tally: &mut Tally) {
    let x: Real = value_of(words);
    tally.hit(match (x, x.is_sign_negative()) {
        _ if x.is_nan() => "NaN",
        (0.0, false) => "plus zero",
        (0.0, true) => "minus zero",
        (_, false) => "above 0",
        (_, true) => "below 0",
    });
}

pub const INV: Branches = Branches {
    labels: &["NaN", "within 1.0e-20", "exactly 1.0e-20", "above", "below"],
    mark: inv,
};

fn inv(words: &[u32], tally: &mut Tally) {
    let x: Real = value_of(words);
    if x.is_nan() {
        return tally.hit("NaN");
    }
    tally.hit_if(x.abs() == 1.0e-20, "exactly 1.0e-20");
    tally.hit(if x.abs() <= 1.0e-20 {
        "within 1.0e-20"
    } else if x > 0.0 {
        "above"
    } else {
        "below"
    });
}

pub const TRY_INVERSE: Branches = Branches {
    labels: joined!(PIVOTS, ["minus zero pivot"]),
    mark: |words, tally| {
        pivots(value_of(words), tally);
    },
};

/// Without the pivot of minus zero, which a sum with the identity never has: `M A + I` turns -0 into 0, and no step makes one.
pub(super) const PIVOTS: [&str; 8] = [
    "first entry is the pivot",
    "rows swapped",
    "a later entry of equal magnitude",
    "NaN on or below the diagonal",
    "zero pivot, column 0",
    "zero pivot, columns 1 to 4",
    "zero pivot, column 5",
    "inverted",
];

/// The elimination once more, for its pivots alone. Whether there is an inverse.
pub(super) fn pivots(mut m: Six6, tally: &mut Tally) -> bool {
    for j in 0..6 {
        let column = m.0[j];
        let below = &column[j..];
        let mut pivot = 0;
        for (i, entry) in below.iter().enumerate() {
            if entry.abs() > below[pivot].abs() {
                pivot = i;
            }
        }
        let equal = |x: &Real| x.abs() == below[pivot].abs();
        tally.hit_if(
            below[pivot + 1..].iter().any(equal),
            "a later entry of equal magnitude",
        );
        tally.hit_if(
            below.iter().any(|x| x.is_nan()),
            "NaN on or below the diagonal",
        );
        if below[pivot] == 0.0 {
            tally.hit_if(below[pivot].is_sign_negative(), "minus zero pivot");
            tally.hit(match j {
                0 => "zero pivot, column 0",
                5 => "zero pivot, column 5",
                _ => "zero pivot, columns 1 to 4",
            });
            return false;
        }
        tally.hit(match pivot {
            0 => "first entry is the pivot",
            _ => "rows swapped",
        });
        for column in &mut m.0 {
            column.swap(j, j + pivot);
        }
        let inverse = 1.0 / m.0[j][j];
        for i in j + 1..6 {
            let multiplier = m.0[j][i] * inverse;
            for k in j + 1..6 {
                m.0[k][i] -= multiplier * m.0[k][j];
            }
        }
    }
    tally.hit("inverted");
    true
}

pub const SYMMETRIC_EIGEN: Branches = Branches {
    labels: &SWEEPS,
    mark: |words, tally| {
        sweeps(&value_of(words), tally);
    },
};

pub(super) const SWEEPS: [&str; 14] = [
    "settled before any sweep",
    "settled after 1 sweep",
    "settled after 2 sweeps",
    "settled after 3 or more sweeps",
    "all eight sweeps",
    "off equals the limit, both 0",
    "off equals the limit, both infinite",
    "off equals the limit, finite",
    "entry 0: skipped",
    "d > 0",
    "d < 0",
    "d = 0",
    "d = -0",
    "d is NaN",
];

/// The Jacobi sweeps once more.
pub(super) fn sweeps(m: &Matrix, tally: &mut Tally) {
    let mut a = m.transpose().to_cols_array_2d();
    for sweep in 0..8 {
        let square = |x: Real| x * x;
        let entries = [a[0][1], a[0][2], a[1][2]];
        let off = entries.iter().fold(0.0, |sum, &x| sum + square(x));
        let diag = (0..3).fold(0.0, |sum, p| sum + square(a[p][p]));
        let limit: Real = 1.0e-8 * diag;
        if off == limit && entries.iter().any(|&entry| entry != 0.0) {
            tally.hit(match limit {
                0.0 => "off equals the limit, both 0",
                Real::INFINITY => "off equals the limit, both infinite",
                _ => "off equals the limit, finite",
            });
        }
        if off <= limit {
            return tally.hit(match sweep {
                0 => "settled before any sweep",
                1 => "settled after 1 sweep",
                2 => "settled after 2 sweeps",
                _ => "settled after 3 or more sweeps",
            });
        }
        for (p, q) in [(0, 1), (0, 2), (1, 2)] {
            turn(&mut a, p, q, tally);
        }
    }
    tally.hit("all eight sweeps");
}

/// One rotation of rows and columns `p` and `q`.
fn turn(a: &mut [[Real; 3]; 3], p: usize, q: usize, tally: &mut Tally) {
    let apq = a[p][q];
    if apq == 0.0 {
        return tally.hit("entry 0: skipped");
    }
    let d = a[q][q] - a[p][p];
    tally.hit(match (d, d.is_sign_negative()) {
        _ if d.is_nan() => "d is NaN",
        (0.0, false) => "d = 0",
        (0.0, true) => "d = -0",
        (_, false) => "d > 0",
        (_, true) => "d < 0",
    });
    let r = (d * d + 4.0 * apq * apq).sqrt();
    let t = 2.0 * apq / (d + d.signum() * r);
    let c = 1.0 / (1.0 + t * t).sqrt();
    let s = t * c;
    for row in a.iter_mut() {
        (row[p], row[q]) = (c * row[p] - s * row[q], s * row[p] + c * row[q]);
    }
    let (above, below) = (a[p], a[q]);
    for k in 0..3 {
        a[p][k] = c * above[k] - s * below[k];
        a[q][k] = s * above[k] + c * below[k];
    }
}

pub const EXTRACT_ROTATION: Branches = Branches {
    labels: &TURNS,
    mark: |words, tally| {
        let (a, warm) = value_of(words);
        turns(a, warm, tally);
    },
};

pub(super) const TURNS: [&str; 9] = [
    "settled at the first turn",
    "settled at turns 2 to 8",
    "all eight turns",
    "small step",
    "large step",
    "step of exactly 0.1",
    "step of exactly 2^-19",
    "step of NaN",
    "overlap of 0",
];

/// The turns once more.
pub(super) fn turns(a: Matrix, warm: Rotation, tally: &mut Tally) {
    let mut q = warm;
    for turn in 0..8 {
        let r = Matrix::from_quat(q);
        let mut omega = Vector::ZERO;
        let mut denom: Real = 0.0;
        for j in 0..3 {
            omega += r.col(j).cross(a.col(j));
            denom += r.col(j).dot(a.col(j));
        }
        tally.hit_if(denom == 0.0, "overlap of 0");
        let omega = omega * (1.0 / (denom.abs() + 1.0e-9));
        let w = omega.length();
        tally.hit_if(w == 16.0 * Real::EPSILON, "step of exactly 2^-19");
        if w < 16.0 * Real::EPSILON {
            return tally.hit(match turn {
                0 => "settled at the first turn",
                _ => "settled at turns 2 to 8",
            });
        }
        tally.hit_if(w == 0.1, "step of exactly 0.1");
        tally.hit_if(w.is_nan(), "step of NaN");
        let large = w > 0.1;
        tally.hit(if large { "large step" } else { "small step" });
        let step = if large {
            Rotation::from_axis_angle(omega / w, w)
        } else {
            Rotation::from_xyzw(0.5 * omega.x, 0.5 * omega.y, 0.5 * omega.z, 1.0)
        };
        q = (step * q).normalize();
    }
    tally.hit("all eight turns");
}
