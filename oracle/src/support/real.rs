//! Functions of f32 that document 01 sets.

/// The listed Rust's number: f32.
pub type Real = f32;

/// The square root. Rust guarantees that `f32::sqrt` is the exact root rounded to the nearest f32, ties to even, as document 01
/// asks: -0 gives -0, plus infinity itself, a NaN or anything below 0 a NaN. So the listed text's own `.sqrt()` stays unedited.
#[inline]
pub fn root(x: Real) -> Real {
    x.sqrt()
}

/// max(a, b): b if a is NaN; a if b is NaN or a >= b; else b.
#[inline]
pub fn max(a: Real, b: Real) -> Real {
    if a.is_nan() {
        b
    } else if b.is_nan() || a >= b {
        a
    } else {
        b
    }
}

/// The period of the half angle.
pub const TURN: Real = 6.2831855;

/// sin and cos of half the angle `w`.
#[inline]
pub fn sin_cos(w: Real) -> (Real, Real) {
    let h = (w * 0.5) % TURN;
    let t = h / 64.0;
    let u = t * t;
    let mut s = t * (1.0 - u / 6.0 * (1.0 - u / 20.0));
    let mut c = 1.0 - u / 2.0 * (1.0 - u / 12.0);
    for _ in 0..6 {
        (s, c) = (2.0 * s * c, c * c - s * s);
    }
    (s, c)
}

/// Abramowitz and Stegun 4.4.46, from the constant up; the nearest f32 of each.
#[expect(clippy::excessive_precision, reason = "the digits are document 01's")]
const ACOS: [Real; 8] = [
    1.5707963050,
    -0.2145988016,
    0.0889789874,
    -0.0501743046,
    0.0308918810,
    -0.0170881256,
    0.0066700901,
    -0.0012624911,
];

/// acos: for d >= 0 the root of 1 - d times the polynomial by Horner; below 0, 3.1415927 less acos(-d); a NaN stays one.
#[inline]
pub fn acos(d: Real) -> Real {
    if d.is_nan() {
        return d;
    }
    if d < 0.0 {
        #[expect(clippy::approx_constant, reason = "the digits are document 01's")]
        return 3.1415927 - acos(-d);
    }
    let mut p = ACOS[7];
    for k in (0..7).rev() {
        p = p * d + ACOS[k];
    }
    root(1.0 - d) * p
}
