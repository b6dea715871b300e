//! Values as 32-bit words: a float as its bits, a code or an id as itself, matrices column by column.

use crate::support::na::{SMatrix, SVector};
use crate::support::real::Real;
use crate::support::vector::{Matrix, Rotation, Vector};
use std::array::from_fn;

/// The one pattern of a NaN in answers.
pub const NAN: u32 = 0x7FC0_0000;

/// The bits of a float, any NaN as `NAN`.
pub fn bits(x: Real) -> u32 {
    if x.is_nan() { NAN } else { x.to_bits() }
}

/// A value that takes a fixed number of words.
pub trait Words: Sized {
    const COUNT: usize;

    /// Takes the value from the front of `words`.
    fn read(words: &mut &[u32]) -> Self;

    fn write(&self, words: &mut Vec<u32>);

    /// Takes so many values, one after another.
    #[inline]
    fn read_array<const N: usize>(words: &mut &[u32]) -> [Self; N] {
        from_fn(|_| Self::read(words))
    }

    #[inline]
    fn write_array(values: &[Self], words: &mut Vec<u32>) {
        for value in values {
            value.write(words);
        }
    }
}

impl Words for u32 {
    const COUNT: usize = 1;

    fn read(words: &mut &[u32]) -> Self {
        let (first, rest) = words.split_first().expect("too few words");
        *words = rest;
        *first
    }

    fn write(&self, words: &mut Vec<u32>) {
        words.push(*self);
    }
}

impl Words for bool {
    const COUNT: usize = 1;

    fn read(words: &mut &[u32]) -> Self {
        u32::read(words) != 0
    }

    fn write(&self, words: &mut Vec<u32>) {
        words.push(u32::from(*self));
    }
}

impl Words for Real {
    const COUNT: usize = 1;

    fn read(words: &mut &[u32]) -> Self {
        Self::from_bits(u32::read(words))
    }

    fn write(&self, words: &mut Vec<u32>) {
        words.push(bits(*self));
    }

    // At once, since whole frames are read and written by this.
    #[inline]
    fn read_array<const N: usize>(words: &mut &[u32]) -> [Self; N] {
        let (first, rest) = words.split_first_chunk().expect("too few words");
        *words = rest;
        first.map(Self::from_bits)
    }

    #[inline]
    fn write_array(values: &[Self], words: &mut Vec<u32>) {
        words.extend(values.iter().map(|&value| bits(value)));
    }
}

impl<T: Words, const N: usize> Words for [T; N] {
    const COUNT: usize = N * T::COUNT;

    #[inline]
    fn read(words: &mut &[u32]) -> Self {
        T::read_array(words)
    }

    #[inline]
    fn write(&self, words: &mut Vec<u32>) {
        T::write_array(self, words);
    }
}

impl<A: Words, B: Words> Words for (A, B) {
    const COUNT: usize = A::COUNT + B::COUNT;

    fn read(words: &mut &[u32]) -> Self {
        (A::read(words), B::read(words))
    }

    fn write(&self, words: &mut Vec<u32>) {
        self.0.write(words);
        self.1.write(words);
    }
}

impl<A: Words, B: Words, C: Words> Words for (A, B, C) {
    const COUNT: usize = A::COUNT + B::COUNT + C::COUNT;

    fn read(words: &mut &[u32]) -> Self {
        (A::read(words), B::read(words), C::read(words))
    }

    fn write(&self, words: &mut Vec<u32>) {
        self.0.write(words);
        self.1.write(words);
        self.2.write(words);
    }
}

/// A struct whose named fields follow each other as words.
#[macro_export]
macro_rules! words_of {
    ($type:ty { $($field:ident : $part:ty),* $(,)? }) => {
        impl $crate::words::Words for $type {
            const COUNT: usize = 0 $(+ <$part as $crate::words::Words>::COUNT)*;

            #[inline]
            fn read(words: &mut &[u32]) -> Self {
                Self { $($field: <$part as $crate::words::Words>::read(words)),* }
            }

            #[inline]
            fn write(&self, words: &mut Vec<u32>) {
                $(self.$field.write(words);)*
            }
        }
    };
}

impl Words for Vector {
    const COUNT: usize = 3;

    #[inline]
    fn read(words: &mut &[u32]) -> Self {
        let [x, y, z] = Words::read(words);
        Self { x, y, z }
    }

    #[inline]
    fn write(&self, words: &mut Vec<u32>) {
        [self.x, self.y, self.z].write(words);
    }
}

words_of!(Matrix {
    x_axis: Vector,
    y_axis: Vector,
    z_axis: Vector
});
words_of!(Rotation {
    x: Real,
    y: Real,
    z: Real,
    w: Real
});

impl<const N: usize> Words for SVector<Real, N> {
    const COUNT: usize = N;

    fn read(words: &mut &[u32]) -> Self {
        Self(Words::read(words))
    }

    fn write(&self, words: &mut Vec<u32>) {
        self.0.write(words);
    }
}

impl<const R: usize, const C: usize> Words for SMatrix<Real, R, C> {
    const COUNT: usize = R * C;

    fn read(words: &mut &[u32]) -> Self {
        Self(Words::read(words))
    }

    fn write(&self, words: &mut Vec<u32>) {
        self.0.write(words);
    }
}

/// The words of a value.
pub fn words_of(value: &impl Words) -> Vec<u32> {
    let mut words = Vec::new();
    value.write(&mut words);
    words
}

/// The value that all of these words make.
pub fn value_of<T: Words>(mut words: &[u32]) -> T {
    let value = T::read(&mut words);
    assert!(words.is_empty(), "too many words");
    value
}
