//! Vectors and matrices of fixed size, under the names that nalgebra gives them. Products sum from index 0, the first product
//! itself the start.

#![expect(clippy::needless_range_loop, reason = "document 01 goes by index")]

use super::real::Real;
use std::array::from_fn;
use std::ops::{Add, AddAssign, Deref, Index, Mul, MulAssign, Sub};

/// A column of `N`.
#[repr(transparent)]
#[derive(Copy, Clone, Debug, PartialEq)]
pub struct SVector<T, const N: usize>(pub [T; N]);

/// The parts of a column of six by nalgebra's names.
#[repr(C)]
pub struct Parts<T> {
    pub x: T,
    pub y: T,
    pub z: T,
    pub w: T,
    pub a: T,
    pub b: T,
}

impl<T> Deref for SVector<T, 6> {
    type Target = Parts<T>;
    #[inline]
    fn deref(&self) -> &Parts<T> {
        // SAFETY: both are six `T` one after another: a transparent array and a `repr(C)` struct.
        unsafe { &*std::ptr::from_ref(self).cast() }
    }
}

impl SVector<Real, 6> {
    #[inline]
    pub const fn new(x: Real, y: Real, z: Real, w: Real, a: Real, b: Real) -> Self {
        Self([x, y, z, w, a, b])
    }
}

impl<const N: usize> SVector<Real, N> {
    #[inline]
    pub const fn zeros() -> Self {
        Self([0.0; N])
    }

    #[inline]
    pub fn iter(&self) -> std::slice::Iter<'_, Real> {
        self.0.iter()
    }

    #[inline]
    pub fn map(&self, f: impl FnMut(Real) -> Real) -> Self {
        Self(self.0.map(f))
    }

    #[inline]
    pub fn zip_map(&self, b: &Self, mut f: impl FnMut(Real, Real) -> Real) -> Self {
        Self(from_fn(|i| f(self.0[i], b.0[i])))
    }

    #[inline]
    pub fn component_mul(&self, b: &Self) -> Self {
        self.zip_map(b, |x, y| x * y)
    }

    #[inline]
    pub fn dot(&self, b: &Self) -> Real {
        let mut sum = self.0[0] * b.0[0];
        for i in 1..N {
            sum += self.0[i] * b.0[i];
        }
        sum
    }
}

impl<const N: usize> Add for SVector<Real, N> {
    type Output = Self;
    #[inline]
    fn add(self, b: Self) -> Self {
        self.zip_map(&b, |x, y| x + y)
    }
}

impl<const N: usize> Sub for SVector<Real, N> {
    type Output = Self;
    #[inline]
    fn sub(self, b: Self) -> Self {
        self.zip_map(&b, |x, y| x - y)
    }
}

impl<const N: usize> Sub<SVector<Real, N>> for &SVector<Real, N> {
    type Output = SVector<Real, N>;
    #[inline]
    fn sub(self, b: SVector<Real, N>) -> SVector<Real, N> {
        *self - b
    }
}

impl<const N: usize> Mul<Real> for SVector<Real, N> {
    type Output = Self;
    #[inline]
    fn mul(self, k: Real) -> Self {
        self.map(|x| x * k)
    }
}

impl<const N: usize> AddAssign for SVector<Real, N> {
    #[inline]
    fn add_assign(&mut self, b: Self) {
        *self = *self + b;
    }
}

impl<const N: usize> MulAssign<Real> for SVector<Real, N> {
    #[inline]
    fn mul_assign(&mut self, k: Real) {
        *self = *self * k;
    }
}

/// A matrix of `R` rows and `C` columns, column by column.
#[repr(transparent)]
#[derive(Copy, Clone, Debug, PartialEq)]
pub struct SMatrix<T, const R: usize, const C: usize>(pub [[T; R]; C]);

impl<const R: usize, const C: usize> SMatrix<Real, R, C> {
    #[inline]
    pub const fn zeros() -> Self {
        Self([[0.0; R]; C])
    }

    /// Entry (i, j), row i and column j, is `f(i, j)`.
    #[inline]
    pub fn from_fn(mut f: impl FnMut(usize, usize) -> Real) -> Self {
        Self(from_fn(|j| from_fn(|i| f(i, j))))
    }

    /// Entry (i, j) becomes (factor·yj)·xi + entry. The listed text keeps the whole entry (`kept` is 1).
    #[inline]
    #[expect(clippy::assign_op_pattern, reason = "the order is document 01's")]
    pub fn ger(&mut self, factor: Real, x: &SVector<Real, R>, y: &SVector<Real, C>, kept: Real) {
        assert!(kept == 1.0);
        for (column, yj) in self.0.iter_mut().zip(y.0) {
            for (entry, xi) in column.iter_mut().zip(x.0) {
                *entry = (factor * yj) * xi + *entry;
            }
        }
    }
}

impl<const N: usize> SMatrix<Real, N, N> {
    #[inline]
    pub fn identity() -> Self {
        Self::from_fn(|i, j| if i == j { 1.0 } else { 0.0 })
    }

    #[inline]
    pub fn from_diagonal(d: &SVector<Real, N>) -> Self {
        Self::from_fn(|i, j| if i == j { d.0[i] } else { 0.0 })
    }

    /// The inverse, unless a pivot is zero.
    ///
    /// For each column the first entry of largest magnitude on or below the diagonal is swapped up, with its whole row. The
    /// multipliers are left where the entries were that they clear.
    pub fn try_inverse(mut self) -> Option<Self> {
        let mut order: [usize; N] = from_fn(|i| i);
        for j in 0..N {
            let mut pivot = j;
            for i in j + 1..N {
                if self.0[j][i].abs() > self.0[j][pivot].abs() {
                    pivot = i;
                }
            }
            if self.0[j][pivot] == 0.0 {
                return None;
            }
            if pivot != j {
                for column in &mut self.0 {
                    column.swap(j, pivot);
                }
                order.swap(j, pivot);
            }
            self.clear_below(j);
        }
        let mut inverse = Self::zeros();
        for c in 0..N {
            let mut unit = [0.0; N];
            for i in 0..N {
                unit[i] = if order[i] == c { 1.0 } else { 0.0 };
            }
            inverse.0[c] = self.solve(unit);
        }
        Some(inverse)
    }

    /// Multiplier = entry·(1/pivot); row less multiplier·pivot row.
    #[inline]
    fn clear_below(&mut self, j: usize) {
        let inverse = 1.0 / self.0[j][j];
        for i in j + 1..N {
            self.0[j][i] *= inverse;
        }
        for k in j + 1..N {
            let above = self.0[k][j];
            for i in j + 1..N {
                self.0[k][i] -= self.0[j][i] * above;
            }
        }
    }

    /// Forward by rising index, backward by falling index and dividing by the pivot, one product subtracted per step.
    #[inline]
    fn solve(&self, mut x: [Real; N]) -> [Real; N] {
        for i in 0..N {
            let mut left = x[i];
            for k in 0..i {
                left -= self.0[k][i] * x[k];
            }
            x[i] = left;
        }
        for i in (0..N).rev() {
            let mut left = x[i];
            for k in (i + 1..N).rev() {
                left -= self.0[k][i] * x[k];
            }
            x[i] = left / self.0[i][i];
        }
        x
    }
}

impl<const R: usize, const C: usize> Index<(usize, usize)> for SMatrix<Real, R, C> {
    type Output = Real;
    #[inline]
    fn index(&self, (i, j): (usize, usize)) -> &Real {
        &self.0[j][i]
    }
}

impl<const R: usize, const C: usize> Mul<SVector<Real, C>> for SMatrix<Real, R, C> {
    type Output = SVector<Real, R>;
    #[inline]
    fn mul(self, v: SVector<Real, C>) -> SVector<Real, R> {
        let mut sums = [0.0; R];
        for i in 0..R {
            sums[i] = self.0[0][i] * v.0[0];
        }
        for k in 1..C {
            for i in 0..R {
                sums[i] += self.0[k][i] * v.0[k];
            }
        }
        SVector(sums)
    }
}

impl<const R: usize, const K: usize, const C: usize> Mul<SMatrix<Real, K, C>>
    for SMatrix<Real, R, K>
{
    type Output = SMatrix<Real, R, C>;
    #[inline]
    fn mul(self, b: SMatrix<Real, K, C>) -> SMatrix<Real, R, C> {
        let mut product = SMatrix::zeros();
        for j in 0..C {
            let mut sums = [0.0; R];
            for i in 0..R {
                sums[i] = self.0[0][i] * b.0[j][0];
            }
            for k in 1..K {
                for i in 0..R {
                    sums[i] += self.0[k][i] * b.0[j][k];
                }
            }
            product.0[j] = sums;
        }
        product
    }
}

impl<const R: usize, const C: usize> Mul<Real> for SMatrix<Real, R, C> {
    type Output = Self;
    #[inline]
    fn mul(self, k: Real) -> Self {
        Self(self.0.map(|column| column.map(|entry| entry * k)))
    }
}

impl<const R: usize, const C: usize> Add for SMatrix<Real, R, C> {
    type Output = Self;
    #[inline]
    fn add(self, b: Self) -> Self {
        Self::from_fn(|i, j| self.0[j][i] + b.0[j][i])
    }
}
