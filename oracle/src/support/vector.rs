//! Vectors, 3×3 matrices and rotations, under the names that glam gives them. Sums run left to right; vectors and matrices are
//! added, scaled and divided part by part.

use super::real::{Real, root, sin_cos};
use std::ops::{Add, AddAssign, Div, Index, IndexMut, Mul, Neg, Sub, SubAssign};

/// The number of dimensions.
pub const DIM: usize = 3;

/// A vector of three.
#[repr(C)]
#[derive(Copy, Clone, Debug, Default, PartialEq)]
pub struct Vector {
    pub x: Real,
    pub y: Real,
    pub z: Real,
}

impl Vector {
    pub const ZERO: Self = Self::new(0.0, 0.0, 0.0);
    pub const X: Self = Self::new(1.0, 0.0, 0.0);
    pub const Y: Self = Self::new(0.0, 1.0, 0.0);
    pub const Z: Self = Self::new(0.0, 0.0, 1.0);

    #[inline]
    pub const fn new(x: Real, y: Real, z: Real) -> Self {
        Self { x, y, z }
    }

    #[inline]
    pub const fn from_array([x, y, z]: [Real; 3]) -> Self {
        Self { x, y, z }
    }

    #[inline]
    pub const fn to_array(self) -> [Real; 3] {
        [self.x, self.y, self.z]
    }

    #[inline]
    pub fn dot(self, b: Self) -> Real {
        self.x * b.x + self.y * b.y + self.z * b.z
    }

    /// First part: ay·bz − by·az, the rest cyclic.
    #[inline]
    pub fn cross(self, b: Self) -> Self {
        Self {
            x: self.y * b.z - b.y * self.z,
            y: self.z * b.x - b.z * self.x,
            z: self.x * b.y - b.x * self.y,
        }
    }

    #[inline]
    pub fn length_squared(self) -> Real {
        self.dot(self)
    }

    #[inline]
    pub fn length(self) -> Real {
        root(self.dot(self))
    }

    #[inline]
    pub fn element_sum(self) -> Real {
        self.x + self.y + self.z
    }
}

impl Add for Vector {
    type Output = Self;
    #[inline]
    fn add(self, b: Self) -> Self {
        Self::new(self.x + b.x, self.y + b.y, self.z + b.z)
    }
}

impl Sub for Vector {
    type Output = Self;
    #[inline]
    fn sub(self, b: Self) -> Self {
        Self::new(self.x - b.x, self.y - b.y, self.z - b.z)
    }
}

impl Mul<Real> for Vector {
    type Output = Self;
    #[inline]
    fn mul(self, k: Real) -> Self {
        Self::new(self.x * k, self.y * k, self.z * k)
    }
}

impl Div<Real> for Vector {
    type Output = Self;
    #[inline]
    fn div(self, k: Real) -> Self {
        Self::new(self.x / k, self.y / k, self.z / k)
    }
}

impl Neg for Vector {
    type Output = Self;
    #[inline]
    fn neg(self) -> Self {
        Self::new(-self.x, -self.y, -self.z)
    }
}

impl AddAssign for Vector {
    #[inline]
    fn add_assign(&mut self, b: Self) {
        *self = *self + b;
    }
}

impl SubAssign for Vector {
    #[inline]
    fn sub_assign(&mut self, b: Self) {
        *self = *self - b;
    }
}

impl Index<usize> for Vector {
    type Output = Real;
    #[inline]
    fn index(&self, i: usize) -> &Real {
        match i {
            0 => &self.x,
            1 => &self.y,
            2 => &self.z,
            _ => panic!("part {i} of a vector of three"),
        }
    }
}

impl IndexMut<usize> for Vector {
    #[inline]
    fn index_mut(&mut self, i: usize) -> &mut Real {
        match i {
            0 => &mut self.x,
            1 => &mut self.y,
            2 => &mut self.z,
            _ => panic!("part {i} of a vector of three"),
        }
    }
}

/// A 3×3 matrix by columns.
#[repr(C)]
#[derive(Copy, Clone, Debug, PartialEq)]
pub struct Matrix {
    pub x_axis: Vector,
    pub y_axis: Vector,
    pub z_axis: Vector,
}

impl Matrix {
    pub const ZERO: Self = Self::from_cols(Vector::ZERO, Vector::ZERO, Vector::ZERO);
    pub const IDENTITY: Self = Self::from_cols(Vector::X, Vector::Y, Vector::Z);

    #[inline]
    pub const fn from_cols(x_axis: Vector, y_axis: Vector, z_axis: Vector) -> Self {
        Self {
            x_axis,
            y_axis,
            z_axis,
        }
    }

    #[inline]
    pub fn from_cols_array_2d(columns: &[[Real; 3]; 3]) -> Self {
        let [x, y, z] = *columns;
        Self::from_cols(
            Vector::from_array(x),
            Vector::from_array(y),
            Vector::from_array(z),
        )
    }

    #[inline]
    pub fn to_cols_array_2d(self) -> [[Real; 3]; 3] {
        [
            self.x_axis.to_array(),
            self.y_axis.to_array(),
            self.z_axis.to_array(),
        ]
    }

    /// Document 01's "To a matrix".
    #[inline]
    pub fn from_quat(q: Rotation) -> Self {
        let (x2, y2, z2) = (q.x + q.x, q.y + q.y, q.z + q.z);
        Self::from_cols(
            Vector::new(
                1.0 - (q.y * y2 + q.z * z2),
                q.x * y2 + q.w * z2,
                q.x * z2 - q.w * y2,
            ),
            Vector::new(
                q.x * y2 - q.w * z2,
                1.0 - (q.x * x2 + q.z * z2),
                q.y * z2 + q.w * x2,
            ),
            Vector::new(
                q.x * z2 + q.w * y2,
                q.y * z2 - q.w * x2,
                1.0 - (q.x * x2 + q.y * y2),
            ),
        )
    }

    #[inline]
    pub fn col(&self, j: usize) -> Vector {
        match j {
            0 => self.x_axis,
            1 => self.y_axis,
            2 => self.z_axis,
            _ => panic!("column {j} of a 3×3 matrix"),
        }
    }

    #[inline]
    pub fn col_mut(&mut self, j: usize) -> &mut Vector {
        match j {
            0 => &mut self.x_axis,
            1 => &mut self.y_axis,
            2 => &mut self.z_axis,
            _ => panic!("column {j} of a 3×3 matrix"),
        }
    }

    #[inline]
    pub fn transpose(&self) -> Self {
        let (x, y, z) = (self.x_axis, self.y_axis, self.z_axis);
        Self::from_cols(
            Vector::new(x.x, y.x, z.x),
            Vector::new(x.y, y.y, z.y),
            Vector::new(x.z, y.z, z.z),
        )
    }

    /// col2·(col0 × col1).
    #[inline]
    pub fn determinant(&self) -> Real {
        self.z_axis.dot(self.x_axis.cross(self.y_axis))
    }
}

/// (col0·vx + col1·vy) + col2·vz.
impl Mul<Vector> for Matrix {
    type Output = Vector;
    #[inline]
    fn mul(self, v: Vector) -> Vector {
        self.x_axis * v.x + self.y_axis * v.y + self.z_axis * v.z
    }
}

impl Mul for Matrix {
    type Output = Self;
    #[inline]
    fn mul(self, n: Self) -> Self {
        Self::from_cols(self * n.x_axis, self * n.y_axis, self * n.z_axis)
    }
}

impl Mul<Real> for Matrix {
    type Output = Self;
    #[inline]
    fn mul(self, k: Real) -> Self {
        Self::from_cols(self.x_axis * k, self.y_axis * k, self.z_axis * k)
    }
}

impl Add for Matrix {
    type Output = Self;
    #[inline]
    fn add(self, n: Self) -> Self {
        Self::from_cols(
            self.x_axis + n.x_axis,
            self.y_axis + n.y_axis,
            self.z_axis + n.z_axis,
        )
    }
}

impl Sub for Matrix {
    type Output = Self;
    #[inline]
    fn sub(self, n: Self) -> Self {
        Self::from_cols(
            self.x_axis - n.x_axis,
            self.y_axis - n.y_axis,
            self.z_axis - n.z_axis,
        )
    }
}

impl AddAssign for Matrix {
    #[inline]
    fn add_assign(&mut self, n: Self) {
        *self = *self + n;
    }
}

/// A rotation as a quaternion.
#[repr(C)]
#[derive(Copy, Clone, Debug, PartialEq)]
pub struct Rotation {
    pub x: Real,
    pub y: Real,
    pub z: Real,
    pub w: Real,
}

impl Rotation {
    pub const IDENTITY: Self = Self::from_xyzw(0.0, 0.0, 0.0, 1.0);

    #[inline]
    pub const fn from_xyzw(x: Real, y: Real, z: Real, w: Real) -> Self {
        Self { x, y, z, w }
    }

    /// The axis times the sine of half the angle, and its cosine.
    #[inline]
    pub fn from_axis_angle(axis: Vector, angle: Real) -> Self {
        let (s, c) = sin_cos(angle);
        let v = axis * s;
        Self::from_xyzw(v.x, v.y, v.z, c)
    }

    #[inline]
    pub fn length(self) -> Real {
        root(self.x * self.x + self.y * self.y + self.z * self.z + self.w * self.w)
    }

    /// Times 1/length.
    #[inline]
    pub fn normalize(self) -> Self {
        let k = 1.0 / self.length();
        Self::from_xyzw(self.x * k, self.y * k, self.z * k, self.w * k)
    }
}

impl Mul for Rotation {
    type Output = Self;
    #[inline]
    fn mul(self, q: Self) -> Self {
        let p = self;
        Self {
            x: p.w * q.x + p.x * q.w + p.y * q.z - p.z * q.y,
            y: p.w * q.y - p.x * q.z + p.y * q.w + p.z * q.x,
            z: p.w * q.z + p.x * q.y - p.y * q.x + p.z * q.w,
            w: p.w * q.w - p.x * q.x - p.y * q.y - p.z * q.z,
        }
    }
}

/// The generalised dot product of the listed Rust; of two vectors it is their dot (utils/dot_product.rs).
pub trait DotProduct<Rhs> {
    fn gdot(&self, rhs: Rhs) -> Real;
}

impl DotProduct<Vector> for Vector {
    #[inline]
    fn gdot(&self, rhs: Vector) -> Real {
        self.dot(rhs)
    }
}

/// The one method of the listed Rust's trait that is called.
pub trait RotationOps {
    fn to_mat(&self) -> Matrix;
}

impl RotationOps for Rotation {
    #[inline]
    fn to_mat(&self) -> Matrix {
        Matrix::from_quat(*self)
    }
}

/// Imported by the listed text, called only in items that are left out.
pub trait MatExt {}
/// Imported by the listed text, called only in items that are left out.
pub trait AngularInertiaOps {}
/// Imported by the listed text, called only in items that are left out.
pub trait ComponentMul {}
