//! Stand-in for nalgebra: vectors of N axes with the operations as METHOD states them. Sums,
//! differences, products and negations go axis by axis; a dot product adds the axes' products in
//! order, ((ax * bx) + (ay * by)) + (az * bz) with three axes. Each operation on doubles rounds once;
//! Rust reassociates and contracts nothing.

use std::array::from_fn;
use std::ops::{Add, AddAssign, Deref, Mul, MulAssign, Neg, Sub, SubAssign};

pub fn zero<T: num::Zero>() -> T {
    T::zero()
}

pub fn one<T: num::One>() -> T {
    T::one()
}

/// A constant of the Rust text, which is a double, as a `Real`, which is one too.
pub trait SupersetOf<A> {
    fn superset_of(a: A) -> Self;
}

impl SupersetOf<f64> for f64 {
    #[inline]
    fn superset_of(a: f64) -> f64 {
        a
    }
}

#[inline]
pub fn convert<A, B: SupersetOf<A>>(a: A) -> B {
    B::superset_of(a)
}

pub trait RealField {
    fn pi() -> Self;
}

impl RealField for f64 {
    /// 400921FB54442D18.
    fn pi() -> f64 {
        std::f64::consts::PI
    }
}

#[derive(Copy, Clone, Debug, PartialEq)]
pub struct Vector<T, const N: usize>([T; N]);

impl<T, const N: usize> From<[T; N]> for Vector<T, N> {
    #[inline]
    fn from(axes: [T; N]) -> Self {
        Vector(axes)
    }
}

impl<T, const N: usize> Vector<T, N> {
    #[inline]
    pub fn as_slice(&self) -> &[T] {
        &self.0
    }
}

// The Rust text calls `new` with as many numbers as there are axes.

impl<T> Vector<T, 2> {
    #[inline]
    pub fn new(x: T, y: T) -> Self {
        Vector([x, y])
    }
}

impl<T> Vector<T, 3> {
    #[inline]
    pub fn new(x: T, y: T, z: T) -> Self {
        Vector([x, y, z])
    }
}

impl<const N: usize> Vector<f64, N> {
    #[inline]
    pub fn zeros() -> Self {
        Vector([0.0; N])
    }

    #[inline]
    pub fn fill(&mut self, value: f64) {
        self.0 = [value; N]
    }

    /// It starts at the first product, not at 0.
    #[inline]
    pub fn dot(&self, other: &Self) -> f64 {
        (1..N).fold(self.0[0] * other.0[0], |sum, k| sum + self.0[k] * other.0[k])
    }

    /// Only for contact search and kernels of vectors, which are not ported.
    pub fn norm_squared(&self) -> f64 {
        self.dot(self)
    }

    /// As `norm_squared`.
    pub fn norm(&self) -> f64 {
        self.norm_squared().sqrt()
    }
}

impl<T: Copy + Add<Output = T>, const N: usize> Add for Vector<T, N> {
    type Output = Self;

    #[inline]
    fn add(self, other: Self) -> Self {
        Vector(from_fn(|k| self.0[k] + other.0[k]))
    }
}

impl<T: Copy + Sub<Output = T>, const N: usize> Sub for Vector<T, N> {
    type Output = Self;

    #[inline]
    fn sub(self, other: Self) -> Self {
        Vector(from_fn(|k| self.0[k] - other.0[k]))
    }
}

impl<const N: usize> Mul<f64> for Vector<f64, N> {
    type Output = Self;

    #[inline]
    fn mul(self, factor: f64) -> Self {
        Vector(self.0.map(|x| x * factor))
    }
}

impl<const N: usize> Neg for Vector<f64, N> {
    type Output = Self;

    #[inline]
    fn neg(self) -> Self {
        Vector(self.0.map(|x| -x))
    }
}

impl<T: Copy + Add<Output = T>, const N: usize> AddAssign for Vector<T, N> {
    #[inline]
    fn add_assign(&mut self, other: Self) {
        *self = *self + other
    }
}

impl<T: Copy + Add<Output = T>, const N: usize> AddAssign<&Vector<T, N>> for Vector<T, N> {
    #[inline]
    fn add_assign(&mut self, other: &Self) {
        *self = *self + *other
    }
}

impl<T: Copy + Sub<Output = T>, const N: usize> SubAssign for Vector<T, N> {
    #[inline]
    fn sub_assign(&mut self, other: Self) {
        *self = *self - other
    }
}

impl<const N: usize> MulAssign<f64> for Vector<f64, N> {
    #[inline]
    fn mul_assign(&mut self, factor: f64) {
        *self = *self * factor
    }
}

// The same on lent vectors, as text that is not ported writes it.

impl<T: Copy + Add<Output = T>, const N: usize> Add<Vector<T, N>> for &Vector<T, N> {
    type Output = Vector<T, N>;

    fn add(self, other: Vector<T, N>) -> Vector<T, N> {
        *self + other
    }
}

impl<'a, T: Copy + Sub<Output = T>, const N: usize> Sub<&'a Vector<T, N>> for &'a Vector<T, N> {
    type Output = Vector<T, N>;

    fn sub(self, other: &Vector<T, N>) -> Vector<T, N> {
        *self - *other
    }
}

impl<const N: usize> Mul<f64> for &Vector<f64, N> {
    type Output = Vector<f64, N>;

    fn mul(self, factor: f64) -> Vector<f64, N> {
        *self * factor
    }
}

/// Only for kernels of vectors, which are not ported.
pub struct Unit<T>(T);

impl<const N: usize> Unit<Vector<f64, N>> {
    pub fn try_new_and_get(v: Vector<f64, N>, least: f64) -> Option<(Self, f64)> {
        let norm = v.norm();
        (norm > least).then(|| (Unit(Vector(v.0.map(|x| x / norm))), norm))
    }
}

impl<T> Deref for Unit<T> {
    type Target = T;

    fn deref(&self) -> &T {
        &self.0
    }
}

/// Only so that `transform_by` compiles, which is not ported: this one moves nothing.
pub struct Isometry<T, const N: usize> {
    pub translation: Translation<T, N>,
    pub rotation: NoRotation,
}

pub struct Translation<T, const N: usize> {
    pub vector: Vector<T, N>,
}

#[derive(Copy, Clone)]
pub struct NoRotation;

impl<const N: usize> Mul<Vector<f64, N>> for NoRotation {
    type Output = Vector<f64, N>;

    fn mul(self, v: Vector<f64, N>) -> Vector<f64, N> {
        v
    }
}
