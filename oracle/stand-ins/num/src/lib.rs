//! Stand-in for `num`: casts and zero, for f64.
use std::ops::Add;

/// A number that can be read as an f64.
pub trait ToPrimitive {
    fn to_f64(&self) -> Option<f64>;
}

impl ToPrimitive for f64 {
    #[inline]
    fn to_f64(&self) -> Option<f64> {
        Some(*self)
    }
}

/// A number that can be made of another.
pub trait NumCast: Sized + ToPrimitive {
    fn from<N: ToPrimitive>(n: N) -> Option<Self>;
}

impl NumCast for f64 {
    #[inline]
    fn from<N: ToPrimitive>(n: N) -> Option<f64> {
        n.to_f64()
    }
}

/// A number as a number of another type.
#[inline]
pub fn cast<N: ToPrimitive, M: NumCast>(n: N) -> Option<M> {
    M::from(n)
}

/// Types with a zero.
pub trait Zero: Sized + Add<Output = Self> {
    fn zero() -> Self;
}

impl Zero for f64 {
    #[inline]
    fn zero() -> f64 {
        0.0
    }
}
