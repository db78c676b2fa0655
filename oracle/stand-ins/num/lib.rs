//! Stand-in for num-traits: zero and one of the doubles, and the test for a zero of either sign.

pub trait Zero {
    fn zero() -> Self;
    fn is_zero(&self) -> bool;
}

pub trait One {
    fn one() -> Self;
}

impl Zero for f64 {
    #[inline]
    fn zero() -> f64 {
        0.0
    }

    #[inline]
    fn is_zero(&self) -> bool {
        *self == 0.0
    }
}

impl One for f64 {
    #[inline]
    fn one() -> f64 {
        1.0
    }
}
