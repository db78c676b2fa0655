//! Stand-in for approx: a default distance, which no ported step uses.

pub trait AbsDiffEq {
    fn default_epsilon() -> Self;
}

impl AbsDiffEq for f64 {
    fn default_epsilon() -> f64 {
        f64::EPSILON
    }
}
