//! The weight shape in whole numbers: worked values, the rule of its table and its lines, the exact shape, and the
//! weight in doubles.
use super::*;

// the radius, and one step of the table, in units of q
const ONE: u32 = 1 << 20;
const STEP: u32 = 1 << 10;

// all q up to the radius, some behind it, and the last
fn all_q() -> impl Iterator<Item = u32> {
    (0..=ONE + STEP).chain((ONE..=u32::MAX).step_by(999_983)).chain([1 << 31, u32::MAX])
}

fn entry(k: i64) -> i64 {
    if k <= 512 {
        (1 << 30) + 6 * k.pow(3) - 6144 * k.pow(2)
    } else {
        2 * (1024 - k).pow(3)
    }
}

fn ruled(q: u32) -> i64 {
    if q >= ONE {
        return 0;
    }
    let (k, f) = (i64::from(q / STEP), i64::from(q % STEP));
    entry(k) + ((entry(k + 1) - entry(k)) * f).div_euclid(1024) // the floor, since 1024 is positive
}

// METHOD (1.5a) in units of 2^-60, where q is in units of 2^-20
fn exact(q: u32) -> i128 {
    let (q, one) = (i128::from(q), i128::from(ONE));
    if q <= one / 2 {
        one.pow(3) - 6 * (one * q.pow(2) - q.pow(3))
    } else {
        2 * (one - q).max(0).pow(3)
    }
}

// how far a weight is off the exact shape, in units of 2^-60
fn off(q: u32) -> u128 {
    ((i128::from(board_weight(q)) << 30) - exact(q)).unsigned_abs()
}

#[test]
fn worked_board_weights() {
    for (q, weight) in [
        (0, 1 << 30),
        (1, 1_073_741_818),
        (511, 1_073_738_760),
        (1023, 1_073_735_691),
        (1024, 1_073_735_686),
        (ONE / 2 - 1, 268_436_994),
        (ONE / 2, 1 << 28),
        (ONE / 2 + 1, 268_433_922),
        (ONE / 4 * 3, 1 << 25),
        (ONE - 1024, 2),
        (ONE - 512, 1),
        (ONE - 511, 0),
        (ONE - 1, 0),
        (ONE, 0),
        (u32::MAX, 0),
    ] {
        assert_eq!(board_weight(q), weight, "q = {q}");
    }
}

#[test]
fn board_weights_follow_the_rule() {
    for q in all_q() {
        assert_eq!(i64::from(board_weight(q)), ruled(q), "q = {q}");
    }
}

#[test]
fn board_weights_are_near_the_exact_shape() {
    for q in all_q() {
        assert!(off(q) <= 1537 << 30, "q = {q}: off by {} × 2^-60", off(q));
    }
}

#[test]
fn board_weights_are_exact_on_the_table() {
    for q in (0..=ONE).step_by(STEP as usize) {
        assert_eq!(off(q), 0, "q = {q}");
    }
}

// doubles are far nearer to the exact shape than a unit, so one more unit is room enough
#[test]
fn board_weights_are_near_the_weight_over_its_normalizer() {
    let normalizer = 8.0 / std::f64::consts::PI;
    for q in all_q() {
        let shape = weight(f64::from(q) / f64::from(ONE), 1.0).unwrap() / normalizer;
        let units = shape * f64::from(1 << 30);
        assert!((f64::from(board_weight(q)) - units).abs() <= 1538.0, "q = {q}: {units}");
    }
}
