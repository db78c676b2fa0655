//! Summations: their bytes, terms that one of them loses and the other does not, and the work list by halves.
use super::fields::Fields;
use super::packing::EXAMPLES;
use super::stopping::{ended, runs_out_without_a_number};
use super::*;
use Ending::{RanOut, Settled};
use Stopping::{Ihmsen2014, Salva};
use Summation::{ByHalves, InOrder};

const RULES: [(Stopping, Summation); 4] =
    [(Salva, InOrder), (Ihmsen2014, InOrder), (Salva, ByHalves), (Ihmsen2014, ByHalves)];

fn under(stopping: Stopping, summation: Summation, scene: Scene) -> Vec<u8> {
    packed(Scene { version: Version::two(stopping, summation), ..scene })
}

// particles that touch one stone alone. Volume and the stone's weight are 1 over the rest density: then all masses and
// densities are 1, and aii is -2.
fn at_stone(rest_density: f64, warm_pressure: f64, speeds: &[f64]) -> Scene {
    let particle = |speed: &f64| FluidParticle {
        velocity: [*speed, 0.0, 0.0],
        volume: 1.0 / rest_density,
        warm_pressure,
        boundary_contacts: vec![contact(0, 1.0, [1.0, 0.0, 0.0])],
        ..Default::default()
    };
    let itself = BoundaryContact { model: 0, particle: 0, weight: 1.0 / rest_density };
    let stone = BoundaryParticle { contacts: vec![itself], ..Default::default() };
    Scene {
        step_length: 1.0,
        fluids: vec![Fluid { rest_density, particles: speeds.iter().map(particle).collect() }],
        boundaries: vec![Boundary { keeps_forces: false, particles: vec![stone] }],
        ..Default::default()
    }
}

// a term that is lost beside 2, and the speed that it comes from: in the first iteration a term is half a speed
const LOST: f64 = f64::EPSILON;
const SLOW: f64 = 2.0 * LOST;

#[test]
fn a_version_names_both() {
    assert_eq!(Summation::default(), InOrder);
    assert_eq!((Version::One.stopping(), Version::One.summation()), (Salva, InOrder));
    let old = packed(pressed());
    for (rule, (stopping, summation)) in RULES.into_iter().enumerate() {
        let version = Version::two(stopping, summation);
        assert_eq!((version.stopping(), version.summation()), (stopping, summation));
        assert_eq!(under(stopping, summation, pressed()), [&[0x21, 0x10 | rule as u8], &old[2..]].concat());
    }
    assert_eq!(Version::two(Salva, InOrder), Version::Two(Salva));
    assert_eq!(Version::two(Ihmsen2014, ByHalves), Version::TwoByHalves(Ihmsen2014));
}

#[test]
fn the_slow_pair_is_lost_in_order_and_not_by_halves() {
    let (in_order, by_halves) = (stepped(EXAMPLES[7]).unwrap(), stepped(EXAMPLES[8]).unwrap());
    assert_eq!(in_order.0.ending, RanOut(1.0));
    assert_eq!(by_halves.0.ending, RanOut(1.0 + f64::EPSILON));
    assert_eq!(Report { ending: RanOut(1.0), ..by_halves.0 }, in_order.0);
    assert_eq!(bits(&in_order.1), bits(&by_halves.1));
}

#[test]
fn terms_are_added_in_order_or_by_halves() {
    for (speeds, in_order, by_halves) in [
        (&[4.0][..], 2.0, 2.0),
        (&[4.0, SLOW], 2.0, 2.0),
        (&[4.0, SLOW, SLOW], 2.0, 2.0 + 2.0 * LOST),
        (&[SLOW, SLOW, 4.0], 2.0 + 2.0 * LOST, 2.0),
        (&[4.0, SLOW, SLOW, SLOW], 2.0, 2.0 + 2.0 * LOST),
        (&[4.0, SLOW, SLOW, SLOW, SLOW], 2.0, 2.0 + 4.0 * LOST),
    ] {
        let scene = Scene { most_iterations: 1, ..at_stone(1.0, 0.0, speeds) };
        let mut answers = Vec::new();
        for (stopping, summation) in RULES {
            let sum = if summation == InOrder { in_order } else { by_halves };
            let (report, found) = stepped(&under(stopping, summation, scene.clone())).unwrap();
            assert_eq!(report.ending, RanOut(sum / speeds.len() as f64));
            answers.push(bits(&found));
        }
        assert!(answers.iter().all(|found| *found == answers[0]));
    }
}

#[test]
fn a_limit_that_is_met_in_order_may_not_be_by_halves() {
    let speeds = [4.0, SLOW, SLOW, SLOW];
    let scene = Scene { least_iterations: 0, most_iterations: 2, error_limit: 0.5, ..at_stone(1.0, 0.0, &speeds) };
    for (stopping, summation, ending, iterations) in [
        (Salva, InOrder, Settled(0.5), 1),
        (Ihmsen2014, InOrder, Settled(0.5), 1),
        (Salva, ByHalves, RanOut(0.75 + LOST), 2),
        (Ihmsen2014, ByHalves, Settled(0.25), 2),
    ] {
        assert_eq!(ended(&under(stopping, summation, scene.clone())), (ending, iterations, false));
    }
}

// a negative rest density, and the pressure with which the density is that: the term is 0 / -1 under Ihmsen 2014
#[test]
fn an_error_may_be_minus_zero_by_halves() {
    for (stopping, summation) in RULES {
        for error_limit in [0.0, -0.0] {
            let scene = Scene { error_limit, ..at_stone(-1.0, 2.0, &[0.0]) };
            let (ending, iterations, _) = ended(&under(stopping, summation, scene));
            let minus = (stopping, summation) == (Ihmsen2014, ByHalves);
            assert!(matches!(ending, Settled(error) if error == 0.0 && error.is_sign_negative() == minus));
            assert_eq!(iterations, 2);
        }
    }
}

// none settles, as the first iteration that may is not reached
#[test]
fn iterations_are_the_same_under_both() {
    for scene in [scene_b(1.0), pressed(), Fields(EXAMPLES[2]).scene()] {
        for most_iterations in 0..6 {
            let scene = Scene { least_iterations: most_iterations, most_iterations, ..scene.clone() };
            let answers = |summation| bits(&stepped(&under(Salva, summation, scene.clone())).unwrap().1);
            assert_eq!(answers(InOrder), answers(ByHalves));
        }
    }
}

#[test]
fn an_average_that_is_not_a_number_is_passed_over_under_salva_alone() {
    let scene = |most| Scene { least_iterations: 0, ..overflowing(most) };
    assert_eq!(ended(&under(Salva, ByHalves, scene(2))), (Settled(0.0), 1, true));
    assert!(runs_out_without_a_number(&under(Ihmsen2014, ByHalves, scene(1)), 1));
    // in the second iteration it is a number again
    assert_eq!(ended(&under(Ihmsen2014, ByHalves, scene(2))), (Settled(0.0), 2, false));
}

// `stepped` also sees that all of it is cleared and nothing behind it is touched, refused by 9 and 10 too
#[test]
fn the_work_list_is_longer_by_halves() {
    for (stopping, summation) in RULES {
        let each = if summation == InOrder { 14 } else { 15 };
        let scene = under(stopping, summation, at_stone(1.0, 0.0, &[4.0, SLOW, SLOW]));
        let lengths = needed(&scene).unwrap();
        assert_eq!(lengths, Lengths { answers: 7 * 3 + 1, work: each * 3 + 1 });
        assert!(stepped(&scene).is_ok());
        let (mut answers, mut work) = (vec![7.0; lengths.answers], vec![7.0; lengths.work - 1]);
        assert_eq!(step(&scene, &mut answers, &mut work), refused(Reason::ShortList, 0));
        assert_eq!(validate(&scene, &mut work), refused(Reason::ShortList, 0));
        assert!(answers.iter().chain(&work).all(|x| *x == 7.0));

        let torn = stepped(&under(stopping, summation, scene_a(Vec::new())));
        assert_eq!(torn.map(|_| ()), refused(Reason::ZeroDensity, 62));
        let apart = stepped(&under(stopping, summation, scene_b(-0.5)));
        assert_eq!(apart.map(|_| ()), refused(Reason::ZeroPredictedDensity, 62));
    }
}
