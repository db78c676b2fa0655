//! Versions and stopping criteria: their bytes, their refusals, and what each criterion says of the same iterations.
use super::fields::Fields;
use super::packing::EXAMPLES;
use super::solver::{calls, outcome};
use super::*;
use Ending::{RanOut, Settled};
use Stopping::{Ihmsen2014, Salva};

fn under(stopping: Stopping, scene: Scene) -> Vec<u8> {
    packed(Scene { version: Version::Two(stopping), ..scene })
}

// how the iterations end, how many there are, and whether an average was passed over
pub fn ended(scene: &[u8]) -> (Ending, u64, bool) {
    let report = stepped(scene).unwrap().0;
    (report.ending, report.iterations, report.passed_over)
}

// the error that is not a number is equal to none, so it is told apart here
pub fn runs_out_without_a_number(scene: &[u8], most: u64) -> bool {
    let (ending, iterations, passed_over) = ended(scene);
    matches!(ending, RanOut(error) if error.is_nan()) && iterations == most && !passed_over
}

// scene B's fluid, as the one of that number. From a warm pressure w the first iteration makes both pressures right;
// its error is 1 - w by Ihmsen 2014 and 1 + w by salva, and those that follow have 0 and 2.
fn pair(model: usize, warm_pressure: f64) -> Fluid {
    let mut fluid = scene_b(1.0).fluids.remove(0);
    for particle in &mut fluid.particles {
        particle.warm_pressure = warm_pressure;
        particle.fluid_contacts[0].model = model;
    }
    fluid
}

#[test]
fn version_1_is_the_default_and_names_no_rule() {
    assert_eq!(Scene::default().version, Version::One);
    assert_eq!(packed(pressed())[..2], [0x11, 0x10]);
}

#[test]
fn version_2_has_the_bytes_of_version_1_but_for_version_and_rule() {
    let old = packed(pressed());
    assert_eq!(under(Salva, pressed()), [&[0x21, 0x10], &old[2..]].concat());
    assert_eq!(under(Ihmsen2014, pressed()), [&[0x21, 0x11], &old[2..]].concat());
    assert_eq!(under(Ihmsen2014, scene_b(1.0)), EXAMPLES[6]);
}

#[test]
fn scene_b_settles_under_ihmsen_2014_alone() {
    assert_eq!(ended(&packed(scene_b(1.0))), (RanOut(2.0), 50, false));
    assert_eq!(ended(&under(Salva, scene_b(1.0))), (RanOut(2.0), 50, false));
    assert_eq!(ended(&under(Ihmsen2014, scene_b(1.0))), (Settled(0.0), 2, false));
    let first = Scene { most_iterations: 1, ..scene_b(1.0) };
    assert_eq!(ended(&under(Ihmsen2014, first)), (RanOut(1.0), 1, false));
}

#[test]
fn version_2_under_salva_has_the_results_of_version_1() {
    let mut compared = 0;
    for (scene, lengths) in calls().into_iter().filter(|(scene, _)| scene.first().is_some_and(|byte| byte >> 4 == 1)) {
        let twin = [&[scene[0] & 15 | 0x20], &scene[1..]].concat();
        let result = |scene: &[u8]| outcome(lengths, |answers, work| step(scene, answers, work));
        assert_eq!(result(&twin), result(&scene));
        compared += 1;
    }
    assert!(compared > 50);
}

// none settles, as the first iteration that may is not reached
#[test]
fn iterations_are_the_same_under_both() {
    for scene in [scene_b(1.0), pressed(), Fields(EXAMPLES[2]).scene()] {
        for most_iterations in 0..6 {
            let scene = Scene { least_iterations: most_iterations, most_iterations, ..scene.clone() };
            let answers = |stopping| bits(&stepped(&under(stopping, scene.clone())).unwrap().1);
            assert_eq!(answers(Salva), answers(Ihmsen2014));
        }
    }
}

// the compression without pressures is some 0.006
#[test]
fn the_chamber_settles_below_its_compression_under_ihmsen_2014_alone() {
    let chamber = Scene { least_iterations: 1, error_limit: 0.001, ..Fields(EXAMPLES[2]).scene() };
    let (ending, iterations, _) = ended(&under(Ihmsen2014, chamber.clone()));
    assert!(matches!(ending, Settled(error) if 0.0 < error && error <= 0.001));
    assert_eq!(iterations, 5);
    assert!(matches!(ended(&under(Salva, chamber)).0, RanOut(error) if error > 0.006));
}

#[test]
fn a_negative_limit_is_met_under_ihmsen_2014_alone() {
    let scene = |error_limit| Scene { least_iterations: 0, error_limit, fluids: vec![pair(0, 8.0)], ..scene_b(1.0) };
    assert_eq!(ended(&under(Ihmsen2014, scene(-7.0))), (Settled(-7.0), 1, false));
    assert_eq!(ended(&under(Ihmsen2014, scene(-7.5))), (RanOut(0.0), 50, false));
    assert_eq!(ended(&under(Salva, scene(-7.0))), (RanOut(2.0), 50, false));
}

#[test]
fn the_error_is_the_greatest_average_of_fluids_with_particles() {
    let first = |fluids| Scene { most_iterations: 1, fluids, ..scene_b(1.0) };
    for fluids in [
        vec![pair(0, 8.0), pair(1, 4.0)],
        vec![pair(0, 4.0), pair(1, 8.0)],
        vec![Fluid::default(), pair(1, 8.0), Fluid::default(), pair(3, 4.0)],
    ] {
        assert_eq!(ended(&under(Ihmsen2014, first(fluids.clone()))), (RanOut(-3.0), 1, false));
        assert_eq!(ended(&under(Salva, first(fluids))), (RanOut(9.0), 1, false));
    }
    for fluids in [vec![], vec![Fluid::default()]] {
        let scene = Scene { error_limit: 0.0, fluids, ..scene_b(1.0) };
        let (ending, iterations, passed_over) = ended(&under(Ihmsen2014, scene));
        assert!(matches!(ending, Settled(error) if error.to_bits() == 0));
        assert_eq!((iterations, passed_over), (2, false));
    }
}

#[test]
fn an_average_that_is_not_a_number_does_not_settle_under_ihmsen_2014() {
    let scene = |most| Scene { least_iterations: 0, ..overflowing(most) };
    assert_eq!(ended(&under(Salva, scene(2))), (Settled(0.0), 1, true));
    assert!(runs_out_without_a_number(&under(Ihmsen2014, scene(1)), 1));
    assert_eq!(ended(&under(Ihmsen2014, scene(2))), (Settled(0.0), 2, false)); // it is a number again

    let torn = Fields(EXAMPLES[5]).scene();
    assert_eq!(ended(&under(Salva, torn.clone())), (Settled(0.0), 2, true));
    assert!(runs_out_without_a_number(&under(Ihmsen2014, torn), 50));
}

#[test]
fn one_average_that_is_not_a_number_is_enough_under_ihmsen_2014() {
    let mut overflowing = [overflowing(1).fluids.remove(0), overflowing(1).fluids.remove(0)];
    overflowing[1].particles[0].fluid_contacts[0].model = 1;
    let [first, second] = overflowing;
    for fluids in [vec![first, pair(1, 4.0)], vec![pair(0, 4.0), second]] {
        let scene = Scene { least_iterations: 0, error_limit: 5.0, most_iterations: 1, fluids, ..scene_b(1.0) };
        assert_eq!(ended(&under(Salva, scene.clone())), (Settled(5.0), 1, true));
        assert!(runs_out_without_a_number(&under(Ihmsen2014, scene), 1));
    }
}

#[test]
fn versions_and_rules_are_refused_as_they_are_read() {
    let told = |first, second| needed(&[&[first, second], &packed(empty(50))[2..]].concat());
    for (first, second, reason, offset) in [
        (0x00, 0x00, Reason::Form, 0),
        (0x39, 0x9F, Reason::Form, 0),
        (0xF0, 0x00, Reason::Form, 0),
        (0x29, 0x94, Reason::Models, 0),
        (0x10, 0x91, Reason::Models, 1),
        (0x20, 0x94, Reason::Models, 1),
        (0x10, 0x81, Reason::Form, 1),
        (0x10, 0x02, Reason::Form, 1),
        (0x10, 0x83, Reason::Form, 1),
        (0x20, 0x84, Reason::Form, 1),
        (0x20, 0x0F, Reason::Form, 1),
    ] {
        assert_eq!(told(first, second), refused(reason, offset), "{first:02X} {second:02X}");
    }
    for (first, second) in [(0x10, 0x00), (0x20, 0x00), (0x20, 0x01), (0x20, 0x02), (0x20, 0x03)] {
        assert_eq!(told(first, second), Ok(Lengths { answers: 0, work: 0 }));
    }
}

#[test]
fn refusals_of_versions_rules_and_models_say_what_to_do() {
    let text = |reason| Refusal { reason, offset: 1 }.to_string();
    assert_eq!(
        text(Reason::Form),
        "refused 2 at byte 1: the version is neither 1, 2 nor 4, or does not have the rule; \
         write version 1 with rule 0, or version 2, or 4 for a flat scene, with rule 0 (salva) \
         or 1 (Ihmsen 2014), or with 2 or 3 for these by halves"
    );
    assert_eq!(
        text(Reason::Models),
        "refused 3 at byte 1: more than 8 fluids or boundaries; \
         join fluids of one rest density, or boundaries, until there are 8"
    );
}
