// The specification's scenes and values, through the packer and the archive; and the packer against
// the repository's packed examples.
use super::*;

mod board;
mod fields;
mod flat;
mod lists;
mod packing;
mod solver;
mod stopping;
mod summation;

fn empty(most: usize) -> Scene {
    Scene { most_iterations: most, error_limit: 0.0, ..Default::default() }
}

fn contact(particle: usize, weight: f64, gradient: [f64; 3]) -> Contact {
    Contact { model: 0, particle, weight, gradient }
}

fn scene_a(fluid_contacts: Vec<Contact>) -> Scene {
    Scene {
        step_length: 0.5,
        remaining_time: 1.0,
        gravity: [0.0, 0.0, -4.0],
        fluids: vec![Fluid {
            rest_density: 2.0,
            particles: vec![FluidParticle { volume: 0.5, fluid_contacts, ..Default::default() }],
        }],
        ..Default::default()
    }
}

fn whole_scene_a() -> Scene {
    scene_a(vec![contact(0, 2.0, [0.0; 3])])
}

fn scene_b(speed: f64) -> Scene {
    let particle = |other, side: f64| FluidParticle {
        velocity: [side * speed, 0.0, 0.0],
        volume: 1.0,
        fluid_contacts: vec![contact(other, 1.0, [side, 0.0, 0.0])],
        ..Default::default()
    };
    Scene {
        step_length: 1.0,
        fluids: vec![Fluid { rest_density: 1.0, particles: vec![particle(1, 1.0), particle(0, -1.0)] }],
        ..Default::default()
    }
}

// a particle whose warm pressure makes the average of its fluid no number in the first iteration, and
// the pressure 0 in the second
fn overflowing(most_iterations: usize) -> Scene {
    let particle = FluidParticle {
        volume: 1.0,
        warm_pressure: 1e308,
        fluid_contacts: vec![contact(0, 1.0, [2.0, 0.0, 0.0])],
        ..Default::default()
    };
    Scene {
        step_length: 1.0,
        most_iterations,
        fluids: vec![Fluid { rest_density: 1.0, particles: vec![particle] }],
        ..Default::default()
    }
}

// the specification's particle that presses on a wall
fn pressed() -> Scene {
    let particle = FluidParticle {
        volume: 1.0,
        warm_pressure: 4.0,
        fluid_contacts: vec![contact(0, 1.0, [0.0; 3])],
        boundary_contacts: vec![contact(0, 0.0, [0.0, 0.0, 1.0])],
        ..Default::default()
    };
    let stone = BoundaryParticle {
        contacts: vec![BoundaryContact { model: 0, particle: 0, weight: 4.0 }],
        ..Default::default()
    };
    Scene {
        step_length: 0.5,
        fluids: vec![Fluid { rest_density: 1.0, particles: vec![particle] }],
        boundaries: vec![Boundary { keeps_forces: true, particles: vec![stone] }],
        ..empty(0)
    }
}

fn packed(scene: Scene) -> Vec<u8> {
    scene.pack().unwrap()
}

// a step with lists one longer than needed; the last elements stay, and the work list is cleared
fn stepped(scene: &[u8]) -> Result<(Report, Vec<f64>), Refusal> {
    let lengths = needed(scene)?;
    let mut answers = vec![7.0; lengths.answers + 1];
    let mut work = vec![7.0; lengths.work + 1];
    let answer = step(scene, &mut answers, &mut work);
    assert_eq!(answers.pop(), Some(7.0));
    assert_eq!(work.pop(), Some(7.0));
    assert!(work.iter().all(|x| x.to_bits() == 0));
    if answer.is_err() {
        assert!(answers.iter().all(|x| *x == 7.0));
    }
    answer.map(|report| (report, answers))
}

fn refused<T>(reason: Reason, offset: u64) -> Result<T, Refusal> {
    Err(Refusal { reason, offset })
}

fn bits(xs: &[f64]) -> Vec<u64> {
    xs.iter().map(|x| x.to_bits()).collect()
}

// ---- the step

#[test]
fn scene_a_answers() {
    let scene = packed(whole_scene_a());
    assert_eq!(needed(&scene), Ok(Lengths { answers: 7, work: 14 }));
    let (report, answers) = stepped(&scene).unwrap();
    assert_eq!(
        report,
        Report {
            ending: Ending::Settled(0.0),
            iterations: 2,
            passed_over: false,
            dt: 0.5,
            inv_dt: 2.0,
            remaining_time: 0.5,
        }
    );
    assert_eq!(bits(&answers), [0, 0, 0xBFF0000000000000, 0, 0, 0xC000000000000000, 0]);
}

#[test]
fn empty_scenes_end_three_ways() {
    let ending = |most| {
        let (report, answers) = stepped(&packed(empty(most))).unwrap();
        assert!(answers.is_empty());
        (report.ending, report.iterations)
    };
    assert_eq!(ending(50), (Ending::Settled(0.0), 2));
    assert_eq!(ending(0), (Ending::Unswept, 0));
    assert_eq!(ending(1), (Ending::RanOut(0.0), 1));
}

#[test]
fn scene_b_runs_out() {
    let (report, answers) = stepped(&packed(scene_b(1.0))).unwrap();
    assert_eq!((report.ending, report.iterations), (Ending::RanOut(2.0), 50));
    for particle in [&answers[..7], &answers[7..]] {
        assert_eq!(particle[3..6], [0.0; 3]);
        assert_eq!(particle[6], 0.5);
    }
}

#[test]
fn an_average_that_is_passed_over_is_told() {
    let told = |most| {
        let scene = packed(overflowing(most));
        let report = stepped(&scene).unwrap().0;
        let mut clock = Clock { total_step_size: 1.0, ..Default::default() };
        assert_eq!(clock.step(&scene, &mut [0.0; 7], &mut [0.0; 14]), Ok(report));
        (report.ending, report.passed_over)
    };
    assert_eq!(told(0), (Ending::Unswept, false));
    assert_eq!(told(1), (Ending::RanOut(0.0), true));
    assert_eq!(told(2), (Ending::Settled(0.0), false));
    let torn = include_bytes!("../../../examples/torn-droplet-overflow.bin");
    let report = stepped(torn).unwrap().0;
    assert_eq!((report.ending, report.iterations, report.passed_over), (Ending::Settled(0.0), 2, true));
}

#[test]
fn a_wall_keeps_its_force() {
    let scene = packed(pressed());
    assert_eq!(needed(&scene), Ok(Lengths { answers: 11, work: 15 }));
    let (report, answers) = stepped(&scene).unwrap();
    assert_eq!(report.ending, Ending::Unswept);
    assert_eq!((answers[2], answers[5], answers[6]), (-0.125, -0.25, 2.0));
    assert_eq!(answers[7..], [0.25, 0.0, 0.0, 0.5]);
}

#[test]
fn faulty_scenes_are_refused() {
    let whole = packed(empty(50));
    let changed = |at: usize, byte: u8| {
        let mut scene = whole.clone();
        scene[at] = byte;
        needed(&scene)
    };
    let crowd = [&[0x11], &whole[1..], &4097u16.to_be_bytes(), &[0; 8]].concat();
    assert_eq!(needed(&[]), refused(Reason::Missing, 0));
    assert_eq!(needed(&whole[..51]), refused(Reason::Missing, 44));
    assert_eq!(changed(0, 0x00), refused(Reason::Form, 0));
    assert_eq!(changed(0, 0x19), refused(Reason::Models, 0));
    assert_eq!(needed(&crowd), refused(Reason::Count, 52));
    assert_eq!(needed(&[&whole[..], &[0]].concat()), refused(Reason::Trailing, 52));
    assert_eq!(needed(&packed(Scene { step_length: f64::INFINITY, ..empty(50) })), refused(Reason::NotFinite, 4));
    assert_eq!(needed(&packed(scene_a(vec![contact(1, 2.0, [0.0; 3])]))), refused(Reason::NotThere, 152));
}

#[test]
fn zero_densities_are_refused() {
    assert_eq!(stepped(&packed(scene_a(Vec::new()))).map(|_| ()), refused(Reason::ZeroDensity, 62));
    assert_eq!(stepped(&packed(scene_b(-0.5))).map(|_| ()), refused(Reason::ZeroPredictedDensity, 62));
}

#[test]
fn short_lists_are_refused() {
    let scene = packed(whole_scene_a());
    for (answers, work) in [(6, 14), (7, 13), (0, 0)] {
        let (mut answers, mut work) = (vec![7.0; answers], vec![7.0; work]);
        assert_eq!(step(&scene, &mut answers, &mut work), refused(Reason::ShortList, 0));
        assert!(answers.iter().chain(&work).all(|x| *x == 7.0));
    }
}

#[test]
fn a_clock_is_moved_on_where_a_step_is_done() {
    let whole = packed(whole_scene_a());
    let (mut answers, mut work) = ([7.0; 7], [7.0; 14]);
    let mut clock = Clock { total_step_size: 0.25, dt: 7.0, inv_dt: 7.0, remaining_time: 3.0 };
    let before = clock;
    for (scene, refusal) in [
        (&whole[..51], refused(Reason::Missing, 44)),
        (&packed(scene_b(1.0)), refused(Reason::ShortList, 0)),
        (&packed(scene_a(Vec::new())), refused(Reason::ZeroDensity, 62)),
    ] {
        assert_eq!(clock.step(scene, &mut answers, &mut work), refusal);
        assert_eq!(clock, before);
    }
    for remaining_time in [2.75, 2.5] {
        assert_eq!(clock.step(&whole, &mut answers, &mut work), step(&whole, &mut [0.0; 7], &mut [0.0; 14]));
        assert_eq!(clock, Clock { total_step_size: 0.25, dt: 0.25, inv_dt: 4.0, remaining_time });
        assert_eq!(answers, [0.0, 0.0, -1.0, 0.0, 0.0, -2.0, 0.0]);
    }
    clock.total_step_size = -0.0;
    assert!(clock.step(&whole, &mut answers, &mut work).is_ok());
    let clock = [clock.total_step_size, clock.dt, clock.inv_dt, clock.remaining_time];
    assert_eq!(bits(&clock), bits(&[-0.0, -0.0, 0.0, 2.5]));
}

#[test]
fn validation_refuses_as_a_step_does() {
    let validated = |scene: &[u8], work: &mut [f64]| (validate(scene, work), work.to_vec());
    let (whole, mut sevens) = (packed(whole_scene_a()), vec![7.0; 13]);
    assert_eq!(validated(&whole[..51], &mut sevens), (refused(Reason::Missing, 44), vec![7.0; 13]));
    assert_eq!(validated(&whole, &mut sevens), (refused(Reason::ShortList, 0), vec![7.0; 13]));
    let cleared = [vec![0.0; 14], vec![7.0]].concat();
    assert_eq!(validated(&whole, &mut [7.0; 15]), (Ok(()), cleared.clone()));
    assert_eq!(validated(&packed(scene_a(Vec::new())), &mut [7.0; 15]), (refused(Reason::ZeroDensity, 62), cleared));
    assert_eq!(validated(&packed(scene_b(-0.5)), &mut [7.0; 28]).0, refused(Reason::ZeroPredictedDensity, 62));
}

#[test]
fn refusals_say_what_and_where() {
    let refusal = needed(&packed(empty(50))[..51]).unwrap_err();
    assert_eq!(refusal.to_string(), "refused 1 at byte 44: a field is not wholly there");
    assert!(Reason::ALL.iter().enumerate().all(|(n, reason)| reason.number() as usize == n + 1));
}

type Kernel = fn(f64, f64) -> Result<f64, KernelRefusal>;

// weight and slope, with the number that is divided by pi in the normalizer of the radius 1
const KERNELS: [(Kernel, Kernel, f64); 2] = [(weight, slope, 8.0), (weight_2d, slope_2d, 40.0 / 7.0)];

// normalizer × shape, and (normalizer × shape) / h; with the radius 1 the shapes are those of
// METHOD 1
#[test]
fn kernel_values() {
    for (weight, slope, number) in KERNELS {
        let normalizer = number / std::f64::consts::PI;
        for (r, shape) in [(0.0, 1.0), (-0.0, 1.0), (0.5, 0.25), (0.75, 0.03125), (1.0, 0.0), (2.0, 0.0)] {
            assert_eq!(weight(r, 1.0).map(f64::to_bits), Ok((normalizer * shape).to_bits()));
        }
        for (r, shape) in [(0.5, -1.5), (0.75, -0.375), (1.0, -0.0), (f64::from_bits(0x3FF0000000000001), 0.0)] {
            assert_eq!(slope(r, 1.0).map(f64::to_bits), Ok((normalizer * shape).to_bits()));
        }
    }
}

#[test]
fn kernel_refusals() {
    for (kernel, _, _) in KERNELS.into_iter().chain(KERNELS.map(|(weight, slope, n)| (slope, weight, n))) {
        for r in [-1.0, f64::INFINITY, f64::NAN] {
            assert_eq!(kernel(r, 0.0), Err(KernelRefusal::Distance));
        }
        for h in [0.0, -0.0, -1.0, f64::INFINITY, f64::NAN] {
            assert_eq!(kernel(1.0, h), Err(KernelRefusal::Radius));
        }
    }
}
