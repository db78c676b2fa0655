//! A solver that keeps its index: the same answers as a step on the stack, the index kept and grown,
//! and threads with little stack.
use super::fields::Fields;
use super::packing::EXAMPLES;
use super::*;
use std::thread;

const LITTLE_STACK: usize = 64 << 10;
const LONGEST_INDEX: usize = 98_564;

// how long an index the scene needs, by include/iisph.h
fn index_needed(scene: &Scene) -> usize {
    let drops: usize = scene.fluids.iter().map(|fluid| fluid.particles.len()).sum();
    let stones: usize = scene.boundaries.iter().map(|boundary| boundary.particles.len()).sum();
    4 + 16 * (scene.fluids.len() + scene.boundaries.len()) + 2 * drops + stones
}

// `models` fluids and boundaries, each with so many particles; a fluid particle touches itself and a
// stone, and each stone touches itself
fn crowd(models: usize, particles: usize) -> Scene {
    let drop = |model, particle| FluidParticle {
        volume: 0.5,
        fluid_contacts: vec![Contact { model, particle, weight: 2.0, gradient: [0.0; 3] }],
        boundary_contacts: vec![Contact { model, particle, weight: 0.0, gradient: [0.0, 0.0, 0.125] }],
        ..Default::default()
    };
    let stone = |model, particle| BoundaryParticle {
        contacts: vec![BoundaryContact { model, particle, weight: 4.0 }],
        ..Default::default()
    };
    let fluid = |model| Fluid { rest_density: 2.0, particles: (0..particles).map(|k| drop(model, k)).collect() };
    let boundary =
        |model| Boundary { keeps_forces: true, particles: (0..particles).map(|k| stone(model, k)).collect() };
    Scene {
        fluids: (0..models).map(fluid).collect(),
        boundaries: (0..models).map(boundary).collect(),
        ..whole_scene_a()
    }
}

// scenes of the tests, and crowds, each with lists that are one too long and one too short: done, and
// refused by every number
pub fn calls() -> Vec<(Vec<u8>, Lengths)> {
    let whole = packed(whole_scene_a());
    let mut scenes: Vec<Vec<u8>> = EXAMPLES.iter().map(|example| example.to_vec()).collect();
    scenes.extend([empty(50), empty(0), empty(1), scene_b(1.0), pressed(), crowd(3, 40), crowd(8, 0)].map(packed));
    scenes.extend([scene_a(Vec::new()), scene_b(-0.5), scene_a(vec![contact(1, 2.0, [0.0; 3])])].map(packed));
    scenes.extend([Scene { step_length: f64::NAN, ..empty(50) }, crowd(1, 700), crowd(2, 1500)].map(packed));
    scenes.extend([Vec::new(), whole[..51].to_vec(), [&whole[..], &[0]].concat()]);
    scenes.extend([[&[0x31], &whole[1..]].concat(), [&[0x19], &whole[1..]].concat()]);
    scenes.push([&whole[..52], &4097u16.to_be_bytes(), &whole[54..]].concat());
    let with_lists = |scene: Vec<u8>| {
        let Lengths { answers, work } = needed(&scene).unwrap_or(Lengths { answers: 3, work: 3 });
        let short = |n: usize| n.saturating_sub(1);
        [(answers + 1, work + 1), (short(answers), work), (answers, short(work))]
            .map(|(answers, work)| (scene.clone(), Lengths { answers, work }))
    };
    scenes.into_iter().flat_map(with_lists).collect()
}

// the answer, and both lists afterwards, which held sevens
pub type Outcome = (Result<[u64; 7], Refusal>, Vec<u64>, Vec<u64>);

pub fn outcome(lengths: Lengths, step: impl FnOnce(&mut [f64], &mut [f64]) -> Result<Report, Refusal>) -> Outcome {
    let (mut answers, mut work) = (vec![7.0; lengths.answers], vec![7.0; lengths.work]);
    let answer = step(&mut answers, &mut work).map(|report| {
        let (ending, error) = match report.ending {
            Ending::Unswept => (0, 0.0),
            Ending::Settled(error) => (1, error),
            Ending::RanOut(error) => (2, error),
        };
        let [error, dt, inv_dt, time] = [error, report.dt, report.inv_dt, report.remaining_time].map(f64::to_bits);
        [ending, error, report.iterations, report.passed_over as u64, dt, inv_dt, time]
    });
    (answer, bits(&answers), bits(&work))
}

#[test]
fn a_solver_answers_as_a_step_does() {
    let mut kept = Solver::new();
    let mut refusals = Vec::new();
    for (scene, lengths) in calls() {
        let expected = outcome(lengths, |answers, work| step(&scene, answers, work));
        assert_eq!(outcome(lengths, |answers, work| kept.step(&scene, answers, work)), expected);
        assert_eq!(outcome(lengths, |answers, work| Solver::default().step(&scene, answers, work)), expected);
        refusals.extend(expected.0.err().map(|refusal| refusal.reason));
    }
    assert!(Reason::ALL.iter().all(|reason| refusals.contains(reason)));
}

#[test]
fn an_index_is_kept_and_grows() {
    let mut solver = Solver::new();
    let mut index_after = |scene: Scene| {
        let scene = packed(scene);
        let lengths = needed(&scene).unwrap_or(Lengths { answers: 0, work: 0 });
        let _ = solver.step(&scene, &mut vec![0.0; lengths.answers], &mut vec![0.0; lengths.work]);
        (solver.index.len(), solver.index.as_ptr())
    };
    let (torn, nobody) = (scene_a(Vec::new()), scene_a(vec![contact(1, 2.0, [0.0; 3])]));
    assert_eq!(index_after(nobody.clone()).0, 0);
    let small = index_after(whole_scene_a());
    assert_eq!(small.0, index_needed(&whole_scene_a()));
    for scene in [whole_scene_a(), torn.clone(), nobody.clone(), empty(50)] {
        assert_eq!(index_after(scene), small);
    }
    let large = index_after(crowd(3, 40));
    assert_eq!(large.0, index_needed(&crowd(3, 40)));
    for scene in [whole_scene_a(), torn, nobody, scene_b(1.0), pressed(), crowd(3, 40)] {
        assert_eq!(index_after(scene), large);
    }
}

#[test]
fn a_short_index_is_told_and_nothing_is_touched() {
    let (mut index, mut numbers, mut counts) = (vec![7; index_needed(&crowd(3, 40))], [7.0; 5], [7; 3]);
    let scene = packed(crowd(3, 40));
    let lengths = needed(&scene).unwrap();
    let (mut answers, mut work) = (vec![7.0; lengths.answers], vec![7.0; lengths.work]);
    let mut call = |index: &mut [u64]| {
        // SAFETY: pointers and lengths of slices, none of which overlaps another.
        unsafe {
            c::iisph_step_lent(
                scene.as_ptr(),
                scene.len(),
                answers.as_mut_ptr(),
                answers.len(),
                work.as_mut_ptr(),
                work.len(),
                index.as_mut_ptr(),
                index.len(),
                numbers.as_mut_ptr(),
                numbers.len(),
                counts.as_mut_ptr(),
                counts.len(),
            )
        }
    };
    let needed = index.len();
    for length in [0, 1, needed - 1] {
        assert_eq!(call(&mut index[..length]), 98);
    }
    assert_eq!(counts, [needed as u64, 7, 7]);
    assert!(index.iter().all(|x| *x == 7));
    assert!(answers.iter().chain(&work).chain(&numbers).all(|x| *x == 7.0));
}

// what a call gives on a thread with little stack
fn on_little_stack<T: Send + 'static>(call: impl FnOnce() -> T + Send + 'static) -> T {
    thread::Builder::new().stack_size(LITTLE_STACK).spawn(call).unwrap().join().unwrap()
}

#[test]
fn a_solver_needs_little_stack() {
    let (chamber, largest) = (Fields(EXAMPLES[2]).scene(), crowd(8, 4096));
    assert_eq!(index_needed(&largest), LONGEST_INDEX);
    for scene in [whole_scene_a(), chamber, largest] {
        let index = index_needed(&scene);
        let scene = packed(scene);
        let lengths = needed(&scene).unwrap();
        let expected = outcome(lengths, |answers, work| step(&scene, answers, work));
        let found = on_little_stack(move || {
            let mut solver = Solver::new();
            (outcome(lengths, |answers, work| solver.step(&scene, answers, work)), solver.index.len())
        });
        assert!(expected.0.is_ok() && found == (expected, index));
    }
}

#[test]
fn a_step_on_a_small_scene_needs_little_stack() {
    let scene = packed(whole_scene_a());
    let report = on_little_stack(move || step(&scene, &mut [0.0; 7], &mut [0.0; 14]));
    assert_eq!(report.map(|report| report.iterations), Ok(2));
}
