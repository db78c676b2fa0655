//! Steps with an index that is kept.
use crate::{c, report, Refusal, Report};
use std::fmt;

// what `iisph_step_lent` returns where the index is too short
const SHORT_INDEX: u64 = 98;

/// Makes steps, and keeps their scratch index on the heap. The index grows to what a scene needs and
/// is kept, so that a solver which has met its largest scene allocates nothing. Steps do not depend
/// on each other: a solver answers on every scene as [`step`](crate::step) does. Threads that step at
/// the same time have one each.
///
/// ```
/// use iisph::{Contact, Fluid, FluidParticle, Scene, Solver};
///
/// let itself = Contact { weight: 2.0, ..Default::default() };
/// let mut drop = FluidParticle { volume: 0.5, fluid_contacts: vec![itself], ..Default::default() };
/// let mut solver = Solver::new();
/// let (mut answers, mut work) = ([0.0; 7], [0.0; 14]);
/// for _ in 0..3 {
///     let fluid = Fluid { rest_density: 2.0, particles: vec![drop.clone()] };
///     let scene = Scene { step_length: 0.5, gravity: [0.0, 0.0, -4.0], fluids: vec![fluid], ..Default::default() };
///     solver.step(&scene.pack()?, &mut answers, &mut work)?;
///     drop.position.copy_from_slice(&answers[..3]);
///     drop.velocity.copy_from_slice(&answers[3..6]);
///     drop.warm_pressure = answers[6];
/// }
/// assert_eq!((drop.position[2], drop.velocity[2]), (-6.0, -6.0)); // it falls
/// # Ok::<(), Box<dyn std::error::Error>>(())
/// ```
#[derive(Clone, Default)]
pub struct Solver {
    pub(crate) index: Vec<u64>,
}

impl Solver {
    /// A solver that has met no scene yet, and has allocated nothing.
    pub fn new() -> Solver {
        Solver::default()
    }

    /// A packed scene, one step on, with the lists and the answer of [`step`](crate::step). Takes
    /// less than 16 KiB of stack.
    pub fn step(&mut self, scene: &[u8], answers: &mut [f64], work: &mut [f64]) -> Result<Report, Refusal> {
        let mut numbers = [0f64; 4];
        let mut counts = [0u64; 2];
        // The second index is as long as the first call says, so there is no third.
        loop {
            // SAFETY: pointers and lengths of slices; those that are written are lent by `&mut`, so
            // none overlaps another.
            let code = unsafe {
                c::iisph_step_lent(
                    scene.as_ptr(),
                    scene.len(),
                    answers.as_mut_ptr(),
                    answers.len(),
                    work.as_mut_ptr(),
                    work.len(),
                    self.index.as_mut_ptr(),
                    self.index.len(),
                    numbers.as_mut_ptr(),
                    numbers.len(),
                    counts.as_mut_ptr(),
                    counts.len(),
                )
            };
            if code != SHORT_INDEX {
                return report(code, numbers, counts);
            }
            self.index = vec![0; counts[0] as usize];
        }
    }
}

// without the index, which is scratch
impl fmt::Debug for Solver {
    fn fmt(&self, f: &mut fmt::Formatter<'_>) -> fmt::Result {
        f.debug_struct("Solver").finish_non_exhaustive()
    }
}
