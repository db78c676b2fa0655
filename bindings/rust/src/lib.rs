//! One IISPH pressure step over a packed scene, and its smoothing kernel: a safe interface to
//! the C archives, whose functions are proved to meet their contracts for all arguments.
//! `include/iisph.h` has the format of a packed scene and of the lists; [`Scene::pack`] writes one.
//! [`Stopping`] tells which stopping criterion to choose for it, and [`Summation`] how its error is summed.
//! [`flat`] has scenes in the plane. The specification's scene A as version 2, from its numbers to its answers:
//!
//! ```
//! use iisph::{Contact, Fluid, FluidParticle, Scene, Solver, Stopping, Version};
//!
//! let itself = Contact { model: 0, particle: 0, weight: 2.0, gradient: [0.0; 3] };
//! let drop = FluidParticle { volume: 0.5, fluid_contacts: vec![itself], ..Default::default() };
//! let scene = Scene {
//!     version: Version::Two(Stopping::Ihmsen2014),
//!     step_length: 0.5,
//!     remaining_time: 1.0,
//!     gravity: [0.0, 0.0, -4.0],
//!     fluids: vec![Fluid { rest_density: 2.0, particles: vec![drop] }],
//!     ..Default::default()
//! };
//! let packed = scene.pack()?;
//!
//! let lengths = iisph::needed(&packed)?;
//! let mut answers = vec![0.0; lengths.answers];
//! let mut work = vec![0.0; lengths.work];
//! let report = Solver::new().step(&packed, &mut answers, &mut work)?;
//! assert_eq!((report.iterations, report.passed_over), (2, false));
//! let drop = scene.answers(&answers).expect("a list of the length needed").fluids[0][0];
//! assert_eq!((drop.position, drop.velocity, drop.pressure), ([0.0, 0.0, -1.0], [0.0, 0.0, -2.0], 0.0));
//! # Ok::<(), Box<dyn std::error::Error>>(())
//! ```
//!
//! A step needs an index of the scene. [`Solver::step`] has it on the heap, and takes less than 16 KiB
//! of stack on every scene. [`step`], [`Clock::step`] and [`validate`] have it on the stack: they take
//! some 35 KiB where it has at most 4,096 numbers, as with one fluid of 2,000 particles, and some
//! 805 KiB where it has more. A thread of the standard library's default, 2 MiB, has room for that.
#![warn(missing_docs)]

mod answers;
mod board;
mod c;
pub mod flat;
mod lists;
mod misfit;
pub mod pack;
mod refusals;
mod solver;
mod stopping;

use refusals::refusal;

pub use answers::{Answers, BoundaryAnswer, FluidAnswer};
pub use board::board_weight;
pub use lists::{check_list, CheckedList, Contacts, Unchecked};
pub use misfit::Misfit;
pub use pack::BoundaryContact;
pub use refusals::{KernelRefusal, Reason, Refusal};
pub use solver::Solver;
pub use stopping::{Stopping, Summation, Version};

/// A scene with three axes.
pub type Scene = pack::Scene<3>;
/// A fluid of such a scene.
pub type Fluid = pack::Fluid<3>;
/// A particle of a fluid of such a scene.
pub type FluidParticle = pack::FluidParticle<3>;
/// A contact of a fluid particle of such a scene.
pub type Contact = pack::Contact<3>;
/// A boundary of such a scene.
pub type Boundary = pack::Boundary<3>;
/// A particle of a boundary of such a scene.
pub type BoundaryParticle = pack::BoundaryParticle<3>;

/// The lengths that the lists of a step must have at least.
#[derive(Clone, Copy, Debug, PartialEq, Eq, Hash)]
pub struct Lengths {
    /// Of the answer list.
    pub answers: usize,
    /// Of the work list.
    pub work: usize,
}

/// How the iterations ended, with the last iteration's error. What that measures, and which values it
/// can have, the variants of [`Stopping`] tell.
#[derive(Clone, Copy, Debug, PartialEq)]
pub enum Ending {
    /// There were none.
    Unswept,
    /// The last one met the stopping test. Not to be trusted where [`Report::passed_over`] is true.
    Settled(f64),
    /// The last one did not. Under [`Stopping::Ihmsen2014`] its error may be not a number.
    RanOut(f64),
}

/// What a step reports beside its answers.
#[derive(Clone, Copy, Debug, PartialEq)]
pub struct Report {
    /// How the iterations ended.
    pub ending: Ending,
    /// How many were carried out.
    pub iterations: u64,
    /// Whether in the last iteration the average error of some fluid was not a number and, as
    /// [`Stopping::Salva`] has it, was passed over when the greatest was taken: where it is true, do not
    /// trust [`Ending::Settled`]. False under [`Stopping::Ihmsen2014`], where such an average makes the
    /// error not a number, and where there was no iteration.
    pub passed_over: bool,
    /// The step's length.
    pub dt: f64,
    /// 1 / dt, or 0 for a zero.
    pub inv_dt: f64,
    /// The remaining time after the step.
    pub remaining_time: f64,
}

/// The lengths that the answer list and the work list of a step must have. Refuses what is wrong
/// with the scene itself, numbers 1 to 7.
pub fn needed(scene: &[u8]) -> Result<Lengths, Refusal> {
    let mut counts = [0u64; 2];
    // SAFETY: pointers and lengths of slices; `counts` is lent to nobody else.
    let code = unsafe { c::iisph_needed(scene.as_ptr(), scene.len(), counts.as_mut_ptr(), counts.len()) };
    match code {
        0 => Ok(Lengths { answers: counts[0] as usize, work: counts[1] as usize }),
        _ => Err(refusal(code, counts[1])),
    }
}

/// Whether a step with a long enough answer list would be refused, numbers 1 to 10. The work list
/// is scratch: it is left as that step would leave it.
pub fn validate(scene: &[u8], work: &mut [f64]) -> Result<(), Refusal> {
    let mut counts = [0u64; 2];
    // SAFETY: pointers and lengths of slices; those that are written are lent by `&mut`, so none
    // overlaps another.
    let code = unsafe {
        c::iisph_validate(scene.as_ptr(), scene.len(), work.as_mut_ptr(), work.len(), counts.as_mut_ptr(), counts.len())
    };
    match code {
        0 => Ok(()),
        _ => Err(refusal(code, counts[1])),
    }
}

/// A packed scene, one step on. The answer list gets, per fluid particle, position, velocity and
/// pressure (7 doubles, of a flat scene 5), then of each boundary particle the volume and, where
/// forces are kept, the force; a refused call leaves it unchanged. [`pack::Scene::answers`] reads it.
/// The work list is scratch. Both lists keep what stands behind the lengths that [`needed`] tells.
///
/// Prefer [`Solver::step`], which answers the same: it needs little stack on every scene, and clears
/// no index for each step.
pub fn step(scene: &[u8], answers: &mut [f64], work: &mut [f64]) -> Result<Report, Refusal> {
    let mut numbers = [0f64; 4];
    let mut counts = [0u64; 2];
    // SAFETY: pointers and lengths of slices; those that are written are lent by `&mut`, so none
    // overlaps another.
    let code = unsafe {
        c::iisph_step(
            scene.as_ptr(),
            scene.len(),
            answers.as_mut_ptr(),
            answers.len(),
            work.as_mut_ptr(),
            work.len(),
            numbers.as_mut_ptr(),
            numbers.len(),
            counts.as_mut_ptr(),
            counts.len(),
        )
    };
    report(code, numbers, counts)
}

// What a step's call returned and wrote.
fn report(code: u64, numbers: [f64; 4], counts: [u64; 2]) -> Result<Report, Refusal> {
    let [error, dt, inv_dt, remaining_time] = numbers;
    let ending = match code {
        0 => Ending::Unswept,
        1 => Ending::Settled(error),
        2 => Ending::RanOut(error),
        _ => return Err(refusal(code, counts[1])),
    };
    Ok(Report { ending, iterations: counts[0], passed_over: counts[1] == 1, dt, inv_dt, remaining_time })
}

/// A clock that the caller keeps over steps, as the Rust's `TimestepManager`.
#[derive(Clone, Copy, Debug, Default, PartialEq)]
pub struct Clock {
    /// The step length, by which it is moved on.
    pub total_step_size: f64,
    /// The last step's length.
    pub dt: f64,
    /// 1 / dt, or 0 for a zero.
    pub inv_dt: f64,
    /// The remaining time.
    pub remaining_time: f64,
}

impl Clock {
    /// As [`step`]; where that is done the clock is moved on in its place, and where it is refused
    /// the clock is as it was.
    /// The report's numbers are the scene's own, whatever the clock holds.
    pub fn step(&mut self, scene: &[u8], answers: &mut [f64], work: &mut [f64]) -> Result<Report, Refusal> {
        let mut clock = [self.total_step_size, self.dt, self.inv_dt, self.remaining_time];
        let mut numbers = [0f64; 4];
        let mut counts = [0u64; 2];
        // SAFETY: pointers and lengths of slices; those that are written are lent by `&mut`, so
        // none overlaps another.
        let code = unsafe {
            c::iisph_step_keeping(
                scene.as_ptr(),
                scene.len(),
                clock.as_mut_ptr(),
                clock.len(),
                answers.as_mut_ptr(),
                answers.len(),
                work.as_mut_ptr(),
                work.len(),
                numbers.as_mut_ptr(),
                numbers.len(),
                counts.as_mut_ptr(),
                counts.len(),
            )
        };
        [self.total_step_size, self.dt, self.inv_dt, self.remaining_time] = clock;
        report(code, numbers, counts)
    }
}

fn kernel(
    function: unsafe extern "C" fn(f64, f64, *mut f64, usize) -> u64,
    r: f64,
    h: f64,
) -> Result<f64, KernelRefusal> {
    let mut out = [0f64; 1];
    // SAFETY: the pointer and the length of an array that is lent to nobody else.
    match unsafe { function(r, h, out.as_mut_ptr(), out.len()) } {
        0 => Ok(out[0]),
        111 => Err(KernelRefusal::Distance),
        112 => Err(KernelRefusal::Radius),
        code => unreachable!("the archive answered {code}"),
    }
}

/// The cubic spline in three dimensions at the distance `r`, with the radius `h`.
///
/// With n, the normalizer 8 / (pi h h h) in doubles, it is proved to be within 5 × 2^-52 × n of n
/// times the exact shape at r / h (docs/METHOD.md, 1.5), unless n is infinite, which it is for no
/// `h` from 2^-340 (some 4.5e-103) on. Where n is infinite, the value is infinite or not a number.
pub fn weight(r: f64, h: f64) -> Result<f64, KernelRefusal> {
    kernel(c::iisph_weight, r, h)
}

/// Its derivative there. For an `h` below 1.3e-77 it may be infinite; where the normalizer of
/// [`weight`] is infinite, it is infinite or not a number.
pub fn slope(r: f64, h: f64) -> Result<f64, KernelRefusal> {
    kernel(c::iisph_slope, r, h)
}

/// The cubic spline in two dimensions, for [flat scenes](flat).
///
/// As [`weight`], with the normalizer (40 / 7) / (pi h h), which is infinite for no `h` from 2^-511
/// (some 1.5e-154) on.
pub fn weight_2d(r: f64, h: f64) -> Result<f64, KernelRefusal> {
    kernel(c::iisph_weight_2d, r, h)
}

/// Its derivative. As [`slope`], and infinite for no `h` from 2.8e-103 on.
pub fn slope_2d(r: f64, h: f64) -> Result<f64, KernelRefusal> {
    kernel(c::iisph_slope_2d, r, h)
}

#[cfg(test)]
mod tests;
