//! Hands a scene to the Rust's solver, and writes FORMAT 4's lines from what it did.

use std::panic::{catch_unwind, resume_unwind, AssertUnwindSafe};
use std::sync::RwLock;

use crate::counters::Counters;
use crate::geometry::{Contact, ContactManager, HGrid, ParticlesContacts};
use crate::kernel::{CubicSplineKernel, Kernel};
use crate::math::Vector;
use crate::object::interaction_groups::InteractionGroups;
use crate::object::{Boundary, Fluid};
use crate::scene::{read, BoundaryRecord, FluidRecord, Named, Refused, Scene, LONGEST, RUSTS_RULE};
use crate::solver::{IISPHSolver, PressureSolver};
use crate::{TimestepManager, ZeroDensity};

/// The step asks for a kernel radius and a particle radius but uses neither, as contacts come with
/// their weights.
const UNUSED: f64 = 1.0;

/// A scene in the Rust's own structures.
pub struct Filled {
    pub solver: IISPHSolver,
    pub timestep: TimestepManager,
    pub gravity: Vector<f64>,
    pub contacts: ContactManager,
    pub fluids: Vec<Fluid>,
    pub boundaries: Vec<Boundary>,
}

pub fn fill(scene: &Scene) -> Filled {
    let fluids: Vec<Fluid> = scene.fluids.iter().map(fluid_of).collect();
    let boundaries: Vec<Boundary> = scene.boundaries.iter().map(boundary_of).collect();
    let contacts = contacts_of(scene, &fluids, &boundaries);

    let mut solver: IISPHSolver = IISPHSolver::new();
    solver.min_pressure_iter = scene.least;
    solver.max_pressure_iter = scene.most;
    solver.max_density_error = scene.limit;
    solver.init_with_fluids(&fluids);
    solver.init_with_boundaries(&boundaries);
    for (pressures, record) in solver.pressures.iter_mut().zip(&scene.fluids) {
        *pressures = record.particles.iter().map(|p| p.warm).collect();
    }

    let mut timestep = TimestepManager::new(UNUSED);
    timestep.reset(scene.step_length);
    timestep.remaining_time = scene.remaining;
    Filled { solver, timestep, gravity: scene.gravity, contacts, fluids, boundaries }
}

fn fluid_of(record: &FluidRecord) -> Fluid {
    let positions = record.particles.iter().map(|p| p.position).collect();
    let mut fluid = Fluid::new(positions, UNUSED, record.rest, InteractionGroups::all());
    fluid.velocities = record.particles.iter().map(|p| p.velocity).collect();
    fluid.accelerations = record.particles.iter().map(|p| p.acceleration).collect();
    fluid.volumes = record.particles.iter().map(|p| p.volume).collect();
    fluid
}

fn boundary_of(record: &BoundaryRecord) -> Boundary {
    let mut boundary = Boundary::new(vec![Vector::zeros(); record.particles.len()], InteractionGroups::all());
    boundary.velocities = record.particles.iter().map(|p| p.velocity).collect();
    boundary.forces = record.keeps.then(|| RwLock::new(record.particles.iter().map(|p| p.force).collect()));
    boundary
}

/// A search in an empty grid gives every particle its empty lists; then the given contacts go in.
fn contacts_of(scene: &Scene, fluids: &[Fluid], boundaries: &[Boundary]) -> ContactManager {
    let mut contacts = ContactManager::new();
    contacts.update_contacts(&mut Counters::new(), UNUSED, fluids, boundaries, &HGrid::new(UNUSED));
    for (model, record) in scene.fluids.iter().enumerate() {
        for (i, particle) in record.particles.iter().enumerate() {
            put(&contacts.fluid_fluid_contacts, model, i, &particle.fluid_contacts);
            put(&contacts.fluid_boundary_contacts, model, i, &particle.boundary_contacts);
        }
    }
    for (model, record) in scene.boundaries.iter().enumerate() {
        for (i, particle) in record.particles.iter().enumerate() {
            put(&contacts.boundary_boundary_contacts, model, i, &particle.contacts);
        }
    }
    contacts
}

fn put(lists: &[ParticlesContacts], model: usize, i: usize, named: &[Named]) {
    let contact = |c: &Named| {
        let (j, j_model, weight, gradient) = (c.number, c.model, c.weight, c.gradient);
        Contact { i, i_model: model, j, j_model, weight, gradient }
    };
    lists[model].particle_contacts(i).write().unwrap().extend(named.iter().map(contact));
}

impl Filled {
    /// The two calls that are ported: `compute_densities`, then `step`.
    pub fn step(&mut self) {
        self.solver.compute_densities(&self.contacts, &self.fluids, &mut self.boundaries);
        let (counters, clock, contacts) = (&mut Counters::new(), &mut self.timestep, &mut self.contacts);
        let (fluids, boundaries) = (&mut self.fluids, &self.boundaries);
        self.solver.step(counters, clock, &self.gravity, contacts, UNUSED, fluids, boundaries);
    }

    /// The step, or the zero density that its asserts found. Any other panic goes on.
    pub fn try_step(&mut self) -> Result<(), ZeroDensity> {
        catch_unwind(AssertUnwindSafe(|| self.step())).map_err(|thrown| match thrown.downcast::<ZeroDensity>() {
            Ok(found) => *found,
            Err(other) => resume_unwind(other),
        })
    }

    /// Of a fluid particle: its position, velocity and pressure.
    fn of_fluid(&self, fluid: usize, i: usize) -> Vec<f64> {
        let Fluid { positions, velocities, .. } = &self.fluids[fluid];
        let pressure = self.solver.pressures[fluid][i];
        [positions[i].as_slice(), velocities[i].as_slice(), &[pressure]].concat()
    }

    /// Of a boundary particle: its volume, and its force if that is kept.
    fn of_boundary(&self, boundary: usize, i: usize) -> Vec<f64> {
        let Boundary { volumes, forces, .. } = &self.boundaries[boundary];
        let mut answers = vec![volumes[i]];
        if let Some(list) = forces {
            answers.extend(list.read().unwrap()[i].as_slice());
        }
        answers
    }

    /// Of every particle its kind, model, number in it and answers, in the order of the answer list.
    pub fn answers(&self) -> impl Iterator<Item = (&'static str, usize, usize, Vec<f64>)> + '_ {
        let (fluids, boundaries) = (self.fluids.iter().enumerate(), self.boundaries.iter().enumerate());
        let drops = fluids.flat_map(|(m, fluid)| (0..fluid.num_particles()).map(move |i| (m, i)));
        let stones = boundaries.flat_map(|(m, boundary)| (0..boundary.num_particles()).map(move |i| (m, i)));
        let drops = drops.map(|(m, i)| ("fluid", m, i, self.of_fluid(m, i)));
        drops.chain(stones.map(|(m, i)| ("wall", m, i, self.of_boundary(m, i))))
    }
}

/// The kernel's weight and slope at a distance, with a radius.
pub fn kernel(r: f64, h: f64) -> [f64; 2] {
    [CubicSplineKernel::scalar_apply(r, h), CubicSplineKernel::scalar_apply_diff(r, h)]
}

/// A double's bits; every not-a-number alike.
pub fn bits(x: f64) -> String {
    if x.is_nan() {
        "7FF8000000000000".to_string()
    } else {
        format!("{:016X}", x.to_bits())
    }
}

fn row(head: &str, numbers: &[f64]) -> String {
    numbers.iter().fold(head.to_string(), |text, x| text + " " + &bits(*x)) + "\n"
}

/// The lines for one scene. Under another rule than the Rust's only a refusal is told, and where an
/// average was -0 the Rust leaves a sign open: in both cases the line is `skipped`.
pub fn lines(bytes: &[u8], any_length: bool) -> String {
    if bytes.len() > LONGEST && !any_length {
        return "too long\n".to_string();
    }
    match read(bytes).and_then(|scene| stepped(&scene)) {
        Ok(text) => text,
        Err(Refused(number, place)) => format!("refused {number} {place}\n"),
    }
}

fn stepped(scene: &Scene) -> Result<String, Refused> {
    let mut state = fill(scene);
    if let Err(found) = state.try_step() {
        return Err(Refused(found.number, scene.fluids[found.fluid].particles[found.particle].place));
    }
    if scene.rule != RUSTS_RULE || state.solver.minus_zero {
        return Ok("skipped\n".to_string());
    }
    let mut text = match state.solver.last_error {
        None => "step unswept 0\n".to_string(),
        Some(error) => {
            let ending = if state.solver.settled { "settled" } else { "ranout" };
            let (iterations, passed_over) = (state.solver.iterations, state.solver.passed_over as u8);
            format!("step {ending} {iterations} {} {passed_over}\n", bits(error))
        }
    };
    text += &row("clock", &[state.timestep.dt(), state.timestep.inv_dt(), state.timestep.remaining_time]);
    for (kind, m, i, answers) in state.answers() {
        text += &row(&format!("{kind} {m} {i}"), &answers);
    }
    Ok(text)
}
