//! From structures to a packed scene. They are over the number of axes `D`: 3, for which the crate's own
//! names stand, as [`crate::Scene`], or 2, for which those of [`crate::flat`] do.
use crate::misfit::Misfit;
use crate::stopping::{Stopping, Version};

const MODELS: usize = 8;
const PARTICLES: usize = 4096;
const CONTACTS: usize = 255;

/// A scene, as a step takes it once it is packed. [`Default`] has version 1, or of a flat scene version 4
/// under [`Stopping::Salva`], the iterations and the error limit of salva's solver (1, 50 and 0.05),
/// zeros, and no models.
#[derive(Clone, Debug, PartialEq)]
pub struct Scene<const D: usize> {
    /// As which version it is packed, which has to be one of so many axes, and so under which [stopping
    /// criterion](crate::Stopping) and with which [summation](crate::Summation).
    pub version: Version,
    /// The iteration with this number, counted from 0, is the first that may be the last: at most 255.
    pub least_iterations: usize,
    /// No more are carried out: at most 255.
    pub most_iterations: usize,
    /// The step's length.
    pub step_length: f64,
    /// The time that is left before the step.
    pub remaining_time: f64,
    /// The iterations end where the error, that of the stopping criterion, is at most this. Only
    /// [`Stopping::Ihmsen2014`] can meet a negative one.
    pub error_limit: f64,
    /// Gravity, an acceleration.
    pub gravity: [f64; D],
    /// At most 8.
    pub fluids: Vec<Fluid<D>>,
    /// At most 8.
    pub boundaries: Vec<Boundary<D>>,
}

impl<const D: usize> Default for Scene<D> {
    fn default() -> Self {
        Scene {
            version: if D == 2 { Version::Four(Stopping::Salva) } else { Version::One },
            least_iterations: 1,
            most_iterations: 50,
            step_length: 0.0,
            remaining_time: 0.0,
            error_limit: 0.05,
            gravity: [0.0; D],
            fluids: Vec::new(),
            boundaries: Vec::new(),
        }
    }
}

/// A fluid.
#[derive(Clone, Debug, Default, PartialEq)]
pub struct Fluid<const D: usize> {
    /// Its density at rest.
    pub rest_density: f64,
    /// At most 4,096.
    pub particles: Vec<FluidParticle<D>>,
}

/// A particle of a fluid.
#[derive(Clone, Debug, PartialEq)]
pub struct FluidParticle<const D: usize> {
    /// Where it is.
    pub position: [f64; D],
    /// Its velocity.
    pub velocity: [f64; D],
    /// Its acceleration, without gravity.
    pub acceleration: [f64; D],
    /// Its volume.
    pub volume: f64,
    /// Its pressure after the step before, of which the iterations start with half.
    pub warm_pressure: f64,
    /// What it touches of fluids, itself included where it is in its own list: at most 255.
    pub fluid_contacts: Vec<Contact<D>>,
    /// What it touches of boundaries: at most 255.
    pub boundary_contacts: Vec<Contact<D>>,
}

impl<const D: usize> Default for FluidParticle<D> {
    fn default() -> Self {
        FluidParticle {
            position: [0.0; D],
            velocity: [0.0; D],
            acceleration: [0.0; D],
            volume: 0.0,
            warm_pressure: 0.0,
            fluid_contacts: Vec::new(),
            boundary_contacts: Vec::new(),
        }
    }
}

/// A contact of a fluid particle. The list that it stands in says whether it names a fluid or a boundary.
#[derive(Clone, Copy, Debug, PartialEq)]
pub struct Contact<const D: usize> {
    /// The number of the fluid or boundary that it names (salva's `j_model`).
    pub model: usize,
    /// The number of the particle there (salva's `j`).
    pub particle: usize,
    /// The kernel's weight.
    pub weight: f64,
    /// The kernel's gradient.
    pub gradient: [f64; D],
}

impl<const D: usize> Default for Contact<D> {
    fn default() -> Self {
        Contact { model: 0, particle: 0, weight: 0.0, gradient: [0.0; D] }
    }
}

/// A boundary.
#[derive(Clone, Debug, Default, PartialEq)]
pub struct Boundary<const D: usize> {
    /// Whether the forces on it are added up and answered.
    pub keeps_forces: bool,
    /// At most 4,096.
    pub particles: Vec<BoundaryParticle<D>>,
}

/// A particle of a boundary.
#[derive(Clone, Debug, PartialEq)]
pub struct BoundaryParticle<const D: usize> {
    /// Its velocity.
    pub velocity: [f64; D],
    /// The force that the step adds to; zero where the boundary keeps none.
    pub force: [f64; D],
    /// What it touches of boundaries: at most 255.
    pub contacts: Vec<BoundaryContact>,
}

impl<const D: usize> Default for BoundaryParticle<D> {
    fn default() -> Self {
        BoundaryParticle { velocity: [0.0; D], force: [0.0; D], contacts: Vec::new() }
    }
}

/// A contact between boundary particles.
#[derive(Clone, Copy, Debug, Default, PartialEq)]
pub struct BoundaryContact {
    /// The number of the boundary that it names.
    pub model: usize,
    /// The number of the particle there.
    pub particle: usize,
    /// The kernel's weight.
    pub weight: f64,
}

fn fits(place: &str, found: usize, most: usize) -> Result<usize, Misfit> {
    if found > most {
        return Err(Misfit::TooLarge { place: place.to_owned(), found, most });
    }
    Ok(found)
}

fn each<T>(list: &str, items: &[T], mut pack: impl FnMut(&T) -> Result<(), Misfit>) -> Result<(), Misfit> {
    items.iter().enumerate().try_for_each(|(k, item)| pack(item).map_err(|misfit| misfit.within(list, k)))
}

fn doubles(out: &mut Vec<u8>, xs: &[f64]) {
    for x in xs {
        out.extend_from_slice(&x.to_be_bytes());
    }
}

// 4 bits and 12 bits
fn name(out: &mut Vec<u8>, model: usize, particle: usize) -> Result<(), Misfit> {
    let both = fits("model", model, 15)? << 12 | fits("particle", particle, 4095)?;
    out.extend_from_slice(&(both as u16).to_be_bytes());
    Ok(())
}

impl<const D: usize> Scene<D> {
    /// The scene's bytes, for [`needed`](crate::needed) and [`Solver::step`](crate::Solver::step).
    ///
    /// An error tells of axes that are not the version's, or names the first count or number that does
    /// not fit. What fits is packed as it is: of
    /// a double that is not finite and of a contact that names nothing the step says where it
    /// stands when it refuses the scene.
    pub fn pack(&self) -> Result<Vec<u8>, Misfit> {
        let wanted = self.version.axes();
        if D != wanted {
            return Err(Misfit::Axes { found: D, wanted });
        }
        let fluids = fits("fluids.len()", self.fluids.len(), MODELS)?;
        let boundaries = fits("boundaries.len()", self.boundaries.len(), MODELS)?;
        let least = fits("least_iterations", self.least_iterations, 255)?;
        let most = fits("most_iterations", self.most_iterations, 255)?;
        let (version, rule) = self.version.numbers();
        let mut out = vec![version << 4 | fluids as u8, (boundaries as u8) << 4 | rule, least as u8, most as u8];
        doubles(&mut out, &[self.step_length, self.remaining_time, self.error_limit]);
        doubles(&mut out, &self.gravity);
        each("fluids", &self.fluids, |fluid| fluid.pack(&mut out))?;
        each("boundaries", &self.boundaries, |boundary| boundary.pack(&mut out))?;
        Ok(out)
    }
}

impl<const D: usize> Fluid<D> {
    fn pack(&self, out: &mut Vec<u8>) -> Result<(), Misfit> {
        let count = fits("particles.len()", self.particles.len(), PARTICLES)?;
        out.extend_from_slice(&(count as u16).to_be_bytes());
        doubles(out, &[self.rest_density]);
        each("particles", &self.particles, |particle| particle.pack(out))
    }
}

impl<const D: usize> FluidParticle<D> {
    fn pack(&self, out: &mut Vec<u8>) -> Result<(), Misfit> {
        let near = fits("fluid_contacts.len()", self.fluid_contacts.len(), CONTACTS)?;
        let walls = fits("boundary_contacts.len()", self.boundary_contacts.len(), CONTACTS)?;
        for vector in [&self.position, &self.velocity, &self.acceleration] {
            doubles(out, vector);
        }
        doubles(out, &[self.volume, self.warm_pressure]);
        out.extend_from_slice(&[near as u8, walls as u8]);
        each("fluid_contacts", &self.fluid_contacts, |contact| contact.pack(out))?;
        each("boundary_contacts", &self.boundary_contacts, |contact| contact.pack(out))
    }
}

impl<const D: usize> Contact<D> {
    fn pack(&self, out: &mut Vec<u8>) -> Result<(), Misfit> {
        name(out, self.model, self.particle)?;
        doubles(out, &[self.weight]);
        doubles(out, &self.gradient);
        Ok(())
    }
}

impl<const D: usize> Boundary<D> {
    fn pack(&self, out: &mut Vec<u8>) -> Result<(), Misfit> {
        let count = fits("particles.len()", self.particles.len(), PARTICLES)? as u16;
        out.extend_from_slice(&(count | (self.keeps_forces as u16) << 15).to_be_bytes());
        each("particles", &self.particles, |particle| particle.pack(out, self.keeps_forces))
    }
}

impl<const D: usize> BoundaryParticle<D> {
    fn pack(&self, out: &mut Vec<u8>, keeps_forces: bool) -> Result<(), Misfit> {
        doubles(out, &self.velocity);
        if keeps_forces {
            doubles(out, &self.force);
        } else if self.force != [0.0; D] {
            return Err(Misfit::ForceNotKept { place: "force".to_owned() });
        }
        let count = fits("contacts.len()", self.contacts.len(), CONTACTS)?;
        out.push(count as u8);
        each("contacts", &self.contacts, |contact| {
            name(out, contact.model, contact.particle)?;
            doubles(out, &[contact.weight]);
            Ok(())
        })
    }
}
