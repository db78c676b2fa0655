//! A reader of packed scenes, written from the specification: refusals 1 to 7, and the records in
//! the shape that the Rust's lists have. It takes the versions whose vectors have `DIM` axes.

use crate::math::{Vector, DIM};

pub const LONGEST: usize = 32_768;
const MOST: usize = 4_096;

/// The rule by which the Rust ends its iterations.
pub const RUSTS_RULE: u64 = 0;

/// A refusal's number and place.
#[derive(Debug, PartialEq)]
pub struct Refused(pub u32, pub usize);

pub struct Scene {
    pub rule: u64,
    pub least: usize,
    pub most: usize,
    pub step_length: f64,
    pub remaining: f64,
    pub limit: f64,
    pub gravity: Vector<f64>,
    pub fluids: Vec<FluidRecord>,
    pub boundaries: Vec<BoundaryRecord>,
}

pub struct FluidRecord {
    pub rest: f64,
    pub particles: Vec<Particle>,
}

pub struct Particle {
    pub place: usize,
    pub position: Vector<f64>,
    pub velocity: Vector<f64>,
    pub acceleration: Vector<f64>,
    pub volume: f64,
    pub warm: f64,
    pub fluid_contacts: Vec<Named>,
    pub boundary_contacts: Vec<Named>,
}

pub struct BoundaryRecord {
    pub keeps: bool,
    pub particles: Vec<BoundaryParticle>,
}

pub struct BoundaryParticle {
    pub velocity: Vector<f64>,
    pub force: Vector<f64>,
    pub contacts: Vec<Named>,
}

/// What a contact names, with its weight and gradient.
pub struct Named {
    pub place: usize,
    pub model: usize,
    pub number: usize,
    pub weight: f64,
    pub gradient: Vector<f64>,
}

struct Reader<'a> {
    bytes: &'a [u8],
    at: usize,
}

impl Reader<'_> {
    /// A field of this many bytes, which must be wholly there.
    fn field(&mut self, size: usize) -> Result<u64, Refused> {
        let field = self.bytes.get(self.at..self.at + size).ok_or(Refused(1, self.at))?;
        self.at += size;
        Ok(field.iter().fold(0, |number, byte| number << 8 | *byte as u64))
    }

    fn double(&mut self) -> Result<f64, Refused> {
        let place = self.at;
        let value = f64::from_bits(self.field(8)?);
        if value.is_finite() {
            Ok(value)
        } else {
            Err(Refused(6, place))
        }
    }

    fn vector(&mut self) -> Result<Vector<f64>, Refused> {
        let mut axes = [0.0; DIM];
        for axis in &mut axes {
            *axis = self.double()?;
        }
        Ok(Vector::from(axes))
    }

    /// A count in the lower bits of two bytes, and what stands above it.
    fn count(&mut self, bits: u32) -> Result<(usize, bool), Refused> {
        let place = self.at;
        let both = self.field(2)? as usize;
        let count = both % (1 << bits);
        if count > MOST {
            return Err(Refused(4, place));
        }
        Ok((count, both >> bits != 0))
    }

    fn contacts(&mut self, many: u64, gradients: bool) -> Result<Vec<Named>, Refused> {
        let mut list = Vec::new();
        for _ in 0..many {
            let place = self.at;
            let name = self.field(2)? as usize;
            let weight = self.double()?;
            let gradient = if gradients { self.vector()? } else { Vector::zeros() };
            list.push(Named { place, model: name >> 12, number: name & 0xFFF, weight, gradient });
        }
        Ok(list)
    }

    fn particle(&mut self) -> Result<Particle, Refused> {
        let place = self.at;
        let (position, velocity, acceleration) = (self.vector()?, self.vector()?, self.vector()?);
        let (volume, warm) = (self.double()?, self.double()?);
        let (fluid_count, boundary_count) = (self.field(1)?, self.field(1)?);
        let fluid_contacts = self.contacts(fluid_count, true)?;
        let boundary_contacts = self.contacts(boundary_count, true)?;
        Ok(Particle { place, position, velocity, acceleration, volume, warm, fluid_contacts, boundary_contacts })
    }

    fn fluid(&mut self) -> Result<FluidRecord, Refused> {
        let (count, _) = self.count(16)?;
        let rest = self.double()?;
        let particles = (0..count).map(|_| self.particle()).collect::<Result<_, _>>()?;
        Ok(FluidRecord { rest, particles })
    }

    fn boundary(&mut self) -> Result<BoundaryRecord, Refused> {
        let (count, keeps) = self.count(15)?;
        let mut particles = Vec::new();
        for _ in 0..count {
            let velocity = self.vector()?;
            let force = if keeps { self.vector()? } else { Vector::zeros() };
            let many = self.field(1)?;
            particles.push(BoundaryParticle { velocity, force, contacts: self.contacts(many, false)? });
        }
        Ok(BoundaryRecord { keeps, particles })
    }
}

struct Version {
    number: u64,
    axes: usize,
    last_rule: u64,
}

const VERSIONS: [Version; 3] = [
    Version { number: 1, axes: 3, last_rule: RUSTS_RULE },
    Version { number: 2, axes: 3, last_rule: 3 },
    Version { number: 4, axes: 2, last_rule: 3 },
];

/// The version of a scene's first byte, if it is one of those with `DIM` axes.
fn version_of(first: u64) -> Option<&'static Version> {
    VERSIONS.iter().find(|version| version.number == first >> 4 && version.axes == DIM)
}

/// Is the version one of those with `DIM` axes?
pub fn takes(bytes: &[u8]) -> bool {
    bytes.first().is_some_and(|first| version_of(*first as u64).is_some())
}

pub fn read(bytes: &[u8]) -> Result<Scene, Refused> {
    let mut reader = Reader { bytes, at: 0 };
    let first = reader.field(1)?;
    let version = version_of(first).ok_or(Refused(2, 0))?;
    if first & 15 > 8 {
        return Err(Refused(3, 0));
    }
    let second = reader.field(1)?;
    if second >> 4 > 8 {
        return Err(Refused(3, 1));
    }
    let rule = second & 15;
    if rule > version.last_rule {
        return Err(Refused(2, 1));
    }
    let (least, most) = (reader.field(1)? as usize, reader.field(1)? as usize);
    let (step_length, remaining, limit) = (reader.double()?, reader.double()?, reader.double()?);
    let gravity = reader.vector()?;
    let fluids = (0..first & 15).map(|_| reader.fluid()).collect::<Result<_, _>>()?;
    let boundaries = (0..second >> 4).map(|_| reader.boundary()).collect::<Result<_, _>>()?;
    if reader.at < bytes.len() {
        return Err(Refused(5, reader.at));
    }
    let scene = Scene { rule, least, most, step_length, remaining, limit, gravity, fluids, boundaries };
    names(&scene)?;
    Ok(scene)
}

/// Refusal 7. Records and their lists are walked in the order of their bytes, so the first fault is
/// the earliest.
fn names(scene: &Scene) -> Result<(), Refused> {
    let fluids: Vec<usize> = scene.fluids.iter().map(|f| f.particles.len()).collect();
    let boundaries: Vec<usize> = scene.boundaries.iter().map(|b| b.particles.len()).collect();
    let there = |counts: &[usize], c: &Named| {
        if counts.get(c.model).is_some_and(|count| c.number < *count) {
            Ok(())
        } else {
            Err(Refused(7, c.place))
        }
    };
    for particle in scene.fluids.iter().flat_map(|f| &f.particles) {
        particle.fluid_contacts.iter().try_for_each(|c| there(&fluids, c))?;
        particle.boundary_contacts.iter().try_for_each(|c| there(&boundaries, c))?;
    }
    for particle in scene.boundaries.iter().flat_map(|b| &b.particles) {
        particle.contacts.iter().try_for_each(|c| there(&boundaries, c))?;
    }
    Ok(())
}
