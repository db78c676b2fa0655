//! From an answer list to structures.
use crate::pack::Scene;

/// What a step answers, in the order of the scene's models and particles.
#[derive(Clone, Debug, PartialEq)]
pub struct Answers<const D: usize> {
    /// Of each fluid, its particles.
    pub fluids: Vec<Vec<FluidAnswer<D>>>,
    /// Of each boundary, its particles.
    pub boundaries: Vec<Vec<BoundaryAnswer<D>>>,
}

/// What a step answers of a fluid particle.
#[derive(Clone, Copy, Debug, PartialEq)]
pub struct FluidAnswer<const D: usize> {
    /// Where it is after the step.
    pub position: [f64; D],
    /// Its velocity then.
    pub velocity: [f64; D],
    /// Its pressure.
    pub pressure: f64,
}

/// What a step answers of a boundary particle.
#[derive(Clone, Copy, Debug, PartialEq)]
pub struct BoundaryAnswer<const D: usize> {
    /// Its volume.
    pub volume: f64,
    /// The force on it, where its boundary keeps forces.
    pub force: Option<[f64; D]>,
}

// the first elements of what is left of a list
fn taken<const N: usize>(list: &mut &[f64]) -> Option<[f64; N]> {
    let (first, rest) = list.split_first_chunk()?;
    *list = rest;
    Some(*first)
}

impl<const D: usize> Scene<D> {
    /// What stands in the answer list of a step on this scene; none where the list is shorter than
    /// [`needed`](crate::needed).
    pub fn answers(&self, mut list: &[f64]) -> Option<Answers<D>> {
        let list = &mut list;
        let mut fluids = Vec::with_capacity(self.fluids.len());
        for fluid in &self.fluids {
            let of_one = |_| {
                let (position, velocity, [pressure]) = (taken(list)?, taken(list)?, taken(list)?);
                Some(FluidAnswer { position, velocity, pressure })
            };
            fluids.push(fluid.particles.iter().map(of_one).collect::<Option<_>>()?);
        }
        let mut boundaries = Vec::with_capacity(self.boundaries.len());
        for boundary in &self.boundaries {
            let of_one = |_| {
                let [volume] = taken(list)?;
                let force = if boundary.keeps_forces { Some(taken(list)?) } else { None };
                Some(BoundaryAnswer { volume, force })
            };
            boundaries.push(boundary.particles.iter().map(of_one).collect::<Option<_>>()?);
        }
        Some(Answers { fluids, boundaries })
    }
}
