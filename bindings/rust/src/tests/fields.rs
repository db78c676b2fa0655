//! A reader of sound packed scenes, to hold the packer to the repository's examples.
use crate::*;

/// Takes a packed scene apart, field by field.
pub struct Fields<'a>(pub &'a [u8]);

impl Fields<'_> {
    fn whole(&mut self, size: usize) -> usize {
        let (field, rest) = self.0.split_at(size);
        self.0 = rest;
        field.iter().fold(0, |n, byte| n << 8 | *byte as usize)
    }

    fn double(&mut self) -> f64 {
        f64::from_bits(self.whole(8) as u64)
    }

    fn vector(&mut self) -> [f64; 3] {
        [self.double(), self.double(), self.double()]
    }

    fn contact(&mut self) -> Contact {
        let name = self.whole(2);
        Contact { model: name >> 12, particle: name & 0xFFF, weight: self.double(), gradient: self.vector() }
    }

    fn fluid_particle(&mut self) -> FluidParticle {
        let (position, velocity, acceleration) = (self.vector(), self.vector(), self.vector());
        let (volume, warm_pressure, near, walls) = (self.double(), self.double(), self.whole(1), self.whole(1));
        let fluid_contacts = (0..near).map(|_| self.contact()).collect();
        let boundary_contacts = (0..walls).map(|_| self.contact()).collect();
        FluidParticle { position, velocity, acceleration, volume, warm_pressure, fluid_contacts, boundary_contacts }
    }

    fn boundary_contact(&mut self) -> BoundaryContact {
        let name = self.whole(2);
        BoundaryContact { model: name >> 12, particle: name & 0xFFF, weight: self.double() }
    }

    fn boundary_particle(&mut self, keeps_forces: bool) -> BoundaryParticle {
        let velocity = self.vector();
        let force = if keeps_forces { self.vector() } else { [0.0; 3] };
        let count = self.whole(1);
        BoundaryParticle { velocity, force, contacts: (0..count).map(|_| self.boundary_contact()).collect() }
    }

    fn fluid(&mut self) -> Fluid {
        let (count, rest_density) = (self.whole(2), self.double());
        Fluid { rest_density, particles: (0..count).map(|_| self.fluid_particle()).collect() }
    }

    fn boundary(&mut self) -> Boundary {
        let both = self.whole(2);
        let keeps_forces = both > 0x7FFF;
        Boundary { keeps_forces, particles: (0..both & 0x7FFF).map(|_| self.boundary_particle(keeps_forces)).collect() }
    }

    pub fn scene(&mut self) -> Scene {
        let (first, second) = (self.whole(1), self.whole(1));
        let version = match (first >> 4, second & 15) {
            (1, 0) => Version::One,
            (2, 0) => Version::Two(Stopping::Salva),
            (2, 1) => Version::Two(Stopping::Ihmsen2014),
            (2, 2) => Version::TwoByHalves(Stopping::Salva),
            (2, 3) => Version::TwoByHalves(Stopping::Ihmsen2014),
            form => panic!("no such version and rule: {form:?}"),
        };
        let (least_iterations, most_iterations) = (self.whole(1), self.whole(1));
        let mut scene = Scene { version, least_iterations, most_iterations, ..Default::default() };
        (scene.step_length, scene.remaining_time, scene.error_limit, scene.gravity) =
            (self.double(), self.double(), self.double(), self.vector());
        scene.fluids = (0..first & 15).map(|_| self.fluid()).collect();
        scene.boundaries = (0..second >> 4).map(|_| self.boundary()).collect();
        assert!(self.0.is_empty());
        scene
    }
}
