//! The Rust's step with two and with three axes, and its answers against ours.

use crate::timing::Way;

/// The Rust's step on the scenes of a row.
pub trait Rusts: Way {
    /// The answer list of each scene after its step.
    fn answers(&self) -> Vec<Vec<f64>>;
    /// The contacts of the first scene's fluid particles.
    fn contacts(&self) -> usize;
}

/// One of the two builds: its scenes, and the states that they are filled into.
macro_rules! build {
    ($name:ident, $salva:ident) => {
        pub struct $name {
            scenes: Vec<$salva::scene::Scene>,
            states: Vec<$salva::run::Filled>,
        }

        impl $name {
            pub fn new(packed: &[Vec<u8>]) -> $name {
                let read = |bytes: &Vec<u8>| $salva::scene::read(bytes).ok().expect("a scene is accepted");
                $name { scenes: packed.iter().map(read).collect(), states: Vec::with_capacity(packed.len()) }
            }
        }

        impl Way for $name {
            fn fill(&mut self) {
                self.states.clear();
                self.states.extend(self.scenes.iter().map($salva::run::fill));
            }

            fn step_all(&mut self) {
                self.states.iter_mut().for_each($salva::run::Filled::step);
            }
        }

        impl Rusts for $name {
            fn answers(&self) -> Vec<Vec<f64>> {
                let of = |state: &$salva::run::Filled| state.answers().flat_map(|(.., answers)| answers).collect();
                self.states.iter().map(of).collect()
            }

            fn contacts(&self) -> usize {
                let particles = self.scenes[0].fluids.iter().flat_map(|fluid| &fluid.particles);
                particles.map(|p| p.fluid_contacts.len() + p.boundary_contacts.len()).sum()
            }
        }
    };
}

build!(Flat, salva2d);
build!(Solid, salva3d);

/// Every answer of ours is the Rust's.
pub fn compare(rusts: &[Vec<f64>], ours: &[Vec<f64>]) {
    let bits = |list: &Vec<f64>| list.iter().map(|x| x.to_bits()).collect::<Vec<_>>();
    let same = rusts.iter().zip(ours).all(|(rust, our)| bits(rust) == bits(our));
    assert!(same && rusts.len() == ours.len(), "an answer differs");
}
