//! Scenes in the plane: version 4, whose vectors have two axes. Their kernel is that of
//! [`weight_2d`](crate::weight_2d) and [`slope_2d`](crate::slope_2d). All functions that take a packed
//! scene take these too.
//!
//! The specification's scene A in the plane:
//!
//! ```
//! use iisph::flat::{Contact, Fluid, FluidParticle, Scene};
//! use iisph::{Solver, Stopping, Version};
//!
//! let itself = Contact { weight: 2.0, ..Default::default() };
//! let drop = FluidParticle { volume: 0.5, fluid_contacts: vec![itself], ..Default::default() };
//! let scene = Scene {
//!     version: Version::Four(Stopping::Ihmsen2014),
//!     step_length: 0.5,
//!     remaining_time: 1.0,
//!     gravity: [0.0, -4.0],
//!     fluids: vec![Fluid { rest_density: 2.0, particles: vec![drop] }],
//!     ..Default::default()
//! };
//! let packed = scene.pack()?;
//!
//! let lengths = iisph::needed(&packed)?;
//! assert_eq!((lengths.answers, lengths.work), (5, 11));
//! let (mut answers, mut work) = ([0.0; 5], [0.0; 11]);
//! Solver::new().step(&packed, &mut answers, &mut work)?;
//! let drop = scene.answers(&answers).expect("a list of the length needed").fluids[0][0];
//! assert_eq!((drop.position, drop.velocity, drop.pressure), ([0.0, -1.0], [0.0, -2.0], 0.0));
//! # Ok::<(), Box<dyn std::error::Error>>(())
//! ```
use crate::pack;

pub use crate::pack::BoundaryContact;

/// A scene with two axes.
pub type Scene = pack::Scene<2>;
/// A fluid of such a scene.
pub type Fluid = pack::Fluid<2>;
/// A particle of a fluid of such a scene.
pub type FluidParticle = pack::FluidParticle<2>;
/// A contact of a fluid particle of such a scene.
pub type Contact = pack::Contact<2>;
/// A boundary of such a scene.
pub type Boundary = pack::Boundary<2>;
/// A particle of a boundary of such a scene.
pub type BoundaryParticle = pack::BoundaryParticle<2>;
