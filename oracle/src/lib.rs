//! The Rust pressure solver under its own module names. Files under salva/ are the Rust's text as
//! prepare.py copies it; `not_given` has what that text names but was not handed over; `scene`, `run`
//! and this file are ours. Two crates compile all of it, as the Rust's own do: salva3d with the feature
//! dim3, salva2d with dim2.

#[macro_use]
#[path = "salva/macros.rs"]
mod macros;

#[path = "salva/counters/mod.rs"]
pub mod counters;
#[path = "salva/helper.rs"]
pub mod helper;
#[allow(dead_code)]
#[path = "salva/timestep_manager.rs"]
mod timestep_manager;

pub mod not_given;
pub mod run;
pub mod scene;

pub(crate) use not_given::z_order;
pub use timestep_manager::TimestepManager;

pub mod math {
    /// The number of axes.
    pub const DIM: usize = if cfg!(feature = "dim2") { 2 } else { 3 };
    pub type Real = f64;
    pub type Vector<Real> = na::Vector<Real, DIM>;
    pub type Isometry<Real> = na::Isometry<Real, DIM>;
}

#[path = "salva/geometry"]
pub mod geometry {
    pub use self::contact_manager::ContactManager;
    pub use self::contacts::{compute_contacts, Contact, HGridEntry, ParticlesContacts};
    pub use crate::not_given::HGrid;

    mod contact_manager;
    #[allow(dead_code)]
    mod contacts;
}

#[path = "salva/kernel"]
pub mod kernel {
    pub use self::cubic_spline_kernel::CubicSplineKernel;
    pub use self::kernel::Kernel;

    mod cubic_spline_kernel;
    mod kernel;
}

#[path = "salva/object"]
pub mod object {
    pub use self::boundary::Boundary;
    pub use self::fluid::Fluid;
    pub use crate::not_given::{ContiguousArena, ContiguousArenaIndex};

    #[allow(dead_code)]
    mod boundary;
    #[allow(dead_code)]
    mod fluid;
    pub mod interaction_groups;
}

#[path = "salva/solver"]
pub mod solver {
    pub use self::iisph_solver::IISPHSolver;
    pub use self::nonpressure_force::NonPressureForce;
    pub use crate::not_given::PressureSolver;

    pub mod helper;
    #[path = "pressure/iisph_solver.rs"]
    mod iisph_solver;
    mod nonpressure_force;
}

/// What an edited assert throws instead of its message: refusal 9 or 10, and the particle.
pub struct ZeroDensity {
    pub number: u32,
    pub fluid: usize,
    pub particle: usize,
}
