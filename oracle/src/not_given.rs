//! Stand-ins for modules of the Rust that its text names but that were not handed over. Only
//! `PressureSolver` takes part in a step, and it has no body.

use crate::counters::Counters;
use crate::geometry::ContactManager;
use crate::math::{Real, Vector};
use crate::object::{Boundary, Fluid};
use crate::TimestepManager;

/// The calls that the solver answers, as its own text declares them.
pub trait PressureSolver {
    fn init_with_fluids(&mut self, fluids: &[Fluid]);
    fn init_with_boundaries(&mut self, boundaries: &[Boundary]);
    fn predict_advection(
        &mut self,
        timestep: &TimestepManager,
        kernel_radius: Real,
        contact_manager: &ContactManager,
        gravity: &Vector<Real>,
        fluids: &mut [Fluid],
        boundaries: &[Boundary],
    );
    fn evaluate_kernels(
        &mut self,
        kernel_radius: Real,
        contact_manager: &mut ContactManager,
        fluids: &[Fluid],
        boundaries: &[Boundary],
    );
    fn compute_densities(&mut self, contact_manager: &ContactManager, fluids: &[Fluid], boundaries: &mut [Boundary]);
    #[allow(clippy::too_many_arguments)]
    fn step(
        &mut self,
        counters: &mut Counters,
        timestep: &mut TimestepManager,
        gravity: &Vector<Real>,
        contact_manager: &mut ContactManager,
        kernel_radius: Real,
        fluids: &mut [Fluid],
        boundaries: &[Boundary],
    );
}

/// The grid of the contact search, always without particles: contacts are given.
pub struct HGrid<T> {
    width: Real,
    cells: Vec<(Vector<i64>, Vec<T>)>,
}

impl<T> HGrid<T> {
    pub fn new(width: Real) -> Self {
        HGrid { width, cells: Vec::new() }
    }

    pub fn cell_width(&self) -> Real {
        self.width
    }

    pub fn insert(&mut self, _position: &Vector<Real>, _particle: T) {}

    pub fn cell(&self, _cell: &Vector<i64>) -> Option<&Vec<T>> {
        None
    }

    pub fn inner_table(&self) -> Cells<'_, T> {
        Cells(&self.cells)
    }

    pub fn cells(&self) -> impl Iterator<Item = (&Vector<i64>, &Vec<T>)> {
        self.inner_table().iter()
    }

    pub fn neighbor_cells(&self, _cell: &Vector<i64>, _radius: Real) -> impl Iterator<Item = (&Vector<i64>, &Vec<T>)> {
        self.inner_table().iter()
    }
}

/// A grid's cells, lent.
pub struct Cells<'a, T>(&'a [(Vector<i64>, Vec<T>)]);

impl<'a, T> Cells<'a, T> {
    pub fn iter(&self) -> impl Iterator<Item = (&'a Vector<i64>, &'a Vec<T>)> {
        self.0.iter().map(|(cell, particles)| (cell, particles))
    }
}

/// The world's lists of models, which the step is not given.
pub struct ContiguousArena<Handle, T> {
    pub handles: Vec<Handle>,
    pub items: Vec<T>,
}

#[derive(Copy, Clone, PartialEq, Eq, Hash, Debug)]
pub struct ContiguousArenaIndex(pub usize);

/// The sorting of particles, which no step does.
pub(crate) mod z_order {
    use crate::math::{Real, Vector};

    pub fn compute_points_z_order(_points: &[Vector<Real>]) -> Vec<usize> {
        unimplemented!("particles are not sorted here")
    }

    pub fn apply_permutation<T: Clone>(_order: &[usize], _list: &[T]) -> Vec<T> {
        unimplemented!("particles are not sorted here")
    }
}
