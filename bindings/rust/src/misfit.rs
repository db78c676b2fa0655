//! What a packed scene has no place for.
use std::error::Error;
use std::fmt;

/// What has no place in a packed scene. A place is written as in `fluids[0].particles[2].fluid_contacts.len()`.
#[derive(Clone, Debug, PartialEq, Eq, Hash)]
pub enum Misfit {
    /// A count or a number that is too large.
    TooLarge {
        /// Which.
        place: String,
        /// The count or number.
        found: usize,
        /// What it may be at most.
        most: usize,
    },
    /// A force that is not zero, in a boundary that keeps none.
    ForceNotKept {
        /// Which.
        place: String,
    },
    /// Vectors of another number of axes than the version's.
    Axes {
        /// How many they have.
        found: usize,
        /// How many those of the version have.
        wanted: usize,
    },
}

impl Misfit {
    // the same, seen from the list that it was found in
    pub(crate) fn within(mut self, list: &str, k: usize) -> Misfit {
        if let Misfit::TooLarge { place, .. } | Misfit::ForceNotKept { place } = &mut self {
            *place = format!("{list}[{k}].{place}");
        }
        self
    }
}

impl fmt::Display for Misfit {
    fn fmt(&self, f: &mut fmt::Formatter<'_>) -> fmt::Result {
        match self {
            Misfit::TooLarge { place, found, most } => write!(f, "{place} is {found}, and may be at most {most}"),
            Misfit::ForceNotKept { place } => write!(f, "{place} is not zero, but its boundary keeps no forces"),
            Misfit::Axes { found, wanted } => write!(f, "vectors have {found} axes, and those of the version {wanted}"),
        }
    }
}

impl Error for Misfit {}
