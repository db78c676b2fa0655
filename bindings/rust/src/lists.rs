//! The check of one contact list.
use crate::c;
use crate::refusals::{refusal, Reason, Refusal};
use std::error::Error;
use std::fmt;

// what `iisph_check_list` returns where there is no such list
const NO_LIST: u64 = 97;

/// Whose contacts a list holds, and what they name (salva's `fluid_fluid_contacts`,
/// `fluid_boundary_contacts` and `boundary_boundary_contacts`). The variants stand in the order of
/// their numbers, 0 to 2.
#[derive(Clone, Copy, Debug, PartialEq, Eq, Hash)]
pub enum Contacts {
    /// Of a fluid particle, with fluids: `fluid_contacts` of a [`FluidParticle`](crate::FluidParticle).
    FluidFluid = 0,
    /// Of a fluid particle, with boundaries: its `boundary_contacts`.
    FluidBoundary,
    /// Of a boundary particle: `contacts` of a [`BoundaryParticle`](crate::BoundaryParticle).
    BoundaryBoundary,
}

impl Contacts {
    // the kind of model that has them
    fn owner(self) -> &'static str {
        match self {
            Contacts::FluidFluid | Contacts::FluidBoundary => "fluid",
            Contacts::BoundaryBoundary => "boundary",
        }
    }
}

/// What the check of a contact list found.
#[derive(Clone, Copy, Debug, PartialEq, Eq, Hash)]
#[must_use = "the list may be refused"]
pub struct CheckedList {
    /// How many of its contacts were looked at: all if none is refused, else those up to the
    /// refused one, which is number `looks - 1` in the list.
    pub looks: usize,
    /// [`Reason::NotThere`] at the first contact that names nobody, if one does.
    pub refusal: Option<Refusal>,
}

/// Why a contact list was not looked at.
#[derive(Clone, Copy, Debug, PartialEq, Eq, Hash)]
pub enum Unchecked {
    /// The scene is refused before, by 1 to 6.
    Scene(Refusal),
    /// The scene has no such list.
    NoList {
        /// The contacts that were asked for.
        contacts: Contacts,
        /// Of which fluid or boundary.
        model: usize,
        /// Of which particle there.
        particle: usize,
    },
}

impl fmt::Display for Unchecked {
    fn fmt(&self, f: &mut fmt::Formatter<'_>) -> fmt::Result {
        match self {
            Unchecked::Scene(refusal) => {
                write!(f, "{refusal}; mend this first, since lists are looked at once all fields have passed")
            }
            Unchecked::NoList { contacts, model, particle } => write!(
                f,
                "the scene has no {} {model} with a particle {particle}; \
                 both are numbered from 0, so ask for less than there are of each",
                contacts.owner()
            ),
        }
    }
}

impl Error for Unchecked {}

/// Whether all contacts of one list name particles that are there, and how many looks at a contact
/// it takes to tell. Whose list it is, `model` and `particle` say: the number of the fluid or
/// boundary, and that of the particle in it, both from 0.
///
/// No other list is looked at, so this also tells of lists behind the one at which a step stops.
/// A call costs a walk over the whole scene, whatever list is asked for, and takes some 1 KiB of
/// stack.
///
/// ```
/// use iisph::{check_list, Contact, Contacts, Fluid, FluidParticle, Reason, Scene};
///
/// let itself = Contact { model: 0, particle: 0, ..Default::default() };
/// let nobody = Contact { model: 0, particle: 1, ..Default::default() };
/// let drop = FluidParticle { fluid_contacts: vec![itself, nobody, itself], ..Default::default() };
/// let scene = Scene { fluids: vec![Fluid { rest_density: 1.0, particles: vec![drop] }], ..Default::default() };
/// let packed = scene.pack()?;
///
/// let near = check_list(&packed, Contacts::FluidFluid, 0, 0)?;
/// assert_eq!(near.looks, 2); // the third contact is not looked at
/// assert_eq!(near.refusal.map(|refusal| refusal.reason), Some(Reason::NotThere));
/// assert_eq!(scene.fluids[0].particles[0].fluid_contacts[near.looks - 1], nobody);
///
/// let walls = check_list(&packed, Contacts::FluidBoundary, 0, 0)?;
/// assert_eq!((walls.looks, walls.refusal), (0, None)); // a list without contacts
/// # Ok::<(), Box<dyn std::error::Error>>(())
/// ```
pub fn check_list(scene: &[u8], contacts: Contacts, model: usize, particle: usize) -> Result<CheckedList, Unchecked> {
    let mut counts = [0u64; 2];
    // SAFETY: pointers and lengths of slices; `counts` is lent to nobody else.
    let code = unsafe {
        c::iisph_check_list(
            scene.as_ptr(),
            scene.len(),
            contacts as u64,
            model,
            particle,
            counts.as_mut_ptr(),
            counts.len(),
        )
    };
    let looks = counts[0] as usize;
    match code {
        0 => Ok(CheckedList { looks, refusal: None }),
        NO_LIST => Err(Unchecked::NoList { contacts, model, particle }),
        _ => match refusal(code, counts[1]) {
            refusal if refusal.reason == Reason::NotThere => Ok(CheckedList { looks, refusal: Some(refusal) }),
            refusal => Err(Unchecked::Scene(refusal)),
        },
    }
}
