//! The check of one contact list: looks and offsets of packed scenes, worked out by hand from include/iisph.h.
use super::fields::Fields;
use super::packing::EXAMPLES;
use super::*;
use Contacts::{BoundaryBoundary, FluidBoundary, FluidFluid};

// each contact names the last particle of a model, and one of the other kind with that name is not there
const DROP: Contact = Contact { model: 0, particle: 1, weight: 1.0, gradient: [0.0; 3] };
const STONE: Contact = Contact { model: 1, particle: 1, weight: 1.0, gradient: [0.0; 3] };
const BETWEEN_STONES: BoundaryContact = BoundaryContact { model: 1, particle: 1, weight: 1.0 };

fn drop_touching(near: usize, walls: usize) -> FluidParticle {
    FluidParticle { fluid_contacts: vec![DROP; near], boundary_contacts: vec![STONE; walls], ..Default::default() }
}

fn stone_touching(near: usize) -> BoundaryParticle {
    BoundaryParticle { contacts: vec![BETWEEN_STONES; near], ..Default::default() }
}

fn scene_of_lists() -> Scene {
    let fluid = |particles| Fluid { rest_density: 1.0, particles };
    Scene {
        fluids: vec![
            fluid(vec![drop_touching(2, 3), drop_touching(0, 1)]),
            fluid(vec![]),
            fluid(vec![drop_touching(1, 0)]),
        ],
        boundaries: vec![
            Boundary { keeps_forces: true, particles: vec![stone_touching(2)] },
            Boundary { keeps_forces: false, particles: vec![stone_touching(3), stone_touching(0)] },
        ],
        ..Default::default()
    }
}

const LENGTH: usize = 743;

#[derive(Clone, Copy)]
struct List {
    contacts: Contacts,
    model: usize,
    particle: usize,
    count: usize,
    first: usize,
}

const fn list(contacts: Contacts, model: usize, particle: usize, count: usize, first: usize) -> List {
    List { contacts, model, particle, count, first }
}

// its lists: whose, how many contacts, and where these begin
const LISTS: [List; 9] = [
    list(FluidFluid, 0, 0, 2, 152),
    list(FluidBoundary, 0, 0, 3, 220),
    list(FluidFluid, 0, 1, 0, 412),
    list(FluidBoundary, 0, 1, 1, 412),
    list(FluidFluid, 2, 0, 1, 556),
    list(FluidBoundary, 2, 0, 0, 590),
    list(BoundaryBoundary, 0, 0, 2, 641),
    list(BoundaryBoundary, 1, 0, 3, 688),
    list(BoundaryBoundary, 1, 1, 0, 743),
];

impl List {
    fn checked(&self, scene: &[u8]) -> Result<CheckedList, Unchecked> {
        check_list(scene, self.contacts, self.model, self.particle)
    }

    // where contact k begins
    fn contact_at(&self, k: usize) -> usize {
        self.first + k * if self.contacts == BoundaryBoundary { 10 } else { 34 }
    }

    // names of nobody: no such model, and no such particle in it
    fn nobodies(&self) -> [u16; 4] {
        match self.contacts {
            FluidFluid => [0x3000, 0xF000, 0x0002, 0x1000],
            FluidBoundary | BoundaryBoundary => [0x2000, 0xF000, 0x1002, 0x1FFF],
        }
    }
}

fn overwrite(scene: &mut [u8], at: usize, both: u16) {
    scene[at..at + 2].copy_from_slice(&both.to_be_bytes());
}

fn passed(looks: usize) -> Result<CheckedList, Unchecked> {
    Ok(CheckedList { looks, refusal: None })
}

fn refused_at(looks: usize, offset: usize) -> Result<CheckedList, Unchecked> {
    Ok(CheckedList { looks, refusal: Some(Refusal { reason: Reason::NotThere, offset: offset as u64 }) })
}

#[test]
fn a_list_that_passes_has_a_look_at_each_contact() {
    let scene = packed(scene_of_lists());
    assert_eq!(scene.len(), LENGTH);
    for list in LISTS {
        assert_eq!(list.checked(&scene), passed(list.count));
    }
}

#[test]
fn a_contact_that_names_nobody_is_refused_in_its_own_list() {
    let whole = packed(scene_of_lists());
    for (n, list) in LISTS.iter().enumerate() {
        for (k, name) in (0..list.count).flat_map(|k| list.nobodies().map(|name| (k, name))) {
            let mut scene = whole.clone();
            overwrite(&mut scene, list.contact_at(k), name);
            assert_eq!(list.checked(&scene), refused_at(k + 1, list.contact_at(k)));
            for other in LISTS[..n].iter().chain(&LISTS[n + 1..]) {
                assert_eq!(other.checked(&scene), passed(other.count));
            }
        }
    }
}

#[test]
fn each_list_is_refused_at_its_first_nobody_and_a_step_at_the_first_of_all() {
    let mut scene = packed(scene_of_lists());
    for list in LISTS {
        for k in 0..list.count {
            overwrite(&mut scene, list.contact_at(k), list.nobodies()[0]);
        }
    }
    for list in LISTS {
        assert_eq!(list.checked(&scene), if list.count == 0 { passed(0) } else { refused_at(1, list.first) });
    }
    assert_eq!(needed(&scene), refused(Reason::NotThere, 152));
}

#[test]
fn the_longest_lists() {
    let mut scene = scene_of_lists();
    scene.fluids[0].particles[0] = drop_touching(255, 255);
    scene.boundaries[0].particles[0] = stone_touching(255);
    let whole = packed(scene);
    for list in [
        list(FluidFluid, 0, 0, 255, 152),
        list(FluidBoundary, 0, 0, 255, 8_822),
        list(BoundaryBoundary, 0, 0, 255, 17_811),
    ] {
        assert_eq!(list.checked(&whole), passed(255));
        for (k, looks) in [(0, 1), (127, 128), (254, 255)] {
            let mut scene = whole.clone();
            overwrite(&mut scene, list.contact_at(k), list.nobodies()[0]);
            assert_eq!(list.checked(&scene), refused_at(looks, list.contact_at(k)));
        }
    }
}

#[test]
fn all_lists_of_the_examples_pass() {
    for example in EXAMPLES {
        let scene = Fields(example).scene();
        for (model, fluid) in scene.fluids.iter().enumerate() {
            for (k, drop) in fluid.particles.iter().enumerate() {
                assert_eq!(check_list(example, FluidFluid, model, k), passed(drop.fluid_contacts.len()));
                assert_eq!(check_list(example, FluidBoundary, model, k), passed(drop.boundary_contacts.len()));
            }
        }
        for (model, boundary) in scene.boundaries.iter().enumerate() {
            for (k, stone) in boundary.particles.iter().enumerate() {
                assert_eq!(check_list(example, BoundaryBoundary, model, k), passed(stone.contacts.len()));
            }
        }
    }
}

#[test]
fn a_list_that_is_not_there_is_named() {
    let scene = packed(scene_of_lists());
    for (contacts, model, particle) in [
        (FluidFluid, 3, 0),
        (FluidBoundary, usize::MAX, 0),
        (BoundaryBoundary, 2, 0),
        (FluidFluid, 0, 2),
        (FluidBoundary, 1, 0),
        (FluidBoundary, 2, usize::MAX),
        (BoundaryBoundary, 0, 1),
        (BoundaryBoundary, 1, 2),
    ] {
        let no_list = Unchecked::NoList { contacts, model, particle };
        assert_eq!(check_list(&scene, contacts, model, particle), Err(no_list));
    }
    let text = |contacts| check_list(&scene, contacts, 1, 2).unwrap_err().to_string();
    let what_to_do = "both are numbered from 0, so ask for less than there are of each";
    assert_eq!(text(FluidBoundary), format!("the scene has no fluid 1 with a particle 2; {what_to_do}"));
    assert_eq!(text(BoundaryBoundary), format!("the scene has no boundary 1 with a particle 2; {what_to_do}"));
}

#[test]
fn fields_are_refused_before_any_list_is_looked_at() {
    let mut whole = packed(scene_of_lists());
    overwrite(&mut whole, LISTS[0].first, LISTS[0].nobodies()[0]);
    let changed = |at, both| {
        let mut scene = whole.clone();
        overwrite(&mut scene, at, both);
        scene
    };
    for (scene, reason, offset) in [
        (whole[..LENGTH - 1].to_vec(), Reason::Missing, LENGTH - 1),
        (changed(0, 0x3320), Reason::Form, 0),
        (changed(0, 0x2324), Reason::Form, 1),
        (changed(0, 0x1920), Reason::Models, 0),
        (changed(52, 4097), Reason::Count, 52),
        ([&whole[..], &[0]].concat(), Reason::Trailing, LENGTH),
        (changed(54, 0x7FF0), Reason::NotFinite, 54),
    ] {
        let refusal = Refusal { reason, offset: offset as u64 };
        assert_eq!(LISTS[0].checked(&scene), Err(Unchecked::Scene(refusal)));
        assert_eq!(check_list(&scene, FluidFluid, 3, 0), Err(Unchecked::Scene(refusal)));
    }
    assert_eq!(
        LISTS[0].checked(&[]).unwrap_err().to_string(),
        "refused 1 at byte 0: a field is not wholly there; \
         mend this first, since lists are looked at once all fields have passed"
    );
}
