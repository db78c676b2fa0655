//! Scenes in the plane, beside those of three axes without y.
use super::*;
use crate::flat;

fn flattened([x, y, z]: [f64; 3]) -> [f64; 2] {
    assert_eq!(y, 0.0);
    [x, z]
}

fn flat_contacts(contacts: &[Contact]) -> Vec<flat::Contact> {
    let flat = |c: &Contact| flat::Contact {
        model: c.model,
        particle: c.particle,
        weight: c.weight,
        gradient: flattened(c.gradient),
    };
    contacts.iter().map(flat).collect()
}

fn flat_particle(particle: &FluidParticle) -> flat::FluidParticle {
    flat::FluidParticle {
        position: flattened(particle.position),
        velocity: flattened(particle.velocity),
        acceleration: flattened(particle.acceleration),
        volume: particle.volume,
        warm_pressure: particle.warm_pressure,
        fluid_contacts: flat_contacts(&particle.fluid_contacts),
        boundary_contacts: flat_contacts(&particle.boundary_contacts),
    }
}

fn flat_fluid(fluid: &Fluid) -> flat::Fluid {
    flat::Fluid { rest_density: fluid.rest_density, particles: fluid.particles.iter().map(flat_particle).collect() }
}

fn flat_boundary(boundary: &Boundary) -> flat::Boundary {
    let particle = |p: &BoundaryParticle| flat::BoundaryParticle {
        velocity: flattened(p.velocity),
        force: flattened(p.force),
        contacts: p.contacts.clone(),
    };
    flat::Boundary { keeps_forces: boundary.keeps_forces, particles: boundary.particles.iter().map(particle).collect() }
}

// the scene in the plane of x and z, under the same rule
fn flat_scene(scene: &Scene) -> flat::Scene {
    flat::Scene {
        version: Version::four(scene.version.stopping(), scene.version.summation()),
        least_iterations: scene.least_iterations,
        most_iterations: scene.most_iterations,
        step_length: scene.step_length,
        remaining_time: scene.remaining_time,
        error_limit: scene.error_limit,
        gravity: flattened(scene.gravity),
        fluids: scene.fluids.iter().map(flat_fluid).collect(),
        boundaries: scene.boundaries.iter().map(flat_boundary).collect(),
    }
}

// what a step answers of a scene, without y
fn flat_answers(solid: Answers<3>) -> Answers<2> {
    let particle = |a: FluidAnswer<3>| FluidAnswer {
        position: flattened(a.position),
        velocity: flattened(a.velocity),
        pressure: a.pressure,
    };
    let stone = |a: BoundaryAnswer<3>| BoundaryAnswer { volume: a.volume, force: a.force.map(flattened) };
    Answers {
        fluids: solid.fluids.into_iter().map(|f| f.into_iter().map(particle).collect()).collect(),
        boundaries: solid.boundaries.into_iter().map(|b| b.into_iter().map(stone).collect()).collect(),
    }
}

#[test]
fn a_flat_scene_is_packed_with_two_axes() {
    let packed = flat_scene(&pressed()).pack().unwrap();
    assert_eq!(packed.len(), 44 + 10 + 66 + 26 + 26 + 2 + 33 + 10);
    assert_eq!(packed[..4], [0x41, 0x10, 1, 0]);
    assert_eq!(flat::Scene::default().pack().unwrap().len(), 44);
    let rule = |stopping, summation| {
        let version = Version::four(stopping, summation);
        flat::Scene { version, ..Default::default() }.pack().unwrap()[..2].to_vec()
    };
    assert_eq!(rule(Stopping::Ihmsen2014, Summation::InOrder), [0x40, 1]);
    assert_eq!(rule(Stopping::Ihmsen2014, Summation::ByHalves), [0x40, 3]);
}

#[test]
fn axes_that_are_not_the_versions_do_not_fit() {
    let solid = Scene { version: Version::Four(Stopping::Salva), ..Default::default() };
    assert_eq!(solid.pack(), Err(Misfit::Axes { found: 3, wanted: 2 }));
    let flat = flat::Scene { version: Version::One, ..Default::default() };
    assert_eq!(flat.pack().unwrap_err().to_string(), "vectors have 2 axes, and those of the version 3");
}

#[test]
fn answers_are_read_by_the_scene() {
    let mut scene = pressed();
    let list: Vec<f64> = (0..11).map(f64::from).collect();
    let answers = scene.answers(&list).unwrap();
    let drop = FluidAnswer { position: [0.0, 1.0, 2.0], velocity: [3.0, 4.0, 5.0], pressure: 6.0 };
    assert_eq!(answers.fluids, [[drop]]);
    assert_eq!(answers.boundaries, [[BoundaryAnswer { volume: 7.0, force: Some([8.0, 9.0, 10.0]) }]]);
    assert_eq!(scene.answers(&list[..10]), None);
    let flat = flat_scene(&scene).answers(&list).unwrap();
    assert_eq!(flat.fluids, [[FluidAnswer { position: [0.0, 1.0], velocity: [2.0, 3.0], pressure: 4.0 }]]);
    assert_eq!(flat.boundaries, [[BoundaryAnswer { volume: 5.0, force: Some([6.0, 7.0]) }]]);
    scene.boundaries[0].keeps_forces = false;
    assert_eq!(scene.answers(&list).unwrap().boundaries, [[BoundaryAnswer { volume: 7.0, force: None }]]);
}

// ---- through the archive, which takes version 4

#[test]
fn flat_scenes_answer_as_those_without_y() {
    for stopping in [Stopping::Salva, Stopping::Ihmsen2014] {
        for summation in [Summation::InOrder, Summation::ByHalves] {
            for mut solid in [whole_scene_a(), scene_b(1.0), pressed(), empty(50)] {
                solid.version = Version::two(stopping, summation);
                let flat = flat_scene(&solid);
                let (report, answers) = stepped(&packed(solid.clone())).unwrap();
                let (flat_report, in_plane) = stepped(&flat.pack().unwrap()).unwrap();
                assert_eq!(flat_report, report);
                assert_eq!(flat.answers(&in_plane), solid.answers(&answers).map(flat_answers));
            }
        }
    }
}

#[test]
fn flat_lists_are_shorter() {
    let lengths = |scene: &flat::Scene| needed(&scene.pack().unwrap()).map(|l| (l.answers, l.work));
    let mut scene = flat_scene(&pressed());
    assert_eq!(lengths(&scene), Ok((8, 12)));
    scene.version = Version::FourByHalves(Stopping::Salva);
    assert_eq!(lengths(&scene), Ok((8, 13)));
    scene.boundaries[0].keeps_forces = false;
    assert_eq!(lengths(&scene), Ok((6, 13)));
}

#[test]
fn a_flat_scene_is_refused_where_its_fields_stand() {
    let whole = flat_scene(&whole_scene_a()).pack().unwrap();
    assert_eq!(needed(&whole[..43]), refused(Reason::Missing, 36));
    let with_byte = |at: usize, byte: u8| needed(&[&whole[..at], &[byte], &whole[at + 1..]].concat());
    assert_eq!(with_byte(1, 4), refused(Reason::Form, 1));
    assert_eq!(with_byte(0, 0x51), refused(Reason::Form, 0));
    let alone = flat_scene(&scene_a(Vec::new())).pack().unwrap();
    assert_eq!(stepped(&alone).map(|_| ()), refused(Reason::ZeroDensity, 54));
}
