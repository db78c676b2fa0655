//! The packer against the repository's packed examples, and what it does not pack.
use super::fields::Fields;
use super::*;

pub const EXAMPLES: [&[u8]; 9] = [
    include_bytes!("../../../../examples/scene-a.bin"),
    include_bytes!("../../../../examples/scene-b.bin"),
    include_bytes!("../../../../examples/chamber.bin"),
    include_bytes!("../../../../examples/torn-droplet.bin"),
    include_bytes!("../../../../examples/torn-droplet-faint.bin"),
    include_bytes!("../../../../examples/torn-droplet-overflow.bin"),
    include_bytes!("../../../../examples/scene-b-ihmsen.bin"),
    include_bytes!("../../../../examples/slow-pair.bin"),
    include_bytes!("../../../../examples/slow-pair-by-halves.bin"),
];

#[test]
fn scene_a_is_the_packed_example() {
    assert_eq!(packed(whole_scene_a()), EXAMPLES[0]);
}

#[test]
fn every_example_packs_to_its_bytes() {
    for example in EXAMPLES {
        assert_eq!(packed(Fields(example).scene()), example);
    }
}

fn misfit(scene: Scene) -> String {
    scene.pack().unwrap_err().to_string()
}

#[test]
fn limits_are_packed_and_no_more() {
    let models =
        |n| Scene { fluids: vec![Fluid::default(); n], boundaries: vec![Boundary::default(); n], ..Default::default() };
    assert_eq!(packed(models(8))[..2], [0x18, 0x80]);
    assert_eq!(misfit(models(9)), "fluids.len() is 9, and may be at most 8");
    assert_eq!(misfit(Scene { fluids: Vec::new(), ..models(9) }), "boundaries.len() is 9, and may be at most 8");
    assert_eq!(misfit(empty(256)), "most_iterations is 256, and may be at most 255");
    assert_eq!(misfit(Scene { least_iterations: 256, ..empty(1) }), "least_iterations is 256, and may be at most 255");

    let particles = |n| Scene {
        fluids: vec![Fluid { particles: vec![FluidParticle::default(); n], ..Default::default() }],
        ..Default::default()
    };
    assert_eq!(packed(particles(4096))[52..54], [0x10, 0]);
    assert_eq!(misfit(particles(4097)), "fluids[0].particles.len() is 4097, and may be at most 4096");
    let stones = |n| Scene {
        boundaries: vec![Boundary { keeps_forces: true, particles: vec![BoundaryParticle::default(); n] }],
        ..Default::default()
    };
    assert_eq!(packed(stones(4096))[52..54], [0x90, 0]);
    assert_eq!(misfit(stones(4097)), "boundaries[0].particles.len() is 4097, and may be at most 4096");
}

#[test]
fn contacts_that_do_not_fit_are_named() {
    let with = |change: &dyn Fn(&mut Scene)| {
        let mut scene = pressed();
        change(&mut scene);
        scene
    };
    let particle = |scene: &mut Scene, contacts| scene.fluids[0].particles[0].boundary_contacts = contacts;
    let stone = |scene: &mut Scene, contacts| scene.boundaries[0].particles[0].contacts = contacts;
    assert!(with(&|scene| particle(scene, vec![contact(4095, 0.0, [0.0; 3]); 255])).pack().is_ok());
    assert_eq!(
        misfit(with(&|scene| particle(scene, vec![contact(0, 0.0, [0.0; 3]); 256]))),
        "fluids[0].particles[0].boundary_contacts.len() is 256, and may be at most 255"
    );
    assert_eq!(
        misfit(scene_a(vec![contact(0, 0.0, [0.0; 3]); 256])),
        "fluids[0].particles[0].fluid_contacts.len() is 256, and may be at most 255"
    );
    assert_eq!(
        misfit(scene_a(vec![contact(0, 0.0, [0.0; 3]), contact(4096, 0.0, [0.0; 3])])),
        "fluids[0].particles[0].fluid_contacts[1].particle is 4096, and may be at most 4095"
    );
    assert_eq!(
        misfit(with(&|scene| stone(scene, vec![BoundaryContact { model: 16, ..Default::default() }]))),
        "boundaries[0].particles[0].contacts[0].model is 16, and may be at most 15"
    );
    assert_eq!(
        misfit(with(&|scene| stone(scene, vec![BoundaryContact::default(); 256]))),
        "boundaries[0].particles[0].contacts.len() is 256, and may be at most 255"
    );
}

#[test]
fn a_force_is_never_lost() {
    let mut scene = pressed();
    scene.boundaries[0].particles[0].force = [0.0, 0.0, 1.0];
    assert_eq!(stepped(&packed(scene.clone())).unwrap().1[7..], [0.25, 0.0, 0.0, 1.5]);
    scene.boundaries[0].keeps_forces = false;
    assert_eq!(misfit(scene), "boundaries[0].particles[0].force is not zero, but its boundary keeps no forces");
}
