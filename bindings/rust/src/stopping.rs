//! The versions of a packed scene, and what it can name: the stopping criterion and the summation.

/// The version of a packed scene. All lay a scene out alike, but that vectors have two doubles in
/// version 4; versions 2 and 4 name the stopping criterion, and how the error of that is summed.
#[derive(Clone, Copy, Debug, Default, PartialEq, Eq, Hash)]
pub enum Version {
    /// Version 1, always under [`Stopping::Salva`] and with [`Summation::InOrder`]. The default.
    #[default]
    One,
    /// Version 2, under the criterion given and with [`Summation::InOrder`]. Under [`Stopping::Salva`] a
    /// step has the result that it has in version 1.
    Two(Stopping),
    /// Version 2, under the criterion given and with [`Summation::ByHalves`].
    TwoByHalves(Stopping),
    /// Version 4, that of [flat scenes](crate::flat), under the criterion given and with
    /// [`Summation::InOrder`].
    Four(Stopping),
    /// Version 4, under the criterion given and with [`Summation::ByHalves`].
    FourByHalves(Stopping),
}

impl Version {
    /// Version 2 that names both.
    pub const fn two(stopping: Stopping, summation: Summation) -> Version {
        match summation {
            Summation::InOrder => Version::Two(stopping),
            Summation::ByHalves => Version::TwoByHalves(stopping),
        }
    }

    /// Version 4 that names both.
    pub const fn four(stopping: Stopping, summation: Summation) -> Version {
        match summation {
            Summation::InOrder => Version::Four(stopping),
            Summation::ByHalves => Version::FourByHalves(stopping),
        }
    }

    /// How many axes its vectors have.
    pub const fn axes(self) -> usize {
        match self {
            Version::One | Version::Two(_) | Version::TwoByHalves(_) => 3,
            Version::Four(_) | Version::FourByHalves(_) => 2,
        }
    }

    /// The stopping criterion.
    pub const fn stopping(self) -> Stopping {
        match self {
            Version::One => Stopping::Salva,
            Version::Two(stopping)
            | Version::TwoByHalves(stopping)
            | Version::Four(stopping)
            | Version::FourByHalves(stopping) => stopping,
        }
    }

    /// How its error is summed.
    pub const fn summation(self) -> Summation {
        match self {
            Version::One | Version::Two(_) | Version::Four(_) => Summation::InOrder,
            Version::TwoByHalves(_) | Version::FourByHalves(_) => Summation::ByHalves,
        }
    }

    // the version's number and the rule's, 4 bits each
    pub(crate) fn numbers(self) -> (u8, u8) {
        let version = match self {
            Version::One => 1,
            Version::Two(_) | Version::TwoByHalves(_) => 2,
            Version::Four(_) | Version::FourByHalves(_) => 4,
        };
        (version, self.stopping() as u8 + self.summation() as u8)
    }
}

/// The stopping criterion: which error has to be at most
/// [`Scene::error_limit`](crate::Scene::error_limit) for the iterations to end. An iteration's
/// pressures are the same under both, but not how many iterations there are. Choose
/// [`Ihmsen2014`](Stopping::Ihmsen2014), unless steps have to equal the Rust's.
///
/// Either error is an average over the particles of a fluid, in which one whose pressure becomes 0
/// counts as 0, and of the fluids' averages the greatest. With that of the [`Summation`] a discriminant
/// makes the rule of `include/iisph.h`.
///
/// Two particles run into each other, and their pressures are right after two iterations:
///
/// ```
/// use iisph::{step, Contact, Ending, Fluid, FluidParticle, Scene, Stopping, Version};
///
/// let particle = |other, side| FluidParticle {
///     velocity: [side, 0.0, 0.0],
///     volume: 1.0,
///     fluid_contacts: vec![Contact { model: 0, particle: other, weight: 1.0, gradient: [side, 0.0, 0.0] }],
///     ..Default::default()
/// };
/// let fluid = Fluid { rest_density: 1.0, particles: vec![particle(1, 1.0), particle(0, -1.0)] };
/// let mut scene = Scene { step_length: 1.0, fluids: vec![fluid], ..Default::default() };
/// let (mut answers, mut work) = ([0.0; 14], [0.0; 28]);
///
/// scene.version = Version::Two(Stopping::Salva);
/// let report = step(&scene.pack()?, &mut answers, &mut work)?;
/// assert_eq!((report.ending, report.iterations), (Ending::RanOut(2.0), 50));
///
/// scene.version = Version::Two(Stopping::Ihmsen2014);
/// let report = step(&scene.pack()?, &mut answers, &mut work)?;
/// assert_eq!((report.ending, report.iterations), (Ending::Settled(0.0), 2));
/// # Ok::<(), Box<dyn std::error::Error>>(())
/// ```
#[derive(Clone, Copy, Debug, PartialEq, Eq, Hash)]
pub enum Stopping {
    /// The Rust's, and with [`Summation::InOrder`] the only one under which a step equals the Rust's bit
    /// for bit: by how much the pressures lower the density, over the rest density.
    ///
    /// It grows with the pressures, towards the compression that there would be without them, and
    /// stays there. So it can settle long before they are right, while they are still too low; and
    /// where that compression is above the limit, it runs out though they are right. It is never
    /// negative, and always a number: see [`Report::passed_over`](crate::Report::passed_over).
    Salva = 0,
    /// That of Ihmsen et al. 2014: by how much the density that results from the iteration is above the
    /// rest density, over the rest density. It tends to 0 as the pressures become right.
    ///
    /// It may be negative, so a negative limit can be met. Where the average of any fluid is not a
    /// number, neither is the error, and the iteration does not settle.
    Ihmsen2014 = 1,
}

/// How the terms of an error are summed, of which a fluid has one for each particle. An iteration's
/// pressures are the same under both. The errors may differ in their last bits, in more of them the
/// larger a fluid is, and with them how many iterations there are. Choose [`ByHalves`](Summation::ByHalves)
/// for large fluids, unless steps have to equal the Rust's.
///
/// Two particles run into each other, and far from them two others do, slower by 2^52. The terms are
/// 2, 2, 2^-51 and 2^-51. In order each small one is lost beside the 4, and by halves they make 2^-50
/// first:
///
/// ```
/// use iisph::{needed, step, Contact, Ending, Fluid, FluidParticle, Scene, Stopping, Summation, Version};
///
/// let particle = |other, speed: f64| FluidParticle {
///     velocity: [speed, 0.0, 0.0],
///     volume: 1.0,
///     fluid_contacts: vec![Contact { model: 0, particle: other, weight: 1.0, gradient: [speed.signum(), 0.0, 0.0] }],
///     ..Default::default()
/// };
/// let slow = f64::EPSILON;
/// let particles = vec![particle(1, 1.0), particle(0, -1.0), particle(3, slow), particle(2, -slow)];
/// let fluid = Fluid { rest_density: 1.0, particles };
/// let mut scene = Scene { step_length: 1.0, fluids: vec![fluid], ..Default::default() };
/// let mut stepped = |summation| {
///     scene.version = Version::two(Stopping::Salva, summation);
///     let packed = scene.pack()?;
///     let lengths = needed(&packed)?;
///     let (mut answers, mut work) = (vec![0.0; lengths.answers], vec![0.0; lengths.work]);
///     let report = step(&packed, &mut answers, &mut work)?;
///     Ok::<_, Box<dyn std::error::Error>>((report, answers))
/// };
///
/// let (in_order, answers) = stepped(Summation::InOrder)?;
/// let (by_halves, same_answers) = stepped(Summation::ByHalves)?;
/// assert_eq!(in_order.ending, Ending::RanOut(1.0));
/// assert_eq!(by_halves.ending, Ending::RanOut(1.0 + f64::EPSILON));
/// assert_eq!((in_order.iterations, answers), (by_halves.iterations, same_answers));
/// # Ok::<(), Box<dyn std::error::Error>>(())
/// ```
#[derive(Clone, Copy, Debug, Default, PartialEq, Eq, Hash)]
pub enum Summation {
    /// In the order of the particles, from +0 on: as the Rust does. A small term is lost beside a large
    /// sum. The default.
    #[default]
    InOrder = 0,
    /// A list of one is its term; a longer one is split after its first half, rounded down, and the sums
    /// of both parts, found alike, are added.
    ///
    /// A term goes through 12 additions at most, where it may go through 4,096 in order. The work list is
    /// longer, by one double for each fluid particle: [`needed`](crate::needed) tells it. Under
    /// [`Stopping::Ihmsen2014`] the error may be -0.
    ByHalves = 2,
}
