//! Packed lattice scenes of two or three axes: fluids, each upon a wall. The last axis points up.

/// Contacts reach this far on a lattice of distance 1: with three axes 32 neighbours and the particle
/// itself, with two 12.
const REACH: i32 = 2;
const RADIUS: f64 = 2.2;

/// Bytes of a double.
const DOUBLE: usize = 8;

/// Scenes of D axes.
pub struct Form<const D: usize> {
    /// The first version that has so many, and that which has all rules.
    pub versions: [u8; 2],
    /// The Rust's weight and slope.
    pub kernel: fn(f64, f64) -> [f64; 2],
}

pub const FLAT: Form<2> = Form { versions: [4, 4], kernel: salva2d::run::kernel };
pub const SOLID: Form<3> = Form { versions: [1, 2], kernel: salva3d::run::kernel };

struct Packed(Vec<u8>);

impl Packed {
    fn double(&mut self, x: f64) {
        self.0.extend(x.to_bits().to_be_bytes());
    }

    fn doubles(&mut self, xs: &[f64]) {
        xs.iter().for_each(|x| self.double(*x));
    }

    fn name(&mut self, model: usize, particle: usize) {
        self.0.extend(((model << 12 | particle) as u16).to_be_bytes());
    }
}

/// The places within these sides from `least` on, in the order of their names: the first axis runs
/// fastest.
fn places<const D: usize>(least: i32, sides: [i32; D]) -> impl Iterator<Item = [i32; D]> {
    (0..sides.iter().product()).map(move |mut number| {
        sides.map(|side| {
            let at = least + number % side;
            number /= side;
            at
        })
    })
}

fn sum<const D: usize>(a: [i32; D], b: [i32; D]) -> [i32; D] {
    std::array::from_fn(|k| a[k] + b[k])
}

fn square<const D: usize>(offset: [i32; D]) -> i32 {
    offset.iter().map(|x| x * x).sum()
}

fn offsets<const D: usize>() -> impl Iterator<Item = [i32; D]> {
    places(-REACH, [2 * REACH + 1; D]).filter(|offset| square(*offset) <= REACH * REACH)
}

/// The places of a lattice with these sides. Scenes with another number are shaken otherwise.
struct Lattice<'a, const D: usize> {
    form: &'a Form<D>,
    sides: [i32; D],
    number: i32,
}

impl<const D: usize> Lattice<'_, D> {
    fn inside(&self, at: [i32; D]) -> bool {
        at.iter().zip(self.sides).all(|(x, side)| (0..side).contains(x))
    }

    fn name(&self, at: [i32; D]) -> usize {
        at.iter().zip(self.sides).rev().fold(0, |name, (x, side)| x + side * name) as usize
    }

    /// The sides of the lowest layer.
    fn floor(&self) -> [i32; D] {
        let mut sides = self.sides;
        sides[D - 1] = 1;
        sides
    }

    fn weight(&self, offset: [i32; D]) -> [f64; 2] {
        (self.form.kernel)(f64::from(square(offset)).sqrt(), RADIUS)
    }

    fn contact(&self, packed: &mut Packed, model: usize, at: [i32; D], offset: [i32; D]) {
        let r = f64::from(square(offset)).sqrt();
        let [weight, slope] = self.weight(offset);
        packed.name(model, self.name(at));
        packed.double(weight);
        let slope = if r > 0.0 { -slope / r } else { 0.0 };
        packed.doubles(&offset.map(|x| f64::from(x) * slope));
    }

    /// A particle of a fluid, with its contacts: those of the fluid, then those of the wall below.
    fn drop(&self, packed: &mut Packed, fluid: usize, place: [i32; D]) {
        let mixed: i32 = place.iter().zip([7, 3, 1]).map(|(x, times)| x * times).sum();
        let shaken = f64::from((mixed + self.number) % 11) * 0.001 + f64::from(self.number) * 1e-7;
        packed.doubles(&place.map(f64::from));
        packed.doubles(&std::array::from_fn::<_, D, _>(|k| if k == 1 { -shaken } else { shaken }));
        packed.doubles(&std::array::from_fn::<_, D, _>(|k| if k == 1 { shaken } else { 0.0 }));
        packed.doubles(&[0.9, 0.5]);
        let counts = packed.0.len();
        packed.0.extend([0, 0]);
        for offset in offsets() {
            let at = sum(place, offset);
            if self.inside(at) {
                self.contact(packed, fluid, at, offset);
                packed.0[counts] += 1;
            }
        }
        for offset in offsets() {
            let mut at = sum(place, offset);
            at[D - 1] += 1;
            if at[D - 1] == 0 && self.inside(at) {
                self.contact(packed, 0, at, offset);
                packed.0[counts + 1] += 1;
            }
        }
    }

    /// A particle of the wall, with its contacts.
    fn stone(&self, packed: &mut Packed, place: [i32; D]) {
        packed.doubles(&[0.0; D]);
        packed.doubles(&[0.0; D]);
        let count = packed.0.len();
        packed.0.push(0);
        for offset in offsets() {
            let at = sum(place, offset);
            if offset[D - 1] == 0 && self.inside(at) {
                packed.name(0, self.name(at));
                packed.double(self.weight(offset)[0]);
                packed.0[count] += 1;
            }
        }
    }
}

impl<const D: usize> Form<D> {
    /// Fluids with these sides, each upon a wall with the lowest layer's that keeps its forces. The last
    /// iteration is the first that may settle, so all are carried out, under every rule.
    pub fn lattice(&self, fluids: usize, sides: [i32; D], iterations: u8, number: i32) -> Vec<u8> {
        let lattice = Lattice { form: self, sides, number };
        let first = self.versions[0] << 4 | fluids as u8;
        let mut packed = Packed(vec![first, 0x10, iterations.saturating_sub(1), iterations]);
        packed.doubles(&[0.01, 1.0, -1.0]);
        packed.doubles(&std::array::from_fn::<_, D, _>(|k| if k == D - 1 { -9.81 } else { 0.0 }));
        for fluid in 0..fluids {
            packed.0.extend((sides.iter().product::<i32>() as u16).to_be_bytes());
            packed.double(1.0);
            places(0, sides).for_each(|at| lattice.drop(&mut packed, fluid, at));
        }
        let floor = lattice.floor();
        packed.0.extend((0x8000 | floor.iter().product::<i32>() as u16).to_be_bytes());
        places(0, floor).for_each(|at| lattice.stone(&mut packed, at));
        packed.0
    }

    /// The same scene under another rule. Its answers are the same too.
    pub fn under_rule(&self, scene: &[u8], rule: u8) -> Vec<u8> {
        let mut twin = scene.to_vec();
        twin[0] = self.versions[1] << 4 | twin[0] & 15;
        twin[1] |= rule;
        twin
    }
}

/// A flat scene on its way to a solid one.
struct Raised<'a> {
    flat: &'a [u8],
    solid: Vec<u8>,
}

impl Raised<'_> {
    fn copy(&mut self, bytes: usize) -> Vec<u8> {
        let (copied, rest) = self.flat.split_at(bytes);
        self.flat = rest;
        self.solid.extend(copied);
        copied.to_vec()
    }

    fn vectors(&mut self, number: usize) {
        for _ in 0..number {
            self.copy(2 * DOUBLE);
            self.solid.extend([0; DOUBLE]);
        }
    }

    /// A fluid particle: position, velocity, acceleration, volume and warm pressure, then its contacts.
    fn drop(&mut self) {
        self.vectors(3);
        let counts = self.copy(2 * DOUBLE + 2);
        for _ in 0..counts[2 * DOUBLE] as usize + counts[2 * DOUBLE + 1] as usize {
            self.copy(2 + DOUBLE);
            self.vectors(1);
        }
    }

    /// A particle of a wall that keeps its forces.
    fn stone(&mut self) {
        self.vectors(2);
        let count = self.copy(1)[0];
        self.copy(count as usize * (2 + DOUBLE));
    }
}

/// A flat scene of `Form::lattice` with a third axis, on which everything is +0.
pub fn raised(flat: &[u8]) -> Vec<u8> {
    let mut twin = Raised { flat, solid: Vec::new() };
    let first = twin.copy(4 + 3 * DOUBLE);
    twin.vectors(1);
    for _ in 0..first[0] & 15 {
        let head = twin.copy(2 + DOUBLE);
        (0..u16::from_be_bytes([head[0], head[1]])).for_each(|_| twin.drop());
    }
    let wall = twin.copy(2);
    (0..u16::from_be_bytes([wall[0] & 0x7f, wall[1]])).for_each(|_| twin.stone());
    twin.solid[0] = SOLID.versions[1] << 4 | first[0] & 15;
    twin.solid
}
