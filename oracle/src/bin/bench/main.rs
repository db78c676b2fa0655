//! Times our step and the Rust's on the same packed lattice scenes, in one process. Ours takes the
//! packed scene, so it also checks and decodes it; the Rust's structures are filled before the clock
//! starts. With libiisph_c.a built (`rt lib` in crates/iisph_c), in the folder oracle:
//!   cargo run --release --offline --features bench,lent --bin bench -- \
//!       [REPEATS [SIZES [ihmsen] [halves] [flat [solid]]]]
//!
//! Times are the best of REPEATS (15). SIZES, such as 1,8,10000x8, names those of the first column
//! that are to be timed; `all`, or none, stands for all. With the word `ihmsen`, `iisph_step` is also
//! timed on each scene under the rule of Ihmsen et al. 2014; with the word `halves`, under the Rust's
//! rule summed by halves. With the word `flat` the scenes have two axes, with as many particles, and
//! the Rust is the one that is built so; with the word `solid` behind it, `iisph_step` is also timed on
//! each of these scenes with a third axis, of +0. Without the feature `lent` an archive can be linked
//! that has no `iisph_step_lent`.
//!
//! `bench scenes FOLDER` times nothing and writes the first scene of each row for checks/bench_turns.py,
//! as solid-, flat- and raised-, which is the flat one with a third axis, then the size and iterations.

mod lattice;
mod ours;
mod rusts;
mod timing;

use lattice::Form;
use ours::Ours;
use rusts::{compare, Rusts};
use timing::{Timer, Way};
use Scenes::{Different, Same};

/// The last column is that of `iisph_step`: nanoseconds for each contact in each iteration.
const HEAD: &str = "particles contacts iterations    step ms    lent ms    rust ms  step/rust  lent/rust  ns/contact";

/// A rule beside the Rust's, which a word asks for.
struct Rule {
    word: &'static str,
    number: u8,
}

/// In the order of their columns.
const RULES: [Rule; 2] = [Rule { word: "ihmsen", number: 1 }, Rule { word: "halves", number: 2 }];

/// Asks for the scenes of two axes, and for these with a third one.
const FLAT: &str = "flat";
const SOLID: &str = "solid";

/// What the words ask for.
struct Asked {
    rules: Vec<&'static Rule>,
    flat: bool,
    solid: bool,
}

impl Asked {
    /// None if a word is misspelt, twice there, or without the one that it needs.
    fn by(words: &[String]) -> Option<Asked> {
        let has = |name| words.iter().any(|word| word == name);
        let rules: Vec<&Rule> = RULES.iter().filter(|rule| has(rule.word)).collect();
        let (flat, solid) = (has(FLAT), has(SOLID));
        let known = rules.len() + usize::from(flat) + usize::from(solid);
        (words.len() == known && (flat || !solid)).then_some(Asked { rules, flat, solid })
    }

    /// What is timed beside the scenes themselves, in the order of the columns.
    fn others(&self) -> impl Iterator<Item = &'static str> + '_ {
        self.rules.iter().map(|rule| rule.word).chain(self.solid.then_some(SOLID))
    }

    /// The heads of these columns; `step` is the time of the scenes themselves.
    fn head(&self) -> String {
        self.others().map(|word| format!("  {word} ms {word}/step")).collect()
    }
}

/// The fluids' sides are those of a cube, or of a rectangle with as many particles.
struct Size {
    name: &'static str,
    fluids: usize,
    side: i32,
    flat: [i32; 2],
    scenes: Scenes,
    iterations: &'static [u8],
}

/// What one pass steps.
enum Scenes {
    /// So many copies of one scene; a row tells the time of one step. More than one only where a step
    /// is hardly longer than a look at the clock, and no more than stand in the first cache: with
    /// eight states of one particle the Rust's step would be slower by 7 per cent than with four.
    Same(usize),
    /// So many different scenes, none of them in a cache; a row tells the time of all steps together.
    Different(usize),
}

/// With three axes: position, velocity and pressure of a fluid particle; volume and force of the wall's.
const FLUID_ANSWERS: usize = 7;
const WALL_ANSWERS: usize = 4;

const USUAL: &[u8] = &[0, 2, 50];

const SIZES: [Size; 8] = [
    Size { name: "1", fluids: 1, side: 1, flat: [1, 1], scenes: Same(4), iterations: USUAL },
    Size { name: "8", fluids: 1, side: 2, flat: [4, 2], scenes: Same(1), iterations: USUAL },
    Size { name: "64", fluids: 1, side: 4, flat: [8, 8], scenes: Same(1), iterations: USUAL },
    Size { name: "512", fluids: 1, side: 8, flat: [32, 16], scenes: Same(1), iterations: USUAL },
    Size { name: "1000", fluids: 1, side: 10, flat: [40, 25], scenes: Same(1), iterations: USUAL },
    Size { name: "4096", fluids: 1, side: 16, flat: [64, 64], scenes: Same(1), iterations: USUAL },
    Size { name: "32768", fluids: 8, side: 16, flat: [64, 64], scenes: Same(1), iterations: USUAL },
    Size { name: "10000x8", fluids: 1, side: 2, flat: [4, 2], scenes: Different(10_000), iterations: &[2] },
];

impl Size {
    /// The scenes of a row, those under each rule, and the Rust of their axes.
    fn scenes(&self, iterations: u8, asked: &Asked) -> (Vec<Vec<u8>>, Vec<Vec<Vec<u8>>>, Box<dyn Rusts>) {
        if asked.flat {
            let (packed, twins) = self.packed(&lattice::FLAT, self.flat, iterations, &asked.rules);
            let rust = Box::new(rusts::Flat::new(&packed));
            (packed, twins, rust)
        } else {
            let (packed, twins) = self.packed(&lattice::SOLID, [self.side; _], iterations, &asked.rules);
            let rust = Box::new(rusts::Solid::new(&packed));
            (packed, twins, rust)
        }
    }

    fn packed<const D: usize>(
        &self,
        form: &Form<D>,
        sides: [i32; D],
        iterations: u8,
        rules: &[&Rule],
    ) -> (Vec<Vec<u8>>, Vec<Vec<Vec<u8>>>) {
        let scene = |number| form.lattice(self.fluids, sides, iterations, number);
        let packed: Vec<Vec<u8>> = match self.scenes {
            Same(copies) => vec![scene(0); copies],
            Different(count) => (0..count as i32).map(scene).collect(),
        };
        let under = |rule: &&Rule| packed.iter().map(|scene| form.under_rule(scene, rule.number)).collect();
        let twins = rules.iter().map(under).collect();
        (packed, twins)
    }

    /// The answers of scenes with a third axis without it.
    fn flattened(&self, answers: &[Vec<f64>]) -> Vec<Vec<f64>> {
        let fluids = FLUID_ANSWERS * self.fluids * self.flat.iter().product::<i32>() as usize;
        let of = |list: &Vec<f64>| {
            let (drops, stones) = list.split_at(fluids);
            let drops = drops.chunks(FLUID_ANSWERS).flat_map(|a| [a[0], a[1], a[3], a[4], a[6]]);
            drops.chain(stones.chunks(WALL_ANSWERS).flat_map(|a| [a[0], a[1], a[2]])).collect()
        };
        answers.iter().map(of).collect()
    }

    /// Times one row and prints it.
    fn row(&self, iterations: u8, repeats: usize, asked: &Asked) {
        let (packed, twins, mut rust) = self.scenes(iterations, asked);
        let solid: Option<Vec<Vec<u8>>> =
            asked.solid.then(|| packed.iter().map(|scene| lattice::raised(scene)).collect());
        let (mut step, mut lent) = (Ours::new(&packed), Ours::lent(&packed));
        let mut others: Vec<Ours> = twins.iter().chain(&solid).map(|scenes| Ours::new(scenes)).collect();
        let mut ways: Vec<&mut dyn Way> = vec![&mut *rust, &mut step];
        ways.extend(lent.iter_mut().chain(&mut others).map(|way| way as &mut dyn Way));
        let times = Timer::new(matches!(self.scenes, Different(_))).best(&mut ways, repeats);
        let answers = rust.answers();
        let (ruled, raised) = others.split_at(twins.len());
        [&step].into_iter().chain(&lent).chain(ruled).for_each(|ours| compare(&answers, &ours.answers));
        raised.iter().for_each(|ours| compare(&answers, &self.flattened(&ours.answers)));
        let told = if matches!(self.scenes, Same(_)) { 1 } else { packed.len() };
        let contacts = told * rust.contacts();
        let mut ms = times.iter().map(|pass| pass * 1e3 * told as f64 / packed.len() as f64);
        let mut next = || ms.next().expect("every way has a time");
        let (rust, step, lent) = (next(), next(), lent.map(|_| next()));
        let others: String = asked.others().map(|_| beside(next(), step)).collect();
        let columns = columns(rust, step, lent, contacts * iterations as usize);
        println!("{:>9} {contacts:8} {iterations:10} {columns}{others}", self.name);
    }
}

/// The columns of what is timed beside the scenes themselves.
fn beside(ms: f64, step: f64) -> String {
    format!(" {:>10} {:11.3}", digits(ms), ms / step)
}

/// The columns from the times of the Rust, of ours and, if there is one, of ours with a lent index.
fn columns(rust: f64, step: f64, lent: Option<f64>, contacts: usize) -> String {
    let or_dash = |text: Option<String>| text.unwrap_or("-".to_string());
    let (lent_ms, lent_times) = (lent.map(digits), lent.map(|ms| format!("{:.3}", ms / rust)));
    let each = (contacts > 0).then(|| format!("{:.3}", step * 1e6 / contacts as f64));
    let (lent_ms, lent_times, each) = (or_dash(lent_ms), or_dash(lent_times), or_dash(each));
    let (step_ms, rust_ms, times) = (digits(step), digits(rust), step / rust);
    format!("{step_ms:>10} {lent_ms:>10} {rust_ms:>10} {times:10.3} {lent_times:>10} {each:>11}")
}

/// Four digits that count.
fn digits(x: f64) -> String {
    format!("{x:.*}", (3.0 - x.log10().floor()).max(0.0) as usize)
}

fn write_scenes(folder: &str) -> std::io::Result<()> {
    for size in &SIZES {
        for iterations in size.iterations {
            let file = |kind| format!("{folder}/{kind}-{}-{iterations}", size.name);
            let flat = lattice::FLAT.lattice(size.fluids, size.flat, *iterations, 0);
            std::fs::write(file("solid"), lattice::SOLID.lattice(size.fluids, [size.side; _], *iterations, 0))?;
            std::fs::write(file("raised"), lattice::raised(&flat))?;
            std::fs::write(file("flat"), flat)?;
        }
    }
    Ok(())
}

fn wrong_use() -> ! {
    let names = SIZES.map(|size| size.name).join(",");
    eprintln!("use: bench [REPEATS [SIZES [ihmsen] [halves] [flat [solid]]]], a number, and all or some of {names}");
    eprintln!("or:  bench scenes FOLDER");
    std::process::exit(2)
}

fn main() {
    let all: Vec<String> = std::env::args().skip(1).collect();
    if let [word, folder] = &all[..] {
        if word == "scenes" {
            return write_scenes(folder).unwrap_or_else(|e| {
                eprintln!("{folder}: {e}");
                std::process::exit(2)
            });
        }
    }
    let mut arguments = all.into_iter();
    let repeats: usize = arguments.next().map_or(15, |text| text.parse().unwrap_or_else(|_| wrong_use()));
    let listed = arguments.next().filter(|text| text != "all");
    let wanted: Option<Vec<&str>> = listed.as_ref().map(|text| text.split(',').collect());
    let known = |name: &&str| SIZES.iter().any(|size| size.name == *name);
    let words: Vec<String> = arguments.collect();
    let asked = Asked::by(&words).unwrap_or_else(|| wrong_use());
    if repeats == 0 || !wanted.iter().flatten().all(known) {
        wrong_use();
    }
    println!("{HEAD}{}", asked.head());
    for size in SIZES.iter().filter(|size| wanted.as_ref().is_none_or(|names| names.contains(&size.name))) {
        size.iterations.iter().for_each(|iterations| size.row(*iterations, repeats, &asked));
    }
}
