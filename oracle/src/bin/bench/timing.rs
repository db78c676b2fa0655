//! Times ways to step the same scenes, in turn.
//!
//! What a way reads is written anew before each pass over the scenes, the Rust's structures by
//! filling them, our packed bytes by copying them. So both find it in the caches as far as it fits.
//! The clock runs for the steps alone, and what a look at it takes is taken off. Where a pass is
//! short, a timing is the mean of many, each upon fresh inputs.

use std::hint::black_box;
use std::time::{Duration, Instant};

/// A way to step the scenes of a row.
pub trait Way {
    /// Writes a fresh input for each scene.
    fn fill(&mut self);
    /// Steps them all, one after the other.
    fn step_all(&mut self);
}

/// Takes no time but the clock's own.
struct Nothing;

impl Way for Nothing {
    fn fill(&mut self) {}
    fn step_all(&mut self) {}
}

/// A timing has so many passes that it takes these seconds.
const LEAST_TIMING: f64 = 1e-3;

/// So many trials tell how many passes that are, as one alone may have been interrupted.
const TRIALS: usize = 3;

/// Looks at the clock in one trial of how long one takes.
const LOOKS: usize = 10_000;

/// Bytes to walk through where no input shall be in a cache: several times the largest one.
const ALL_CACHES: usize = 256 << 20;
const CACHE_LINE: usize = 64;

pub struct Timer {
    /// Seconds that a pass without steps seems to take.
    look: f64,
    /// What is walked through between filling and stepping; empty where the caches shall be warm.
    walk: Vec<u8>,
}

impl Timer {
    pub fn new(cold: bool) -> Timer {
        let mut timer = Timer { look: 0.0, walk: Vec::new() };
        timer.look = (0..TRIALS).map(|_| timer.mean(&mut Nothing, LOOKS)).fold(f64::INFINITY, f64::min);
        timer.walk = vec![0; if cold { ALL_CACHES } else { 0 }];
        timer
    }

    /// Seconds of a pass, the mean of so many.
    fn mean(&mut self, way: &mut dyn Way, passes: usize) -> f64 {
        let mut sum = Duration::ZERO;
        for _ in 0..passes {
            way.fill();
            self.walk.iter_mut().step_by(CACHE_LINE).for_each(|byte| *byte = black_box(byte.wrapping_add(1)));
            let began = Instant::now();
            way.step_all();
            sum += began.elapsed();
        }
        sum.as_secs_f64() / passes as f64 - self.look
    }

    fn passes(&mut self, way: &mut dyn Way) -> usize {
        let mut passes = 1;
        while (0..TRIALS).any(|_| self.mean(way, passes) * (passes as f64) < LEAST_TIMING) {
            passes *= 2;
        }
        passes
    }

    /// Seconds of a pass, for each way the best of so many timings. The ways take turns.
    pub fn best(&mut self, ways: &mut [&mut dyn Way], repeats: usize) -> Vec<f64> {
        let passes: Vec<usize> = ways.iter_mut().map(|way| self.passes(*way)).collect();
        let mut best = vec![f64::INFINITY; ways.len()];
        for _ in 0..repeats {
            for (k, way) in ways.iter_mut().enumerate() {
                best[k] = best[k].min(self.mean(*way, passes[k]));
            }
        }
        best
    }
}
