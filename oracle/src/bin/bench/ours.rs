//! Our step through the C interface, called in two ways.

use crate::timing::Way;

extern "C" {
    fn iisph_needed(scene: *const u8, scene_len: usize, counts: *mut u64, counts_len: usize) -> u64;

    fn iisph_step(
        scene: *const u8,
        scene_len: usize,
        answers: *mut f64,
        answers_len: usize,
        work: *mut f64,
        work_len: usize,
        numbers: *mut f64,
        numbers_len: usize,
        counts: *mut u64,
        counts_len: usize,
    ) -> u64;

    #[cfg(feature = "lent")]
    fn iisph_step_lent(
        scene: *const u8,
        scene_len: usize,
        answers: *mut f64,
        answers_len: usize,
        work: *mut f64,
        work_len: usize,
        index: *mut u64,
        index_len: usize,
        numbers: *mut f64,
        numbers_len: usize,
        counts: *mut u64,
        counts_len: usize,
    ) -> u64;
}

/// What a step returns that is not refused is at most this: the iterations ran out.
const RAN_OUT: u64 = 2;

/// What `iisph_step_lent` returns where the index is too short; the length needed is its first count.
const SHORT_INDEX: u64 = 98;

/// The lengths that the lists for answers and work need.
fn needed(scene: &[u8]) -> [usize; 2] {
    let mut counts = [0; 2];
    let ending = unsafe { iisph_needed(scene.as_ptr(), scene.len(), counts.as_mut_ptr(), 2) };
    assert!(ending == 0, "the archive answers {ending}; for `ihmsen`, `halves` and `flat`, link one that has them");
    counts.map(|count| count as usize)
}

fn step(scene: &[u8], answers: &mut [f64], work: &mut [f64]) -> u64 {
    let (mut numbers, mut counts) = ([0.0; 4], [0; 2]);
    let (a, w) = ((answers.as_mut_ptr(), answers.len()), (work.as_mut_ptr(), work.len()));
    let (n, c) = (numbers.as_mut_ptr(), counts.as_mut_ptr());
    unsafe { iisph_step(scene.as_ptr(), scene.len(), a.0, a.1, w.0, w.1, n, 4, c, 2) }
}

/// What the step with a lent index returns, and its first count.
#[cfg(feature = "lent")]
fn step_lent(scene: &[u8], answers: &mut [f64], work: &mut [f64], index: &mut [u64]) -> (u64, u64) {
    let (mut numbers, mut counts) = ([0.0; 4], [0; 2]);
    let (a, w) = ((answers.as_mut_ptr(), answers.len()), (work.as_mut_ptr(), work.len()));
    let (i, n, c) = ((index.as_mut_ptr(), index.len()), numbers.as_mut_ptr(), counts.as_mut_ptr());
    let ending = unsafe { iisph_step_lent(scene.as_ptr(), scene.len(), a.0, a.1, w.0, w.1, i.0, i.1, n, 4, c, 2) };
    (ending, counts[0])
}

#[cfg(not(feature = "lent"))]
fn step_lent(_: &[u8], _: &mut [f64], _: &mut [f64], _: &mut [u64]) -> (u64, u64) {
    unreachable!("without the feature `lent` no index is lent")
}

/// Our step on the scenes of a row. Each scene has its own answers; the scratch lists are used again
/// by every step, as a caller would.
pub struct Ours<'a> {
    scenes: &'a [Vec<u8>],
    inputs: Vec<Vec<u8>>,
    pub answers: Vec<Vec<f64>>,
    work: Vec<f64>,
    index: Option<Vec<u64>>,
}

impl<'a> Ours<'a> {
    /// By `iisph_step`. A row's scenes need equally long lists.
    pub fn new(scenes: &'a [Vec<u8>]) -> Ours<'a> {
        let [answers, work] = needed(&scenes[0]);
        let (answers, work) = (vec![vec![0.0; answers]; scenes.len()], vec![0.0; work]);
        Ours { scenes, inputs: scenes.to_vec(), answers, work, index: None }
    }

    /// By `iisph_step_lent`, if there is one.
    pub fn lent(scenes: &'a [Vec<u8>]) -> Option<Ours<'a>> {
        if !cfg!(feature = "lent") {
            return None;
        }
        let mut ours = Ours::new(scenes);
        let (ending, length) = step_lent(&scenes[0], &mut ours.answers[0], &mut ours.work, &mut []);
        assert!(ending == SHORT_INDEX, "no index is asked for");
        ours.index = Some(vec![0; length as usize]);
        Some(ours)
    }
}

impl Way for Ours<'_> {
    fn fill(&mut self) {
        self.inputs.iter_mut().zip(self.scenes).for_each(|(input, scene)| input.copy_from_slice(scene));
    }

    fn step_all(&mut self) {
        for (input, answers) in self.inputs.iter().zip(&mut self.answers) {
            let ending = match &mut self.index {
                None => step(input, answers, &mut self.work),
                Some(index) => step_lent(input, answers, &mut self.work, index).0,
            };
            assert!(ending <= RAN_OUT, "refused");
        }
    }
}
