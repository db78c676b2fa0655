// The functions of include/iisph.h.
extern "C" {
    #[allow(clippy::too_many_arguments)]
    pub fn iisph_step(
        scene: *const u8,
        scene_len: usize,
        answers: *mut f64,
        answers_len: usize,
        work: *mut f64,
        work_len: usize,
        numbers: *mut f64,
        numbers_len: usize,
        counts: *mut u64,
        counts_len: usize,
    ) -> u64;
    #[allow(clippy::too_many_arguments)]
    pub fn iisph_step_lent(
        scene: *const u8,
        scene_len: usize,
        answers: *mut f64,
        answers_len: usize,
        work: *mut f64,
        work_len: usize,
        index: *mut u64,
        index_len: usize,
        numbers: *mut f64,
        numbers_len: usize,
        counts: *mut u64,
        counts_len: usize,
    ) -> u64;
    #[allow(clippy::too_many_arguments)]
    pub fn iisph_step_keeping(
        scene: *const u8,
        scene_len: usize,
        clock: *mut f64,
        clock_len: usize,
        answers: *mut f64,
        answers_len: usize,
        work: *mut f64,
        work_len: usize,
        numbers: *mut f64,
        numbers_len: usize,
        counts: *mut u64,
        counts_len: usize,
    ) -> u64;
    pub fn iisph_needed(scene: *const u8, scene_len: usize, counts: *mut u64, counts_len: usize) -> u64;
    pub fn iisph_validate(
        scene: *const u8,
        scene_len: usize,
        work: *mut f64,
        work_len: usize,
        counts: *mut u64,
        counts_len: usize,
    ) -> u64;
    pub fn iisph_check_list(
        scene: *const u8,
        scene_len: usize,
        contacts: u64,
        model: usize,
        particle: usize,
        counts: *mut u64,
        counts_len: usize,
    ) -> u64;
    pub fn iisph_weight(r: f64, h: f64, out: *mut f64, out_len: usize) -> u64;
    pub fn iisph_slope(r: f64, h: f64, out: *mut f64, out_len: usize) -> u64;
    pub fn iisph_weight_2d(r: f64, h: f64, out: *mut f64, out_len: usize) -> u64;
    pub fn iisph_slope_2d(r: f64, h: f64, out: *mut f64, out_len: usize) -> u64;
    pub fn iisph_board_weight(q: u32) -> u32;
}
