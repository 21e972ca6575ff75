//! The library's functions as `include/snowgimmer.h` declares them: a slice is a pointer and a length.

unsafe extern "C" {
    // a number in, a number out: safe to call
    pub(crate) safe fn snowgimmer_round_away(x: f64) -> i64;

    pub(crate) fn snowgimmer_nearest(
        weights: *const f64,
        weights_len: usize,
        mu: *const f64,
        mu_len: usize,
        target: *const f64,
        target_len: usize,
        out: *mut i64,
        out_len: usize,
        radius: f64,
        budget: u64,
        first: *mut u64,
        second: *mut u64,
        real: *mut f64,
    ) -> u32;

    pub(crate) fn snowgimmer_nearest_seeded(
        weights: *const f64,
        weights_len: usize,
        mu: *const f64,
        mu_len: usize,
        target: *const f64,
        target_len: usize,
        out: *mut i64,
        out_len: usize,
        candidate: *const i64,
        candidate_len: usize,
        radius: f64,
        budget: u64,
        first: *mut u64,
        second: *mut u64,
        real: *mut f64,
    ) -> u32;

    pub(crate) fn snowgimmer_nearest_ml(
        weights: *const f64,
        weights_len: usize,
        mu: *const f64,
        mu_len: usize,
        target: *const f64,
        target_len: usize,
        out: *mut i64,
        out_len: usize,
        budget: u64,
        first: *mut u64,
        second: *mut u64,
        real: *mut f64,
    ) -> u32;

    pub(crate) fn snowgimmer_prepared_nearest_ml(
        weights: *const f64,
        weights_len: usize,
        mu: *const f64,
        mu_len: usize,
        transform: *const i64,
        transform_len: usize,
        inverse: *const i64,
        inverse_len: usize,
        target: *const f64,
        target_len: usize,
        out: *mut i64,
        out_len: usize,
        budget: u64,
        first: *mut u64,
        second: *mut u64,
        real: *mut f64,
    ) -> u32;

    pub(crate) fn snowgimmer_nearest_named(
        reals: *mut f64,
        reals_len: usize,
        integers: *mut i64,
        integers_len: usize,
        counts: *mut u64,
        counts_len: usize,
        name: u64,
        weights: *const f64,
        weights_len: usize,
        mu: *const f64,
        mu_len: usize,
        target: *const f64,
        target_len: usize,
        out: *mut i64,
        out_len: usize,
        radius: f64,
        budget: u64,
        first: *mut u64,
        second: *mut u64,
        real: *mut f64,
    ) -> u32;

    pub(crate) fn snowgimmer_pick_up(
        reals: *mut f64,
        reals_len: usize,
        integers: *mut i64,
        integers_len: usize,
        counts: *mut u64,
        counts_len: usize,
        name: u64,
        out: *mut i64,
        out_len: usize,
        budget: u64,
        first: *mut u64,
        second: *mut u64,
        real: *mut f64,
    ) -> u32;

    pub(crate) fn snowgimmer_turn(
        reals: *mut f64,
        reals_len: usize,
        integers: *mut i64,
        integers_len: usize,
        counts: *mut u64,
        counts_len: usize,
        last: *mut u64,
        out: *mut i64,
        out_len: usize,
        slice: u64,
        name: *mut u64,
        n: *mut u64,
        first: *mut u64,
        second: *mut u64,
        real: *mut f64,
    ) -> u32;

    pub(crate) fn snowgimmer_list(
        weights: *const f64,
        weights_len: usize,
        mu: *const f64,
        mu_len: usize,
        target: *const f64,
        target_len: usize,
        distances: *mut f64,
        distances_len: usize,
        points: *mut i64,
        points_len: usize,
        radius: f64,
        budget: u64,
        first: *mut u64,
        second: *mut u64,
        real: *mut f64,
    ) -> u32;

    pub(crate) fn snowgimmer_round(
        coefficients: *const f64,
        coefficients_len: usize,
        out: *mut i64,
        out_len: usize,
        first: *mut u64,
        second: *mut u64,
        real: *mut f64,
    ) -> u32;

    pub(crate) fn snowgimmer_nearest_plane(
        weights: *const f64,
        weights_len: usize,
        mu: *const f64,
        mu_len: usize,
        coefficients: *mut f64,
        coefficients_len: usize,
        out: *mut i64,
        out_len: usize,
        first: *mut u64,
        second: *mut u64,
        real: *mut f64,
    ) -> u32;

    pub(crate) fn snowgimmer_distance(
        weights: *const f64,
        weights_len: usize,
        mu: *const f64,
        mu_len: usize,
        target: *const f64,
        target_len: usize,
        point: *const i64,
        point_len: usize,
        first: *mut u64,
        second: *mut u64,
        real: *mut f64,
    ) -> u32;

    pub(crate) fn snowgimmer_change_reference(
        point: *mut i64,
        point_len: usize,
        r: usize,
        first: *mut u64,
        second: *mut u64,
        real: *mut f64,
    ) -> u32;

    pub(crate) fn snowgimmer_check_entry(
        number: u32,
        at: u64,
        index: usize,
        entry: f64,
        first: *mut u64,
        second: *mut u64,
        real: *mut f64,
    ) -> u32;

    pub(crate) fn snowgimmer_ratio(
        distances: *const f64,
        distances_len: usize,
        radius: f64,
        p: u64,
        q: u64,
        first: *mut u64,
        second: *mut u64,
        real: *mut f64,
    ) -> u32;
}
