//! The port's calls through its C interface, over slices that stand between guards.

use crate::answer::{Answer, Report, before, double_pattern};
use crate::case::{Call, Case};
use oracle::kept::{COUNTS, INTEGERS, NAMES, REALS};

// Each takes its slices as a pointer and a length, and reports through its last three arguments.
#[rustfmt::skip]
unsafe extern "C" {
    fn snowgimmer_round_away(x: f64) -> i64;
    fn snowgimmer_nearest(weights: *const f64, weights_len: usize, mu: *const f64, mu_len: usize,
        target: *const f64, target_len: usize, out: *mut i64, out_len: usize, radius: f64, budget: u64,
        first: *mut u64, second: *mut u64, real: *mut f64) -> u32;
    fn snowgimmer_nearest_seeded(weights: *const f64, weights_len: usize, mu: *const f64, mu_len: usize,
        target: *const f64, target_len: usize, out: *mut i64, out_len: usize, candidate: *const i64,
        candidate_len: usize, radius: f64, budget: u64, first: *mut u64, second: *mut u64, real: *mut f64) -> u32;
    fn snowgimmer_nearest_ml(weights: *const f64, weights_len: usize, mu: *const f64, mu_len: usize,
        target: *const f64, target_len: usize, out: *mut i64, out_len: usize, budget: u64,
        first: *mut u64, second: *mut u64, real: *mut f64) -> u32;
    fn snowgimmer_prepared_nearest_ml(weights: *const f64, weights_len: usize, mu: *const f64, mu_len: usize,
        transform: *const i64, transform_len: usize, inverse: *const i64, inverse_len: usize, target: *const f64,
        target_len: usize, out: *mut i64, out_len: usize, budget: u64,
        first: *mut u64, second: *mut u64, real: *mut f64) -> u32;
    fn snowgimmer_list(weights: *const f64, weights_len: usize, mu: *const f64, mu_len: usize,
        target: *const f64, target_len: usize, distances: *mut f64, distances_len: usize, points: *mut i64,
        points_len: usize, radius: f64, budget: u64, first: *mut u64, second: *mut u64, real: *mut f64) -> u32;
    fn snowgimmer_round(coefficients: *const f64, coefficients_len: usize, out: *mut i64, out_len: usize,
        first: *mut u64, second: *mut u64, real: *mut f64) -> u32;
    fn snowgimmer_nearest_plane(weights: *const f64, weights_len: usize, mu: *const f64, mu_len: usize,
        coefficients: *mut f64, coefficients_len: usize, out: *mut i64, out_len: usize,
        first: *mut u64, second: *mut u64, real: *mut f64) -> u32;
    fn snowgimmer_distance(weights: *const f64, weights_len: usize, mu: *const f64, mu_len: usize,
        target: *const f64, target_len: usize, point: *const i64, point_len: usize,
        first: *mut u64, second: *mut u64, real: *mut f64) -> u32;
    fn snowgimmer_nearest_named(reals: *mut f64, reals_len: usize, integers: *mut i64, integers_len: usize,
        counts: *mut u64, counts_len: usize, name: u64, weights: *const f64, weights_len: usize, mu: *const f64,
        mu_len: usize, target: *const f64, target_len: usize, out: *mut i64, out_len: usize, radius: f64, budget: u64,
        first: *mut u64, second: *mut u64, real: *mut f64) -> u32;
    fn snowgimmer_pick_up(reals: *mut f64, reals_len: usize, integers: *mut i64, integers_len: usize,
        counts: *mut u64, counts_len: usize, name: u64, out: *mut i64, out_len: usize, budget: u64,
        first: *mut u64, second: *mut u64, real: *mut f64) -> u32;
    fn snowgimmer_turn(reals: *mut f64, reals_len: usize, integers: *mut i64, integers_len: usize,
        counts: *mut u64, counts_len: usize, last: *mut u64, out: *mut i64, out_len: usize, slice: u64,
        name: *mut u64, n: *mut u64, first: *mut u64, second: *mut u64, real: *mut f64) -> u32;
}

/// Cells on each side of a slice that nobody may write.
const GUARD: usize = 3;

/// A slice between guards, as bits, so that no NaN passes through a double on the way.
#[derive(Clone)]
struct Lent {
    cells: Vec<u64>,
    before: Vec<u64>,
}

impl Lent {
    fn new(items: impl Iterator<Item = u64>) -> Self {
        let guard = || (0..GUARD).map(|k| double_pattern(k + 99));
        let cells: Vec<u64> = guard().chain(items).chain(guard()).collect();
        Self { before: cells.clone(), cells }
    }

    fn of_doubles(list: &[f64]) -> Self {
        Self::new(list.iter().map(|x| x.to_bits()))
    }

    fn of_integers(list: &[i64]) -> Self {
        Self::new(list.iter().map(|z| z.cast_unsigned()))
    }

    fn doubles(&mut self) -> (*mut f64, usize) {
        let middle = self.middle_mut();
        (middle.as_mut_ptr().cast(), middle.len())
    }

    fn integers(&mut self) -> (*mut i64, usize) {
        let middle = self.middle_mut();
        (middle.as_mut_ptr().cast(), middle.len())
    }

    fn middle_mut(&mut self) -> &mut [u64] {
        let end = self.cells.len() - GUARD;
        &mut self.cells[GUARD..end]
    }

    fn middle(&self) -> &[u64] {
        &self.cells[GUARD..self.cells.len() - GUARD]
    }

    fn same(&self) -> bool {
        self.cells == self.before
    }

    fn guarded(&self) -> bool {
        let end = self.cells.len() - GUARD;
        self.cells[..GUARD] == self.before[..GUARD] && self.cells[end..] == self.before[end..]
    }
}

/// A call's slices. `doubles` are the distances of `list` and the coefficients of `nearest_plane`.
struct Slices {
    weights: Lent,
    mu: Lent,
    target: Lent,
    candidate: Lent,
    transform: Lent,
    inverse: Lent,
    integers: Lent,
    doubles: Lent,
}

impl Slices {
    fn new(case: &Case) -> Self {
        let (integers, doubles) = before(case);
        Self {
            weights: Lent::of_doubles(&case.weights),
            mu: Lent::of_doubles(&case.mu),
            target: Lent::of_doubles(&case.target),
            candidate: Lent::of_integers(&case.candidate),
            transform: Lent::of_integers(&case.transform),
            inverse: Lent::of_integers(&case.inverse),
            integers: Lent::of_integers(&integers),
            doubles: Lent::new(doubles.into_iter()),
        }
    }

    /// What changed that no call may change.
    fn trespasses(&self) -> Vec<&'static str> {
        let checks = [
            (self.weights.same(), "the weights were changed"),
            (self.mu.same(), "mu was changed"),
            (self.target.same(), "the target was changed"),
            (self.candidate.same(), "the candidate was changed"),
            (self.transform.same(), "the transform was changed"),
            (self.inverse.same(), "the inverse was changed"),
            (self.integers.guarded(), "a cell beside the output was changed"),
            (self.doubles.guarded(), "a cell beside the distances or coefficients was changed"),
        ];
        checks.iter().filter(|(kept, _)| !kept).map(|(_, what)| *what).collect()
    }
}

/// The port's answer, and what it changed that no call may change.
#[must_use]
pub fn run(case: &Case) -> (Answer, Vec<&'static str>) {
    let mut slices = Slices::new(case);
    if case.call == Call::RoundAway {
        // SAFETY: it takes a double by value.
        let rounded = unsafe { snowgimmer_round_away(case.target[0]) };
        return (Answer { report: Report::default(), integers: vec![rounded], doubles: Vec::new() }, Vec::new());
    }
    let report = call(case, &mut slices);
    let integers = slices.integers.middle().iter().map(|z| z.cast_signed()).collect();
    let doubles = slices.doubles.middle().to_vec();
    (Answer { report, integers, doubles }, slices.trespasses())
}

fn call(case: &Case, slices: &mut Slices) -> Report {
    let (w, wn) = slices.weights.doubles();
    let (m, mn) = slices.mu.doubles();
    let (t, tn) = slices.target.doubles();
    let (c, cn) = slices.candidate.integers();
    let (p, pn) = slices.transform.integers();
    let (q, qn) = slices.inverse.integers();
    let (o, on) = slices.integers.integers();
    let (d, dn) = slices.doubles.doubles();
    let (r, b) = (case.radius, case.budget);
    // A report that is not written shows as these.
    let (mut first, mut second, mut real) = (double_pattern(1), double_pattern(2), double_pattern(3));
    let (f, s, x) = (&raw mut first, &raw mut second, (&raw mut real).cast::<f64>());
    // SAFETY: each pointer is to as many cells as its length says, and no two overlap.
    let number = unsafe {
        match case.call {
            Call::Nearest => snowgimmer_nearest(w, wn, m, mn, t, tn, o, on, r, b, f, s, x),
            Call::Seeded => snowgimmer_nearest_seeded(w, wn, m, mn, t, tn, o, on, c, cn, r, b, f, s, x),
            Call::Ml => snowgimmer_nearest_ml(w, wn, m, mn, t, tn, o, on, b, f, s, x),
            Call::Prepared => snowgimmer_prepared_nearest_ml(w, wn, m, mn, p, pn, q, qn, t, tn, o, on, b, f, s, x),
            Call::List => snowgimmer_list(w, wn, m, mn, t, tn, d, dn, o, on, r, b, f, s, x),
            Call::Round => snowgimmer_round(t, tn, o, on, f, s, x),
            Call::Plane => snowgimmer_nearest_plane(w, wn, m, mn, d, dn, o, on, f, s, x),
            Call::Distance => snowgimmer_distance(w, wn, m, mn, t, tn, c, cn, f, s, x),
            Call::RoundAway => unreachable!("it has no report"),
        }
    };
    Report { number, first, second, real }
}

/// `nearest` without guards, for timing.
pub fn nearest(case: &Case, out: &mut [i64]) -> Report {
    let Case { weights: w, mu: m, target: t, radius, budget, .. } = case;
    let (mut first, mut second, mut real) = (0, 0, 0.0);
    // SAFETY: each pointer is to as many cells as its length says, and no two overlap.
    #[rustfmt::skip]
    let number = unsafe {
        snowgimmer_nearest(w.as_ptr(), w.len(), m.as_ptr(), m.len(), t.as_ptr(), t.len(), out.as_mut_ptr(),
            out.len(), *radius, *budget, &raw mut first, &raw mut second, &raw mut real)
    };
    Report { number, first, second, real: real.to_bits() }
}

/// `nearest_ml` without guards, for timing.
pub fn nearest_ml(case: &Case, out: &mut [i64]) -> Report {
    let Case { weights: w, mu: m, target: t, budget, .. } = case;
    let (mut first, mut second, mut real) = (0, 0, 0.0);
    // SAFETY: as above.
    #[rustfmt::skip]
    let number = unsafe {
        snowgimmer_nearest_ml(w.as_ptr(), w.len(), m.as_ptr(), m.len(), t.as_ptr(), t.len(), out.as_mut_ptr(),
            out.len(), *budget, &raw mut first, &raw mut second, &raw mut real)
    };
    Report { number, first, second, real: real.to_bits() }
}

/// `prepared_nearest_ml` without guards, for timing.
pub fn prepared_nearest_ml(case: &Case, out: &mut [i64]) -> Report {
    let Case { weights: w, mu: m, target: t, transform: p, inverse: q, budget, .. } = case;
    let (mut first, mut second, mut real) = (0, 0, 0.0);
    // SAFETY: as above.
    #[rustfmt::skip]
    let number = unsafe {
        snowgimmer_prepared_nearest_ml(w.as_ptr(), w.len(), m.as_ptr(), m.len(), p.as_ptr(), p.len(), q.as_ptr(),
            q.len(), t.as_ptr(), t.len(), out.as_mut_ptr(), out.len(), *budget,
            &raw mut first, &raw mut second, &raw mut real)
    };
    Report { number, first, second, real: real.to_bits() }
}

/// `list` without guards, for timing.
pub fn list(case: &Case, distances: &mut [f64], points: &mut [i64]) -> Report {
    let Case { weights: w, mu: m, target: t, radius, budget, .. } = case;
    let (mut first, mut second, mut real) = (0, 0, 0.0);
    // SAFETY: as above.
    #[rustfmt::skip]
    let number = unsafe {
        snowgimmer_list(w.as_ptr(), w.len(), m.as_ptr(), m.len(), t.as_ptr(), t.len(), distances.as_mut_ptr(),
            distances.len(), points.as_mut_ptr(), points.len(), *radius, *budget,
            &raw mut first, &raw mut second, &raw mut real)
    };
    Report { number, first, second, real: real.to_bits() }
}

// ---- kept searches

/// A block of names between guards: the bits of its doubles, its integers and its counts.
#[derive(Clone)]
pub struct Block {
    slices: [Lent; 3],
}

impl Block {
    #[must_use]
    pub fn new(reals: &[u64], integers: &[i64], counts: &[u64]) -> Self {
        let [reals, counts] = [reals, counts].map(|list| Lent::new(list.iter().copied()));
        Self { slices: [reals, Lent::of_integers(integers), counts] }
    }

    /// Eight empty names.
    #[must_use]
    pub fn empty() -> Self {
        let [r, i, c] = [REALS, INTEGERS, COUNTS].map(|size| NAMES * size);
        Self::new(&vec![0; r], &vec![0; i], &vec![0; c])
    }

    #[must_use]
    pub fn guarded(&self) -> bool {
        self.slices.iter().all(Lent::guarded)
    }

    /// The bits of the doubles, the integers and the counts.
    #[must_use]
    pub fn bits(&self) -> [&[u64]; 3] {
        self.slices.each_ref().map(Lent::middle)
    }

    pub fn bits_mut(&mut self) -> [&mut [u64]; 3] {
        self.slices.each_mut().map(Lent::middle_mut)
    }

    fn lent(&mut self) -> [(*mut u64, usize); 3] {
        self.bits_mut().map(|slice| (slice.as_mut_ptr(), slice.len()))
    }
}

/// `nearest_named` with the arguments of a case.
pub fn nearest_named(block: &mut Block, name: u64, case: &Case, out: &mut [i64]) -> Report {
    let Case { weights: w, mu: m, target: t, radius, budget, .. } = case;
    let [(x, xn), (z, zn), (c, cn)] = block.lent();
    let (mut first, mut second, mut real) = (double_pattern(1), double_pattern(2), double_pattern(3));
    // SAFETY: each pointer is to as many cells as its length says, and no two overlap.
    #[rustfmt::skip]
    let number = unsafe {
        snowgimmer_nearest_named(x.cast(), xn, z.cast(), zn, c, cn, name, w.as_ptr(), w.len(), m.as_ptr(), m.len(),
            t.as_ptr(), t.len(), out.as_mut_ptr(), out.len(), *radius, *budget,
            &raw mut first, &raw mut second, (&raw mut real).cast())
    };
    Report { number, first, second, real }
}

pub fn pick_up(block: &mut Block, name: u64, out: &mut [i64], budget: u64) -> Report {
    let [(x, xn), (z, zn), (c, cn)] = block.lent();
    let (mut first, mut second, mut real) = (double_pattern(1), double_pattern(2), double_pattern(3));
    // SAFETY: as above.
    #[rustfmt::skip]
    let number = unsafe {
        snowgimmer_pick_up(x.cast(), xn, z.cast(), zn, c, cn, name, out.as_mut_ptr(), out.len(), budget,
            &raw mut first, &raw mut second, (&raw mut real).cast())
    };
    Report { number, first, second, real }
}

/// What a turn tells: the name that it served, the n of its search, and the answer.
#[derive(Clone, Copy, PartialEq, Eq, Debug)]
pub struct Turn {
    pub name: u64,
    pub n: u64,
    pub report: Report,
}

/// # Panics
///
/// If a cell beside `last` or beside what is told was changed.
pub fn turn(block: &mut Block, last: &mut u64, out: &mut [i64], slice: u64) -> Turn {
    let [(x, xn), (z, zn), (c, cn)] = block.lent();
    // Every other cell is lent, and those between nobody may write.
    let mut cells: [u64; 13] = std::array::from_fn(double_pattern);
    cells[1] = *last;
    let [_, l, _, name, _, n, _, first, _, second, _, real, _] = cells.each_mut().map(|cell| &raw mut *cell);
    // SAFETY: as above.
    #[rustfmt::skip]
    let number = unsafe {
        snowgimmer_turn(x.cast(), xn, z.cast(), zn, c, cn, l, out.as_mut_ptr(), out.len(), slice,
            name, n, first, second, real.cast())
    };
    assert!((0..13).step_by(2).all(|k| cells[k] == double_pattern(k)), "a cell beside a told number was changed");
    let [_, l, _, name, _, n, _, first, _, second, _, real, _] = cells;
    *last = l;
    Turn { name, n, report: Report { number, first, second, real } }
}
