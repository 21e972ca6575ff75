//! Random cases: each is fixed by the run's seed and its own number.

mod prepared;
mod running;

use crate::case::{Call, Case};
use crate::paper::{self, LARGEST_N, LARGEST_SEARCHED, LIMIT, MOST_NODES, MOST_PLACES};
use crate::reach::{points, reach};
use crate::rng::Rng;
use crate::values::{self, SMALLEST};

/// A short walk's most nodes, and those of one in 200.
pub const SHORT: u64 = 1_500;
pub const LONG: u64 = 20_000;

#[must_use]
pub fn case(seed: u64, number: u64) -> Case {
    let rng = &mut Rng::of_case(seed, number);
    let call = match rng.below(100) {
        0..20 => Call::Nearest,
        20..38 => Call::Seeded,
        38..52 => Call::Ml,
        52..67 => Call::Prepared,
        67..85 => Call::List,
        85..88 => Call::Round,
        88..94 => Call::Plane,
        94..96 => Call::RoundAway,
        _ => Call::Distance,
    };
    let mut case = match call {
        Call::Prepared => prepared::case(rng),
        Call::Nearest | Call::List if rng.once_in(4) => running::case(rng, call),
        _ if call.takes_table() => over_table(rng, call),
        _ => rounding(rng, call),
    };
    let faults = match rng.below(100) {
        0..78 => 0,
        78..90 => 1,
        90..96 => 2,
        _ => 3,
    };
    for _ in 0..faults {
        fault(rng, &mut case);
    }
    // Faults may undo each other and leave a sound case with a long walk.
    if faults > 0 {
        hold_budget(&mut case);
    }
    case
}

/// Stops a walk that is longer than a long one by its budget.
pub fn hold_budget(case: &mut Case) {
    if case.budget > LONG && paper::refusal(case).is_none() && reach(case, LONG).is_none() {
        case.budget = LONG;
    }
}

fn rounding(rng: &mut Rng, call: Call) -> Case {
    let n = if call == Call::RoundAway { 1 } else { rng.below(7) };
    let target: Vec<f64> = (0..n).map(|_| values::any(rng)).collect();
    let mut case = Case::new(call, &[], &[], &target, 0.0, 0);
    case.places = n;
    case
}

/// A sound case of a call that takes a table.
pub fn over_table(rng: &mut Rng, call: Call) -> Case {
    let (weights, mu, mut target) = values::table(rng);
    if call == Call::Plane && rng.once_in(2) {
        target = coefficients(rng, target.len());
    }
    let candidate = values::candidate(rng, &mu, &target);
    let mut case = Case::new(call, &weights, &mu, &target, 0.0, 0).with_candidate(&candidate);
    case.radius = radius(rng, &case);
    // A smaller ball, where the first one holds more than a short walk opens.
    let cap = if rng.once_in(200) { LONG } else { SHORT };
    for _ in 0..rng.below(4) {
        if call.takes_radius() && reach(&case, cap).is_none() {
            case.radius = radius(rng, &case);
        }
    }
    budget(rng, &mut case, cap);
    case
}

/// `nearest_plane` takes coefficients of any size.
fn coefficients(rng: &mut Rng, n: usize) -> Vec<f64> {
    let finite = |x: f64| if x.is_finite() { x } else { f64::MAX.copysign(x) };
    let far = rng.once_in(2);
    (0..n).map(|_| finite(if far { rng.sign() * rng.scaled(900, 1023) } else { values::any(rng) })).collect()
}

// ---- radius and budget

/// A computed distance and its neighbours; a share of the weights; the ends of the range.
pub fn radius(rng: &mut Rng, case: &Case) -> f64 {
    let n = case.weights.len();
    let of = |z: &[i64]| paper::distance(&case.weights, &case.mu, &case.target, z);
    if case.call == Call::Seeded && !rng.once_in(8) {
        let d = of(&case.candidate);
        let larger = d * rng.uniform(1.0, 3.0);
        return held(rng.pick(&[d, d, d.next_up(), d * 1.5, larger, d.next_down()]));
    }
    let sum: f64 = case.weights.iter().sum();
    let small = case.weights.iter().copied().fold(f64::MAX, f64::min);
    match rng.below(14) {
        0 => rng.pick(&[0.0, -0.0]),
        1..6 => {
            let mut z = paper::plane(&case.mu, &mut case.target.clone());
            for _ in 0..rng.below(3).min(n) {
                let level = rng.below(n);
                z[level] = z[level].saturating_add(rng.below(3) as i64 - 1);
            }
            let d = of(&z);
            held(rng.pick(&[d, d, d.next_up(), d.next_down(), d * 1.25, d * 2.0]))
        }
        6..9 => held(sum * rng.uniform(0.0, 0.5)),
        9 => held(sum * rng.uniform(0.0, 4.0)),
        10 => held(small * rng.pick(&[0.25, 1.0, 2.0, 4.0])),
        11 if rng.once_in(2) => 1.0 + f64::EPSILON * rng.below(9) as f64,
        11 => rng.pick(&[f64::MAX, f64::MAX / 2.0, SMALLEST, f64::MIN_POSITIVE, 1.0, 2.0]),
        // Around the largest radius that can be widened.
        12 => f64::from_bits(f64::MAX.to_bits() - rng.below(20 * n + 1) as u64),
        _ => rng.scaled(-1000, 1000),
    }
}

/// The radius, and in place of an infinite one the largest double.
#[must_use]
pub fn held(radius: f64) -> f64 {
    if radius.is_finite() { radius } else { f64::MAX }
}

/// A budget around the walk's count or far above it; where the walk is long, one that stops it.
pub fn budget(rng: &mut Rng, case: &mut Case, cap: u64) {
    case.budget = match reach(case, cap) {
        None => {
            let most = cap as usize >> rng.below(12);
            rng.below(most + 1) as u64
        }
        Some(nodes) => match rng.below(10) {
            0 | 1 => nodes,
            2 => nodes.saturating_sub(1),
            3 => nodes + 1,
            4 => rng.below(nodes as usize + 1) as u64,
            5 => MOST_NODES,
            6 => rng.below(1 << 60) as u64,
            7 => rng.below(4) as u64,
            _ => nodes + rng.below(1000) as u64,
        },
    };
    if case.call == Call::List {
        places(rng, case, cap);
    }
}

/// Places around the number of points.
fn places(rng: &mut Rng, case: &mut Case, cap: u64) {
    let found = if paper::refusal(case).is_none() { points(case, case.budget.min(cap)) } else { 0 };
    let places = match rng.below(20) {
        0..8 => found,
        8..11 => found.saturating_sub(1),
        11..14 => found + 1,
        14..16 => found + rng.below(9),
        16..18 => rng.below(found + 1),
        18 => 0,
        _ if rng.once_in(10) => MOST_PLACES - rng.below(2),
        _ => 256,
    };
    case.places = places.min(MOST_PLACES);
    case.points = case.places * case.weights.len();
}

// ---- faults: what a check refuses, or what it must not look at

pub const BAD_MU: [f64; 5] = [f64::NAN, f64::INFINITY, -1e300, LIMIT.next_up(), -2.0 * LIMIT];
pub const BAD_WEIGHTS: [f64; 6] = [0.0, -0.0, -1.0, f64::NAN, f64::INFINITY, -SMALLEST];
pub const BAD_TARGETS: [f64; 5] = [f64::NAN, f64::NEG_INFINITY, LIMIT.next_up(), -LIMIT - 1.0, f64::MAX];
pub const BAD_BUDGETS: [u64; 5] = [MOST_NODES + 1, u64::MAX, 1 << 63, MOST_NODES + 2, 1 << 61];

fn fault(rng: &mut Rng, case: &mut Case) {
    if case.call.takes_matrices() && rng.once_in(2) {
        return prepared::fault(rng, case);
    }
    match rng.below(13) {
        0 => resize(rng, &mut case.weights, 1.0),
        1 => resize(rng, &mut case.mu, 0.0),
        2 | 3 => resize(rng, &mut case.target, 0.5),
        4 => resize(rng, &mut case.candidate, 0),
        5 => case.places = other_length(rng, case.places),
        6 => case.points = other_length(rng, case.points),
        7 => set(rng, &mut case.mu, &BAD_MU),
        8 => set(rng, &mut case.weights, &BAD_WEIGHTS),
        9 => set(rng, &mut case.target, &BAD_TARGETS),
        10 => case.radius = bad_radius(rng),
        11 => case.budget = rng.pick(&BAD_BUDGETS),
        _ => match case.call {
            Call::List if rng.once_in(2) => *case = case.clone().with_places(MOST_PLACES + 1 + rng.below(3)),
            Call::RoundAway | Call::Round => case.places += 1,
            _ => large(rng, case),
        },
    }
    if case.call == Call::RoundAway {
        case.target.resize(1, 0.5);
    }
}

/// A table of the right shape and with too many dimensions: for some calls, or for all.
fn large(rng: &mut Rng, case: &mut Case) {
    let largest = rng.pick(&[LARGEST_N, case.call.largest(), LARGEST_SEARCHED]);
    let n = largest + 1 + rng.below(3);
    case.weights.resize(n, 1.0);
    case.mu.resize(n * n, 0.0);
    if rng.once_in(2) {
        case.target.resize(n, 0.0);
        *case = if case.call == Call::List { case.clone().with_places(n) } else { Case { places: n, ..case.clone() } };
    }
}

fn other_length(rng: &mut Rng, len: usize) -> usize {
    match rng.below(5) {
        0 => 0,
        1 => len.saturating_sub(2),
        2 => len.saturating_sub(1),
        3 => len + 1,
        _ => len + 2,
    }
}

pub fn resize<T: Clone>(rng: &mut Rng, list: &mut Vec<T>, item: T) {
    let len = other_length(rng, list.len());
    list.resize(len, item);
}

fn set(rng: &mut Rng, list: &mut [f64], values: &[f64]) {
    if !list.is_empty() {
        let place = rng.below(list.len());
        list[place] = rng.pick(values);
    }
}

/// Negative or not finite; NaNs with payloads that a refusal must hand back.
pub fn bad_radius(rng: &mut Rng) -> f64 {
    match rng.below(4) {
        0 => rng.pick(&[-SMALLEST, -1.0, f64::MIN, -f64::MIN_POSITIVE]),
        1 => rng.pick(&[f64::INFINITY, f64::NEG_INFINITY]),
        _ => nan(rng),
    }
}

/// NaNs of both kinds and signs.
pub fn nan(rng: &mut Rng) -> f64 {
    f64::from_bits(0x7ff0_0000_0000_0001 | (rng.bits() & 0x800f_ffff_ffff_ffff))
}
