//! Random job files: each is fixed by the run's seed and its own number.

use super::layout::{self, Job, Sections};
use crate::case::{Call, Case};
use crate::paper::LARGEST_N;
use crate::random::{self, BAD_BUDGETS, BAD_MU, BAD_TARGETS, BAD_WEIGHTS, LONG, SHORT};
use crate::reach::{distances, reach};
use crate::rng::Rng;
use crate::values;

/// p and q of a job without settings.
const FACTORS: [u64; 2] = [3, 1];
const LARGEST_FACTOR: u64 = 1000;
/// The most places of a job's list.
const MOST_PLACES: u64 = 256;

#[must_use]
pub fn bytes(seed: u64, number: u64) -> Vec<u8> {
    // Other numbers than those of the random case.
    let rng = &mut Rng::of_case(!seed, number);
    let mut sections = sound(rng).sections();
    faults(rng, &mut sections);
    let bytes = if rng.once_in(8) { layout::broken(rng, sections) } else { layout::bytes(&sections) };
    // What is a job now may have a long walk.
    let Some(mut job) = Job::read(&bytes) else { return bytes };
    random::hold_budget(&mut job.case);
    job.bytes()
}

/// A job that no check refuses but that of the settings.
fn sound(rng: &mut Rng) -> Job {
    let crowded = rng.once_in(80);
    let cap = if crowded || rng.once_in(200) { LONG } else { SHORT };
    let mut case = if crowded { crowded_list(rng) } else { random::over_table(rng, Call::List) };
    let mut near = distances(&case, cap);
    for _ in 0..rng.below(5) {
        if near.is_empty() {
            case.radius = random::radius(rng, &case);
            near = distances(&case, cap);
        }
    }
    let factors = factors(rng, &near);
    if rng.once_in(3) {
        case.radius = radius(rng, &near, factors).unwrap_or(case.radius);
    }
    random::budget(rng, &mut case, cap);
    if rng.once_in(5) {
        case.budget = nearest_budget(rng, &case).unwrap_or(case.budget);
    }
    let settings = settings(rng, factors, case.places as u64);
    Job::new(case, settings)
}

/// About as many points as a job's list can have: one level is wide, and each other has one integer.
fn crowded_list(rng: &mut Rng) -> Case {
    let n = 1 + rng.below(LARGEST_N);
    let wide = rng.below(n);
    let mut weights = vec![2f64.powi(60); n];
    weights[wide] = rng.pick(&[0.25, 1.0, 3.0]);
    let mut target: Vec<f64> = (0..n).map(|_| rng.sign() * rng.below(1 << 52) as f64).collect();
    target[wide] = rng.pick(&[0.0, 0.25, 0.5, -1000.5]);
    let reach = rng.pick(&[127.0, 127.5, 128.0, 128.5]);
    Case::new(Call::List, &weights, &vec![0.0; n * n], &target, weights[wide] * reach * reach, 0)
}

/// In range, and often with p/q beside or below the ratio of the first two distances.
fn factors(rng: &mut Rng, distances: &[f64]) -> [u64; 2] {
    if rng.once_in(2) {
        return FACTORS;
    }
    let most = rng.pick(&[1, 4, LARGEST_FACTOR]);
    let q = 1 + rng.below(most as usize) as u64;
    let any = |rng: &mut Rng, most: u64| q + rng.below((most - q + 1) as usize) as u64;
    let p = match distances {
        [first, second, ..] if !rng.once_in(4) => {
            let beside = ((q as f64 * second / first) as u64).clamp(q, LARGEST_FACTOR);
            let below = any(rng, beside);
            rng.pick(&[beside, (beside + 1).min(LARGEST_FACTOR), below])
        }
        _ => any(rng, LARGEST_FACTOR),
    };
    [p, q]
}

/// At p·d1/q or the second distance, or beside them: there the verdicts part.
fn radius(rng: &mut Rng, distances: &[f64], [p, q]: [u64; 2]) -> Option<f64> {
    let edge = p as f64 * distances.first()? / q as f64;
    let radius = match distances.get(1) {
        Some(&second) if rng.once_in(3) => second,
        _ => edge,
    };
    Some(random::held(rng.pick(&[radius, radius.next_up(), radius.next_down().max(0.0)])))
}

/// At the count of the nearest search or beside it; the list's is larger.
fn nearest_budget(rng: &mut Rng, case: &Case) -> Option<u64> {
    let nearest = Case { call: Call::Nearest, places: case.weights.len(), ..case.clone() };
    let nodes = reach(&nearest, SHORT)?;
    Some(rng.pick(&[nodes, nodes + 1, nodes.saturating_sub(1)]))
}

/// None, the default, or the factors with the places, also at the ends of their ranges and beyond.
fn settings(rng: &mut Rng, factors: [u64; 2], places: u64) -> Option<[u64; 3]> {
    let [p, q] = factors;
    let mut settings = [p, q, places.clamp(1, MOST_PLACES)];
    match rng.below(10) {
        0..4 if factors == FACTORS => return None,
        4 => settings[2] = MOST_PLACES,
        5 => (0..1 + rng.below(2)).for_each(|_| at_an_end(rng, &mut settings)),
        _ => {}
    }
    Some(settings)
}

fn at_an_end(rng: &mut Rng, settings: &mut [u64; 3]) {
    let [p, q, places] = *settings;
    let high = 1 << (32 + rng.below(32));
    match rng.below(3) {
        0 => settings[0] = rng.pick(&[0, 1, 1000, 1001, q, q.wrapping_sub(1), p | high, u64::MAX]),
        1 => settings[1] = rng.pick(&[0, 1, 1000, 1001, p, p.wrapping_add(1), q | high, u64::MAX]),
        _ => settings[2] = rng.pick(&[0, 1, 255, 256, 257, places | high, u64::MAX]),
    }
}

// ---- faults

/// None in most jobs, else one or two, of two different sections.
fn faults(rng: &mut Rng, sections: &mut Sections) {
    let count = rng.pick(&[0, 0, 0, 0, 0, 0, 0, 0, 1, 2]);
    let (first, step) = (rng.below(5), 1 + rng.below(4));
    for section in [first, (first + step) % 5].into_iter().take(count) {
        let item = bad_item(rng, section);
        if !sections[section].is_empty() {
            let place = rng.below(sections[section].len());
            sections[section][place] = item;
        }
    }
}

/// What its check refuses, in some cases any double.
fn bad_item(rng: &mut Rng, section: usize) -> u64 {
    let double = match (section, rng.below(6)) {
        (4, _) => return rng.pick(&BAD_BUDGETS),
        (_, 0) => random::nan(rng),
        (_, 1) => values::any(rng),
        (0, _) => rng.pick(&BAD_WEIGHTS),
        (1, _) => rng.pick(&BAD_MU),
        (2, _) => rng.pick(&BAD_TARGETS),
        _ => random::bad_radius(rng),
    };
    double.to_bits()
}
