//! What the job program must print for a job's bytes.
//!
//! The original's: the points, the counts, the distances, the list's order and refusals 7, 8, 15 and 16. What it does
//! not hand out: a list's nodes are the least budget that it accepts, the distance of the nearest point is that of its
//! `triangular_distance`. Worked out here, by the specification: the layout with refusal 1, the settings with refusal 21,
//! refusals 3, 4, 5, 9 and 18, which refusal comes first, the ratio and the text. A job can't meet the others: by its
//! layout its table has the right size and its target the right length, and the program lends the list right slices.

use crate::error::DecodeError;
use crate::{Enumerator, LARGEST_DIMENSION};

const LARGEST_BUDGET: u64 = 1 << 60;
/// 2^52
const LARGEST_ENTRY: f64 = 4_503_599_627_370_496.0;
/// p, q and places of a job without a sixth section.
const SETTINGS: [u64; 3] = [3, 1, 256];

pub struct Job {
    pub weights: Vec<f64>,
    /// n·n entries; those that are not read are 0.
    pub mu: Vec<f64>,
    pub target: Vec<f64>,
    pub radius: f64,
    pub budget: u64,
    /// p, q and places.
    pub settings: [u64; 3],
}

// ---- the layout

/// Takes the next section's items from the input; None is refusal 1. `right` says which counts are not wrong.
fn section(input: &mut &[u8], right: impl Fn(usize) -> bool) -> Option<Vec<u64>> {
    let (count, rest) = input.split_first_chunk()?;
    let count = usize::try_from(u32::from_le_bytes(*count)).unwrap();
    if !right(count) {
        return None;
    }
    let (items, rest) = rest.split_at_checked(8 * count)?;
    *input = rest;
    Some(items.chunks_exact(8).map(|item| u64::from_le_bytes(item.try_into().unwrap())).collect())
}

fn doubles(items: Vec<u64>) -> Vec<f64> {
    items.into_iter().map(f64::from_bits).collect()
}

/// The job that these bytes are; None is refusal 1.
#[must_use]
pub fn job(mut input: &[u8]) -> Option<Job> {
    let weights = doubles(section(&mut input, |count| count <= LARGEST_DIMENSION)?);
    let n = weights.len();
    let mut entries = doubles(section(&mut input, |count| 2 * count + n == n * n)?).into_iter();
    let target = doubles(section(&mut input, |count| count == n)?);
    let radius = f64::from_bits(section(&mut input, |count| count == 1)?[0]);
    let budget = section(&mut input, |count| count == 1)?[0];
    let settings = if input.is_empty() {
        SETTINGS
    } else {
        section(&mut input, |count| count == SETTINGS.len())?.try_into().unwrap()
    };
    if !input.is_empty() {
        return None;
    }
    let mut mu = vec![0.0; n * n];
    for j in 0..n {
        mu[j * n..][..j].fill_with(|| entries.next().unwrap());
    }
    Some(Job { weights, mu, target, radius, budget, settings })
}

// ---- the refusals

/// Whether each setting is in its range: refusal 21 does not tell them apart in the text.
fn in_range([p, q, places]: [u64; 3]) -> bool {
    (1..=1000).contains(&p) && (1..=p).contains(&q) && (1..=256).contains(&places)
}

/// The first of 3 to 5 that fits the table.
fn table_fault(job: &Job) -> Option<u32> {
    if job.mu.iter().any(|entry| !entry.is_finite()) {
        Some(3)
    } else if job.mu.iter().any(|entry| entry.abs() > LARGEST_ENTRY) {
        Some(4)
    } else if job.weights.iter().any(|weight| !weight.is_finite() || *weight <= 0.0) {
        Some(5)
    } else {
        None
    }
}

/// The specification's number of the original's error.
fn number(error: DecodeError) -> u32 {
    match error {
        DecodeError::NonFinite { .. } => 7,
        DecodeError::InvalidRadius { .. } => 8,
        DecodeError::BudgetExhausted { .. } => 15,
        DecodeError::OutsideRadius { .. } => 16,
        DecodeError::LengthMismatch { .. } | DecodeError::Range(_) => unreachable!("no job gives {error:?}"),
    }
}

/// What `call` answers for the job: 3 to 5 come before its own refusals, 9 comes between its 8 and its 15.
fn answer<T>(job: &Job, call: impl Fn(&Enumerator, u64) -> Result<T, DecodeError>) -> Result<T, u32> {
    if let Some(fault) = table_fault(job) {
        return Err(fault);
    }
    let table = Enumerator::from_table(&job.weights, &job.mu);
    if job.budget <= LARGEST_BUDGET {
        return call(&table, job.budget).map_err(number);
    }
    // The budget of 0 asks only for 7 and 8: behind 9 there is no walk.
    match call(&table, 0).map_err(number) {
        Err(fault @ (7 | 8)) => Err(fault),
        _ => Err(9),
    }
}

// ---- the text

fn refusal_line(word: &str, number: u32) -> String {
    let group = match number {
        1 | 21 => "layout",
        2..=5 => "table",
        6..=14 => "call",
        _ => "search",
    };
    format!("{word} refused {number} {group}\n")
}

/// The 16 digits of a distance.
fn bits(distance: f64) -> String {
    format!("{:016X}", distance.to_bits())
}

/// Each coordinate after a blank.
fn coordinates(point: &[i64]) -> String {
    point.iter().map(|z| format!(" {z}")).collect()
}

fn nearest_line(job: &Job) -> String {
    let found = answer(job, |table, budget| crate::nearest(table, &job.target, job.weights.len(), job.radius, budget));
    match found {
        Ok((point, nodes, distance)) => format!("nearest {nodes} {}{}\n", bits(distance), coordinates(&point)),
        Err(number) => refusal_line("nearest", number),
    }
}

/// Of the number of points listed, the first two distances, the job's radius and its p and q. Each product is rounded
/// once; that with p must be finite.
fn verdict(points: &[(f64, Vec<i64>)], radius: f64, [p, q]: [f64; 2]) -> &'static str {
    let met = |second: f64, first: f64| (p * first).is_finite() && q * second >= p * first;
    match points {
        [] => "none",
        [(first, _)] if met(radius, *first) => "holds",
        [_] => "open",
        [(first, _), (second, _), ..] if met(*second, *first) => "holds",
        _ => "fails",
    }
}

/// The list's lines and the ratio's, of a job whose settings are in range.
fn list_lines(job: &Job) -> String {
    let [p, q, places] = job.settings.map(|setting| u32::try_from(setting).unwrap());
    let (points, nodes) = match answer(job, |table, budget| crate::list(table, &job.target, job.radius, budget)) {
        Ok((points, _)) if points.len() > places as usize => return refusal_line("list", 18) + "ratio none\n",
        Err(number) => return refusal_line("list", number) + "ratio none\n",
        Ok(listed) => listed,
    };
    let ratio = verdict(&points, job.radius, [p, q].map(f64::from));
    let lines: String = points.iter().map(|(distance, z)| format!("{}{}\n", bits(*distance), coordinates(z))).collect();
    format!("list {nodes} {}\n{lines}ratio {ratio}\n", points.len())
}

/// The whole text for these bytes, whatever they are.
#[must_use]
pub fn job_text(input: &[u8]) -> String {
    match job(input) {
        None => refusal_line("job", 1),
        Some(job) if !in_range(job.settings) => refusal_line("job", 21),
        Some(job) => nearest_line(&job) + &list_lines(&job),
    }
}
