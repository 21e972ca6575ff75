//! What the port must answer: the Rust's answer under the specification's numbers, and the specified refusal where the
//! Rust has none. Where both speak they must agree; if they do not, that is reported and the specification stands.

use crate::answer::{Answer, Report, before};
use crate::case::{Call, Case};
use crate::paper::running::{Walked, running};
use crate::paper::{self, runs};
use oracle::Enumerator;
use oracle::enumerate::{EnumerationScratch, ListPoint};
use oracle::error::DecodeError;

pub struct Expected {
    pub answer: Answer,
    /// Where the plain reading of the specification and the Rust differ.
    pub disagreement: Option<String>,
}

/// The refusals that the Rust does not have; 18 is seen only when it has listed.
const ADDED: [u32; 8] = [2, 3, 4, 5, 9, 14, 22, 23];

/// No refusal: it stands where the Rust names an error that the specification has no place for.
const UNKNOWN: u32 = u32::MAX;

#[must_use]
pub fn expected(case: &Case) -> Expected {
    let own = paper::refusal(case);
    if let Some(report) = own.filter(|r| !asked(case, r.number)) {
        return Expected { answer: Answer::untouched(case, report), disagreement: None };
    }
    match (own, rust(case)) {
        (Some(report), rust) => {
            let same = matches!(rust, Err(error) if agrees(error, report));
            let disagreement = (!same).then(|| format!("the reading refuses by {report:?}, the Rust says {rust:?}"));
            Expected { answer: Answer::untouched(case, report), disagreement }
        }
        (None, Ok(answer)) => Expected { disagreement: second_reading(case, &answer), answer },
        (None, Err(error)) => {
            let answer = Answer::untouched(case, search_refusal(case, error));
            let disagreement = if answer.report.number == UNKNOWN {
                Some(format!("the reading takes the call, the Rust says {error:?}"))
            } else {
                second_reading(case, &answer)
            };
            Expected { answer, disagreement }
        }
    }
}

/// Whether the Rust has a verdict of its own where the reading refuses by `number`. Its distance checks no lengths.
fn asked(case: &Case, number: u32) -> bool {
    !(ADDED.contains(&number) || (case.call == Call::Distance && matches!(number, 6 | 7)))
}

/// The Rust gives a radius of minus zero back, where 12, 15 and 16 carry plus zero. It is taken as zero in these refusals
/// of the Rust, and nowhere else: every other double stays as it is.
const fn minus_as_plus(radius: f64) -> f64 {
    if radius.to_bits() == (-0.0_f64).to_bits() { 0.0 } else { radius }
}

/// The Rust's names for the specification's numbers, with the same values.
fn agrees(error: DecodeError, report: Report) -> bool {
    let (numbers, same): (&[u32], Report) = match error {
        DecodeError::LengthMismatch { expected, found } => (&[6, 10], Report::whole(0, expected as u64, found as u64)),
        DecodeError::NonFinite { index } => (&[7], Report::whole(0, index as u64, 0)),
        DecodeError::InvalidRadius { radius_sq } if report.number == 12 => {
            (&[12], Report::double(0, minus_as_plus(radius_sq)))
        }
        DecodeError::InvalidRadius { radius_sq } => (&[8, 11, 13], Report::double(0, radius_sq)),
        _ => return false,
    };
    numbers.contains(&report.number) && Report { number: 0, ..report } == same
}

/// 15 and 16, which a walk ends with, and 24. A seeded or ml search never ends with 16: there it is a disagreement.
fn search_refusal(case: &Case, error: DecodeError) -> Report {
    match (error, case.call) {
        (DecodeError::BudgetExhausted { nodes, radius_sq }, _) => {
            Report { number: 15, first: nodes, second: 0, real: minus_as_plus(radius_sq).to_bits() }
        }
        (DecodeError::OutsideRadius { radius_sq }, Call::Nearest) => Report::double(16, minus_as_plus(radius_sq)),
        (DecodeError::Range(_), Call::Prepared) => beyond_i64(case).unwrap_or(Report::whole(UNKNOWN, 0, 0)),
        _ => Report::whole(UNKNOWN, 0, 0),
    }
}

/// The Rust's `nearest_ml` at the transformed target of the plain reading: the prepared search before it maps.
fn reduced(case: &Case) -> oracle::Found {
    let table = Enumerator::from_table(&case.weights, &case.mu);
    oracle::nearest_ml(&table, &paper::transformed(case), case.places, case.budget)
}

/// 24. The Rust names no column, so the point is mapped here.
fn beyond_i64(case: &Case) -> Option<Report> {
    let (point, ..) = reduced(case).ok()?;
    let column = paper::mapped(&point, &case.transform).iter().position(|z| i64::try_from(*z).is_err());
    column.map(|c| Report::whole(24, c as u64, 0))
}

/// Whether the answer is what the search before mapping comes to, its point mapped and its distance read plainly.
fn same_mapped(case: &Case, answer: &Answer) -> bool {
    let Ok((point, nodes, distance)) = reduced(case) else { return false };
    let plain = paper::distance(&case.weights, &case.mu, &paper::transformed(case), &point);
    let mapped = paper::mapped(&point, &case.transform);
    answer.report == Report::found(nodes, distance)
        && plain.to_bits() == distance.to_bits()
        && mapped.into_iter().eq(answer.integers.iter().copied().map(i128::from))
}

/// The Rust's answer to a case whose table passes checks 2 to 5.
fn rust(case: &Case) -> Result<Answer, DecodeError> {
    let table = Enumerator::from_table(&case.weights, &case.mu);
    let Case { target, places, radius, budget, candidate, transform, inverse, .. } = case;
    let plain = |integers| Answer { report: Report::default(), integers, doubles: Vec::new() };
    let found = |(integers, nodes, distance)| Answer { report: Report::found(nodes, distance), ..plain(integers) };
    match case.call {
        Call::Nearest => oracle::nearest(&table, target, *places, *radius, *budget).map(found),
        Call::Seeded => oracle::nearest_seeded(&table, target, *places, candidate, *radius, *budget).map(found),
        Call::Ml => oracle::nearest_ml(&table, target, *places, *budget).map(found),
        Call::Prepared => oracle::prepared_nearest_ml(&table, transform, inverse, target, *places, *budget).map(found),
        Call::List => listed(case, &table),
        Call::Round => oracle::round(target, *places).map(plain),
        Call::Plane => oracle::nearest_plane(&table, target, *places)
            .map(|(integers, left)| Answer { doubles: left.iter().map(|x| x.to_bits()).collect(), ..plain(integers) }),
        Call::RoundAway => Ok(plain(vec![oracle::rounded_away(target[0])])),
        Call::Distance => table
            .triangular_distance(target, candidate)
            .map(|d| Answer { report: Report::double(0, d), ..plain(Vec::new()) }),
    }
}

fn rust_list(case: &Case, table: &Enumerator, budget: u64) -> Result<Vec<ListPoint>, DecodeError> {
    table.list(&case.target, case.radius, budget, &mut EnumerationScratch::new())
}

/// The Rust's list in the caller's slices, or 18. Its node count is the least budget that the Rust takes, which
/// `second_reading` makes sure of.
fn listed(case: &Case, table: &Enumerator) -> Result<Answer, DecodeError> {
    let list = rust_list(case, table, case.budget)?;
    let nodes = || paper::listed_nodes(case, case.budget).unwrap_or(u64::MAX);
    let points = list.iter().map(|point| (point.distance_sq(), point.point()));
    Ok(in_slices(case, nodes, points))
}

/// A list in the caller's slices, or 18.
fn in_slices<'a>(
    case: &Case,
    nodes: impl FnOnce() -> u64,
    points: impl ExactSizeIterator<Item = (f64, &'a [i64])>,
) -> Answer {
    let (n, count) = (case.weights.len(), points.len());
    if count > case.places {
        return Answer::untouched(case, Report::whole(18, count as u64, 0));
    }
    let (mut integers, mut doubles) = before(case);
    for (k, (distance, point)) in points.enumerate() {
        doubles[k] = distance.to_bits();
        integers[k * n..(k + 1) * n].copy_from_slice(point);
    }
    Answer { report: Report::whole(0, nodes(), count as u64), integers, doubles }
}

/// The plain reading of a walk with running centres, of a case whose checks pass.
fn run(case: &Case) -> Answer {
    let Walked { nodes, radius, exhausted, found } = running(case, case.budget);
    let real = radius.to_bits();
    if exhausted {
        return Answer::untouched(case, Report { number: 15, first: nodes, second: 0, real });
    }
    match (case.call, &found[..]) {
        (Call::List, _) => in_slices(case, || nodes, found.iter().map(|(distance, z)| (*distance, &z[..]))),
        (_, [(distance, z)]) => {
            Answer { report: Report::found(nodes, *distance), integers: z.clone(), doubles: Vec::new() }
        }
        _ => Answer::untouched(case, Report::double(16, radius)),
    }
}

/// The plain reading beside the Rust's answer: where there is one, and how it differs.
fn second_reading(case: &Case, answer: &Answer) -> Option<String> {
    let same_distance = |point: &[i64]| {
        let distance = paper::distance(&case.weights, &case.mu, &case.target, point);
        distance.to_bits() == answer.report.real
    };
    let found = answer.report.number == 0;
    let same = match case.call {
        Call::Nearest | Call::List if runs(case) => {
            run(case) == *answer && (!found || case.call == Call::Nearest || least_budget(case, answer.report.first))
        }
        _ if !found => true,
        Call::RoundAway | Call::Round => case.target.iter().map(|&x| paper::round_away(x)).eq(answer.integers.clone()),
        Call::Plane => {
            let mut left = case.target.clone();
            paper::plane(&case.mu, &mut left) == answer.integers
                && left.iter().map(|x| x.to_bits()).eq(answer.doubles.clone())
        }
        Call::Distance => same_distance(&case.candidate),
        Call::Nearest | Call::Seeded | Call::Ml => same_distance(&answer.integers),
        Call::Prepared => same_mapped(case, answer),
        Call::List => least_budget(case, answer.report.first),
    };
    (!same).then(|| format!("the plain reading differs from the Rust's {answer}"))
}

/// Whether the Rust's list takes a budget of `nodes` and no smaller one.
fn least_budget(case: &Case, nodes: u64) -> bool {
    let table = Enumerator::from_table(&case.weights, &case.mu);
    let refused = |below| matches!(rust_list(case, &table, below), Err(DecodeError::BudgetExhausted { .. }));
    rust_list(case, &table, nodes).is_ok() && nodes.checked_sub(1).is_none_or(refused)
}
