//! A plain reading of docs/SPECIFICATION.md: rounding, distance, seeds and opened prefixes, the walk with running centres, and
//! the checks in order. Nothing here is taken from the port or from the Rust.

pub mod running;

use crate::answer::Report;
use crate::case::{Call, Case};

/// 2^52, the largest magnitude of mu and of a target.
pub const LIMIT: f64 = 4_503_599_627_370_496.0;
pub const LARGEST_N: usize = 23;
/// The most dimensions of `nearest` and `list`. Above 23 the centres of their walks run.
pub const LARGEST_SEARCHED: usize = 64;
pub const MOST_NODES: u64 = 1 << 60;
pub const MOST_PLACES: usize = 4096;
/// 2^52, the largest magnitude of a matrix's entry.
pub const LARGEST_ENTRY: u64 = 1 << 52;

/// The nearest integer, halves away from zero, held within i64; 0 for NaN.
#[must_use]
pub fn round_away(x: f64) -> i64 {
    x.round() as i64
}

fn center(mu: &[f64], target: &[f64], point: &[i64], level: usize) -> f64 {
    let n = target.len();
    (level + 1..n).fold(target[level], |c, j| c + (target[j] - point[j] as f64) * mu[j * n + level])
}

fn term(weight: f64, center: f64, z: i64) -> f64 {
    let d = center - z as f64;
    (weight * d) * d
}

/// The computed distance; infinite if it overflows.
#[must_use]
pub fn distance(weights: &[f64], mu: &[f64], target: &[f64], point: &[i64]) -> f64 {
    let levels = (0..weights.len()).rev();
    levels.fold(0.0, |sum, i| sum + term(weights[i], center(mu, target, point, i), point[i]))
}

/// The `nearest_plane` point; t - z stays in the coefficients.
#[must_use]
pub fn plane(mu: &[f64], coefficients: &mut [f64]) -> Vec<i64> {
    let n = coefficients.len();
    let mut point = vec![0; n];
    for i in (0..n).rev() {
        let along = (i + 1..n).fold(coefficients[i], |sum, j| sum + coefficients[j] * mu[j * n + i]);
        point[i] = round_away(along);
        coefficients[i] -= point[i] as f64;
    }
    point
}

/// The radius that 8 hands on to 12, to the widening and to every walk: plus zero where the call's is minus zero.
#[must_use]
pub fn handed_on(radius: f64) -> f64 {
    if radius == 0.0 { 0.0 } else { radius }
}

/// The radius with which a seeded search walks.
#[must_use]
pub fn widened(radius: f64, n: usize) -> f64 {
    let larger = if radius > 1.0 { radius } else { 1.0 };
    radius + (f64::EPSILON * larger) * (4 * n) as f64
}

/// The target at which a prepared search walks. Each sum starts from 0 and takes the rows as they rise.
#[must_use]
pub fn transformed(case: &Case) -> Vec<f64> {
    let n = case.weights.len();
    let column = |c| (0..n).fold(0.0, |sum, row| sum + case.target[row] * case.inverse[row * n + c] as f64);
    (0..n).map(column).collect()
}

/// The point through the matrix, exactly: with entries up to 2^52 no sum comes near the ends of i128.
#[must_use]
pub fn mapped(point: &[i64], matrix: &[i64]) -> Vec<i128> {
    let n = point.len();
    let product = |row: usize, c| i128::from(point[row]) * i128::from(matrix[row * n + c]);
    (0..n).map(|c| (0..n).map(|row| product(row, c)).sum()).collect()
}

/// Counts the prefixes that are opened at a radius.
struct Opened<'a> {
    case: &'a Case,
    radius: f64,
    point: Vec<i64>,
    count: u64,
    cap: u64,
}

impl Opened<'_> {
    /// False once more than `cap` prefixes are opened.
    fn below(&mut self, depth: usize, partial: f64) -> bool {
        let Some(level) = depth.checked_sub(1) else { return true };
        let c = center(&self.case.mu, &self.case.target, &self.point, level);
        let nearest = round_away(c);
        let upward = std::iter::successors(Some(nearest), |z| z.checked_add(1));
        let downward = std::iter::successors(nearest.checked_sub(1), |z| z.checked_sub(1));
        self.along(upward, level, c, partial) && self.along(downward, level, c, partial)
    }

    fn along(&mut self, side: impl Iterator<Item = i64>, level: usize, c: f64, partial: f64) -> bool {
        for z in side {
            let term = term(self.case.weights[level], c, z);
            if term > self.radius - partial {
                return true;
            }
            self.count += 1;
            self.point[level] = z;
            if self.count > self.cap || (partial + term <= self.radius && !self.below(level, partial + term)) {
                return false;
            }
        }
        true
    }
}

/// How many prefixes are opened at the radius, if at most `cap`.
#[must_use]
pub fn opened(case: &Case, radius: f64, cap: u64) -> Option<u64> {
    let n = case.weights.len();
    let mut walk = Opened { case, radius: handed_on(radius), point: vec![0; n], count: 0, cap };
    walk.below(n, 0.0).then_some(walk.count)
}

/// Whether the centres of the case's walk run.
#[must_use]
pub fn runs(case: &Case) -> bool {
    case.weights.len() > LARGEST_N
}

/// How many nodes a list has at the case's radius, if at most `cap`: the opened prefixes or, where the centres run, those of
/// its walk.
#[must_use]
pub fn listed_nodes(case: &Case, cap: u64) -> Option<u64> {
    if !runs(case) {
        return opened(case, case.radius, cap);
    }
    let list = Case { call: Call::List, ..case.clone() };
    Some(running::running(&list, cap)).filter(|walked| !walked.exhausted).map(|walked| walked.nodes)
}

// ---- the checks

/// The first of refusals 2 to 14, 22 and 23 that fits the case.
#[must_use]
pub fn refusal(case: &Case) -> Option<Report> {
    let table = || if case.call.takes_table() { table(case) } else { None };
    let radius = || if case.call.takes_radius() { radius(case) } else { None };
    let budget = || if case.call.takes_budget() { budget(case) } else { None };
    let matrices = || if case.call.takes_matrices() { matrices(case) } else { None };
    let transformed = || if case.call.takes_matrices() { target(&reduced(case)) } else { None };
    table()
        .or_else(matrices)
        .or_else(|| lengths(case))
        .or_else(|| target(case))
        .or_else(transformed)
        .or_else(radius)
        .or_else(budget)
        .or_else(|| seed(case))
        .or_else(|| list_size(case))
}

fn index(number: u32, place: Option<usize>) -> Option<Report> {
    place.map(|i| Report::whole(number, i as u64, 0))
}

/// 2 to 5. Only the entries below the diagonal are read.
fn table(case: &Case) -> Option<Report> {
    let n = case.weights.len();
    if n > case.call.largest() || case.mu.len() != n * n {
        return Some(Report::whole(2, n as u64, 0));
    }
    let first = |bad: fn(f64) -> bool| (0..n * n).find(|k| k / n > k % n && bad(case.mu[*k]));
    index(3, first(|x| !x.is_finite()))
        .or_else(|| index(4, first(|x| x.abs() > LIMIT)))
        .or_else(|| index(5, case.weights.iter().position(|w| !w.is_finite() || *w <= 0.0)))
}

/// 22 and 23.
fn matrices(case: &Case) -> Option<Report> {
    let n = case.weights.len();
    let (transform, inverse) = (&case.transform, &case.inverse);
    if transform.len() != n * n || inverse.len() != n * n {
        return Some(Report::whole(22, 0, 0));
    }
    let large = transform.iter().chain(inverse).position(|z| z.unsigned_abs() > LARGEST_ENTRY);
    let inverse_to_each_other = || undone(n, transform, inverse) && undone(n, inverse, transform);
    index(22, large).or_else(|| (!inverse_to_each_other()).then(|| Report::whole(23, 0, 0)))
}

/// Whether the product is the identity, row by row.
fn undone(n: usize, first: &[i64], second: &[i64]) -> bool {
    let unit = |row| (0..n).map(move |c| i128::from(row == c));
    (0..n).all(|row| mapped(&first[row * n..][..n], second).into_iter().eq(unit(row)))
}

/// What a prepared search walks for.
fn reduced(case: &Case) -> Case {
    Case { call: Call::Ml, target: transformed(case), ..case.clone() }
}

/// 6. The point whose distance is asked stands in the output's place.
fn lengths(case: &Case) -> Option<Report> {
    let n = case.weights.len();
    let (target, places) = (case.target.len(), case.places);
    let mismatch = |expected, found| Some(Report::whole(6, expected as u64, found as u64));
    match case.call {
        Call::RoundAway => None,
        Call::Round if places != target => mismatch(target, places),
        Call::Round => None,
        // One check of both lengths, which names that of the coefficients.
        Call::Plane if target != n || places != n => mismatch(n, target),
        _ if target != n => mismatch(n, target),
        Call::Distance if case.candidate.len() != n => mismatch(n, case.candidate.len()),
        Call::Nearest | Call::Seeded | Call::Ml | Call::Prepared if places != n => mismatch(n, places),
        _ => None,
    }
}

/// 7.
fn target(case: &Case) -> Option<Report> {
    let limit = match case.call {
        Call::RoundAway => return None,
        Call::Round | Call::Plane => f64::MAX,
        _ => LIMIT,
    };
    index(7, case.target.iter().position(|t| !t.is_finite() || t.abs() > limit))
}

/// 8. Minus zero passes.
fn radius(case: &Case) -> Option<Report> {
    (!case.radius.is_finite() || case.radius < 0.0).then(|| Report::double(8, case.radius))
}

/// 9.
fn budget(case: &Case) -> Option<Report> {
    (case.budget > MOST_NODES).then(|| Report::whole(9, case.budget, 0))
}

/// 10 to 13.
fn seed(case: &Case) -> Option<Report> {
    let n = case.weights.len();
    let overflow = |d: f64| (!d.is_finite()).then(|| Report::double(11, d));
    let of = |point: &[i64]| distance(&case.weights, &case.mu, &case.target, point);
    match case.call {
        Call::Seeded if case.candidate.len() != n => Some(Report::whole(10, n as u64, case.candidate.len() as u64)),
        Call::Seeded => {
            let (d, radius) = (of(&case.candidate), handed_on(case.radius));
            let outside = || (d > radius).then(|| Report::double(12, radius));
            overflow(d).or_else(outside).or_else(|| beyond(radius, n))
        }
        Call::Ml => {
            let d = of(&plane(&case.mu, &mut case.target.clone()));
            overflow(d).or_else(|| beyond(d, n))
        }
        Call::Prepared => seed(&reduced(case)),
        Call::Distance => overflow(of(&case.candidate)),
        _ => None,
    }
}

fn beyond(radius: f64, n: usize) -> Option<Report> {
    let widened = widened(radius, n);
    (!widened.is_finite()).then(|| Report::double(13, widened))
}

/// 14.
fn list_size(case: &Case) -> Option<Report> {
    let fits = case.places <= MOST_PLACES && case.points == case.weights.len() * case.places;
    (case.call == Call::List && !fits).then(|| Report::whole(14, case.places as u64, 0))
}
