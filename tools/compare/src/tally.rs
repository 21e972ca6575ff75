//! What a run met: calls by dimension, and answers by number.

use crate::answer::Answer;
use crate::case::{CALLS, Call, Case};
use crate::paper::running::{Walked, anew};
use crate::paper::{self, LARGEST_N, LARGEST_SEARCHED};
use crate::short::running::PRIVATE;
use std::fmt;
use std::ops::Range;
use std::time::Duration;

/// Each dimension by itself, and more of them.
const DIMENSIONS: usize = LARGEST_SEARCHED + 2;
const NUMBERS: usize = 25;

/// The first of the dimensions that share a column of the table.
const COLUMNS: [usize; 8] = [LARGEST_N + 1, LARGEST_N + 2, 32, 40, 48, 56, LARGEST_SEARCHED, LARGEST_SEARCHED + 1];

/// No answers of a call here: 1 and 21 are the job program's, 17 is free, 19 and 20 are `change_reference`'s.
const NO_ANSWERS: [usize; 5] = [1, 17, 19, 20, 21];

/// The refusals that carry the radius which 8 hands on, 15 until a leaf is found. In a seeded search 15 has another.
const CARRYING: [(Call, u32); 4] = [(Call::Seeded, 12), (Call::Nearest, 15), (Call::List, 15), (Call::Nearest, 16)];

/// A number for each dimension.
#[derive(Clone, Copy)]
struct ByDimension([u64; DIMENSIONS]);

impl Default for ByDimension {
    fn default() -> Self {
        Self([0; DIMENSIONS])
    }
}

#[derive(Default)]
pub struct Tally {
    by_number: [[u64; NUMBERS]; CALLS.len()],
    by_dimension: [ByDimension; CALLS.len()],
    /// Searches and lists that succeeded, by dimension.
    found: ByDimension,
    /// Nodes of the searches that succeeded, and of those that their budget ended.
    nodes: u64,
    /// Points and lists found with a coordinate beyond 2^53, and with one within 1,024 of an end of i64.
    lossy: u64,
    ends: u64,
    /// Nearest points beside which their list was compared, and those of them whose list begins with another point.
    listed: u64,
    other_first: u64,
    /// Calls with a radius of minus zero that were refused so.
    minus_zero: [u64; CARRYING.len()],
    prepared: Prepared,
    running: Running,
}

/// What searches with running centres came upon.
#[derive(Default)]
struct Running {
    /// Points found, those at another distance than `triangular_distance`, and those that are not what is found with
    /// centres made anew.
    points: u64,
    other_distances: u64,
    other_points: u64,
    /// Lists found, those with another count than the opened prefixes, and those that are not the admitted vectors.
    lists: u64,
    other_counts: u64,
    other_lists: u64,
    /// Lists that have more places than the port's private array holds, with no more points than it holds, and with more.
    held: u64,
    beyond: u64,
}

impl Running {
    fn count(&mut self, case: &Case, answer: &Answer) {
        if answer.report.number != 0 {
            return;
        }
        // Where it has far more nodes, what it finds is not known, but it is another walk.
        let Walked { nodes, found, exhausted, .. } = anew(case, 20 * answer.report.first + 1_000);
        let n = case.weights.len();
        if case.call == Call::Nearest {
            let distance = paper::distance(&case.weights, &case.mu, &case.target, &answer.integers);
            self.points += 1;
            self.other_distances += u64::from(distance.to_bits() != answer.report.real);
            self.other_points += u64::from(!exhausted && found.first().is_none_or(|(_, z)| *z != answer.integers));
            return;
        }
        let listed = found_integers(case, answer).chunks(n);
        self.lists += 1;
        self.other_counts += u64::from(exhausted || nodes != answer.report.first);
        self.other_lists += u64::from(exhausted || !listed.eq(found.iter().map(|(_, z)| &z[..])));
        let rows = PRIVATE / n;
        self.held += u64::from(case.places > rows && answer.report.second <= rows as u64);
        self.beyond += u64::from(case.places > rows && answer.report.second > rows as u64);
    }
}

impl fmt::Display for Running {
    fn fmt(&self, out: &mut fmt::Formatter<'_>) -> fmt::Result {
        let Self { points, other_distances, other_points, lists, other_counts, other_lists, held, beyond } = self;
        write!(out, "{points} points found, {other_distances} at another distance than triangular_distance, ")?;
        write!(out, "{other_points} others than with centres made anew; ")?;
        write!(out, "{lists} lists, {other_counts} with another count than the opened prefixes, ")?;
        write!(out, "{other_lists} not the admitted vectors; ")?;
        write!(out, "lists with more places than the private array: {held}, and with more points: {beyond}")
    }
}

/// What prepared searches came upon.
#[derive(Default)]
struct Prepared {
    /// 7 of the target that is handed in, and of the transformed one.
    given: u64,
    transformed: u64,
    /// 24 at the first column, at one between, at the last.
    columns: [u64; 3],
    /// Points found with a coordinate that is a sum of products beyond i64, and with one of -2^63.
    products: u64,
    lowest: u64,
}

impl Prepared {
    fn count(&mut self, case: &Case, answer: &Answer) {
        let last = case.weights.len().wrapping_sub(1) as u64;
        match answer.report.number {
            0 => {
                self.products += u64::from(has_large_product(case, &answer.integers));
                self.lowest += u64::from(answer.integers.contains(&i64::MIN));
            }
            7 if case.target.iter().any(|t| !t.is_finite() || t.abs() > paper::LIMIT) => self.given += 1,
            7 => self.transformed += 1,
            24 if answer.report.first == 0 => self.columns[0] += 1,
            24 if answer.report.first == last => self.columns[2] += 1,
            24 => self.columns[1] += 1,
            _ => {}
        }
    }
}

/// Whether a product on the way to the mapped point is beyond i64. The inverse gives the point before it exactly.
fn has_large_product(case: &Case, mapped: &[i64]) -> bool {
    let n = mapped.len();
    let point = paper::mapped(mapped, &case.inverse);
    (0..n * n).any(|k| i64::try_from(point[k / n] * i128::from(case.transform[k])).is_err())
}

impl fmt::Display for Prepared {
    fn fmt(&self, out: &mut fmt::Formatter<'_>) -> fmt::Result {
        let Self { given, transformed, columns: [first, between, last], products, lowest } = self;
        write!(out, "7 of the target {given}, of the transformed one {transformed}; ")?;
        write!(out, "24 at the first column {first}, between {between}, at the last {last}; ")?;
        write!(out, "found by products beyond i64 {products}, with -2^63 {lowest}")
    }
}

/// A row of a markdown table.
#[must_use]
pub fn row(name: &str, cells: &[u64]) -> String {
    let cells: String = cells.iter().map(|k| format!(" {k} |")).collect();
    format!("| {name} |{cells}\n")
}

/// The integers that a search wrote: a list's slice goes on after its points.
fn found_integers<'a>(case: &Case, answer: &'a Answer) -> &'a [i64] {
    let written =
        if case.call == Call::List { case.weights.len() * answer.report.second as usize } else { case.places };
    &answer.integers[..written]
}

fn sum<const N: usize>(rows: &[[u64; N]]) -> [u64; N] {
    std::array::from_fn(|k| rows.iter().map(|row| row[k]).sum())
}

/// The dimensions of each column of the table.
fn columns() -> Vec<Range<usize>> {
    let firsts: Vec<usize> = (0..=LARGEST_N).chain(COLUMNS).chain([DIMENSIONS]).collect();
    firsts.windows(2).map(|pair| pair[0]..pair[1]).collect()
}

impl Tally {
    /// `other_first` is that of the comparison.
    pub fn count(&mut self, case: &Case, answer: &Answer, other_first: Option<bool>) {
        self.listed += u64::from(other_first.is_some());
        self.other_first += u64::from(other_first == Some(true));
        let kind = case.call as usize;
        let number = answer.report.number as usize;
        self.by_number[kind][number.min(NUMBERS - 1)] += 1;
        let n = if case.call.takes_table() { case.weights.len() } else { case.target.len() };
        self.by_dimension[kind].0[n.min(DIMENSIONS - 1)] += 1;
        if case.call.takes_budget() && (number == 0 || number == 15) {
            self.nodes += answer.report.first;
        }
        if case.call.takes_budget() && number == 0 {
            self.found.0[n.min(DIMENSIONS - 1)] += 1;
            let beyond = |limit: u64| u64::from(found_integers(case, answer).iter().any(|z| z.unsigned_abs() > limit));
            self.lossy += beyond(1 << 53);
            self.ends += beyond((1 << 63) - 1024);
        }
        if case.call == Call::Prepared {
            self.prepared.count(case, answer);
        }
        if case.call.takes_radius() && paper::runs(case) {
            self.running.count(case, answer);
        }
        let refused = CARRYING.iter().position(|k| *k == (case.call, answer.report.number));
        if let Some(place) = refused.filter(|_| case.radius.to_bits() == (-0.0_f64).to_bits()) {
            self.minus_zero[place] += 1;
        }
    }

    #[must_use]
    pub fn total(&self) -> u64 {
        self.by_number.iter().flatten().sum()
    }

    /// Two markdown tables and six lines.
    #[must_use]
    pub fn text(&self, time: Duration) -> String {
        format!("{}\n{}\n{}", self.answers(), self.dimensions(), self.lines(time))
    }

    fn answers(&self) -> String {
        let answers: Vec<usize> = (0..NUMBERS).filter(|k| !NO_ANSWERS.contains(k)).collect();
        let mut text = String::from("| call | success |");
        text.extend(answers[1..].iter().map(|k| format!(" {k} |")));
        text.push_str(&format!("\n|---|{}\n", "---:|".repeat(answers.len())));
        let numbers = |cells: &[u64]| answers.iter().map(|k| cells[*k]).collect::<Vec<_>>();
        for call in CALLS {
            text.push_str(&row(call.name(), &numbers(&self.by_number[call as usize])));
        }
        text.push_str(&row("all", &numbers(&sum(&self.by_number))));
        text
    }

    fn dimensions(&self) -> String {
        let mut text = String::from("| n |");
        let name = |Range { start, end }: &Range<usize>| match end - start {
            1 if *end == DIMENSIONS => " more |".into(),
            1 => format!(" {start} |"),
            _ => format!(" {start} to {} |", end - 1),
        };
        text.extend(columns().iter().map(name));
        text.push_str(&format!("\n|---|{}\n", "---:|".repeat(columns().len())));
        let cells = |row: &[u64]| columns().into_iter().map(|range| row[range].iter().sum()).collect::<Vec<_>>();
        for call in CALLS {
            text.push_str(&row(call.name(), &cells(&self.by_dimension[call as usize].0)));
        }
        text.push_str(&row("all", &cells(&sum(&self.by_dimension.map(|by| by.0)))));
        text.push_str(&row("points and lists found", &cells(&self.found.0)));
        text
    }

    /// The smallest number of points and lists found at one dimension of these.
    fn fewest(&self, dimensions: Range<usize>) -> u64 {
        self.found.0[dimensions].iter().copied().min().unwrap_or(0)
    }

    fn lines(&self, time: Duration) -> String {
        let Self { nodes, lossy, ends, listed, other_first, minus_zero, prepared, running, .. } = self;
        let fewest = [0..LARGEST_N + 1, LARGEST_N + 1..LARGEST_SEARCHED + 1].map(|range| self.fewest(range));
        let refused =
            CARRYING.iter().zip(minus_zero).map(|((call, k), count)| format!("{} by {k}: {count}", call.name()));
        let refused = refused.collect::<Vec<_>>().join(", ");
        let (cases, seconds) = (self.total(), time.as_secs_f64());
        format!(
            "{cases} cases, {nodes} nodes, {seconds:.1} s; found beyond 2^53: {lossy}, at an end of i64: {ends}\n\
             nearest points beside their list: {listed}, the list beginning with another point: {other_first}\n\
             refused at a radius of minus zero: {refused}\n\
             prepared: {prepared}\n\
             running: {running}\n\
             the fewest points and lists found at one n: {} up to 23, {} from 24 on\n",
            fewest[0], fewest[1]
        )
    }
}
