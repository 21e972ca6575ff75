//! A point that `nearest` found beside the list of the same table, target and radius: the list's first distance is the
//! point's, and the point stands in the list at that distance. Where the centres run, neither need be so.

use crate::answer::Answer;
use crate::case::{Call, Case};
use crate::reach::points;
use crate::{Comparison, compare, paper};

/// The most prefixes that a list opens here.
const FEW: u64 = 1_000;

pub struct Listed {
    /// The list begins with another point, which is as near.
    pub other_first: bool,
    pub remarks: Vec<String>,
}

/// `None` where no point was found by `nearest`, where its list opens more than a few prefixes, and where the centres run.
#[must_use]
pub fn listed(case: &Case, found: &Answer) -> Option<Listed> {
    if case.call != Call::Nearest || found.report.number != 0 || paper::runs(case) {
        return None;
    }
    let budget = paper::opened(case, case.radius, FEW)?;
    let list = Case { call: Call::List, budget, ..case.clone() }.with_places(points(case, budget));
    let Comparison { expected, difference, .. } = compare(&list);
    let mut remarks = Vec::new();
    if let Some(difference) = difference {
        remarks.push(format!("its list: expected {}, the port {}", difference.expected, difference.port));
        remarks.extend(difference.remarks);
    }
    let n = case.weights.len();
    let at = |place: usize| &expected.integers[place * n..][..n];
    let place = (0..list.places).find(|&k| at(k) == found.integers);
    let distance = |place: usize| expected.doubles[place];
    if expected.report.number != 0 || place.map(distance) != Some(found.report.real) {
        remarks.push(format!("the point does not stand at its distance in its list: {expected}"));
    }
    if list.places == 0 || distance(0) != found.report.real {
        remarks.push(format!("the distance is not the first of its list: {expected}"));
    }
    Some(Listed { other_first: place != Some(0), remarks })
}
