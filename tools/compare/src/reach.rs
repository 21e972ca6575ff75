//! How far a walk goes, by the Rust: so that cases stay short and budgets fall around the count.

use crate::case::{Call, Case};
use crate::paper;
use oracle::Enumerator;
use oracle::enumerate::{EnumerationScratch, ListPoint};
use oracle::error::DecodeError;

/// The nodes that the case's walk opens with a budget that suffices; `None` if more than `cap`. A case that its checks
/// refuse has no walk.
#[must_use]
pub fn reach(case: &Case, cap: u64) -> Option<u64> {
    let mut ample = case.clone();
    ample.budget = cap;
    if !case.call.takes_budget() || paper::refusal(&ample).is_some() {
        return Some(0);
    }
    let table = Enumerator::from_table(&case.weights, &case.mu);
    let Case { target, radius, candidate, places, .. } = case;
    let found = match case.call {
        Call::Nearest => oracle::nearest(&table, target, *places, *radius, cap),
        Call::Seeded => oracle::nearest_seeded(&table, target, *places, candidate, *radius, cap),
        Call::Ml => oracle::nearest_ml(&table, target, *places, cap),
        // Also where the point can't be mapped.
        Call::Prepared => oracle::nearest_ml(&table, &paper::transformed(case), *places, cap),
        _ => return paper::listed_nodes(case, cap),
    };
    match found {
        Ok((_, nodes, _)) => Some(nodes),
        // Without a point the radius never shrinks: the walk opens what a list opens.
        Err(DecodeError::OutsideRadius { .. }) => paper::listed_nodes(case, cap),
        Err(_) => None,
    }
}

/// The distances of the points that the Rust lists within the budget; none if it refuses.
#[must_use]
pub fn distances(case: &Case, budget: u64) -> Vec<f64> {
    let table = Enumerator::from_table(&case.weights, &case.mu);
    let scratch = &mut EnumerationScratch::new();
    let list = table.list(&case.target, case.radius, budget, scratch).unwrap_or_default();
    list.iter().map(ListPoint::distance_sq).collect()
}

/// The number of points that the Rust lists within the budget.
#[must_use]
pub fn points(case: &Case, budget: u64) -> usize {
    distances(case, budget).len()
}
