//! The crate `kept` by the original and by the specification, for the run tests as Rust.

use super::common;
use super::enumerate::NearestPoint;
use super::refusals::Refusal;
use oracle::enumerate::EnumerationScratch;
use oracle::kept::{COUNTS, Held, INTEGERS, MOST_NODES, NAMES, REALS, part};
use oracle::{Found, LARGEST_DIMENSION};
use std::cell::RefCell;
use std::collections::HashMap;

/// A search that a named call began, with the sum of its budgets, and what its part held when it was put down.
#[derive(Clone)]
struct Begun {
    weights: Vec<f64>,
    mu: Vec<f64>,
    target: Vec<f64>,
    radius: f64,
    sum: u64,
    part: Vec<u64>,
}

thread_local! {
    /// By the name. Another block's are told apart by what the part holds.
    static BEGUN: RefCell<HashMap<u64, Begun>> = RefCell::default();
}

fn bits(name: u64, reals: &[f64], integers: &[i64], counts: &[u64]) -> Vec<u64> {
    let [r, i, c] = part(name);
    let reals = reals[r].iter().map(|x| x.to_bits());
    reals.chain(integers[i].iter().map(|z| z.cast_unsigned())).chain(counts[c].iter().copied()).collect()
}

/// 25, or 6 of the block.
pub fn block_fault(name: u64, lengths: [usize; 3]) -> Option<Refusal> {
    if !(1..=NAMES as u64).contains(&name) {
        return Some(Refusal::NameRange);
    }
    let expected = [REALS, INTEGERS, COUNTS].map(|size| NAMES * size);
    let wrong = (0..3).find(|k| lengths[*k] != expected[*k])?;
    Some(Refusal::LengthMismatch(expected[wrong], lengths[wrong]))
}

/// The original's answer.
fn nearest(b: &Begun, out: &mut [i64]) -> Result<NearestPoint, Refusal> {
    common::answer(LARGEST_DIMENSION, &b.weights, &b.mu, b.sum, None, |table, budget| {
        let scratch = &mut EnumerationScratch::new();
        let nodes = table.nearest(&b.target, out, b.radius, budget, scratch).map_err(common::refusal)?;
        Ok(NearestPoint::new(table, &b.target, out, nodes))
    })
}

/// The walk's answer.
fn walked(found: Found, out: &mut [i64]) -> Result<NearestPoint, Refusal> {
    let (point, nodes, distance) = found.map_err(|error| match error {
        // A part that no call has written may hold minus zero.
        oracle::error::DecodeError::BudgetExhausted { nodes, radius_sq } => Refusal::BudgetExhausted(nodes, radius_sq),
        oracle::error::DecodeError::OutsideRadius { radius_sq } => Refusal::OutsideRadius(radius_sq),
        _ => unreachable!("a walk ends with 15 or 16"),
    })?;
    out.copy_from_slice(&point);
    Ok(NearestPoint { nodes, distance })
}

fn assert_same(a: &Result<NearestPoint, Refusal>, b: &Result<NearestPoint, Refusal>) {
    let same = match (a, b) {
        (Ok(a), Ok(b)) => (a.nodes, a.distance.to_bits()) == (b.nodes, b.distance.to_bits()),
        (Err(Refusal::BudgetExhausted(n, r)), Err(Refusal::BudgetExhausted(m, s))) => {
            (n, r.to_bits()) == (m, s.to_bits())
        }
        (Err(Refusal::OutsideRadius(r)), Err(Refusal::OutsideRadius(s))) => r.to_bits() == s.to_bits(),
        _ => false,
    };
    assert!(same, "the walk and the original differ");
}

pub fn nearest_named(
    reals: &mut [f64],
    integers: &mut [i64],
    counts: &mut [u64],
    name: u64,
    weights: &[f64],
    mu: &[f64],
    target: &[f64],
    out: &mut [i64],
    radius: f64,
    budget: u64,
) -> Result<NearestPoint, Refusal> {
    if let Some(fault) = block_fault(name, [reals.len(), integers.len(), counts.len()]) {
        return Err(fault);
    }
    let (weights, mu, target) = (weights.to_vec(), mu.to_vec(), target.to_vec());
    let mut begun = Begun { weights, mu, target, radius, sum: budget, part: Vec::new() };
    let answer = nearest(&begun, out);
    if matches!(answer, Ok(_) | Err(Refusal::BudgetExhausted(..) | Refusal::OutsideRadius(_))) {
        let mut held = Held::begin(&begun.weights, &begun.mu, &begun.target, radius);
        held.run(budget);
        assert_same(&answer, &walked(held.answer(), &mut vec![0; out.len()]));
        if !held.is_over() {
            let [r, i, c] = part(name);
            held.write_table(&mut reals[r.clone()]);
            held.write_walk(&mut reals[r], &mut integers[i], &mut counts[c]);
            begun.part = bits(name, reals, integers, counts);
            BEGUN.with_borrow_mut(|all| all.insert(name, begun));
        }
    }
    answer
}

pub fn pick_up(
    reals: &mut [f64],
    integers: &mut [i64],
    counts: &mut [u64],
    name: u64,
    out: &mut [i64],
    budget: u64,
) -> Result<NearestPoint, Refusal> {
    if let Some(fault) = block_fault(name, [reals.len(), integers.len(), counts.len()]) {
        return Err(fault);
    }
    let [r, i, c] = part(name);
    let Some(mut held) = Held::read(&reals[r.clone()], &integers[i.clone()], &counts[c.clone()]) else {
        return Err(Refusal::NameEmpty);
    };
    if out.len() != held.dimension() {
        return Err(Refusal::LengthMismatch(held.dimension(), out.len()));
    }
    let sum = held.nodes.saturating_add(budget);
    if sum > MOST_NODES {
        return Err(Refusal::SumRange(sum));
    }
    let before = bits(name, reals, integers, counts);
    let begun = BEGUN.with_borrow(|all| all.get(&name).filter(|b| b.part == before).cloned());
    held.run(budget);
    let mut other = out.to_vec();
    let by_walk = walked(held.answer(), &mut other);
    let (r_end, i_end, c_end) = (r.clone(), i.clone(), c.clone());
    if held.is_over() {
        reals[r_end].fill(0.0);
        integers[i_end].fill(0);
        counts[c_end].fill(0);
    } else {
        held.write_walk(&mut reals[r_end], &mut integers[i_end], &mut counts[c_end]);
    }
    let Some(begun) = begun else {
        out.copy_from_slice(&other);
        return by_walk;
    };
    let begun = Begun { sum: begun.sum + budget, part: bits(name, reals, integers, counts), ..begun };
    let answer = nearest(&begun, out);
    assert_same(&answer, &by_walk);
    assert_eq!(out, other, "the points differ");
    BEGUN.with_borrow_mut(|all| all.insert(name, begun));
    answer
}
