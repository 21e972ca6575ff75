//! What the run tests as Rust share: the crates that they print with, the answer of a nearest search, the refusals 2 to
//! 5, 9 and 14, which the original does not have and which are the specification's, and the radius that 12, 15 and 16
//! carry.

use oracle::Enumerator;
use oracle::error::DecodeError;
use refusals::Refusal;

pub mod io {
    use std::io::Write;

    pub fn write_all(_: u32, text: &[u8]) {
        std::io::stdout().write_all(text).unwrap();
    }

    pub fn print_decimal(_: u32, n: u64) {
        print!("{n}");
    }

    pub fn print_hex(_: u32, n: u64, digits: usize) {
        print!("{n:0digits$x}");
    }
}

pub mod refusals {
    include!(concat!(env!("OUT_DIR"), "/refusals.rs"));
}

#[allow(clippy::eq_op, clippy::zero_divided_by_zero)]
pub mod printing {
    use super::{io, refusals};
    include!(concat!(env!("OUT_DIR"), "/printing.rs"));
}

pub struct NearestPoint {
    pub nodes: u64,
    pub distance: f64,
}

impl NearestPoint {
    /// What a search gives beside the point that it wrote. The distance, which the original's searches do not hand out,
    /// is that of its `triangular_distance`.
    pub fn new(table: &Enumerator, target: &[f64], point: &[i64], nodes: u64) -> Self {
        Self { nodes, distance: table.triangular_distance(target, point).unwrap() }
    }
}

/// The radius that 12, 15 and 16 carry: plus zero where the original gives minus zero back. Nothing else is changed so.
pub fn carried(radius_sq: f64) -> f64 {
    if radius_sq == 0.0 { 0.0 } else { radius_sq }
}

/// The refusal that has the error's name.
pub fn refusal(error: DecodeError) -> Refusal {
    match error {
        DecodeError::LengthMismatch { expected, found } => Refusal::LengthMismatch(expected, found),
        DecodeError::NonFinite { index } => Refusal::NonFinite(index),
        DecodeError::InvalidRadius { radius_sq } => Refusal::InvalidRadius(radius_sq),
        DecodeError::BudgetExhausted { nodes, radius_sq } => Refusal::BudgetExhausted(nodes, carried(radius_sq)),
        DecodeError::OutsideRadius { radius_sq } => Refusal::OutsideRadius(carried(radius_sq)),
        DecodeError::Range(_) => unreachable!("no call over a table gives Range"),
    }
}

/// The first of refusals 2 to 5, of a table with so many dimensions at most.
fn table_fault(largest: usize, weights: &[f64], mu: &[f64]) -> Option<Refusal> {
    let n = weights.len();
    if n > largest || mu.len() != n * n {
        return Some(Refusal::TableSize(n));
    }
    let first = |bad: &dyn Fn(f64) -> bool| (0..n * n).find(|k| k / n > k % n && bad(mu[*k]));
    let infinite = first(&|x| !x.is_finite()).map(Refusal::MuNonFinite);
    let beyond = || first(&|x| x.abs() > oracle::COORD_LIMIT).map(Refusal::MuRange);
    let weight = || weights.iter().position(|w| !(w.is_finite() && *w > 0.0)).map(Refusal::WeightRange);
    infinite.or_else(beyond).or_else(weight)
}

/// What `call` answers over the table, with the refusals that the original does not have in their places: 2 to 5 before
/// all of the call's own, 9 and then 14, which is `size`, after its 6 to 8 and before its others. 2 lets `largest`
/// dimensions pass.
pub fn answer<T>(
    largest: usize,
    weights: &[f64],
    mu: &[f64],
    budget: u64,
    size: Option<Refusal>,
    call: impl FnOnce(&Enumerator, u64) -> Result<T, Refusal>,
) -> Result<T, Refusal> {
    if let Some(fault) = table_fault(largest, weights, mu) {
        return Err(fault);
    }
    let fault = if budget > 1 << 60 { Some(Refusal::BudgetRange(budget)) } else { size };
    // Behind 9 and 14 there is no walk.
    let budget = if fault.is_some() { 0 } else { budget };
    match (call(&Enumerator::from_table(weights, mu), budget), fault) {
        (Err(e @ (Refusal::LengthMismatch(..) | Refusal::NonFinite(_) | Refusal::InvalidRadius(_))), _) => Err(e),
        (_, Some(fault)) => Err(fault),
        (answer, None) => answer,
    }
}
