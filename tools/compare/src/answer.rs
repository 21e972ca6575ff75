//! What a call answers, and what the caller's slices hold afterwards, bit for bit.

use crate::case::{Call, Case};
use std::fmt;

/// A success or a refusal by its number, with the values in the places that the port's C interface gives them.
#[derive(Clone, Copy, PartialEq, Eq, Debug, Default)]
pub struct Report {
    /// 0 for a success.
    pub number: u32,
    pub first: u64,
    pub second: u64,
    /// A double's bits: a NaN is compared with its sign and payload.
    pub real: u64,
}

impl Report {
    #[must_use]
    pub const fn whole(number: u32, first: u64, second: u64) -> Self {
        Self { number, first, second, real: 0 }
    }

    /// The success of a nearest search: its nodes, and the distance of its point.
    #[must_use]
    pub const fn found(nodes: u64, distance: f64) -> Self {
        Self { number: 0, first: nodes, second: 0, real: distance.to_bits() }
    }

    #[must_use]
    pub const fn double(number: u32, real: f64) -> Self {
        Self { number, first: 0, second: 0, real: real.to_bits() }
    }
}

#[derive(Clone, PartialEq, Eq, Debug)]
pub struct Answer {
    pub report: Report,
    /// The output; in `list` the points; in `round_away` its integer.
    pub integers: Vec<i64>,
    /// The distances of `list`, the coefficients of `nearest_plane`, by their bits.
    pub doubles: Vec<u64>,
}

impl Answer {
    /// A report with every slice as it was before the call.
    #[must_use]
    pub fn untouched(case: &Case, report: Report) -> Self {
        let (integers, doubles) = before(case);
        Self { report, integers, doubles }
    }
}

/// What the slices that a call may write hold before it.
#[must_use]
pub fn before(case: &Case) -> (Vec<i64>, Vec<u64>) {
    let integers = |n| (0..n).map(integer_pattern).collect();
    match case.call {
        Call::Nearest | Call::Seeded | Call::Ml | Call::Prepared | Call::Round => (integers(case.places), Vec::new()),
        Call::List => (integers(case.points), (0..case.places).map(double_pattern).collect()),
        Call::Plane => (integers(case.places), case.target.iter().map(|x| x.to_bits()).collect()),
        Call::RoundAway | Call::Distance => (Vec::new(), Vec::new()),
    }
}

/// Integers that no search here comes upon, each place another.
#[must_use]
pub const fn integer_pattern(place: usize) -> i64 {
    0x5a5a_a5a5_1234_0000 ^ (place as i64 * 0x0101_0000_0101)
}

/// NaNs of both signs and kinds with payloads, and doubles whose bits a copy through arithmetic could change.
#[must_use]
pub const fn double_pattern(place: usize) -> u64 {
    let payload = place as u64 + 1;
    match place % 7 {
        0 => 0x7ff8_0000_0000_0000 | payload,
        1 => 0xfff8_0000_dead_0000 | payload,
        2 => 0x7ff0_0000_0000_0000 | payload,
        3 => 0xfff0_0000_beef_0000 | payload,
        4 => 0x8000_0000_0000_0000,
        5 => payload,
        _ => 0xfff0_0000_0000_0000,
    }
}

/// At most this many numbers of a slice are printed.
const SHOWN: usize = 24;

fn shown<T>(out: &mut fmt::Formatter<'_>, name: &str, list: &[T], item: impl Fn(&T) -> String) -> fmt::Result {
    if list.is_empty() {
        return Ok(());
    }
    let text: Vec<String> = list.iter().take(SHOWN).map(item).collect();
    let more = if list.len() > SHOWN { " .." } else { "" };
    write!(out, " {name} [ {}{more} ]", text.join(" "))
}

impl fmt::Display for Answer {
    fn fmt(&self, out: &mut fmt::Formatter<'_>) -> fmt::Result {
        let Report { number, first, second, real } = self.report;
        if number == 0 {
            write!(out, "success ({first}, {second}, {real:016x})")?;
        } else {
            write!(out, "refused {number} ({first}, {second}, {real:016x})")?;
        }
        shown(out, "integers", &self.integers, i64::to_string)?;
        shown(out, "doubles", &self.doubles, |x| format!("{x:016x}"))
    }
}
