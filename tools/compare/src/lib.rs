//! Compares the port's static library with the Rust original and with the specification, a case at a time, and the job
//! program with the text that the oracle has for a job's bytes.

pub mod answer;
pub mod case;
pub mod expected;
pub mod job;
pub mod listed;
pub mod matrices;
pub mod paper;
pub mod port;
pub mod random;
pub mod reach;
pub mod rng;
pub mod short;
pub mod shrink;
pub mod stack;
pub mod tally;
pub mod values;

use answer::Answer;
use case::Case;
use listed::Listed;

pub struct Difference {
    pub port: Answer,
    pub expected: Answer,
    /// What else is amiss: a slice that had to stay, a disagreement of the specification and the Rust, or a list that
    /// does not begin at the distance of the nearest point.
    pub remarks: Vec<String>,
}

pub struct Comparison {
    pub expected: Answer,
    /// Whether the list beside a nearest point begins with another one; `None` where there is no list.
    pub other_first: Option<bool>,
    pub difference: Option<Difference>,
}

/// What was expected, and how the port's answer differs from it.
#[must_use]
pub fn compare(case: &Case) -> Comparison {
    let (port, trespasses) = port::run(case);
    compare_with(case, port, trespasses)
}

/// The same of an answer, and of what the call changed that no call may change.
#[must_use]
pub fn compare_with(case: &Case, port: Answer, trespasses: Vec<&'static str>) -> Comparison {
    let expected::Expected { answer, disagreement } = expected::expected(case);
    let mut remarks: Vec<String> = trespasses.into_iter().map(String::from).chain(disagreement).collect();
    let other_first = listed::listed(case, &answer).map(|Listed { other_first, remarks: amiss }| {
        remarks.extend(amiss);
        other_first
    });
    let differs = port != answer || !remarks.is_empty();
    let difference = differs.then(|| Difference { port, expected: answer.clone(), remarks });
    Comparison { expected: answer, other_first, difference }
}
