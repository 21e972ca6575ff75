//! What the tests of cases share: an answer of the port and of what the comparison expects, and answers of another port.

use compare::answer::{Answer, Report, before};
use compare::case::Case;
use compare::{Comparison, compare, compare_with};

/// Both must answer with this report, and with these numbers at the front of the slices.
pub fn answers(case: &Case, report: Report, integers: &[i64], doubles: &[f64]) {
    let (mut z, mut x) = before(case);
    z.splice(..integers.len().min(z.len()), integers.iter().copied());
    x.splice(..doubles.len(), doubles.iter().map(|d| d.to_bits()));
    let Comparison { expected, difference, .. } = compare(case);
    assert!(difference.is_none(), "{case}");
    assert_eq!(expected, Answer { report, integers: z, doubles: x }, "{case}");
}

pub fn found(case: &Case, point: &[i64], nodes: u64, distance: f64) {
    answers(case, Report::found(nodes, distance), point, &[]);
}

pub fn refused(case: &Case, report: Report) {
    answers(case, report, &[], &[]);
}

pub fn exhausted(nodes: u64, radius: f64) -> Report {
    Report { number: 15, first: nodes, second: 0, real: radius.to_bits() }
}

/// Whether an answer counts as a difference.
pub fn differs(case: &Case, port: Answer) -> bool {
    compare_with(case, port, Vec::new()).difference.is_some()
}
