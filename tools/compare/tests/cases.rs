//! The specification's bench cases A to L: the answers that it gives, of the port and of what the comparison expects; a
//! distance by its bits; a radius of minus zero; the list beside a nearest point; and the steps to a smaller case.

mod common;

use common::{answers, differs, exhausted, found, refused};
use compare::answer::{Answer, Report};
use compare::case::{Call, Case};
use compare::listed::listed;
use compare::{Comparison, compare, random, shrink};

const ULP: f64 = f64::EPSILON;
const LIMIT: f64 = 4_503_599_627_370_496.0;
const HALF: f64 = 0.5;

fn one(call: Call, weight: f64, target: f64, radius: f64, budget: u64) -> Case {
    Case::new(call, &[weight], &[0.0], &[target], radius, budget)
}

#[test]
fn a() {
    for radius in [0.0, -0.0, 4.0, f64::MAX] {
        let case = |call| Case::new(call, &[], &[], &[], radius, 0);
        for call in [Call::Nearest, Call::Seeded, Call::Ml] {
            found(&case(call), &[], 0, 0.0);
        }
        answers(&case(Call::List).with_places(1), Report::whole(0, 0, 1), &[], &[0.0]);
    }
}

#[test]
fn b_to_d() {
    found(&one(Call::Nearest, 4.0, 0.75, 0.25, 1), &[1], 1, 0.25);
    refused(&one(Call::Nearest, 4.0, 0.75, 0.125, 0), Report::double(16, 0.125));
    refused(&one(Call::Nearest, 4.0, 0.75, 0.25, 0), exhausted(0, 0.25));
}

#[test]
fn e_and_f() {
    found(&one(Call::Nearest, 1.0, HALF, 1.0, 2), &[0], 2, 0.25);
    refused(&one(Call::Nearest, 1.0, HALF, 1.0, 1), exhausted(1, 0.25));
    refused(&one(Call::List, 1.0, HALF, 1.0, 1), exhausted(1, 1.0));
}

#[test]
fn g() {
    let case = |call| Case::new(call, &[1.0; 2], &[0.0, 0.0, 0.5, 0.0], &[0.25, 0.5], 2.0, 100);
    found(&case(Call::Nearest), &[0, 1], 5, 0.25);
    found(&case(Call::Ml), &[0, 1], 3, 0.25);
    let list = case(Call::List).with_places(256);
    let points = [0, 1, 0, 0, 1, 0, -1, 1, 1, 1];
    answers(&list, Report::whole(0, 7, 5), &points, &[0.25, 0.5, 0.5, 1.25, 1.25]);
}

#[test]
fn h_and_i() {
    let case = |call, radius, budget| Case::new(call, &[2.0 * ULP, 4.0], &[0.0; 4], &[HALF; 2], radius, budget);
    refused(&case(Call::Nearest, 1.0, 2), Report::double(16, 1.0));
    found(&case(Call::Nearest, 1.0 + ULP, 4), &[0, 1], 4, 1.0);
    let list = case(Call::List, 1.0 + ULP, 6).with_places(9);
    answers(&list, Report::whole(0, 6, 4), &[0, 0, 0, 1, 1, 0, 1, 1], &[1.0; 4]);
    // from a candidate at the radius 1; widened that opens 10 prefixes, and the walk, whose radius shrinks, tries 6
    for call in [Call::Seeded, Call::Ml] {
        let from = |budget| case(call, 1.0, budget).with_candidate(&[0, 0]);
        found(&from(100), &[0, 1], 6, 1.0);
        found(&from(6), &[0, 1], 6, 1.0);
        refused(&from(5), exhausted(5, 1.0));
    }
}

#[test]
fn j() {
    let halves = [0.5, -0.5, -2.5, 2f64.powi(63)];
    let rounded = [1, -1, -3, i64::MAX];
    for (x, z) in halves.into_iter().zip(rounded) {
        let case = Case::new(Call::RoundAway, &[], &[], &[x], 0.0, 0);
        assert_eq!(compare::port::run(&case).0.integers, [z]);
    }
    answers(&Case::new(Call::Round, &[], &[], &halves, 0.0, 0).with_places(4), Report::default(), &rounded, &[]);
}

#[test]
fn k() {
    found(&one(Call::Nearest, 1.0, LIMIT, 0.0, 1), &[1 << 52], 1, 0.0);
    refused(&one(Call::Nearest, 1.0, LIMIT + 1.0, 0.0, 1), Report::whole(7, 0, 0));
}

#[test]
fn l() {
    let case = |radius, budget| one(Call::Seeded, 1.0, HALF, radius, budget).with_candidate(&[2]);
    refused(&case(2.0, 100), Report::double(12, 2.0));
    found(&case(2.25, 100), &[0], 4, 0.25);
    refused(&case(2.25, (1 << 60) + 1), Report::whole(9, (1 << 60) + 1, 0));
}

/// The candidate, [-1, 1, 2], is the nearest-plane point, at about 0.544. Summed from level 0 upward the distance has
/// other bits.
#[test]
fn distance() {
    let mu = [0.0, 0.0, 0.0, -0.7, 0.0, 0.0, 0.3, 0.9, 0.0];
    let case = |call, radius| Case::new(call, &[1.7, 0.4, 2.1], &mu, &[-1.4, 0.9, 1.7], radius, 100);
    let distance = f64::from_bits(0x3fd7_d2c7_b890_d5a2);
    found(&case(Call::Nearest, 1.3), &[-2, 0, 2], 9, distance);
    found(&case(Call::Seeded, 0.6).with_candidate(&[-1, 1, 2]), &[-2, 0, 2], 5, distance);
    found(&case(Call::Ml, 0.0), &[-2, 0, 2], 5, distance);
}

// ---- a radius of minus zero

const SMALLEST: f64 = f64::from_bits(1);
const MINUS_ZERO: u64 = (-0.0_f64).to_bits();

/// Each is refused with the radius that 8 hands on, plus zero, where the Rust gives minus zero back. The distances of a
/// list hold minus zero at their fifth place before the call.
fn refused_at_minus_zero() -> Vec<(Case, Report)> {
    let two = |call| Case::new(call, &[1.0; 2], &[0.0; 4], &[1.0; 2], -0.0, 1);
    vec![
        (one(Call::Nearest, 1.0, HALF, -0.0, 100), Report::double(16, 0.0)),
        (one(Call::Nearest, 1.0, 1.0, -0.0, 0), exhausted(0, 0.0)),
        (one(Call::List, 1.0, 1.0, -0.0, 0).with_places(5), exhausted(0, 0.0)),
        (two(Call::Nearest), exhausted(1, 0.0)),
        (two(Call::List).with_places(5), exhausted(1, 0.0)),
        (one(Call::Seeded, 1.0, HALF, -0.0, 100).with_candidate(&[0]), Report::double(12, 0.0)),
    ]
}

/// Coefficients of which minus zero is left.
fn plane_to_minus_zero() -> Case {
    Case::new(Call::Plane, &[1.0; 2], &[0.0; 4], &[-0.0, 3.0], 0.0, 0)
}

#[test]
fn minus_zero_refused() {
    for (case, report) in refused_at_minus_zero() {
        refused(&case, report);
    }
}

/// What is found is the same at both zeros, and so is the widened radius.
#[test]
fn minus_zero_found() {
    for radius in [0.0, -0.0] {
        let seeded = |budget| one(Call::Seeded, 1.0, 1.0, radius, budget).with_candidate(&[1]);
        found(&one(Call::Nearest, 1.0, 1.0, radius, 1), &[1], 1, 0.0);
        found(&seeded(1), &[1], 1, 0.0);
        refused(&seeded(0), exhausted(0, 4.0 * ULP));
        answers(&one(Call::List, 1.0, 1.0, radius, 1), Report::whole(0, 1, 1), &[1], &[0.0]);
    }
}

/// -2^-1074 is below 0, and 8 carries it as it is.
#[test]
fn below_zero() {
    for call in [Call::Nearest, Call::Seeded, Call::List] {
        refused(&one(call, 1.0, HALF, -SMALLEST, 100), Report::double(8, -SMALLEST));
    }
}

/// Only the radius of these refusals counts as zero: coefficients keep their sign, and so do slices that stay.
#[test]
fn other_minus_zeros_stay() {
    answers(&plane_to_minus_zero(), Report::default(), &[0, 3], &[-0.0, 0.0]);
    for (case, _) in refused_at_minus_zero().iter().filter(|(case, _)| case.call == Call::List) {
        assert_eq!(compare(case).expected.doubles[4], MINUS_ZERO, "{case}");
    }
}

/// A port whose refusal or distance is minus zero for plus zero differs, and one that leaves plus zero for minus zero.
#[test]
fn signs_are_compared() {
    let told = [one(Call::Nearest, 1.0, 1.0, -0.0, 1), one(Call::Distance, 1.0, 0.0, 0.0, 0)];
    for case in refused_at_minus_zero().into_iter().map(|(case, _)| case).chain(told) {
        let Comparison { expected, .. } = compare(&case);
        assert_eq!(expected.report.real, 0, "{case}");
        let minus = Report { real: MINUS_ZERO, ..expected.report };
        assert!(!differs(&case, expected.clone()), "{case}");
        assert!(differs(&case, Answer { report: minus, ..expected }), "{case}");
    }
    let list = one(Call::List, 1.0, 1.0, -0.0, 1);
    for (case, other) in [(list, MINUS_ZERO), (plane_to_minus_zero(), 0)] {
        let Comparison { mut expected, .. } = compare(&case);
        assert!(!differs(&case, expected.clone()), "{case}");
        expected.doubles[0] = other;
        assert!(differs(&case, expected), "{case}");
    }
}

// ---- the list beside a nearest point

fn table_of_i(radius: f64) -> Case {
    Case::new(Call::Nearest, &[2.0 * ULP, 4.0], &[0.0; 4], &[HALF; 2], radius, 100)
}

fn other_first(case: &Case) -> Option<bool> {
    compare(case).other_first
}

/// In case I the list begins with [0, 0], and the answer is [0, 1].
#[test]
fn lists_compared() {
    let g = Case::new(Call::Nearest, &[1.0; 2], &[0.0, 0.0, 0.5, 0.0], &[0.25, 0.5], 2.0, 5);
    assert_eq!(other_first(&g), Some(false));
    assert_eq!(other_first(&table_of_i(1.0 + ULP)), Some(true));
    assert_eq!(other_first(&Case::new(Call::Nearest, &[], &[], &[], 4.0, 0)), Some(false));
}

/// Where nothing is found, in another call, and where the list opens 1,001 prefixes.
#[test]
fn no_lists() {
    assert_eq!(other_first(&table_of_i(1.0)), None);
    assert_eq!(other_first(&Case { call: Call::Ml, ..table_of_i(1.0) }), None);
    for (reach, nodes, listed) in [(499.0, 999, Some(false)), (500.0, 1_001, None)] {
        let case = one(Call::Nearest, 1.0, 0.0, reach * reach, 2_000);
        found(&case, &[0], nodes, 0.0);
        assert_eq!(other_first(&case), listed);
    }
}

/// A distance that is not the list's first, and a point that is not in the list.
#[test]
fn lists_that_differ() {
    let case = table_of_i(1.0 + ULP);
    let Comparison { expected, .. } = compare(&case);
    let remarks = |answer: &Answer| listed(&case, answer).unwrap().remarks.len();
    assert_eq!(remarks(&expected), 0);
    let above = Report::found(expected.report.first, 1.0 + ULP);
    assert_eq!(remarks(&Answer { report: above, ..expected.clone() }), 2);
    assert_eq!(remarks(&Answer { integers: vec![0, 2], ..expected }), 1);
}

// ---- the smallest case

/// No step leaves a case as it is: that one would be taken until the time is over.
#[test]
fn every_step_is_a_change() {
    let all = |case: &Case| (case.to_string(), case.points);
    let drawn = (0..400).map(|number| random::case(3, number));
    for case in drawn.filter(|case| case.weights.len() < 4) {
        let same = shrink::smaller(&case, true).iter().any(|step| all(step) == all(&case));
        assert!(!same, "{case}");
    }
}
