//! The prepared search: answers worked out by hand, of the port and of what the comparison expects; answers that are
//! nearly right; what the random cases come upon; and a smallest case.

mod common;

use common::{differs, exhausted, found, refused};
use compare::answer::{Answer, Report, before};
use compare::case::{Call, Case};
use compare::expected::expected;
use compare::matrices::{Pair, transposed};
use compare::paper::{self, LIMIT};
use compare::shrink::shrink;
use compare::{Comparison, compare, random};
use std::collections::BTreeMap;

const MOST: i64 = 1 << 52;
const MATRIX: u32 = 22;
const NOT_INVERSE: Report = Report::whole(23, 0, 0);

/// A table with mu 0 and weights 1.
fn flat(target: &[f64], budget: u64) -> Case {
    let n = target.len();
    Case::new(Call::Prepared, &vec![1.0; n], &vec![0.0; n * n], target, 0.0, budget)
}

/// The table of G, at whose target (0.25, 0.5) [0, 1] is found.
fn table_of_g(target: [f64; 2], budget: u64) -> Case {
    Case::new(Call::Prepared, &[1.0; 2], &[0.0, 0.0, 0.5, 0.0], &target, 0.0, budget)
}

// ---- by hand

#[test]
fn no_dimension() {
    for budget in [0, 1, 1 << 60] {
        found(&flat(&[], budget), &[], 0, 0.0);
    }
    refused(&flat(&[], (1 << 60) + 1), Report::whole(9, (1 << 60) + 1, 0));
    refused(&flat(&[], 0).with_matrices(&[1], &[]), Report::whole(MATRIX, 0, 0));
    refused(&flat(&[], 0).with_matrices(&[], &[1]), Report::whole(MATRIX, 0, 0));
    refused(&Case { target: vec![f64::NAN], ..flat(&[], 0) }, Report::whole(6, 0, 1));
    refused(&flat(&[], 0).with_places(2), Report::whole(6, 0, 2));
}

/// Rows (1, 3) and (0, 1): the transposed pair has other answers.
#[test]
fn not_symmetric() {
    let (transform, inverse) = ([1, 3, 0, 1], [1, -3, 0, 1]);
    found(&table_of_g([0.25, 1.25], 100).with_matrices(&transform, &inverse), &[0, 1], 3, 0.25);
    let turned = table_of_g([1.75, 0.5], 100).with_matrices(&[1, 0, 3, 1], &[1, 0, -3, 1]);
    found(&turned, &[3, 1], 3, 0.25);
    refused(&table_of_g([0.25, 1.25], 2).with_matrices(&transform, &inverse), exhausted(2, 0.25));
    refused(&table_of_g([0.25, 1.25], 100).with_matrices(&transform, &[1, 0, -3, 1]), NOT_INVERSE);
    refused(&table_of_g([0.25, 1.25], 100).with_matrices(&transform, &[1, -3, 0, -1]), NOT_INVERSE);
}

/// 274177 times 67280421310721 is 2^64 + 1, and (1 - 2^32)(1 + 2^32) is 1 - 2^64.
#[test]
fn inverse_modulo_a_power() {
    let (a, b, half) = (274_177, 67_280_421_310_721, 1 << 32);
    for (a, b) in [(a, b), (b, a), (1 - half, 1 + half), (641, 6_700_417), (-1, 1), (2, 0)] {
        refused(&flat(&[0.25], 9).with_matrices(&[a], &[b]), NOT_INVERSE);
        let (transform, inverse) = ([a, 3, 0, 1], [b, -3 * b, 0, 1]);
        refused(&flat(&[0.0, 0.25], 9).with_matrices(&transform, &inverse), NOT_INVERSE);
    }
}

/// 2^52 is taken, and 2^52 + 1 and -2^63 are not; of several the first is told, and those of the inverse come after.
#[test]
fn entries() {
    for most in [MOST, -MOST] {
        found(&flat(&[0.0, 1.0], 9).with_matrices(&[1, most, 0, 1], &[1, -most, 0, 1]), &[0, 1], 2, 0.0);
    }
    for large in [MOST + 1, -MOST - 1, i64::MAX, i64::MIN] {
        let case = |transform: [i64; 4], inverse: [i64; 4]| flat(&[f64::NAN; 2], 9).with_matrices(&transform, &inverse);
        refused(&case([1, 0, large, 1], [large; 4]), Report::whole(MATRIX, 2, 0));
        refused(&case([1, 0, 0, large], [large; 4]), Report::whole(MATRIX, 3, 0));
        refused(&case([1, 0, 0, 1], [1, large, large, 1]), Report::whole(MATRIX, 5, 0));
        refused(&case([1, 0, 0, 1], [1, 0, 0, large]), Report::whole(MATRIX, 7, 0));
    }
    refused(&flat(&[0.0; 2], 9).with_matrices(&[i64::MIN; 3], &[1, 0, 0, 1]), Report::whole(MATRIX, 0, 0));
}

/// The sum of both targets is 2^53, which comes before the budget.
#[test]
fn transformed_target() {
    let pair = |case: Case| case.with_matrices(&[1, -1, 0, 1], &[1, 1, 0, 1]);
    refused(&pair(flat(&[LIMIT, LIMIT], 1 << 61)), Report::whole(7, 1, 0));
    refused(&pair(flat(&[LIMIT, f64::INFINITY], 9)), Report::whole(7, 1, 0));
    refused(&pair(flat(&[LIMIT, 0.0], 1 << 61)), Report::whole(9, 1 << 61, 0));
    found(&pair(flat(&[LIMIT, 0.0], 9)), &[MOST, 0], 2, 0.0);
}

/// Four weights of the largest double under halves can't be widened, and five have no distance.
#[test]
fn weights_at_the_end() {
    for (n, number) in [(4, 13), (5, 11)] {
        let mut pair = Pair::identity(n);
        pair.swap(0, 1);
        pair.negate(2);
        let mut case = flat(&vec![0.5; n], 9).with_pair(&pair);
        case.weights.fill(f64::MAX);
        refused(&case, Report::double(number, f64::INFINITY));
    }
}

/// Coordinates 2^62 - 256 and 2^20; by 4 and -2^44 the products are about 2^64, and their sum is -1024.
fn beyond_i64() -> Case {
    let (third, seventh) = (-2f64.powi(42), -2f64.powi(22));
    let mu = [0.0, 0.0, 0.0, third, 0.0, 0.0, 0.0, seventh, 0.0];
    let power = 1 << 44;
    let (transform, inverse) = ([1, 0, 4, 0, 1, -power, 0, 0, 1], [1, 0, -4, 0, 1, power, 0, 0, 1]);
    Case::new(Call::Prepared, &[1.0; 3], &mu, &[0.0, 0.0, -0.25], 0.0, 1000).with_matrices(&transform, &inverse)
}

#[test]
fn products_beyond_i64() {
    found(&beyond_i64(), &[(1 << 62) - 256, 1 << 20, -1024], 771, 0.0625);
    refused(&Case { budget: 770, ..beyond_i64() }, exhausted(770, 0.0625));
    // Without the second product the sum is 2^64 - 1024.
    let (transform, inverse) = ([1, 0, 4, 0, 1, 0, 0, 0, 1], [1, 0, -4, 0, 1, 0, 0, 0, 1]);
    refused(&beyond_i64().with_matrices(&transform, &inverse), Report::whole(24, 2, 0));
}

/// Coordinate 0 is -2^50, and in one column 2^13 times that: -2^63 is written, and 2^63 is refused with that column.
#[test]
fn ends_of_i64() {
    for column in 0..4 {
        for sign in [1, -1] {
            let mut pair = Pair::identity(4);
            assert!(pair.add(0, 3, sign << 13));
            let mut turned = pair.exchanged();
            turned.swap(3, column);
            let pair = turned.exchanged();
            let mut target = [0.0; 4];
            target[column] = -0.25;
            let mut case = flat(&target, 99).with_pair(&pair);
            case.mu[12] = LIMIT;
            let mut point = [-(1 << 50), 0, 0, i64::MIN];
            point.swap(3, column);
            match sign {
                1 => found(&case, &point, 4, 0.0625),
                _ => refused(&case, Report::whole(24, column as u64, 0)),
            }
        }
    }
}

// ---- answers that are nearly right

/// Every case is answered as expected, and each of the changes to its answer counts as a difference.
fn notices(case: &Case, changes: &[&dyn Fn(&mut Answer)]) {
    let right = compare(case).expected;
    assert!(!differs(case, right.clone()), "{case}");
    for (k, change) in changes.iter().enumerate() {
        let mut wrong = right.clone();
        change(&mut wrong);
        assert!(differs(case, wrong), "change {k} of {case}");
    }
}

const MINUS_ZERO: u64 = (-0.0_f64).to_bits();

#[test]
fn wrong_points_are_noticed() {
    notices(
        &beyond_i64(),
        &[
            &|a| a.report.first += 1,
            &|a| a.report.second = 1,
            &|a| a.report.real += 1,
            &|a| a.integers[2] += 1,
            &|a| a.integers.swap(0, 1),
            // The point before it is mapped, and nothing written.
            &|a| a.integers[2] = 0,
            &|a| a.integers = before(&beyond_i64()).0,
            &|a| a.report = Report::whole(24, 2, 0),
            &|a| *a = Answer::untouched(&beyond_i64(), Report::whole(24, 2, 0)),
        ],
    );
    notices(&flat(&[1.0], 9), &[&|a| a.report.real = MINUS_ZERO, &|a| a.integers[0] = 0]);
    // The distance of the mapped point at the target that was handed in.
    let turned = table_of_g([0.0, 0.5], 100).with_matrices(&[1, 0, -1, 1], &[1, 0, 1, 1]);
    let distance = paper::distance(&turned.weights, &turned.mu, &turned.target, &compare(&turned).expected.integers);
    notices(&turned, &[&|a| a.report.real = distance.to_bits()]);
}

#[test]
fn wrong_refusals_are_noticed() {
    let pair = |case: Case| case.with_matrices(&[1, -1, 0, 1], &[1, 1, 0, 1]);
    let cases = [
        flat(&[0.0; 2], 9).with_matrices(&[1, 0, MOST + 1, 1], &[1, 0, 0, 1]),
        flat(&[0.0; 2], 9).with_matrices(&[1, 1, 0, 1], &[1, 1, 0, 1]),
        pair(flat(&[0.0; 3], 9)),
        pair(flat(&[LIMIT, LIMIT], 1 << 61)),
        pair(flat(&[0.0; 2], 1 << 61)),
        pair(flat(&[0.5; 2], 1)),
        beyond_i64().with_matrices(&[1, 0, 4, 0, 1, 0, 0, 0, 1], &[1, 0, -4, 0, 1, 0, 0, 0, 1]),
    ];
    for (case, number) in cases.iter().zip([22, 23, 22, 7, 9, 15, 24]) {
        assert_eq!(expected(case).answer.report.number, number, "{case}");
        notices(
            case,
            &[
                &|a| a.report.number = 0,
                &|a| a.report.number += 1,
                &|a| a.report.first += 1,
                &|a| a.report.second += 1,
                &|a| a.report.real ^= 1 << 63,
                &|a| a.integers[0] = 0,
                &|a| *a.integers.last_mut().unwrap() += 1,
            ],
        );
    }
}

/// What a call changed that no call may change.
#[test]
fn trespasses_are_noticed() {
    let case = beyond_i64();
    let right = compare(&case).expected;
    let Comparison { difference, .. } = compare::compare_with(&case, right, vec!["the inverse was changed"]);
    assert!(difference.is_some());
}

// ---- the random cases

fn product(n: usize, a: &[i64], b: &[i64], row: usize, column: usize) -> i128 {
    (0..n).map(|k| i128::from(a[row * n + k]) * i128::from(b[k * n + column])).sum()
}

/// Whether the product is the identity modulo 2^64.
fn wraps_to_identity(n: usize, a: &[i64], b: &[i64]) -> bool {
    (0..n * n).all(|k| product(n, a, b, k / n, k % n) as i64 == i64::from(k / n == k % n))
}

/// The point of a search before it is mapped.
fn before_mapping(case: &Case) -> Vec<i64> {
    let table = oracle::Enumerator::from_table(&case.weights, &case.mu);
    oracle::nearest_ml(&table, &paper::transformed(case), case.places, case.budget).unwrap().0
}

/// Kinds of refusal, and whether the case is refused so.
fn refusals(case: &Case, report: Report) -> Vec<(&'static str, bool)> {
    let Case { weights, target, transform, inverse, .. } = case;
    let (n, first) = (weights.len(), report.first as usize);
    let is = |number: u32| report.number == number;
    let sized = transform.len() == n * n && inverse.len() == n * n;
    let told = || if first < n * n { transform[first] } else { inverse[first - n * n] };
    let in_range = target.iter().all(|t| t.abs() <= LIMIT);
    let mapped = || paper::mapped(&before_mapping(case), transform)[first];
    vec![
        ("6 of the target", is(6) && target.len() != n),
        ("6 of the output", is(6) && target.len() == n),
        ("7 of the target", is(7) && !in_range),
        ("7 of the transformed target, first column", is(7) && in_range && first == 0),
        ("7 of the transformed target, another column", is(7) && in_range && first > 0),
        ("22 by a length", is(22) && !sized),
        ("22 in the transform, not its first entry", is(22) && sized && first > 0 && first < n * n),
        ("22 in the inverse", is(22) && sized && first >= n * n),
        ("22 by 2^52 + 1", is(22) && sized && told().unsigned_abs() == (1 << 52) + 1),
        ("22 by -2^63", is(22) && sized && told() == i64::MIN),
        ("23 with 2^52", is(23) && transform.iter().chain(inverse).any(|z| z.unsigned_abs() == 1 << 52)),
        ("23 by the identity modulo 2^64", is(23) && wraps_to_identity(n, transform, inverse)),
        ("23 by a transposed inverse", is(23) && wraps_to_identity(n, transform, &transposed(n, inverse))),
        ("24 in the first column", is(24) && first == 0),
        ("24 between", is(24) && first > 0 && first + 1 < n),
        ("24 in the last column", is(24) && first > 0 && first + 1 == n),
        ("24 by 2^63", is(24) && mapped() == 1 << 63),
        ("24 by -2^63 - 1", is(24) && mapped() == -(1 << 63) - 1),
    ]
}

/// Kinds of points, and whether the case finds such a one.
fn points(case: &Case, answer: &Answer) -> Vec<(&'static str, bool)> {
    if answer.report.number != 0 {
        return Vec::new();
    }
    let Case { target, transform, inverse, .. } = case;
    let (n, point) = (case.weights.len(), before_mapping(case));
    let most = transform.iter().chain(inverse).map(|z| z.unsigned_abs()).max().unwrap_or(0);
    let beyond = |k: usize| i64::try_from(i128::from(point[k / n]) * i128::from(transform[k])).is_err();
    let symmetric = *transform == transposed(n, transform);
    vec![
        ("found in no dimension", n == 0),
        ("found in 23 dimensions", n == 23),
        (
            "found by a permutation with signs, not symmetric",
            most == 1 && *inverse == transposed(n, transform) && !symmetric,
        ),
        ("found by small entries, not symmetric", (2..100).contains(&most) && !symmetric),
        ("found by entries beside 2^52, not symmetric", ((1 << 52) - 9..1 << 52).contains(&most) && !symmetric),
        ("found by an entry of 2^52", most == 1 << 52),
        ("found by products beyond i64", (0..n * n).any(beyond)),
        ("found with -2^63", answer.integers.contains(&i64::MIN)),
        ("found with 2^63 - 1", answer.integers.contains(&i64::MAX)),
        ("found at a target of 2^52", target.contains(&LIMIT)),
        ("found at a target of -2^52", target.contains(&-LIMIT)),
        ("found at minus zero", target.iter().any(|t| t.to_bits() == MINUS_ZERO)),
        ("found at a subnormal", target.iter().any(|t| t.is_subnormal())),
        ("found with no budget to spare", case.budget == answer.report.first),
        ("found with a budget of 2^60", case.budget == 1 << 60),
    ]
}

/// Every number and every kind is come upon; with `-- --nocapture` it is printed how often.
#[test]
fn random_cases() {
    let mut counts: BTreeMap<String, u64> = BTreeMap::new();
    let drawn = (0..150_000).map(|number| random::case(7, number)).filter(|case| case.call == Call::Prepared);
    for case in drawn {
        let Comparison { expected, difference, .. } = compare(&case);
        assert!(difference.is_none(), "{case}");
        *counts.entry(format!("number {:2}", expected.report.number)).or_default() += 1;
        for (kind, is) in refusals(&case, expected.report).into_iter().chain(points(&case, &expected)) {
            *counts.entry(kind.into()).or_default() += u64::from(is);
        }
    }
    println!("random: {counts:#?}");
    for number in [0, 2, 3, 4, 5, 6, 7, 9, 11, 13, 15, 22, 23, 24] {
        assert!(counts.contains_key(&format!("number {number:2}")), "{number}");
    }
    assert!(counts.values().all(|count| *count > 0), "{counts:#?}");
}

// ---- the smallest case

/// Cases of three to six dimensions: two are left of them, and three at most of those that 24 refuses.
#[test]
fn shrunk() {
    let number = |case: &Case| expected(case).answer.report.number;
    for wanted in [7, 15, 22, 23, 24] {
        let drawn =
            (0..).map(|k| random::case(8, k)).filter(|case| case.call == Call::Prepared && number(case) == wanted);
        for case in drawn.filter(|case| (3..7).contains(&case.weights.len())).take(3) {
            let smallest = shrink(&case, &|case| number(case) == wanted);
            assert!(smallest.weights.len() < case.weights.len(), "{case}\n{smallest}");
            assert!(smallest.weights.len() <= if wanted == 24 { 3 } else { 2 }, "{case}\n{smallest}");
        }
    }
}
