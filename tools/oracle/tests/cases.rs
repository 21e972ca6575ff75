//! The specification's bench cases A to L, the prepared search, running centres, and the texts of jobs. L's budget of 2^60 + 1 is left
//! out: the original does not have refusal 9.

use oracle::error::DecodeError::{
    self, BudgetExhausted, InvalidRadius, LengthMismatch, NonFinite, OutsideRadius, Range,
};
use oracle::{Enumerator, job_text, list, nearest, nearest_ml, nearest_plane, nearest_seeded, round, rounded_away};

const ULP: f64 = f64::EPSILON;
const LIMIT: f64 = 4_503_599_627_370_496.0;

fn one(weight: f64) -> Enumerator {
    Enumerator::from_table(&[weight], &[0.0])
}

fn two(weights: [f64; 2], entry: f64) -> Enumerator {
    Enumerator::from_table(&weights, &[f64::NAN, f64::NAN, entry, f64::NAN])
}

fn is<T: PartialEq + std::fmt::Debug>(found: Result<T, DecodeError>, expected: T) {
    assert_eq!(found, Ok(expected));
}

fn refused<T: PartialEq + std::fmt::Debug>(found: Result<T, DecodeError>, expected: DecodeError) {
    assert_eq!(found, Err(expected));
}

#[test]
fn a() {
    let table = Enumerator::from_table(&[], &[]);
    is(nearest(&table, &[], 0, 0.0, 0), (vec![], 0, 0.0));
    is(list(&table, &[], 0.0, 0), (vec![(0.0, vec![])], 0));
}

#[test]
fn b_to_d() {
    is(nearest(&one(4.0), &[0.75], 1, 0.25, 1), (vec![1], 1, 0.25));
    refused(nearest(&one(4.0), &[0.75], 1, 0.125, 0), OutsideRadius { radius_sq: 0.125 });
    refused(nearest(&one(4.0), &[0.75], 1, 0.25, 0), BudgetExhausted { nodes: 0, radius_sq: 0.25 });
}

#[test]
fn e_and_f() {
    is(nearest(&one(1.0), &[0.5], 1, 1.0, 2), (vec![0], 2, 0.25));
    refused(nearest(&one(1.0), &[0.5], 1, 1.0, 1), BudgetExhausted { nodes: 1, radius_sq: 0.25 });
    refused(list(&one(1.0), &[0.5], 1.0, 1), BudgetExhausted { nodes: 1, radius_sq: 1.0 });
}

#[test]
fn g() {
    let table = two([1.0, 1.0], 0.5);
    let target = [0.25, 0.5];
    let points =
        vec![(0.25, vec![0, 1]), (0.5, vec![0, 0]), (0.5, vec![1, 0]), (1.25, vec![-1, 1]), (1.25, vec![1, 1])];
    is(nearest(&table, &target, 2, 2.0, 100), (vec![0, 1], 5, 0.25));
    is(list(&table, &target, 2.0, 100), (points, 7));
    is(nearest_ml(&table, &target, 2, 100), (vec![0, 1], 3, 0.25));
    is(nearest_plane(&table, &target, 2), (vec![0, 1], vec![0.25, -0.5]));
}

#[test]
fn h_and_i() {
    let table = two([2.0 * ULP, 4.0], 0.0);
    let target = [0.5, 0.5];
    refused(nearest(&table, &target, 2, 1.0, 2), OutsideRadius { radius_sq: 1.0 });
    for point in [[0, 0], [0, 1], [1, 0], [1, 1]] {
        is(table.triangular_distance(&target, &point), 1.0);
    }
    let radius = 1.0 + ULP;
    is(nearest(&table, &target, 2, radius, 4), (vec![0, 1], 4, 1.0));
    refused(list(&table, &target, radius, 4), BudgetExhausted { nodes: 4, radius_sq: radius });
    let points = [[0, 0], [0, 1], [1, 0], [1, 1]].map(|z| (1.0, z.to_vec())).to_vec();
    is(list(&table, &target, radius, 6), (points, 6));
    is(nearest_seeded(&table, &target, 2, &[0, 0], 1.0, 6), (vec![0, 1], 6, 1.0));
    is(nearest_ml(&table, &target, 2, 6), (vec![0, 1], 6, 1.0));
}

#[test]
fn j() {
    let halves = [0.5, -0.5, -2.5, 2.0 * 4_611_686_018_427_387_904.0];
    assert_eq!(halves.map(rounded_away), [1, -1, -3, i64::MAX]);
    is(round(&halves, 4), vec![1, -1, -3, i64::MAX]);
}

#[test]
fn k() {
    is(nearest(&one(1.0), &[LIMIT], 1, 0.0, 1), (vec![1 << 52], 1, 0.0));
    refused(nearest(&one(1.0), &[LIMIT + 1.0], 1, 0.0, 1), NonFinite { index: 0 });
}

#[test]
fn l() {
    let table = one(1.0);
    refused(nearest_seeded(&table, &[0.5], 1, &[2], 2.0, 100), InvalidRadius { radius_sq: 2.0 });
    is(nearest_seeded(&table, &[0.5], 1, &[2], 2.25, 100), (vec![0], 4, 0.25));
}

// ---- the prepared search

fn prepared(table: &Enumerator, pair: [&[i64]; 2], target: &[f64], budget: u64) -> oracle::Found {
    oracle::prepared_nearest_ml(table, pair[0], pair[1], target, table.dim(), budget)
}

/// The point is the mapped one, the distance that of the point before.
#[test]
fn prepared_by_hand() {
    is(prepared(&Enumerator::from_table(&[], &[]), [&[], &[]], &[], 0), (vec![], 0, 0.0));
    // G at the target (0.25, 0.5): its [0, 1] by rows (2, 1) and (1, 1) is [1, 1].
    let pair: [&[i64]; 2] = [&[2, 1, 1, 1], &[1, -1, -1, 2]];
    is(prepared(&two([1.0, 1.0], 0.5), pair, &[1.0, 0.75], 100), (vec![1, 1], 3, 0.25));
    refused(prepared(&two([1.0, 1.0], 0.5), pair, &[1.0, 0.75], 2), BudgetExhausted { nodes: 2, radius_sq: 0.25 });
    // Not symmetric: [0, 1] by rows (1, 3) and (0, 1), at the target whose transform is (0.25, 0.5).
    let pair: [&[i64]; 2] = [&[1, 3, 0, 1], &[1, -3, 0, 1]];
    is(prepared(&two([1.0, 1.0], 0.5), pair, &[0.25, 1.25], 100), (vec![0, 1], 3, 0.25));
}

/// Products up to 2^64 whose sum is -1024.
#[test]
fn prepared_beyond_i64() {
    let (third, seventh) = (-2f64.powi(42), -2f64.powi(22));
    let table = Enumerator::from_table(&[1.0; 3], &[0.0, 0.0, 0.0, third, 0.0, 0.0, 0.0, seventh, 0.0]);
    let pair = |a: i64, b: i64| ([1, 0, a, 0, 1, b, 0, 0, 1], [1, 0, -a, 0, 1, -b, 0, 0, 1]);
    let target = [0.0, 0.0, -0.25];
    let (transform, inverse) = pair(4, -(1 << 44));
    let (point, nodes, distance) = prepared(&table, [&transform, &inverse], &target, 1000).unwrap();
    assert_eq!((point, nodes), (vec![(1 << 62) - 256, 1 << 20, -1024], 771));
    is(nearest_ml(&table, &target, 3, 1000), (vec![(1 << 62) - 256, 1 << 20, 0], 771, distance));
    let (transform, inverse) = pair(4, 0);
    assert!(matches!(prepared(&table, [&transform, &inverse], &target, 1000), Err(Range(_))));
}

#[test]
fn prepared_refused() {
    let pair: [&[i64]; 2] = [&[1, -1, 0, 1], &[1, 1, 0, 1]];
    let table = two([1.0, 1.0], 0.0);
    refused(prepared(&table, pair, &[LIMIT, LIMIT], 1 << 61), NonFinite { index: 1 });
    refused(prepared(&table, pair, &[0.0, LIMIT + 1.0], 9), NonFinite { index: 1 });
    refused(prepared(&table, pair, &[0.0], 9), LengthMismatch { expected: 2, found: 1 });
    let long = oracle::prepared_nearest_ml(&table, pair[0], pair[1], &[0.0, 0.0], 3, 9);
    refused(long, LengthMismatch { expected: 2, found: 3 });
}

#[test]
fn prepared_lines() {
    let (zero, one, half) = ("0000000000000000", "3ff0000000000000", "3fe0000000000000");
    let g =
        format!("prepared_nearest_ml 2 {one},{one} {zero},{zero},{half},{zero} {one},3fe8000000000000 {zero} 100 - 2");
    assert_eq!(oracle::answer(&format!("{g} 2,1,1,1 1,-1,-1,2")), "found 3 3fd0000000000000 [ 1 1 ]");
    assert_eq!(oracle::answer(&g), "malformed line: fewer than 11 fields");
    assert_eq!(oracle::answer(&format!("{g} 2,1,1,1")), "malformed line: 10 fields, or more than 11");
    assert_eq!(oracle::answer(&format!("{g} 2,1,1,1 1,-1,-1")), "malformed inverse: not n·n entries");
    assert_eq!(
        oracle::answer(&format!("prepared_nearest_ml 0 - - - {zero} 0 - 0 - -")),
        "found 0 0000000000000000 [ ]"
    );
    // A quarter above by mu 2^52 makes coordinate 0 2^50; 2^13 times that is 2^63.
    let far =
        format!("prepared_nearest_ml 2 {one},{one} {zero},{zero},4330000000000000,{zero} {zero},3fd0000000000000");
    let far = |factor: i64| oracle::answer(&format!("{far} {zero} 9 - 2 1,{factor},0,1 1,{},0,1", -factor));
    assert_eq!(far(-1 << 13), format!("found 2 3fb0000000000000 [ {} {} ]", 1_i64 << 50, i64::MIN));
    assert_eq!(far(1 << 13), "Range()");
}

// ---- running centres

/// n dimensions with weights 1, these entries mu and these targets, the others 0; what is not read of mu is a NaN.
fn wide(n: usize, entries: &[(usize, f64)], targets: &[(usize, f64)]) -> (Enumerator, Vec<f64>) {
    let mut mu: Vec<f64> = (0..n * n).map(|k| if k / n > k % n { 0.0 } else { f64::NAN }).collect();
    let mut target = vec![0.0; n];
    entries.iter().for_each(|(k, x)| mu[*k] = *x);
    targets.iter().for_each(|(k, x)| target[*k] = *x);
    (Enumerator::from_table(&vec![1.0; n], &mu), target)
}

/// A vector of n integers, 0 but for these.
fn point(n: usize, coordinates: &[(usize, i64)]) -> Vec<i64> {
    let mut point = vec![0; n];
    coordinates.iter().for_each(|(k, z)| point[*k] = *z);
    point
}

/// 0.3 is lost in the first centre, 0.1·2^40, and what is left of it is another number: by `center` it would be 0.3.
#[test]
fn running_centres() {
    let (table, target) = wide(24, &[(24, 0.1)], &[(0, 0.3), (1, 2f64.powi(40))]);
    refused(nearest(&table, &target, 24, 0.09, 100), OutsideRadius { radius_sq: 0.09 });
    is(list(&table, &target, 0.09, 100), (vec![], 23));
    refused(list(&table, &target, 0.09, 22), BudgetExhausted { nodes: 22, radius_sq: 0.09 });
    let near = point(24, &[(1, 1 << 40)]);
    is(table.triangular_distance(&target, &near), 0.09);
    // The distance of a point is the walk's.
    let left = (0.3 + 0.1 * 2f64.powi(40)) - 0.1 * 2f64.powi(40);
    assert_ne!(left, 0.3);
    is(nearest(&table, &target, 24, 0.25, 100), (near.clone(), 24, left * left));
    is(list(&table, &target, 0.25, 100), (vec![(left * left, near)], 24));
    // One dimension less, and the centre is made anew.
    let (table, target) = wide(23, &[(23, 0.1)], &[(0, 0.3), (1, 2f64.powi(40))]);
    is(nearest(&table, &target, 23, 0.09, 100), (point(23, &[(1, 1 << 40)]), 23, 0.09));
}

/// The lines take 64 dimensions of `nearest` and `list`, and 23 of the others.
#[test]
fn running_lines() {
    let line = |call: &str, n: usize| {
        let items = |count: usize, item: &str| vec![item; count].join(",");
        let (one, zero) = ("3ff0000000000000", "0000000000000000");
        oracle::answer(&format!(
            "{call} {n} {} {} {} {zero} 100 {}",
            items(n, one),
            items(n * n, zero),
            items(n, one),
            items(n, "1")
        ))
    };
    let ones = |n: usize| format!("[{} ]", " 1".repeat(n));
    for n in [23, 24, 64] {
        assert_eq!(line("nearest", n), format!("found {n} 0000000000000000 {}", ones(n)));
        assert_eq!(line("list", n), format!("listed {n} 1 0000000000000000 {}", ones(n)));
    }
    for call in ["nearest", "list"] {
        assert_eq!(line(call, 65), "malformed table: n above 64, or not n weights and n·n entries");
    }
    assert_eq!(line("triangular_distance", 23), "distance 0000000000000000");
    for call in ["nearest_seeded", "nearest_ml", "nearest_plane", "triangular_distance"] {
        assert_eq!(line(call, 24), "malformed table: n above 23, or not n weights and n·n entries");
    }
}

// ---- lines and jobs

#[test]
fn lines() {
    let case = "nearest 1 3ff0000000000000 0000000000000000 3fe0000000000000 3ff0000000000000";
    assert_eq!(oracle::answer(&format!("{case} 2 -")), "found 2 3fd0000000000000 [ 0 ]");
    assert_eq!(oracle::answer(&format!("{case} 1 -")), "BudgetExhausted(1, 3fd0000000000000)");
    assert_eq!(oracle::answer(&format!("{case} 1 - 2")), "LengthMismatch(1, 2)");
    assert_eq!(oracle::answer(&format!("{case} two -")), "malformed budget: two");
    assert_eq!(oracle::answer("nearest_seeded 0 - - - 4010000000000000 0 -"), "found 0 0000000000000000 [ ]");
    assert_eq!(oracle::answer("nearest 0 - - - 8000000000000000 0 -"), "found 0 0000000000000000 [ ]");
}

/// The sections' counts and items.
fn job(sections: &[&[u64]]) -> Vec<u8> {
    let section = |items: &&[u64]| {
        let count = u32::try_from(items.len()).unwrap().to_le_bytes();
        [count.to_vec(), items.iter().flat_map(|item| item.to_le_bytes()).collect()].concat()
    };
    sections.iter().flat_map(section).collect()
}

/// The specification's texts of A, B and E.
#[test]
fn job_texts() {
    let bits = f64::to_bits;
    let a = job(&[&[], &[], &[], &[bits(4.0)], &[0]]);
    assert_eq!(job_text(&a), "nearest 0 0000000000000000\nlist 0 1\n0000000000000000\nratio holds\n");
    assert_eq!(job_text(&[&a[..], &[0]].concat()), "job refused 1 layout\n");
    let b = job(&[&[bits(4.0)], &[], &[bits(0.75)], &[bits(0.25)], &[1]]);
    let lines = "nearest 1 3FD0000000000000 1\nlist 1 1\n3FD0000000000000 1\n";
    assert_eq!(job_text(&b), format!("{lines}ratio open\n"));
    let set = |settings: &[u64]| job_text(&[&b[..], &job(&[settings])].concat());
    assert_eq!(set(&[1, 1, 1]), format!("{lines}ratio holds\n"));
    for settings in [[2, 3, 256], [3, 0, 256], [3, 1, 0], [3, 1, 257]] {
        assert_eq!(set(&settings), "job refused 21 layout\n");
    }
    let e = job(&[&[bits(1.0)], &[], &[bits(0.5)], &[bits(1.0)], &[2], &[1000, 1, 1]]);
    assert_eq!(job_text(&e), "nearest 2 3FD0000000000000 0\nlist refused 18 search\nratio none\n");
}

/// The original gives a radius of minus zero back, and its lines say so: targets of a half and of 1, candidate [0].
#[test]
fn minus_zero() {
    let answer = |call, target, budget| {
        oracle::answer(&format!("{call} 1 3ff0000000000000 0000000000000000 {target} 8000000000000000 {budget} 0"))
    };
    let (half, whole) = ("3fe0000000000000", "3ff0000000000000");
    assert_eq!(answer("nearest", half, 100), "OutsideRadius(8000000000000000)");
    assert_eq!(answer("nearest", whole, 0), "BudgetExhausted(0, 8000000000000000)");
    assert_eq!(answer("list", whole, 0), "BudgetExhausted(0, 8000000000000000)");
    assert_eq!(answer("nearest_seeded", half, 100), "InvalidRadius(8000000000000000)");
}
