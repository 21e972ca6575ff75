//! Random cases of the prepared search: a table with a target, a pair of matrices, and the target that the inverse turns
//! into the table's.

use super::{LONG, SHORT, budget, resize};
use crate::case::{Call, Case};
use crate::matrices::{Pair, transposed};
use crate::paper::{self, LARGEST_ENTRY, LIMIT};
use crate::rng::Rng;
use crate::values;
use oracle::Enumerator;
use std::cmp::Reverse;

/// A case that its checks refuse, if at all, by 7, 11 or 13.
pub fn case(rng: &mut Rng) -> Case {
    let aimed = rng.once_in(3);
    let wide = aimed && !rng.once_in(3);
    let (mut weights, mu, mut reduced) = match wide {
        true => values::wide(rng),
        false if rng.once_in(60) => heavy(rng),
        false => values::table(rng),
    };
    // A small first weight opens more than a short walk does.
    if wide && !rng.once_in(4) {
        weights[0] = 1.0;
    }
    if aimed || rng.once_in(4) {
        keep_one(rng, &mut reduced);
    }
    let pair = if aimed { aimed_pair(rng, &weights, &mu, &reduced) } else { pair(rng, weights.len()) };
    let target = if rng.once_in(8) { reduced } else { before(rng, &reduced, &pair) };
    let mut case = Case::new(Call::Prepared, &weights, &mu, &target, 0.0, 0).with_pair(&pair);
    let cap = if rng.once_in(200) { LONG } else { SHORT };
    budget(rng, &mut case, cap);
    case
}

/// Halves under weights at the largest double: four have one that can't be widened as distance, five none at all.
fn heavy(rng: &mut Rng) -> values::Table {
    let n = 3 + rng.below(3);
    let weights = (0..n).map(|_| f64::from_bits(f64::MAX.to_bits() - rng.below(9) as u64)).collect();
    (weights, vec![0.0; n * n], (0..n).map(|_| rng.sign() * 0.5).collect())
}

// ---- the target

/// Zeros but for one coordinate, mostly the last: so that large rows do not carry the target beyond 2^52.
fn keep_one(rng: &mut Rng, target: &mut [f64]) {
    let n = target.len();
    let kept = if n > 0 && rng.once_in(4) { rng.below(n) } else { n.wrapping_sub(1) };
    for (i, t) in target.iter_mut().enumerate() {
        if i != kept {
            *t = 0.0;
        }
    }
}

/// The target that the inverse turns into about this one. Coordinates that carry it beyond 2^52 are mostly left out.
fn before(rng: &mut Rng, reduced: &[f64], pair: &Pair) -> Vec<f64> {
    let n = pair.n;
    let within = !rng.once_in(12);
    let mut target = vec![0.0; n];
    for (row, t) in reduced.iter().enumerate().filter(|(_, t)| t.abs() > 0.0) {
        let next: Vec<f64> = (0..n).map(|c| target[c] + t * pair.transform[row * n + c] as f64).collect();
        if !within || next.iter().all(|t| t.abs() <= LIMIT) {
            target = next;
        }
    }
    // Both zeros, and subnormals that no sum shows.
    for t in target.iter_mut().filter(|t| **t == 0.0) {
        *t = rng.pick(&[0.0, 0.0, 0.0, -0.0, values::SMALLEST, -1e-310]);
    }
    target
}

// ---- the matrices

/// Few or many operations, with small factors or with factors up to 2^52, over a permutation with signs.
fn pair(rng: &mut Rng, n: usize) -> Pair {
    let mut pair = Pair::identity(n);
    if !rng.once_in(8) {
        pair = permuted(rng, pair);
    }
    let kind = rng.below(8);
    let operations = if n < 2 { 0 } else { rng.pick(&[1, 2, 3, n, 2 * n]) };
    for _ in 0..operations {
        let (to, from) = two_rows(rng, n);
        let factor = match kind {
            0 => 0,
            1..4 => rng.below(7) as i64 - 3,
            4 | 5 => (rng.bits().cast_signed() >> 11) >> rng.below(52),
            6 => rng.pick(&[1, -1]) << rng.below(53),
            _ => to_the_limit(rng, &pair, to, from),
        };
        if !pair.add(to, from, factor) {
            pair.add(to, from, factor >> rng.below(52));
        }
        if rng.once_in(2) {
            pair = pair.exchanged();
        }
    }
    pair
}

fn two_rows(rng: &mut Rng, n: usize) -> (usize, usize) {
    let to = rng.below(n);
    (to, (to + 1 + rng.below(n - 1)) % n)
}

/// The factor that brings an entry of row `to` to 2^52 on either side, or as near as it goes.
fn to_the_limit(rng: &mut Rng, pair: &Pair, to: usize, from: usize) -> i64 {
    let column = rng.below(pair.n);
    let end = rng.pick(&[1, -1]) << 52;
    (end - pair.transform[to * pair.n + column]).checked_div(pair.transform[from * pair.n + column]).unwrap_or(end)
}

/// The rows of the transform in another order and with other signs.
fn permuted(rng: &mut Rng, mut pair: Pair) -> Pair {
    for i in 0..pair.n {
        let j = i + rng.below(pair.n - i);
        pair.swap(i, j);
        if rng.once_in(2) {
            pair.negate(i);
        }
    }
    pair
}

/// Where a mapped coordinate is aimed at: the ends of i64, past them, and near zero.
const AIMS: [i128; 12] = [
    i64::MAX as i128,
    i64::MAX as i128 - 1,
    i64::MAX as i128 + 1,
    i64::MIN as i128,
    i64::MIN as i128 + 1,
    i64::MIN as i128 - 1,
    0,
    -1,
    1 << 62,
    1 << 64,
    (1 << 64) + 7,
    -(1 << 70),
];

/// One column maps the table's point to a chosen number or near it, often by products that are far beyond; then the
/// columns are put in another order, with other signs.
fn aimed_pair(rng: &mut Rng, weights: &[f64], mu: &[f64], target: &[f64]) -> Pair {
    let n = weights.len();
    let mut pair = Pair::identity(n);
    if n == 0 {
        return pair;
    }
    let found = oracle::nearest_ml(&Enumerator::from_table(weights, mu), target, n, SHORT);
    let point = found.map_or_else(|_| paper::plane(mu, &mut target.to_vec()), |(point, ..)| point);
    let point: Vec<i128> = point.into_iter().map(i128::from).collect();
    let column = rng.below(n);
    let mut left = rng.pick(&AIMS) - point[column];
    let mut rows: Vec<usize> = (0..n).filter(|row| *row != column && point[*row] != 0).collect();
    rows.sort_by_key(|row| Reverse(point[*row].abs()));
    for (k, row) in rows.iter().enumerate() {
        let most = i128::from(LARGEST_ENTRY);
        let factor = match rows.get(k + 1) {
            // The largest coordinate takes any factor that the next one can make up for.
            Some(next) if k == 0 && !rng.once_in(4) => any_up_to(rng, most * point[*next] / point[*row]),
            _ => (left / point[*row]).clamp(-most, most),
        };
        if pair.add(*row, column, factor as i64) {
            left -= factor * point[*row];
        }
    }
    permuted(rng, pair.exchanged()).exchanged()
}

fn any_up_to(rng: &mut Rng, most: i128) -> i128 {
    let magnitude = rng.below(most.unsigned_abs() as usize + 1) as i128;
    if rng.once_in(2) { magnitude } else { -magnitude }
}

// ---- faults

const BAD_ENTRIES: [i64; 8] =
    [(1 << 52) + 1, -(1 << 52) - 1, 1 << 53, -(1 << 53), i64::MIN, i64::MAX, i64::MIN + 1, 1 << 60];

/// What 22 or 23 refuses, and entries of 2^52, which 22 takes.
pub fn fault(rng: &mut Rng, case: &mut Case) {
    let n = case.weights.len();
    match rng.below(12) {
        0 => resize(rng, &mut case.transform, 0),
        1 => resize(rng, &mut case.inverse, 0),
        2 | 3 => {
            let entry = rng.pick(&BAD_ENTRIES);
            change(rng, case, |_| entry);
        }
        4 => {
            let entry = rng.pick(&[1 << 52, -(1 << 52)]);
            change(rng, case, |_| entry);
        }
        5..8 => {
            let off = rng.pick(&[1, -1]);
            change(rng, case, |z| z.wrapping_add(off));
        }
        8 if case.inverse.len() == n * n => case.inverse = transposed(n, &case.inverse),
        8 | 9 => change(rng, case, i64::wrapping_neg),
        _ => wrapped(rng, case),
    }
}

/// Changes an entry of either matrix.
fn change(rng: &mut Rng, case: &mut Case, new: impl Fn(i64) -> i64) {
    let matrix = if rng.once_in(2) { &mut case.transform } else { &mut case.inverse };
    if !matrix.is_empty() {
        let place = rng.below(matrix.len());
        matrix[place] = new(matrix[place]);
    }
}

/// A column of the transform and a row of the inverse times two numbers whose product is 1 modulo a power of two, 2^64
/// in most cases: so the matrices' products are the identity modulo that power.
fn wrapped(rng: &mut Rng, case: &mut Case) {
    let n = case.weights.len();
    if n == 0 || case.transform.len() != n * n || case.inverse.len() != n * n {
        return;
    }
    let power = 1_i64 << (1 + rng.below(51));
    let whole = (274_177, 67_280_421_310_721);
    let halves = (1 - (1 << 32), 1 + (1 << 32));
    let (mut a, mut b) = rng.pick(&[whole, whole, halves, halves, (641, 6_700_417), (1 - power, 1 + power)]);
    if rng.once_in(2) {
        (a, b) = (b, a);
    }
    let k = rng.below(n);
    let fits = |z: i64, factor: i64| z.unsigned_abs().saturating_mul(factor.unsigned_abs()) <= LARGEST_ENTRY;
    let column = |row: usize| row * n + k;
    if !(0..n).all(|i| fits(case.transform[column(i)], a) && fits(case.inverse[k * n + i], b)) {
        *case = case.clone().with_pair(&Pair::identity(n));
    }
    for i in 0..n {
        case.transform[column(i)] *= a;
        case.inverse[k * n + i] *= b;
    }
}
