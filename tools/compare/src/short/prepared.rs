//! Short cases of the prepared search: the edges of 22 and 23, the order of its checks, sums of the transformed target,
//! small grids, and mapped points at the ends of i64.

use super::{Visit, budgets, few_budgets, sound, special, spoil, with_neighbours};
use crate::case::{Call, Case};
use crate::matrices::{Pair, transposed};
use crate::paper::{LARGEST_ENTRY, LARGEST_N, LIMIT, MOST_NODES};
use crate::values::SMALLEST;

const MOST: i64 = LARGEST_ENTRY as i64;

pub fn cases(visit: Visit) {
    sizes(visit);
    entries(visit);
    one_by_one(visit);
    two_by_two(visit);
    wrapped(visit);
    nearly(visit);
    order(visit);
    targets(visit);
    sums(visit);
    one_dimension(visit);
    two_dimensions(visit);
    ends(visit);
    two_rows(visit);
    walked_to_the_ends(visit);
    large_weights(visit);
}

/// The identity with so many times row `from` added to row `to`, each in turn.
fn pair(n: usize, operations: &[(usize, usize, i64)]) -> Pair {
    let mut pair = Pair::identity(n);
    for &(to, from, factor) in operations {
        assert!(pair.add(to, from, factor), "{operations:?}");
    }
    pair
}

/// The columns of the transform exchanged.
fn with_columns(pair: Pair, i: usize, j: usize) -> Pair {
    let mut turned = pair.exchanged();
    turned.swap(i, j);
    turned.exchanged()
}

/// Small pairs that are not symmetric, and a permutation with signs; in one dimension the two that there are.
fn small_pairs(n: usize) -> Vec<Pair> {
    let last = n - 1;
    let mut turned = with_columns(Pair::identity(n), 0, last);
    turned.negate(0);
    if n == 1 {
        return vec![Pair::identity(n), turned];
    }
    let mut list = vec![turned, pair(n, &[(0, last, 3)]), pair(n, &[(last, 0, -1), (0, last, 2)])];
    list.push(with_columns(pair(n, &[(0, last, -2), (last, 0, 1), (0, last, 1)]), 0, last));
    list
}

/// The target that the inverse turns into this one, but for roundings.
fn before(target: &[f64], pair: &Pair) -> Vec<f64> {
    let n = target.len();
    let column = |c| (0..n).map(|row| target[row] * pair.transform[row * n + c] as f64).sum();
    (0..n).map(column).collect()
}

// ---- 22 and 23

/// Every combination of the matrices' lengths, beside a sound and a faulty call.
fn sizes(visit: Visit) {
    for n in [0, 1, 2, 3, LARGEST_N] {
        let lengths: Vec<usize> = ((n * n).saturating_sub(2)..n * n + 3).chain([0, n]).collect();
        for (a, b) in lengths.iter().flat_map(|a| lengths.iter().map(|b| (*a, *b))) {
            for (filler, faulty) in [0, i64::MIN].into_iter().flat_map(|z| (0..8).map(move |f| (z, f))) {
                let mut case = sound(Call::Prepared, n);
                case.transform.resize(a, filler);
                case.inverse.resize(b, filler);
                spoil(&mut case, faulty);
                visit(case);
            }
        }
    }
}

/// Entry k of the transform, and behind it of the inverse.
fn entry(case: &mut Case, k: usize) -> &mut i64 {
    let first = case.transform.len();
    if k < first { &mut case.transform[k] } else { &mut case.inverse[k - first] }
}

/// Each special integer at each place, and each pair of places with two that are too large.
fn entries(visit: Visit) {
    let mut values = vec![0, 1, 2, 3, MOST - 1, MOST, MOST + 1, 2 * MOST, 1 << 62, i64::MAX];
    values.extend(values.clone().iter().map(|z| -z));
    values.push(i64::MIN);
    for n in 1..4 {
        let cases = small_pairs(n).into_iter().map(|pair| sound(Call::Prepared, n).with_pair(&pair));
        for case in cases.chain([sound(Call::Prepared, n)]) {
            for (k, z) in (0..2 * n * n).flat_map(|k| values.iter().map(move |z| (k, *z))) {
                for faulty in [0, 1, 4] {
                    let mut case = case.clone();
                    *entry(&mut case, k) = z;
                    spoil(&mut case, faulty);
                    visit(case);
                }
            }
            for (j, k) in (0..2 * n * n).flat_map(|j| (0..2 * n * n).map(move |k| (j, k))) {
                let mut case = case.clone();
                *entry(&mut case, j) = MOST + 1;
                *entry(&mut case, k) = i64::MIN;
                visit(case);
            }
        }
    }
}

/// One dimension: products of 1 modulo powers of two, and of everything else around them.
fn one_by_one(visit: Visit) {
    let mut values = vec![0, 1, 2, 3, 5, 641, 6_700_417, 274_177, 67_280_421_310_721, MOST];
    values.extend((2..52).flat_map(|k| [(1 << k) - 1, 1 << k, (1 << k) + 1]));
    values.extend(values.clone().iter().map(|z| -z));
    for (a, b) in values.iter().flat_map(|a| values.iter().map(|b| (*a, *b))) {
        visit(sound(Call::Prepared, 1).with_matrices(&[a], &[b]));
    }
}

/// Two dimensions: all of -1, 0 and 1, and each matrix of -2 to 2 with its inverse and what is nearly that.
fn two_by_two(visit: Visit) {
    let with = |a: &[i64], b: &[i64]| sound(Call::Prepared, 2).with_matrices(a, b);
    let matrices = |side: i64| -> Vec<[i64; 4]> {
        let digit = |k: i64, place| k / side.pow(place) % side - side / 2;
        (0..side.pow(4)).map(|k| [0, 1, 2, 3].map(|place| digit(k, place))).collect()
    };
    for (a, b) in matrices(3).iter().flat_map(|a| matrices(3).into_iter().map(move |b| (a, b))) {
        visit(with(a, &b));
    }
    for [a, b, c, d] in matrices(5) {
        let (matrix, determinant) = ([a, b, c, d], a * d - b * c);
        let inverse = [d, -b, -c, a].map(|z| z * determinant.signum());
        for other in [inverse.to_vec(), transposed(2, &inverse), inverse.map(|z| -z).to_vec(), matrix.to_vec()] {
            visit(with(&matrix, &other));
        }
        for (k, off) in (0..8).flat_map(|k| [(k, 1), (k, -1)]) {
            let mut case = with(&matrix, &inverse);
            *entry(&mut case, k) += off;
            visit(case);
        }
    }
}

/// A column of the transform and a row of the inverse times two numbers whose product is 1 modulo a power of two: so are
/// the matrices' products the identity.
fn wrapped(visit: Visit) {
    let powers = (1..52).map(|k| (1 - (1 << k), 1 + (1 << k)));
    let factors: Vec<(i64, i64)> = powers.chain([(274_177, 67_280_421_310_721), (641, 6_700_417)]).collect();
    for n in 1..4 {
        for pair in small_pairs(n).into_iter().chain([Pair::identity(n)]) {
            for (k, (a, b)) in (0..n).flat_map(|k| factors.iter().flat_map(move |f| [(k, *f), (k, (f.1, f.0))])) {
                let mut case = sound(Call::Prepared, n).with_pair(&pair);
                for i in 0..n {
                    case.transform[i * n + k] *= a;
                    case.inverse[k * n + i] *= b;
                }
                visit(case);
            }
        }
    }
}

/// Pairs with products up to 2^104, which no double sums up exactly, and what is nearly such a pair.
fn nearly(visit: Visit) {
    let (a, b) = ((1 << 17) + 1, -(1 << 17) + 3);
    let chains: [&[(usize, usize, i64)]; 4] = [
        &[(0, 1, MOST), (2, 0, 1), (1, 2, -1)],
        &[(0, 1, a), (1, 2, b), (2, 0, a - 2)],
        &[(0, 1, a), (2, 1, b), (1, 0, 1 << 17), (2, 0, -1)],
        &[(0, 1, (1 << 26) + 1), (1, 0, (1 << 26) - 1), (2, 1, 1), (0, 2, -1)],
    ];
    for (n, operations) in [3, 5].into_iter().flat_map(|n| chains.map(|chain| (n, chain))) {
        let sound = sound(Call::Prepared, n).with_pair(&pair(n, operations));
        visit(sound.clone());
        visit(sound.clone().with_matrices(&sound.inverse, &sound.transform));
        visit(sound.clone().with_matrices(&sound.transform, &transposed(n, &sound.inverse)));
        for (k, off) in (0..2 * n * n).flat_map(|k| [1, -1, 2, 1 << 20, -(1 << 40)].map(|off| (k, off))) {
            let mut case = sound.clone();
            *entry(&mut case, k) += off;
            visit(case);
        }
    }
}

// ---- the order of the checks

/// Every set of faults over calls that end by 11, by 13, by 15 or with a point. The inverse adds coordinate 0 to 1.
fn order(visit: Visit) {
    for (n, weight, budget) in [(5, f64::MAX, 90), (4, f64::MAX, 90), (3, 1.0, 0), (3, 1.0, 90)] {
        for faults in 0..1 << 10 {
            let case = Case::new(Call::Prepared, &vec![weight; n], &vec![0.0; n * n], &vec![0.5; n], 0.0, budget);
            let mut case = case.with_pair(&pair(n, &[(0, 1, -1)]));
            case.target[0] = 0.0;
            for fault in (0..10).filter(|k| faults >> k & 1 == 1) {
                spoiled(&mut case, fault);
            }
            visit(case);
        }
    }
}

fn spoiled(case: &mut Case, fault: u32) {
    let n = case.weights.len();
    match fault {
        0 => case.mu[n] = f64::NAN,
        1 => case.weights[1] = 0.0,
        2 => case.transform.truncate(n * n - 1),
        3 => case.inverse[n] = MOST + 1,
        4 => case.transform[1] += 1,
        5 => case.target.push(0.0),
        6 => case.places += 2,
        7 => case.target[1] = f64::NAN,
        // Only their sum is beyond 2^52.
        8 => case.target[..2].fill(LIMIT),
        _ => case.budget = MOST_NODES + 1,
    }
}

// ---- the transformed target

/// Each special double at each place, and sums at and beside 2^52.
fn targets(visit: Visit) {
    for n in 1..4 {
        for pair in small_pairs(n) {
            for (k, x) in (0..n).flat_map(|k| special().into_iter().map(move |x| (k, x))) {
                for other in [0.0, -0.0, 0.25, LIMIT, -LIMIT] {
                    let mut case = sound(Call::Prepared, n).with_pair(&pair);
                    case.target.fill(other);
                    case.target[k] = x;
                    visit(case);
                }
            }
        }
    }
    for factor in [1, 2, 3, 1 << 26, MOST / 2, MOST - 1, MOST] {
        let whole = LIMIT / factor as f64;
        let others = [0.0, 0.25, 0.5, 1.0, 2.0, SMALLEST].into_iter().flat_map(|x| [x, -x]);
        for (x, y) in others.flat_map(|y| with_neighbours(&[whole, -whole]).into_iter().map(move |x| (x, y))) {
            for (to, from) in [(0, 1), (1, 0)] {
                let mut case = sound(Call::Prepared, 2).with_pair(&pair(2, &[(to, from, -factor)]));
                (case.target[to], case.target[from]) = (x, y);
                visit(case);
            }
        }
    }
}

/// Sums of products that round: in another order, or with fewer roundings, the distance has other bits.
fn sums(visit: Visit) {
    let factors = [1, -3, (1 << 20) + 1, -(1 << 30) - 1, MOST - 1, -MOST];
    let targets = [0.1, -0.3, 0.7, 1.0 / 3.0, 1e-9];
    for (n, c) in [(3, 0), (3, 1), (3, 2), (4, 1), (4, 3)] {
        let rows: Vec<usize> = (0..n).filter(|row| *row != c).collect();
        for (a, b) in factors.iter().flat_map(|a| factors.iter().map(|b| (*a, *b))) {
            let mut pair = pair(n, &[(rows[0], c, a), (rows[1], c, b)]);
            pair.add(rows[n - 2], c, 7);
            for k in 0..targets.len().pow(n as u32) {
                let target: Vec<f64> =
                    (0..n).map(|i| targets[k / targets.len().pow(i as u32) % targets.len()]).collect();
                let case = Case::new(Call::Prepared, &vec![1.0; n], &vec![0.0; n * n], &target, 0.0, 40);
                visit(case.with_pair(&pair));
            }
        }
    }
}

// ---- grids

fn one_dimension(visit: Visit) {
    let targets = [0.0, -0.0, 0.25, 0.5, -0.5, 1.5, LIMIT, 0.5 - LIMIT, SMALLEST, 0.5f64.next_down()];
    for (weight, target) in [SMALLEST, 1.0, 3.0, f64::MAX].into_iter().flat_map(|w| targets.map(|t| (w, t))) {
        for sign in [1, -1] {
            let case = Case::new(Call::Prepared, &[weight], &[f64::NAN], &[target], 0.0, 0);
            budgets(&case.with_matrices(&[sign], &[sign]), 20, visit);
        }
    }
}

fn two_dimensions(visit: Visit) {
    let weights = [2.0 * f64::EPSILON, 1.0, 4.0];
    let entries = [-0.5, 0.0, 0.3, 0.5];
    let targets = [-0.5, 0.0, 0.25, 0.7];
    let pairs = small_pairs(2);
    for k in 0..9 * 4 * 16 * pairs.len() {
        let (i, k) = (k % 9, k / 9);
        let (e, k) = (k % 4, k / 4);
        let (t, k) = (k % 16, k / 16);
        let mu = [f64::NAN, f64::INFINITY, entries[e], 3.0 * LIMIT];
        let target = before(&[targets[t % 4], targets[t / 4]], &pairs[k]);
        let case = Case::new(Call::Prepared, &[weights[i % 3], weights[i / 3]], &mu, &target, 0.0, 0);
        budgets(&case.with_pair(&pairs[k]), 16, visit);
    }
}

// ---- the mapped point

/// A search whose point before mapping has m at each of the coordinates `at` where the last target is a quarter above an
/// integer, and -m where it is a quarter below.
fn quarters(n: usize, at: &[(usize, f64)], last: f64, pair: &Pair) -> Case {
    let mut mu = vec![0.0; n * n];
    for &(i, m) in at {
        mu[(n - 1) * n + i] = 4.0 * m;
    }
    let mut target = vec![0.0; n];
    target[n - 1] = last;
    Case::new(Call::Prepared, &vec![1.0; n], &mu, &before(&target, pair), 0.0, 60).with_pair(pair)
}

const QUARTERS: [f64; 4] = [0.25, -0.25, 0.75, -0.75];

/// Numbers with a product of 2^63-1, 2^63, 2^63+1, 2^62 and around, and far beyond.
const PRODUCTS: [(i64, i64); 9] = [
    (153_092_023, 60_247_241_209),
    (1 << 50, 1 << 13),
    (119_537_721, 77_158_673_929),
    (1 << 12, 1 << 51),
    (1 << 50, 1 << 12),
    (3_037_000_499, 3_037_000_500),
    (3_037_000_500, 3_037_000_500),
    (1 << 50, (1 << 13) - 1),
    (1 << 50, MOST),
];

/// One column with m·k and the last coordinate, at each place; and with it another one that is beyond i64.
fn ends(visit: Visit) {
    for n in [2, 3, 4, LARGEST_N] {
        for ((m, k), last) in PRODUCTS.iter().flat_map(|p| QUARTERS.map(|last| (*p, last))) {
            for (sign, column) in (0..n).flat_map(|column| [(1, column), (-1, column)]) {
                let one = pair(n, &[(0, n - 1, sign * k)]);
                let case = |pair: Pair| quarters(n, &[(0, m as f64)], last, &with_columns(pair, n - 1, column));
                visit(case(one.clone()));
                if n > 2 {
                    let mut two = one;
                    two.add(0, 1, -sign * MOST);
                    visit(case(two));
                }
            }
        }
    }
}

/// Two coordinates of m by factors up to 2^52 that differ by little: products far beyond i64, and a sum at its ends.
fn two_rows(visit: Visit) {
    for n in [3, 4, LARGEST_N] {
        for ((m, k), last) in PRODUCTS.iter().flat_map(|p| QUARTERS.map(|last| (*p, last))) {
            for (sign, column) in [0, 1, n - 1].into_iter().flat_map(|column| [(1, column), (-1, column)]) {
                let pair = pair(n, &[(0, n - 1, sign * MOST), (1, n - 1, sign * (k - MOST))]);
                let pair = with_columns(pair, n - 1, column);
                visit(quarters(n, &[(0, m as f64), (1, m as f64)], last, &pair));
            }
        }
    }
}

/// Coordinate 0 at 2^61 to beyond 2^64 on both sides, where up to 1,024 integers have one double, with either sign and
/// at either end: -2^63 is mapped, 2^63 is not. Then times 2 to 8 less what coordinate 1 takes off.
fn walked_to_the_ends(visit: Visit) {
    for (power, sign) in (39..=45).flat_map(|power| [(power, 1.0), (power, -1.0)]) {
        let mu = [0.0, 0.0, 0.0, sign * 2f64.powi(power), 0.0, 0.0, 0.0, 2f64.powi(22), 0.0];
        let mut pairs = vec![Pair::identity(3), pair(3, &[(0, 2, 1)]), pair(3, &[(0, 1, 1), (0, 2, -1)])];
        let takes_off = |factor: i64| pair(3, &[(0, 2, factor), (1, 2, factor * (1 << power) * sign as i64)]);
        pairs.extend([2, 4, 8].map(takes_off));
        for (pair, last) in pairs.iter().flat_map(|pair| [0.25, -0.25].map(|last| (pair, last))) {
            for (column, negated) in (0..3).flat_map(|column| [(column, false), (column, true)]) {
                let mut turned = with_columns(pair.clone(), 0, column).exchanged();
                if negated {
                    turned.negate(column);
                }
                let turned = turned.exchanged();
                let target = before(&[0.0, 0.0, last], &turned);
                visit(Case::new(Call::Prepared, &[1.0; 3], &mu, &target, 0.0, 3_000).with_pair(&turned));
                few_budgets(&Case::new(Call::Prepared, &[1.0; 3], &mu, &target, 0.0, 0).with_pair(&turned), visit);
            }
        }
    }
}

/// Weights at the largest double: 11 and 13 at the transformed target. Four halves under one weight have that weight as
/// distance.
fn large_weights(visit: Visit) {
    for n in 3..7 {
        for (places, pair) in (0..80).flat_map(|places| small_pairs(n).into_iter().map(move |pair| (places, pair))) {
            let weights = vec![f64::from_bits(f64::MAX.to_bits() - places); n];
            let target = before(&vec![0.5; n], &pair);
            visit(Case::new(Call::Prepared, &weights, &vec![0.0; n * n], &target, 0.0, 9).with_pair(&pair));
        }
    }
}
