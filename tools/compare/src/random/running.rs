//! Random cases of `nearest` and `list` from 24 dimensions on, whose centres run. Most have a walk that ends: with so many
//! levels that takes targets near integers, and a radius of a few small weights.

use super::{LONG, budget, held};
use crate::case::{Call, Case};
use crate::paper::{self, LARGEST_N, LARGEST_SEARCHED, LIMIT, MOST_PLACES};
use crate::reach::{distances, reach};
use crate::rng::Rng;
use crate::short::running::PRIVATE;
use crate::values::{self, SMALLEST, Table};

/// A short walk's most nodes.
const SHORT: u64 = 1_000;

/// A sound case of one of the two calls.
pub fn case(rng: &mut Rng, call: Call) -> Case {
    let n = dimension(rng);
    if rng.once_in(10) {
        return crowded(rng, call, n);
    }
    let kind = rng.below(17);
    let (weights, mu, target) = match kind {
        0 => (values::weights(rng, n), values::mu(rng, n), values::target(rng, n)),
        1..6 => near_integers(rng, n),
        6..8 => ties(rng, n),
        8..11 => cancelling(rng, n),
        11..13 => chain(rng, n),
        13..15 => ends(rng, n),
        15 => heavy(rng, n),
        _ => two_tests(rng, n),
    };
    let mut case = Case::new(call, &weights, &mu, &target, 0.0, 0);
    let cap = match kind {
        _ if rng.once_in(200) => LONG,
        // Where a level has up to a thousand integers.
        11 | 12 if rng.once_in(2) => 3 * SHORT,
        _ => SHORT,
    };
    case.radius = radius(rng, &case, cap);
    // A smaller ball, where the first one holds more than a short walk opens.
    for _ in 0..3 {
        if reach(&case, cap).is_none() {
            case.radius = radius(rng, &case, cap);
        }
    }
    budget(rng, &mut case, cap);
    case
}

/// Every one from 24 to 64, the ends more often.
fn dimension(rng: &mut Rng) -> usize {
    let (first, last) = (LARGEST_N + 1, LARGEST_SEARCHED);
    match rng.below(8) {
        0 => first,
        1 => rng.pick(&[first + 1, 31, 32, 33, 63]),
        2 => last,
        _ => first + rng.below(last - first + 1),
    }
}

// ---- tables

/// What is read of mu by its row and column; the rest is 0, or what no check may look at.
fn triangle(rng: &mut Rng, n: usize, mut entry: impl FnMut(&mut Rng, usize, usize) -> f64) -> Vec<f64> {
    let unread = if rng.once_in(2) { rng.pick(&[f64::NAN, f64::INFINITY, -f64::NAN, 2.0 * LIMIT]) } else { 0.0 };
    (0..n * n).map(|k| if k / n > k % n { entry(rng, k / n, k % n) } else { unread }).collect()
}

/// Entries of one kind, dense or sparse.
fn entries(rng: &mut Rng, n: usize) -> Vec<f64> {
    let (kind, sparse) = (rng.below(6), rng.pick(&[1, 1, 4, n]));
    triangle(rng, n, |rng, _, _| match kind {
        _ if sparse > 1 && !rng.once_in(sparse) => 0.0,
        0 => rng.pick(&[0.0, -0.0, 1.0, -1.0, 2.0]),
        1 => rng.pick(&[0.5, -0.5, 0.25, 0.0]),
        2 => rng.pick(&[0.1, -0.3, 1.0 / 3.0, 0.7]),
        3 => rng.sign() * rng.scaled(-40, 20),
        _ => rng.uniform(-0.5, 0.5),
    })
}

/// Alike, falling over up to four orders of magnitude, or powers of two.
fn mild_weights(rng: &mut Rng, n: usize) -> Vec<f64> {
    let (kind, scale) = (rng.below(4), rng.pick(&[1.0, 1.0, 1e-300, 1e300, 2f64.powi(-1030)]));
    let (mut level, ratio) = (1.0, rng.uniform(0.86, 1.1));
    let mut each = |rng: &mut Rng| match kind {
        0 => 1.0,
        1 => rng.uniform(0.5, 2.0),
        2 => rng.pick(&[0.25, 0.5, 1.0, 2.0, 4.0]),
        _ => {
            level *= ratio;
            level * rng.uniform(0.8, 1.25)
        }
    };
    (0..n).map(|_| each(rng) * scale).collect()
}

/// An integer, small or up to 2^52.
fn whole(rng: &mut Rng, wide: bool) -> f64 {
    let below = if wide { 1 << rng.below(53) } else { 5 };
    rng.sign() * rng.below(below) as f64
}

/// Integers with a little added to each, or much to a few.
fn near_integers(rng: &mut Rng, n: usize) -> Table {
    let (wide, share) = (rng.once_in(2), rng.pick(&[1, 1, 8, n]));
    let far = rng.pick(&[1e-9, 0.01, 0.1, 0.3]);
    let each = |rng: &mut Rng| whole(rng, wide) + if rng.once_in(share) { rng.uniform(-far, far) } else { 0.0 };
    (mild_weights(rng, n), entries(rng, n), (0..n).map(|_| each(rng)).collect())
}

/// A few halves, under entries and weights at which vectors are equally near.
fn ties(rng: &mut Rng, n: usize) -> Table {
    let whole_entries = rng.once_in(2);
    let mu = triangle(rng, n, |rng, _, _| match rng.below(4) {
        0 if whole_entries => rng.pick(&[1.0, -1.0, 2.0, 0.0]),
        0 => rng.pick(&[0.5, -0.5, 0.0]),
        _ => 0.0,
    });
    let mut target: Vec<f64> = (0..n).map(|_| whole(rng, false)).collect();
    for _ in 0..rng.below(6) {
        target[rng.below(n)] += rng.pick(&[0.5, 0.5, -0.5, 0.25]);
    }
    let weight = rng.pick(&[1.0, 4.0, SMALLEST, 2f64.powi(1000)]);
    (vec![weight; n], mu, target)
}

/// Large targets that the walk takes away again from the centres below: what is lost on the way stays lost.
fn cancelling(rng: &mut Rng, n: usize) -> Table {
    let (sparse, widest) = (rng.pick(&[2, 6, n]), rng.pick(&[0, 0, 20, 51]));
    let mu = triangle(rng, n, |rng, _, _| match rng.below(sparse) {
        0 if widest > 0 => rng.sign() * rng.scaled(-3, widest),
        0 => rng.pick(&[0.1, -0.3, 1.0 / 3.0, 0.5, 3.0]),
        _ => 0.0,
    });
    let each = |rng: &mut Rng| {
        let whole = rng.sign() * 2f64.powi(rng.pick(&[0, 20, 40, 50, 51, 52]));
        let part = rng.pick(&[0.0, 0.0, 0.0, 0.25, 0.5, 0.3, 1.0]);
        if whole.abs() < LIMIT { whole + part } else { whole }
    };
    (mild_weights(rng, n), mu, (0..n).map(|_| if rng.once_in(3) { each(rng) } else { 0.0 }).collect())
}

/// A residual of a part at one level, with large entries at the next two: a centre of about 2^50 to 2^66 there, whose
/// integers have one double by hundreds. Small entries below it.
fn chain(rng: &mut Rng, n: usize) -> Table {
    let tops = rng.pick(&[1, 1, 2, n - 2]);
    let top = 2 + rng.below(tops);
    let (first, both) = (1 + rng.below(40), rng.pick(&[50, 55, 60, 62, 63, 64, 64, 64, 65, 66]));
    let small = rng.pick(&[0.0, 1.0 / 1024.0, 1.0, 0.1, 2f64.powi(-60)]);
    let (upper, lower) = (2f64.powi(first as i32), 2f64.powi((both - first).min(52) as i32));
    let signs = [rng.sign(), rng.sign()];
    let beside = rng.pick(&[0.0, 2048.0, -4096.0]);
    let mu = triangle(rng, n, |rng, row, column| match (row, column) {
        _ if row == top && column == top - 1 => signs[0] * upper,
        _ if row == top - 1 && column == top - 2 => signs[1] * lower,
        _ if row == top && column == top - 2 => beside,
        _ if row == top - 2 && rng.once_in(3) => small,
        _ => 0.0,
    });
    let mut target = vec![0.0; n];
    target[top] = rng.pick(&[0.5, -0.5, 0.25]);
    target[rng.below(n)] += rng.pick(&[0.0, 0.25, 0.3]);
    let mut weights = vec![1.0; n];
    weights[top - 2] = rng.pick(&[1.0, 1.0, 2f64.powi(-22), 2f64.powi(-24)]);
    (weights, mu, target)
}

/// Entries and targets at the limits under small weights: coordinates at the ends of i64, and centres far beyond.
fn ends(rng: &mut Rng, n: usize) -> Table {
    let sparse = rng.pick(&[1, 3, n]);
    let mu = triangle(rng, n, |rng, _, _| match rng.below(sparse) {
        0 => rng.pick(&[LIMIT, -LIMIT, LIMIT.next_down(), 2f64.powi(40), 0.5]),
        _ => 0.0,
    });
    let smallest = rng.pick(&[SMALLEST, f64::MIN_POSITIVE, 1e-200, 1e-60, 1.0]);
    let weights = (0..n).map(|_| if rng.once_in(4) { 1.0 } else { smallest }).collect();
    let each = |rng: &mut Rng| rng.pick(&[LIMIT, -LIMIT, 0.5, 0.25, 0.0, LIMIT - 0.5, -0.0, 1.0]);
    let few = rng.once_in(2);
    (weights, mu, (0..n).map(|_| if few && !rng.once_in(n / 2) { 0.0 } else { each(rng) }).collect())
}

/// Parts under weights at the largest double: sums that round to infinity.
fn heavy(rng: &mut Rng, n: usize) -> Table {
    let weights = (0..n).map(|_| f64::from_bits(f64::MAX.to_bits() - rng.below(9) as u64)).collect();
    let mut target: Vec<f64> = (0..n).map(|_| whole(rng, true)).collect();
    for _ in 0..rng.below(7) {
        let level = rng.below(n);
        target[level] = rng.sign() * rng.pick(&[0.5, 0.5, 0.25, 0.01]);
    }
    let mu = if rng.once_in(2) { triangle(rng, n, |_, _, _| 0.0) } else { entries(rng, n) };
    (weights, mu, target)
}

/// Terms a few last places from 1, over partial sums of halves of a last place; every other level has one integer.
fn two_tests(rng: &mut Rng, n: usize) -> Table {
    let last = |rng: &mut Rng| f64::EPSILON * (1 + rng.below(8)) as f64;
    let mut weights = vec![2f64.powi(60); n];
    let mut target: Vec<f64> = (0..n).map(|_| whole(rng, true)).collect();
    for k in 0..2 + rng.below(3) {
        let level = rng.below(n);
        target[level] = rng.pick(&[0.5, -0.5, 1.5]);
        weights[level] = if k == 0 { 4.0 * (1.0 + last(rng)) } else { 2.0 * last(rng) };
    }
    (weights, triangle(rng, n, |_, _, _| 0.0), target)
}

/// One or two wide levels, and one integer at each other: mostly up to some hundred points, seldom as many as the port's
/// private arrays hold, or as a list can have.
fn crowded(rng: &mut Rng, call: Call, n: usize) -> Case {
    let rows = PRIVATE / n;
    let many = [rows - 1, rows, rows + 1, rows + 9, MOST_PLACES - 1, MOST_PLACES, MOST_PLACES + 1, 32_768 / n + 1];
    let few = [1, 2, 3, 20, 255, 256, 257, 32_768 / LARGEST_SEARCHED];
    let count = if rng.once_in(12) { rng.pick(&many) } else { rng.pick(&few) };
    let mut weights = vec![2f64.powi(60); n];
    let mut target: Vec<f64> = (0..n).map(|_| whole(rng, true)).collect();
    let small = if rng.once_in(2) { rng.pick(&[0.5, 0.25, 0.3]) } else { 0.0 };
    let mu = triangle(rng, n, |rng, _, column| if column == 0 && rng.once_in(4) { small } else { 0.0 });
    let second = match rng.below(4) {
        0 => 1 + rng.below(n - 1),
        1 => 1 + rng.below(3),
        _ => 0,
    };
    for level in [second, 0] {
        weights[level] = rng.pick(&[1.0, 1.0, 0.25, 3.0]);
        target[level] = rng.pick(&[0.0, 0.25, 0.5, -1000.5]);
    }
    if second == 0 {
        // So that exactly so many lie within half as many less a half.
        target[0] = if count.is_multiple_of(2) { 0.5 } else { 0.0 };
    }
    let reach = (count - 1) as f64 / 2.0;
    let within = if second == 0 { reach * reach } else { count as f64 / std::f64::consts::PI };
    let radius = within * (weights[0] * weights[second]).sqrt();
    let mut case = Case::new(call, &weights, &mu, &target, radius, 0);
    budget(rng, &mut case, LONG);
    case
}

// ---- radius

/// A few small weights, the distance of a vector near by, one that the walk itself has, both zeros, the ends of the range.
fn radius(rng: &mut Rng, case: &Case, cap: u64) -> f64 {
    let small = case.weights.iter().copied().fold(f64::MAX, f64::min);
    let of = |z: &[i64]| paper::distance(&case.weights, &case.mu, &case.target, z);
    let near = || of(&paper::plane(&case.mu, &mut case.target.clone()));
    match rng.below(11) {
        0 => rng.pick(&[0.0, -0.0]),
        1..4 => held(small * rng.pick(&[0.25, 0.5, 0.75, 1.0, 1.25, 2.0, 3.0])),
        4..6 => {
            let d = near();
            held(rng.pick(&[d, d.next_up(), d.next_down(), d * 1.125, d + small, d + 1.5 * small]))
        }
        6..9 => {
            let wider = Case { radius: held(near() + small * rng.uniform(0.0, 2.0)), ..case.clone() };
            let listed = distances(&wider, cap);
            let d = if listed.is_empty() { wider.radius } else { rng.pick(&listed) };
            held(rng.pick(&[d, d, d.next_up(), d.next_down().max(0.0)]))
        }
        9 => super::radius(rng, case),
        _ => rng.pick(&[f64::MAX, 1.0, 1.0 + f64::EPSILON, SMALLEST, 0.25]),
    }
}
