//! The numbers of a random case, kind by kind.

use crate::paper::{LIMIT, plane};
use crate::rng::Rng;

pub const SMALLEST: f64 = f64::from_bits(1);

/// Mostly few dimensions, but every one from 0 to 23.
fn dimension(rng: &mut Rng) -> usize {
    match rng.below(100) {
        0..3 => 0,
        3..55 => 1 + rng.below(3),
        55..80 => 4 + rng.below(5),
        _ => 9 + rng.below(15),
    }
}

fn subnormal(rng: &mut Rng) -> f64 {
    let bits = rng.bits() >> 12 >> rng.below(52);
    f64::from_bits(bits.max(1))
}

pub fn weights(rng: &mut Rng, n: usize) -> Vec<f64> {
    let kind = rng.below(10);
    // Falling over up to seven orders of magnitude.
    let ratio = rng.uniform(0.5, 1.0);
    let mut level = 1.0;
    let one = rng.scaled(-3, 3);
    let mut each = |rng: &mut Rng| match kind {
        0 => 1.0,
        1 => one,
        2 => rng.pick(&[0.25, 0.5, 1.0, 2.0, 4.0]),
        3 | 4 => {
            level *= ratio;
            level * rng.uniform(0.5, 1.5)
        }
        5 => subnormal(rng),
        6 => rng.scaled(900, 1022),
        7 => rng.scaled(-60, 60),
        8 => rng.pick(&[2.0 * f64::EPSILON, f64::EPSILON, f64::EPSILON / 2.0, 0.25, 1.0, 3.0, 4.0]),
        _ => rng.pick(&[SMALLEST, f64::MIN_POSITIVE, 1.0, f64::MAX, 2.0 * f64::EPSILON, 1e-300, 1e300]),
    };
    (0..n).map(|_| each(rng)).collect()
}

/// Entries that are read, below the diagonal; the others are zero, or what no check may look at.
pub fn mu(rng: &mut Rng, n: usize) -> Vec<f64> {
    let kind = rng.below(9);
    let unread = rng.once_in(2);
    let each = |rng: &mut Rng| match kind {
        0 => rng.pick(&[0.0, -0.0]),
        1 => rng.pick(&[0.5, -0.5]),
        2 => rng.pick(&[0.0, 0.5, -0.5, 1.0, -1.0, 0.25]),
        3 | 4 => rng.uniform(-0.5, 0.5),
        5 => rng.pick(&[LIMIT, -LIMIT, 0.0]),
        6 => rng.sign() * rng.scaled(-40, 51),
        7 => rng.pick(&[LIMIT, -LIMIT, LIMIT.next_down(), 0.5, -0.0, SMALLEST, 1e-300, 3.0]),
        _ => rng.uniform(-4.0, 4.0),
    };
    let other = |rng: &mut Rng| rng.pick(&[f64::NAN, f64::INFINITY, -f64::NAN, 2.0 * LIMIT, -1e300, 7.0]);
    let entry = |k: usize| match (k / n > k % n, unread) {
        (true, _) => each(rng),
        (false, true) => other(rng),
        (false, false) => 0.0,
    };
    (0..n * n).map(entry).collect()
}

pub fn target(rng: &mut Rng, n: usize) -> Vec<f64> {
    let kind = rng.below(9);
    let each = |rng: &mut Rng| match kind {
        0 => rng.below(9) as f64 - 4.0,
        1 => rng.below(9) as f64 - 3.5,
        2 => (rng.below(33) as f64 - 16.0) / 8.0,
        3 | 4 => rng.uniform(-3.0, 3.0),
        5 => rng.sign() * (LIMIT - rng.below(6) as f64 / 2.0),
        6 => rng.pick(&[LIMIT, -LIMIT, 0.0, -0.0, 0.5, SMALLEST, -SMALLEST, 0.5f64.next_down(), 2e15 + 0.25]),
        7 => rng.sign() * rng.scaled(-30, 51),
        _ => rng.uniform(-1e6, 1e6),
    };
    (0..n).map(|_| each(rng)).collect()
}

/// Weights, mu and target.
pub type Table = (Vec<f64>, Vec<f64>, Vec<f64>);

pub fn table(rng: &mut Rng) -> Table {
    match rng.below(60) {
        0 => wide(rng),
        1 => two_tests(rng),
        _ => {
            let n = dimension(rng);
            (weights(rng, n), mu(rng, n), target(rng, n))
        }
    }
}

/// A last centre of about 2^52 to 2^64 on either side, where up to 1,024 integers have one double.
pub fn wide(rng: &mut Rng) -> Table {
    let n = 3 + rng.below(3);
    let mut mu = vec![0.0; n * n];
    let (first, both) = (1 + rng.below(40), 53 + rng.below(13));
    mu[n * n - 2] = rng.sign() * 2f64.powi(first as i32);
    mu[(n - 2) * n] = rng.sign() * 2f64.powi((both - first).min(52) as i32);
    mu[(n - 1) * n] = rng.pick(&[0.0, 1.0, -2048.0, 4096.0, -6144.0]);
    let mut weights = vec![1.0; n];
    weights[0] = rng.pick(&[1.0, 2f64.powi(-24), 2f64.powi(-22), SMALLEST]);
    let mut target: Vec<f64> = (0..n).map(|_| rng.below(3) as f64).collect();
    target[n - 1] += 0.5;
    (weights, mu, target)
}

/// Terms a few last places from 1, over partial sums of halves of a last place: there the two tests of a child part.
fn two_tests(rng: &mut Rng) -> Table {
    let n = 2 + rng.below(3);
    let last = |rng: &mut Rng| f64::EPSILON * (1 + rng.below(8)) as f64;
    let mut weights: Vec<f64> = (0..n).map(|_| 2.0 * last(rng)).collect();
    weights[rng.below(n)] = 4.0 * (1.0 + last(rng));
    (weights, vec![0.0; n * n], (0..n).map(|_| rng.pick(&[0.5, -0.5, 1.5])).collect())
}

/// Any double: for calls that hold their numbers to no limit.
pub fn any(rng: &mut Rng) -> f64 {
    let near = |x: f64, rng: &mut Rng| rng.pick(&[x, x.next_up(), x.next_down()]);
    match rng.below(8) {
        0 | 1 => f64::from_bits(rng.bits()),
        2 => {
            let half = rng.below(2001) as f64 - 1000.5;
            near(half, rng)
        }
        3 => {
            let power = rng.sign() * 2f64.powi(rng.below(66) as i32);
            near(power + rng.pick(&[0.0, 0.5, -0.5, 1.0, 1.5]), rng)
        }
        4 => rng.pick(&[0.0, -0.0, SMALLEST, -SMALLEST, f64::MAX, f64::MIN, 0.5, -0.5]),
        5 => rng.pick(&[f64::NAN, -f64::NAN, f64::INFINITY, f64::NEG_INFINITY]),
        6 => rng.sign() * rng.scaled(40, 66),
        _ => rng.uniform(-100.0, 100.0),
    }
}

/// The integers near the target, a few steps away, or at the ends of i64.
pub fn candidate(rng: &mut Rng, mu: &[f64], target: &[f64]) -> Vec<i64> {
    let kind = rng.below(6);
    let ends = [i64::MIN, i64::MIN + 1, i64::MAX, i64::MAX - 511, 1 << 62, (1 << 53) + 1, -(1 << 53) - 1, 0];
    let near = plane(mu, &mut target.to_vec());
    let each = |z: i64, rng: &mut Rng| match kind {
        0 | 1 => z,
        2 => z.saturating_add(if rng.once_in(3) { rng.below(3) as i64 - 1 } else { 0 }),
        3 => z.saturating_add(rng.below(7) as i64 - 3),
        4 => rng.below(9) as i64 - 4,
        _ => rng.pick(&ends),
    };
    near.into_iter().map(|z| each(z, rng)).collect()
}
