//! The search in the receiver's coordinates: pairs of matrices that are not symmetric, each refusal and their order,
//! the ends of `i64`, and drawn tables beside `nearest_ml` from the transformed target.

use snowgimmer::{LARGEST_BUDGET, LARGEST_DIMENSION, Refusal, Table, nearest_ml, prepared_nearest_ml};

/// 2^52, the largest magnitude of an element.
const MOST: i64 = 1 << 52;
const LIMIT: f64 = MOST as f64;

/// A call but for its output.
#[derive(Clone)]
struct Call {
    weights: Vec<f64>,
    mu: Vec<f64>,
    transform: Vec<i64>,
    inverse: Vec<i64>,
    target: Vec<f64>,
    budget: u64,
}

impl Call {
    /// Case G: the transformed target is 0.25, 0.5, and the nearest vector there is 0, 1.
    fn g() -> Self {
        let (weights, mu, target) = (vec![1.0; 2], vec![0.0, 0.0, 0.5, 0.0], vec![0.75, 2.0]);
        Self { weights, mu, transform: vec![1, 2, 1, 3], inverse: vec![3, -2, -1, 1], target, budget: 100 }
    }

    /// Its nearest vector is 2^50, 0 before mapping, at 0.0625 after 2 nodes. The transformed target is 0, 0.25.
    fn far(transform: [i64; 4], inverse: [i64; 4], target: [f64; 2]) -> Self {
        let mu = vec![0.0, 0.0, LIMIT, 0.0];
        Self { mu, transform: transform.to_vec(), inverse: inverse.to_vec(), target: target.to_vec(), ..Self::g() }
    }

    fn with(&self, change: impl FnOnce(&mut Self)) -> Self {
        let mut changed = self.clone();
        change(&mut changed);
        changed
    }

    /// The point, its nodes and its distance; or the refusal, which must leave an output of so many places as it was.
    fn places(&self, places: usize) -> Result<(Vec<i64>, u64, f64), Refusal> {
        let before: Vec<i64> = (0..places as i64).map(|i| i64::MIN + i).collect();
        let mut out = before.clone();
        let Self { weights, mu, transform, inverse, target, budget } = self;
        let answer = prepared_nearest_ml(weights, mu, transform, inverse, target, &mut out, *budget);
        assert!(answer.is_ok() || out == before);
        answer.map(|found| (out, found.nodes, found.distance))
    }

    fn answer(&self) -> Result<(Vec<i64>, u64, f64), Refusal> {
        self.places(self.weights.len())
    }

    fn refusal(&self) -> Refusal {
        self.answer().unwrap_err()
    }
}

#[test]
fn found() {
    let g = Call::g();
    assert_eq!(g.answer(), Ok((vec![1, 3], 3, 0.25)));
    let table = Table::new(&g.weights, &g.mu);
    let by_table = table.prepared_nearest_ml(&g.transform, &g.inverse, &g.target, 100).unwrap();
    assert_eq!((&by_table.point[..], by_table.nodes, by_table.distance), (&[1, 3][..], 3, 0.25));
    // with the identity it is nearest_ml
    let same = g.with(|g| (g.transform, g.inverse) = (vec![1, 0, 0, 1], vec![1, 0, 0, 1]));
    let mut out = [0; 2];
    let found = nearest_ml(&g.weights, &g.mu, &g.target, &mut out, 100).unwrap();
    assert_eq!(same.answer(), Ok((out.to_vec(), found.nodes, found.distance)));
}

/// Both transposed, or exchanged with each other, they are inverse to each other: no check can tell.
#[test]
fn other_matrices() {
    let g = Call::g();
    let transposed = g.with(|g| (g.transform, g.inverse) = (vec![1, 1, 2, 3], vec![3, -1, -2, 1]));
    // -1.75, 1.25 is the transformed target, and -2, 1 the nearest vector there
    assert_eq!(transposed.answer(), Ok((vec![0, 1], 2, 0.203125)));
    let exchanged = g.with(|g| (g.transform, g.inverse) = (vec![3, -2, -1, 1], vec![1, 2, 1, 3]));
    // 2.75, 7.5 and 3, 7
    assert_eq!(exchanged.answer(), Ok((vec![2, 1], 5, 0.25)));
}

#[test]
fn no_dimension() {
    let g = Call::g();
    let none = g.with(|g| {
        (g.weights, g.mu, g.target, g.budget) = (vec![], vec![], vec![], 0);
        (g.transform, g.inverse) = (vec![], vec![]);
    });
    assert_eq!(none.answer().map(|(point, nodes, d)| (point, nodes, d.to_bits())), Ok((vec![], 0, 0)));
    assert_eq!(none.with(|g| g.inverse.push(1)).refusal(), Refusal::MatrixRange { index: 0 });
}

#[test]
fn matrix_lengths() {
    let g = Call::g();
    for length in [0, 2, 3, 5, 8] {
        assert_eq!(g.with(|g| g.transform.resize(length, MOST + 1)).refusal(), Refusal::MatrixRange { index: 0 });
        assert_eq!(g.with(|g| g.inverse.resize(length, MOST + 1)).refusal(), Refusal::MatrixRange { index: 0 });
    }
}

#[test]
fn matrix_elements() {
    let g = Call::g();
    for large in [MOST + 1, -MOST - 1, i64::MAX, i64::MIN] {
        for k in 0..4 {
            assert_eq!(g.with(|g| g.transform[k] = large).refusal(), Refusal::MatrixRange { index: k });
            assert_eq!(g.with(|g| g.inverse[k] = large).refusal(), Refusal::MatrixRange { index: 4 + k });
        }
        let two = g.with(|g| (g.inverse[0], g.transform[3]) = (large, large));
        assert_eq!(two.refusal(), Refusal::MatrixRange { index: 3 });
    }
    // 2^52 itself is taken, and the products are exact
    for most in [MOST, -MOST] {
        let (transform, inverse) = (vec![1, most, 0, 1], vec![1, -most, 0, 1]);
        let at_most = g.with(|g| (g.transform, g.inverse, g.target) = (transform, inverse, vec![1.0, 0.0]));
        assert_eq!(at_most.answer(), Ok((vec![1, 0], 2, 0.0)));
    }
}

#[test]
fn not_inverse() {
    let g = Call::g();
    for k in 0..4 {
        for off in [1, -1] {
            assert_eq!(g.with(|g| g.transform[k] += off).refusal(), Refusal::NotInverse);
            assert_eq!(g.with(|g| g.inverse[k] += off).refusal(), Refusal::NotInverse);
        }
    }
    // one of them transposed; the negative; none at all
    assert_eq!(g.with(|g| g.inverse[1..3].reverse()).refusal(), Refusal::NotInverse);
    assert_eq!(g.with(|g| g.inverse.iter_mut().for_each(|z| *z = -*z)).refusal(), Refusal::NotInverse);
    assert_eq!(g.with(|g| g.inverse.fill(0)).refusal(), Refusal::NotInverse);
    // the products are 2^64 + 1 and 2^52 + 1, not 1
    for (a, b) in [(274_177, 67_280_421_310_721), (17, 264_917_625_139_441)] {
        let one = g.with(|g| (g.weights, g.mu, g.target) = (vec![1.0], vec![0.0], vec![0.5]));
        let one = one.with(|g| (g.transform, g.inverse) = (vec![a], vec![b]));
        assert_eq!(one.refusal(), Refusal::NotInverse);
    }
}

#[test]
fn lengths() {
    let g = Call::g();
    for length in [0, 1, 3] {
        let mismatch = Refusal::LengthMismatch { expected: 2, found: length };
        assert_eq!(g.with(|g| g.target.resize(length, f64::NAN)).refusal(), mismatch);
        assert_eq!(g.places(length).unwrap_err(), mismatch);
    }
    // the target before the output
    let both = g.with(|g| g.target.push(0.0)).places(5).unwrap_err();
    assert_eq!(both, Refusal::LengthMismatch { expected: 2, found: 3 });
}

#[test]
fn targets() {
    let g = Call::g();
    for (k, x) in [f64::NAN, f64::INFINITY, LIMIT + 1.0, -LIMIT - 1.0].into_iter().flat_map(|x| [(0, x), (1, x)]) {
        assert_eq!(g.with(|g| g.target[k] = x).refusal(), Refusal::NonFinite { index: k });
    }
    // 3 times 2^52 in column 0 of the transformed one, but the given one goes before it
    assert_eq!(g.with(|g| g.target = vec![LIMIT, 0.0]).refusal(), Refusal::NonFinite { index: 0 });
    assert_eq!(g.with(|g| g.target = vec![LIMIT, f64::NAN]).refusal(), Refusal::NonFinite { index: 1 });
    // a sum in column 1: 2^52 is taken, 2^52 + 1 is not
    let sum = g.with(|g| (g.transform, g.inverse) = (vec![1, -1, 0, 1], vec![1, 1, 0, 1]));
    assert_eq!(sum.with(|g| g.target = vec![LIMIT, 0.0]).answer(), Ok((vec![MOST, 0], 2, 0.0)));
    assert_eq!(sum.with(|g| g.target = vec![LIMIT, 1.0]).refusal(), Refusal::NonFinite { index: 1 });
    assert_eq!(sum.with(|g| g.target = vec![-LIMIT, -1.0]).refusal(), Refusal::NonFinite { index: 1 });
}

/// 11 with five levels, 13 with four; the matrices turn the coordinates about.
#[test]
fn distances_overflow() {
    for (n, refusal) in [
        (5, Refusal::CandidateDistance { total: f64::INFINITY }),
        (4, Refusal::WidenedRadius { radius: f64::INFINITY }),
    ] {
        let turned = |forth: usize| (0..n * n).map(|k| i64::from((k / n + forth) % n == k % n)).collect();
        let call = Call {
            weights: vec![f64::MAX; n],
            mu: vec![0.0; n * n],
            transform: turned(1),
            inverse: turned(n - 1),
            target: vec![0.5; n],
            budget: 100,
        };
        assert_eq!(call.refusal(), refusal);
    }
}

#[test]
fn budgets() {
    let g = Call::g();
    let by = |budget: u64| g.with(|g| g.budget = budget);
    assert_eq!(by(2).refusal(), Refusal::BudgetExhausted { nodes: 2, radius: 0.25 });
    // the widened radius
    assert_eq!(by(0).refusal(), Refusal::BudgetExhausted { nodes: 0, radius: 0.25 + 8.0 * f64::EPSILON });
    assert_eq!(by(LARGEST_BUDGET).answer(), by(3).answer());
    let budget = LARGEST_BUDGET + 1;
    assert_eq!(by(budget).refusal(), Refusal::BudgetRange { budget });
}

/// 2^50 by factors at the ends of `i64`: -2^63 is mapped, 2^63 is not.
#[test]
fn mapped() {
    const FAR: i64 = 1 << 50;
    let second = |k: i64| Call::far([1, k, 0, 1], [1, -k, 0, 1], [0.0, 0.25]);
    let first = |k: i64| Call::far([k, 1, 1, 0], [0, 1, 1, -k], [0.25, 0.0]);
    for k in [1, 8191, -8191, -8192] {
        assert_eq!(second(k).answer(), Ok((vec![FAR, FAR * k], 2, 0.0625)));
        assert_eq!(first(k).answer(), Ok((vec![FAR * k, FAR], 2, 0.0625)));
    }
    for k in [8192, 8193, -8193, 16384, MOST, -MOST] {
        assert_eq!(second(k).refusal(), Refusal::MappedRange { column: 1 });
        assert_eq!(first(k).refusal(), Refusal::MappedRange { column: 0 });
    }
    // both columns
    let both = Call::far([8192, 8193, 1, 1], [-1, 8193, 1, -8192], [0.25, 0.25]);
    assert_eq!(both.refusal(), Refusal::MappedRange { column: 0 });
    // 15 goes before 24
    let short = second(8192).with(|g| g.budget = 1);
    assert_eq!(short.refusal(), Refusal::BudgetExhausted { nodes: 1, radius: 0.0625 + 8.0 * f64::EPSILON });
}

/// Faults from the last in the order of the checks to the first: each goes before those that are there already.
#[test]
fn the_order_of_the_checks() {
    let mut call = Call::far([1, 8192, 0, 1], [1, -8192, 0, 1], [0.0, 0.25]);
    let mut numbers = vec![call.refusal().number()];
    let faults: [fn(&mut Call); 9] = [
        |g| g.budget = 1,
        |g| g.budget = LARGEST_BUDGET + 1,
        |g| g.target = vec![LIMIT; 2],
        |g| g.target[1] = f64::NAN,
        |g| g.target.push(0.0),
        |g| g.inverse[0] = 2,
        |g| g.inverse[3] = MOST + 1,
        |g| g.weights[1] = 0.0,
        |g| g.mu[2] = f64::NAN,
    ];
    for fault in faults {
        fault(&mut call);
        numbers.push(call.refusal().number());
    }
    assert_eq!(numbers, [24, 15, 9, 7, 7, 6, 23, 22, 5, 3]);
}

/// A transform and its inverse, by rows added to others.
fn drawn_pair(n: usize, mut draw: impl FnMut(u64) -> u64) -> (Vec<i64>, Vec<i64>) {
    let identity: Vec<i64> = (0..n * n).map(|k| i64::from(k / n == k % n)).collect();
    let (mut transform, mut inverse) = (identity.clone(), identity);
    for _ in 0..if n > 1 { 3 * n } else { 0 } {
        let (to, factor) = (draw(n as u64) as usize, draw(5) as i64 - 2);
        let from = (to + 1 + draw(n as u64 - 1) as usize) % n;
        for k in 0..n {
            transform[to * n + k] += factor * transform[from * n + k];
            inverse[k * n + from] -= factor * inverse[k * n + to];
        }
    }
    (transform, inverse)
}

/// A point through a matrix.
fn through(point: &[i64], matrix: &[i64]) -> Vec<i64> {
    let n = point.len();
    (0..n).map(|c| (0..n).map(|row| point[row] * matrix[row * n + c]).sum()).collect()
}

/// Tables and pairs of a simple generator: the answer is that of `nearest_ml` from the transformed target, mapped.
#[test]
fn drawn_tables() {
    let mut state = 1_u64;
    let mut draw = |below: u64| {
        state = state.wrapping_mul(6364136223846793005).wrapping_add(1442695040888963407);
        (state >> 33) % below
    };
    for n in (1..=6).cycle().take(240).chain([LARGEST_DIMENSION]) {
        let (transform, inverse) = drawn_pair(n, &mut draw);
        let mut uniform = |low: f64, high: f64| low + (high - low) * draw(1 << 31) as f64 / (1_u64 << 31) as f64;
        let weights: Vec<f64> = (0..n).map(|_| uniform(0.5, 4.5)).collect();
        let mu: Vec<f64> = (0..n * n).map(|_| uniform(-0.5, 0.5)).collect();
        let target: Vec<f64> = (0..n).map(|_| uniform(-10.0, 10.0)).collect();
        let sum = |c| (0..n).fold(0.0, |sum, row| sum + target[row] * inverse[row * n + c] as f64);
        let transformed: Vec<f64> = (0..n).map(sum).collect();
        let table = Table::new(&weights, &mu);
        let reduced = table.nearest_ml(&transformed, 1 << 40).unwrap();
        let found = table.prepared_nearest_ml(&transform, &inverse, &target, 1 << 40).unwrap();
        assert_eq!((found.nodes, found.distance.to_bits()), (reduced.nodes, reduced.distance.to_bits()));
        assert_eq!(found.point[..], through(&reduced.point, &transform));
        assert_eq!(through(&found.point, &inverse), reduced.point[..]);
        let short = table.prepared_nearest_ml(&transform, &inverse, &target, found.nodes - 1).unwrap_err();
        assert_eq!(short, table.nearest_ml(&transformed, found.nodes - 1).unwrap_err());
    }
}
