//! The bench cases A to L.

use snowgimmer::{Listed, Refusal, list, nearest, nearest_ml, nearest_seeded, round_away};

/// A table and a target.
struct Bench<'a> {
    weights: &'a [f64],
    mu: &'a [f64],
    target: &'a [f64],
}

const B: Bench = Bench { weights: &[4.0], mu: &[0.0], target: &[0.75] };
const E: Bench = Bench { weights: &[1.0], mu: &[0.0], target: &[0.5] };
const G: Bench = Bench { weights: &[1.0, 1.0], mu: &[0.0, 0.0, 0.5, 0.0], target: &[0.25, 0.5] };
const H: Bench = Bench { weights: &[f64::EPSILON * 2.0, 4.0], mu: &[0.0; 4], target: &[0.5, 0.5] };

/// A point, its nodes and its distance.
type Nearest = (Vec<i64>, u64, f64);

/// Points, each after its distance.
type Points = Vec<(f64, Vec<i64>)>;

/// 2^52.
const LIMIT: f64 = 4503599627370496.0;

impl Bench<'_> {
    /// The point, the node count and the distance.
    fn nearest(&self, radius: f64, budget: u64) -> Result<Nearest, Refusal> {
        let mut out = vec![0; self.weights.len()];
        let found = nearest(self.weights, self.mu, self.target, &mut out, radius, budget)?;
        Ok((out, found.nodes, found.distance))
    }

    fn seeded(&self, candidate: &[i64], radius: f64, budget: u64) -> Result<Nearest, Refusal> {
        let mut out = vec![0; self.weights.len()];
        let found = nearest_seeded(self.weights, self.mu, self.target, &mut out, candidate, radius, budget)?;
        Ok((out, found.nodes, found.distance))
    }

    fn ml(&self, budget: u64) -> Result<Nearest, Refusal> {
        let mut out = vec![0; self.weights.len()];
        let found = nearest_ml(self.weights, self.mu, self.target, &mut out, budget)?;
        Ok((out, found.nodes, found.distance))
    }

    /// The node count and the points, with 256 places.
    fn list(&self, radius: f64, budget: u64) -> Result<(u64, Points), Refusal> {
        let n = self.weights.len();
        let (mut distances, mut points) = (vec![0.0; 256], vec![0; 256 * n]);
        let Listed { nodes, points: count, .. } =
            list(self.weights, self.mu, self.target, &mut distances, &mut points, radius, budget)?;
        Ok((nodes, (0..count).map(|i| (distances[i], points[i * n..(i + 1) * n].to_vec())).collect()))
    }
}

#[test]
fn a_no_dimension() {
    let none = Bench { weights: &[], mu: &[], target: &[] };
    assert_eq!(none.nearest(0.0, 0), Ok((vec![], 0, 0.0)));
    assert_eq!(none.list(0.0, 0), Ok((0, vec![(0.0, vec![])])));
    assert_eq!(none.seeded(&[], 4.0, 0), Ok((vec![], 0, 0.0)));
    assert_eq!(none.ml(0), Ok((vec![], 0, 0.0)));
}

#[test]
fn b_to_d_one_weight() {
    assert_eq!(B.nearest(0.25, 1), Ok((vec![1], 1, 0.25)));
    assert_eq!(B.nearest(0.125, 0), Err(Refusal::OutsideRadius { radius: 0.125 }));
    assert_eq!(B.nearest(0.25, 0), Err(Refusal::BudgetExhausted { nodes: 0, radius: 0.25 }));
}

#[test]
fn e_and_f_a_half() {
    assert_eq!(E.nearest(1.0, 2), Ok((vec![0], 2, 0.25)));
    assert_eq!(E.nearest(1.0, 1), Err(Refusal::BudgetExhausted { nodes: 1, radius: 0.25 }));
    assert_eq!(E.list(1.0, 1), Err(Refusal::BudgetExhausted { nodes: 1, radius: 1.0 }));
}

#[test]
fn g_two_weights() {
    assert_eq!(G.nearest(2.0, 100), Ok((vec![0, 1], 5, 0.25)));
    assert_eq!(G.ml(100), Ok((vec![0, 1], 3, 0.25)));
    let points = [(0.25, [0, 1]), (0.5, [0, 0]), (0.5, [1, 0]), (1.25, [-1, 1]), (1.25, [1, 1])];
    assert_eq!(G.list(2.0, 100), Ok((7, points.map(|(d, z)| (d, z.to_vec())).to_vec())));
}

#[test]
fn h_and_i_equal_distances() {
    assert_eq!(H.nearest(1.0, 2), Err(Refusal::OutsideRadius { radius: 1.0 }));
    let radius = 1.0 + f64::EPSILON;
    assert_eq!(H.nearest(radius, 4), Ok((vec![0, 1], 4, 1.0)));
    let (nodes, points) = H.list(radius, 6).unwrap();
    assert_eq!((nodes, points.len()), (6, 4));
}

/// The candidate is at the radius 1, inside which `nearest` finds nothing. Widened it opens 10 prefixes, of which the
/// search, whose radius shrinks, tries 6.
#[test]
fn h_a_candidate_at_the_radius() {
    assert_eq!(H.list(1.0 + 8.0 * f64::EPSILON, 10).unwrap().0, 10);
    for budget in [10, 6, 100] {
        assert_eq!(H.seeded(&[0, 0], 1.0, budget), Ok((vec![0, 1], 6, 1.0)));
        assert_eq!(H.ml(budget), Ok((vec![0, 1], 6, 1.0)));
    }
}

#[test]
fn j_rounding() {
    assert_eq!([0.5, -0.5, -2.5, 2.0 * LIMIT * 1024.0].map(round_away), [1, -1, -3, i64::MAX]);
}

#[test]
fn k_the_largest_target() {
    let at = |target: f64| Bench { weights: &[1.0], mu: &[0.0], target: &[target] }.nearest(0.0, 1);
    assert_eq!(at(LIMIT), Ok((vec![1 << 52], 1, 0.0)));
    assert_eq!(at(LIMIT + 1.0), Err(Refusal::NonFinite { index: 0 }));
}

#[test]
fn l_a_candidate() {
    assert_eq!(E.seeded(&[2], 2.0, 100), Err(Refusal::CandidateOutside { radius: 2.0 }));
    assert_eq!(E.seeded(&[2], 2.25, 100), Ok((vec![0], 4, 0.25)));
    let budget = (1 << 60) + 1;
    assert_eq!(E.seeded(&[2], 2.25, budget), Err(Refusal::BudgetRange { budget }));
}
