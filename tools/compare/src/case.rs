//! A case: one call with all its arguments.

use crate::matrices::Pair;
use crate::paper::{LARGEST_N, LARGEST_SEARCHED};
use std::fmt;

#[derive(Clone, Copy, PartialEq, Eq, Debug)]
pub enum Call {
    Nearest,
    Seeded,
    Ml,
    Prepared,
    List,
    Round,
    Plane,
    RoundAway,
    Distance,
}

use Call::{Distance, List, Ml, Nearest, Plane, Prepared, Round, RoundAway, Seeded};

pub const CALLS: [Call; 9] = [Nearest, Seeded, Ml, Prepared, List, Round, Plane, RoundAway, Distance];

impl Call {
    /// The name that the oracle's lines have for it.
    #[must_use]
    pub const fn name(self) -> &'static str {
        match self {
            Nearest => "nearest",
            Seeded => "nearest_seeded",
            Ml => "nearest_ml",
            Prepared => "prepared_nearest_ml",
            List => "list",
            Round => "round",
            Plane => "nearest_plane",
            RoundAway => "round_away",
            Distance => "triangular_distance",
        }
    }

    #[must_use]
    pub const fn takes_table(self) -> bool {
        !matches!(self, Round | RoundAway)
    }

    #[must_use]
    pub const fn takes_radius(self) -> bool {
        matches!(self, Nearest | Seeded | List)
    }

    #[must_use]
    pub const fn takes_budget(self) -> bool {
        matches!(self, Nearest | Seeded | Ml | Prepared | List)
    }

    #[must_use]
    pub const fn takes_candidate(self) -> bool {
        matches!(self, Seeded | Distance)
    }

    #[must_use]
    pub const fn takes_matrices(self) -> bool {
        matches!(self, Prepared)
    }

    /// The most dimensions of its table.
    #[must_use]
    pub const fn largest(self) -> usize {
        if matches!(self, Nearest | List) { LARGEST_SEARCHED } else { LARGEST_N }
    }
}

/// Arguments that a call does not take stand here too, and are not handed on.
#[derive(Clone, Debug)]
pub struct Case {
    pub call: Call,
    pub weights: Vec<f64>,
    pub mu: Vec<f64>,
    /// The coefficients of `round` and `nearest_plane`, the argument of `round_away`.
    pub target: Vec<f64>,
    pub radius: f64,
    pub budget: u64,
    /// The point whose distance is asked.
    pub candidate: Vec<i64>,
    /// The output's length; in `list` the distances'.
    pub places: usize,
    /// The length of the points of `list`.
    pub points: usize,
    /// Row by row; empty unless the call takes matrices.
    pub transform: Vec<i64>,
    pub inverse: Vec<i64>,
}

impl Case {
    /// A call over a table with an output that fits it; a list has as many places as the table has dimensions, and
    /// matrices change nothing.
    #[must_use]
    pub fn new(call: Call, weights: &[f64], mu: &[f64], target: &[f64], radius: f64, budget: u64) -> Self {
        let n = weights.len();
        let candidate = vec![0; n];
        let (weights, mu, target) = (weights.to_vec(), mu.to_vec(), target.to_vec());
        let Pair { transform, inverse, .. } = Pair::identity(if call.takes_matrices() { n } else { 0 });
        Self { call, weights, mu, target, radius, budget, candidate, places: n, points: n * n, transform, inverse }
    }

    #[must_use]
    pub fn with_places(mut self, places: usize) -> Self {
        self.places = places;
        self.points = places * self.weights.len();
        self
    }

    #[must_use]
    pub const fn with_budget(mut self, budget: u64) -> Self {
        self.budget = budget;
        self
    }

    #[must_use]
    pub fn with_candidate(mut self, candidate: &[i64]) -> Self {
        self.candidate = candidate.to_vec();
        self
    }

    #[must_use]
    pub fn with_matrices(mut self, transform: &[i64], inverse: &[i64]) -> Self {
        (self.transform, self.inverse) = (transform.to_vec(), inverse.to_vec());
        self
    }

    #[must_use]
    pub fn with_pair(self, pair: &Pair) -> Self {
        self.with_matrices(&pair.transform, &pair.inverse)
    }
}

impl Case {
    /// What differs from weights 1 and zeros, of mu below the diagonal alone: a line of many dimensions is long.
    #[must_use]
    pub fn brief(&self) -> String {
        let n = self.weights.len();
        let others = |name: &str, list: &[f64], usual: f64, read: &dyn Fn(usize) -> bool| -> String {
            let others = list.iter().enumerate().filter(|(k, x)| read(*k) && x.to_bits() != usual.to_bits());
            others.map(|(k, x)| format!(" {name}[{k}] {x:?}")).collect()
        };
        let (weights, target) = (&self.weights, &self.target);
        format!(
            "{} n {n}{}{}{} radius {:?} budget {} places {}",
            self.call.name(),
            others("weight", weights, 1.0, &|_| true),
            others("mu", &self.mu, 0.0, &|k| k / n > k % n),
            others("target", target, 0.0, &|_| true),
            self.radius,
            self.budget,
            self.places
        )
    }
}

fn items<T>(list: &[T], item: impl Fn(&T) -> String) -> String {
    if list.is_empty() { "-".into() } else { list.iter().map(item).collect::<Vec<_>>().join(",") }
}

fn bits(list: &[f64]) -> String {
    items(list, |x| format!("{:016x}", x.to_bits()))
}

fn integers(list: &[i64]) -> String {
    items(list, i64::to_string)
}

/// The oracle's line. The length of a list's points has no field there, and a table or matrices of the wrong size are none
/// to it.
impl fmt::Display for Case {
    fn fmt(&self, out: &mut fmt::Formatter<'_>) -> fmt::Result {
        write!(
            out,
            "{} {} {} {} {} {:016x} {} {} {}",
            self.call.name(),
            self.weights.len(),
            bits(&self.weights),
            bits(&self.mu),
            bits(&self.target),
            self.radius.to_bits(),
            self.budget,
            integers(&self.candidate),
            self.places
        )?;
        if self.call.takes_matrices() {
            write!(out, " {} {}", integers(&self.transform), integers(&self.inverse))?;
        }
        Ok(())
    }
}
