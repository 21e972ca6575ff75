//! The walks of `nearest` and `list`, read plainly, over centres that are made in one way or another. From 24 dimensions on
//! they are the running ones. Nothing here is taken from the port or from the Rust.

use super::{center, handed_on, round_away, term};
use crate::case::{Call, Case};
use std::iter::{from_fn, once, successors};

/// How a walk comes by its centres.
pub trait Centers {
    /// The centre of a level that the walk enters.
    fn at(&mut self, level: usize) -> f64;
    /// A level takes an integer.
    fn moved(&mut self, level: usize, z: i64);
    /// The walk goes up from a level.
    fn left(&mut self, _level: usize) {}
    /// The integers that the levels hold, at a leaf.
    fn point(&mut self) -> &[i64];
}

/// Each level's centre for the integers that all levels hold. A level's integer is 0 at first, and stays when the walk goes
/// up from it; where it changes, the centres below change by the difference times mu.
pub struct Running<'a> {
    mu: &'a [f64],
    point: Vec<i64>,
    centers: Vec<f64>,
}

impl<'a> Running<'a> {
    /// Every integer is 0; each centre is its target, to which the higher targets times mu are added as they rise.
    #[must_use]
    pub fn new(mu: &'a [f64], target: &[f64]) -> Self {
        let n = target.len();
        let start = |level| (level + 1..n).fold(target[level], |c, j| c + target[j] * mu[j * n + level]);
        Self { mu, point: vec![0; n], centers: (0..n).map(start).collect() }
    }
}

impl Centers for Running<'_> {
    fn at(&mut self, level: usize) -> f64 {
        self.centers[level]
    }

    fn moved(&mut self, level: usize, z: i64) {
        let (n, old) = (self.point.len(), self.point[level]);
        if old != z {
            let change = old as f64 - z as f64;
            for lower in 0..level {
                self.centers[lower] += change * self.mu[level * n + lower];
            }
            self.point[level] = z;
        }
    }

    fn point(&mut self) -> &[i64] {
        &self.point
    }
}

/// Centres made anew at each level, as up to 23 dimensions.
pub struct Anew<'a> {
    mu: &'a [f64],
    target: &'a [f64],
    point: Vec<i64>,
}

impl<'a> Anew<'a> {
    #[must_use]
    pub fn new(mu: &'a [f64], target: &'a [f64]) -> Self {
        Self { mu, target, point: vec![0; target.len()] }
    }
}

impl Centers for Anew<'_> {
    fn at(&mut self, level: usize) -> f64 {
        center(self.mu, self.target, &self.point, level)
    }

    fn moved(&mut self, level: usize, z: i64) {
        self.point[level] = z;
    }

    fn point(&mut self) -> &[i64] {
        &self.point
    }
}

/// A distance and its point.
pub type Found = (f64, Vec<i64>);

/// How a walk ended.
#[derive(Clone, PartialEq, Debug)]
pub struct Walked {
    pub nodes: u64,
    /// The radius that stands.
    pub radius: f64,
    /// The budget did not suffice.
    pub exhausted: bool,
    /// The best point, if there is one; of a list all points, in its order.
    pub found: Vec<Found>,
}

struct Walk<'a, C> {
    weights: &'a [f64],
    centers: C,
    budget: u64,
    listing: bool,
    so_far: Walked,
}

/// The integers whose terms are at most `remaining`, with these: the nearest, then by turns from both sides, upward first
/// where the centre is not below the nearest.
fn children(center: f64, remaining: f64, weight: f64) -> impl Iterator<Item = (i64, f64)> {
    let nearest = round_away(center);
    let passing = move |z: i64| Some((z, term(weight, center, z))).filter(|(_, term)| *term <= remaining);
    let beyond = move |step: i64| successors(nearest.checked_add(step), move |z| z.checked_add(step));
    let side = move |step: i64| beyond(step).map_while(passing).fuse();
    let upward = if center >= nearest as f64 { 1 } else { -1 };
    let (mut sides, mut turn) = ([side(upward), side(-upward)], 0);
    let outward = from_fn(move || {
        turn = 1 - turn;
        sides[1 - turn].next().or_else(|| sides[turn].next())
    });
    once(nearest).map_while(passing).chain(outward)
}

impl<C: Centers> Walk<'_, C> {
    /// False once the budget is used up.
    fn below(&mut self, depth: usize, partial: f64) -> bool {
        let Some(level) = depth.checked_sub(1) else {
            self.leaf(partial);
            return true;
        };
        let (center, weight) = (self.centers.at(level), self.weights[level]);
        for (z, term) in children(center, self.so_far.radius - partial, weight) {
            if self.so_far.nodes >= self.budget {
                self.so_far.exhausted = true;
                return false;
            }
            self.so_far.nodes += 1;
            self.centers.moved(level, z);
            if partial + term <= self.so_far.radius && !self.below(level, partial + term) {
                return false;
            }
        }
        self.centers.left(level);
        true
    }

    fn leaf(&mut self, distance: f64) {
        let point = self.centers.point();
        let better = match self.so_far.found.first() {
            Some((standing, best)) if !self.listing => {
                distance < *standing || (distance == *standing && point < best.as_slice())
            }
            _ => true,
        };
        if better {
            if !self.listing {
                self.so_far.found.clear();
                self.so_far.radius = distance;
            }
            self.so_far.found.push((distance, point.to_vec()));
        }
    }
}

/// The walk from the radius that 8 hands on; of `list`, or of `nearest`.
#[must_use]
pub fn walk(weights: &[f64], centers: impl Centers, radius: f64, budget: u64, listing: bool) -> Walked {
    let so_far = Walked { nodes: 0, radius: handed_on(radius), exhausted: false, found: Vec::new() };
    let mut walk = Walk { weights, centers, budget, listing, so_far };
    walk.below(weights.len(), 0.0);
    walk.so_far.found.sort_by(|(d, z), (e, y)| d.total_cmp(e).then_with(|| z.cmp(y)));
    walk.so_far
}

/// The case's walk with running centres and this budget.
#[must_use]
pub fn running(case: &Case, budget: u64) -> Walked {
    let Case { weights, mu, target, radius, .. } = case;
    walk(weights, Running::new(mu, target), *radius, budget, case.call == Call::List)
}

/// The same with centres made anew: of `list` that of the vectors which the radius admits.
#[must_use]
pub fn anew(case: &Case, budget: u64) -> Walked {
    let Case { weights, mu, target, radius, .. } = case;
    walk(weights, Anew::new(mu, target), *radius, budget, case.call == Call::List)
}
