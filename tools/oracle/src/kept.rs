//! Kept searches, which the original does not have, read from the specification: the part of a name in a block, its
//! soundness test, and the walk that is read from it, run and written back. Nothing here is taken from the port.

use crate::Found;
use crate::error::DecodeError;
use std::ops::Range;

/// The names 1 to 8, and the places that each has in the three slices of a block.
pub const NAMES: usize = 8;
pub const REALS: usize = 646;
pub const INTEGERS: usize = 92;
pub const COUNTS: usize = 96;

/// The most nodes of a search.
pub const MOST_NODES: u64 = 1 << 60;

/// A column has a place for each of so many levels.
const LEVELS: usize = 23;

/// Where a name's part is in the doubles, the integers and the counts.
#[must_use]
pub fn part(name: u64) -> [Range<usize>; 3] {
    let before = usize::try_from(name - 1).unwrap();
    [REALS, INTEGERS, COUNTS].map(|size| before * size..(before + 1) * size)
}

/// The soundness test, by the counts of a part.
#[must_use]
pub fn is_sound(counts: &[u64]) -> bool {
    let (n, nodes, open) = (counts[0], counts[1], counts[3]);
    if n > LEVELS as u64 || nodes > MOST_NODES || open < 1 || open > n {
        return false;
    }
    let levels = &counts[4..4 + open as usize];
    let rise = levels.windows(2).all(|two| two[0] < two[1]) && levels.iter().all(|level| *level < n);
    rise && counts[27..27 + open as usize].iter().all(|step| *step <= 2 * nodes + 1)
}

/// An open level: the child that waits, and the generator after it.
#[derive(Clone, Debug)]
struct Open {
    level: usize,
    partial: f64,
    center: f64,
    remaining: f64,
    nearest: i64,
    step: u64,
    waiting: i64,
    upward_closed: bool,
    downward_closed: bool,
}

impl Open {
    /// The level with its next child, if there is one.
    fn next(mut self, weight: f64) -> Option<Self> {
        while !(self.upward_closed && self.downward_closed) {
            let upward = (self.step % 2 == 1) == (self.center >= self.nearest as f64);
            let magnitude = i128::from(self.step.div_ceil(2));
            self.step += 1;
            let closed = if upward { &mut self.upward_closed } else { &mut self.downward_closed };
            if *closed {
                continue;
            }
            let z = i128::from(self.nearest) + if upward { magnitude } else { -magnitude };
            if let Some(z) = i64::try_from(z).ok().filter(|z| term(weight, self.center, *z) <= self.remaining) {
                self.waiting = z;
                return Some(self);
            }
            *closed = true;
        }
        None
    }
}

fn term(weight: f64, center: f64, z: i64) -> f64 {
    let d = center - z as f64;
    (weight * d) * d
}

/// A search with its own copy of table and target, and its walk where that was put down. Its open levels are the highest
/// first.
#[derive(Clone, Debug)]
pub struct Held {
    weights: Vec<f64>,
    mu: Vec<f64>,
    target: Vec<f64>,
    radius: f64,
    point: Vec<i64>,
    best: Option<Vec<i64>>,
    open: Vec<Open>,
    standing: f64,
    pub nodes: u64,
}

impl Held {
    /// The start of a search whose arguments have passed their checks.
    #[must_use]
    pub fn begin(weights: &[f64], mu: &[f64], target: &[f64], radius: f64) -> Self {
        let n = weights.len();
        let radius = if radius == 0.0 { 0.0 } else { radius };
        let (weights, mu, target) = (weights.to_vec(), mu.to_vec(), target.to_vec());
        let (point, best, open) = (vec![0; n], None, Vec::new());
        let mut held = Self { weights, mu, target, radius, point, best, open, standing: radius, nodes: 0 };
        held.descend(n, 0.0);
        held
    }

    /// What a part holds: nothing, if it fails the soundness test.
    #[must_use]
    pub fn read(reals: &[f64], integers: &[i64], counts: &[u64]) -> Option<Self> {
        if !is_sound(counts) {
            return None;
        }
        let (n, nodes, open) = (counts[0] as usize, counts[1], counts[3] as usize);
        let read = |i: usize| Open {
            level: counts[4 + i] as usize,
            partial: reals[577 + i],
            center: reals[600 + i],
            remaining: reals[623 + i],
            nearest: integers[46 + i],
            step: counts[27 + i],
            waiting: integers[69 + i],
            upward_closed: counts[50 + i] != 0,
            downward_closed: counts[73 + i] != 0,
        };
        Some(Self {
            weights: reals[..n].to_vec(),
            mu: reals[23..23 + n * n].to_vec(),
            target: reals[552..552 + n].to_vec(),
            radius: reals[575],
            point: integers[..n].to_vec(),
            best: (counts[2] != 0).then(|| integers[23..23 + n].to_vec()),
            open: (0..open).rev().map(read).collect(),
            standing: reals[576],
            nodes,
        })
    }

    #[must_use]
    pub fn dimension(&self) -> usize {
        self.weights.len()
    }

    #[must_use]
    pub fn is_over(&self) -> bool {
        self.open.is_empty()
    }

    /// So many nodes further, or to the end.
    pub fn run(&mut self, budget: u64) {
        for _ in 0..budget {
            let Some(f) = self.open.pop() else { return };
            let weight = self.weights[f.level];
            let sum = f.partial + term(weight, f.center, f.waiting);
            let level = f.level;
            self.nodes += 1;
            self.point[level] = f.waiting;
            self.open.extend(f.next(weight));
            if sum <= self.standing {
                self.descend(level, sum);
            }
        }
    }

    /// Below a partial sum: the next level is opened; with none left, the point is held to the best.
    fn descend(&mut self, depth: usize, partial: f64) {
        let n = self.dimension();
        if depth == 0 {
            let nearer =
                partial < self.standing || (partial == self.standing && Some(&self.point) < self.best.as_ref());
            if self.best.is_none() || nearer {
                (self.best, self.standing) = (Some(self.point.clone()), partial);
            }
            return;
        }
        let level = depth - 1;
        let along = |c: f64, j: usize| c + (self.target[j] - self.point[j] as f64) * self.mu[j * n + level];
        let center = (depth..n).fold(self.target[level], along);
        let (remaining, nearest) = (self.standing - partial, center.round() as i64);
        if term(self.weights[level], center, nearest) <= remaining {
            let (upward_closed, downward_closed, step, waiting) = (false, false, 1, nearest);
            let open =
                Open { level, partial, center, remaining, nearest, step, waiting, upward_closed, downward_closed };
            self.open.push(open);
        }
    }

    /// The answer that the search has come to.
    ///
    /// # Errors
    ///
    /// 15 if it is not over, 16 if it is over without a point.
    pub fn answer(&self) -> Found {
        if !self.is_over() {
            return Err(DecodeError::BudgetExhausted { nodes: self.nodes, radius_sq: self.standing });
        }
        let point = self.best.clone().ok_or(DecodeError::OutsideRadius { radius_sq: self.radius })?;
        Ok((point, self.nodes, self.standing))
    }

    /// Writes table, target and radius into a part, with zeros behind each.
    pub fn write_table(&self, reals: &mut [f64]) {
        reals[..576].fill(0.0);
        reals[..self.weights.len()].copy_from_slice(&self.weights);
        reals[23..23 + self.mu.len()].copy_from_slice(&self.mu);
        reals[552..552 + self.target.len()].copy_from_slice(&self.target);
        reals[575] = self.radius;
    }

    /// Writes a walk that is not over behind them.
    pub fn write_walk(&self, reals: &mut [f64], integers: &mut [i64], counts: &mut [u64]) {
        reals[576..].fill(0.0);
        integers.fill(0);
        counts.fill(0);
        let n = self.dimension();
        reals[576] = self.standing;
        counts[..4].copy_from_slice(&[n as u64, self.nodes, self.best.is_some().into(), self.open.len() as u64]);
        let above = self.open.last().map_or(n, |f| f.level + 1);
        integers[above..n].copy_from_slice(&self.point[above..]);
        self.best.iter().for_each(|best| integers[23..23 + n].copy_from_slice(best));
        for (i, f) in self.open.iter().rev().enumerate() {
            (reals[577 + i], reals[600 + i], reals[623 + i]) = (f.partial, f.center, f.remaining);
            (integers[46 + i], integers[69 + i]) = (f.nearest, f.waiting);
            (counts[4 + i], counts[27 + i]) = (f.level as u64, f.step);
            (counts[50 + i], counts[73 + i]) = (f.upward_closed.into(), f.downward_closed.into());
        }
    }
}
