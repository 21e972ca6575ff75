//! Pairs of matrices of integers that are inverse to each other, made by elementary operations. The first is called the
//! transform; each has n·n entries, row by row.

use crate::paper::LARGEST_ENTRY;

#[derive(Clone, Debug)]
pub struct Pair {
    pub n: usize,
    pub transform: Vec<i64>,
    pub inverse: Vec<i64>,
}

impl Pair {
    #[must_use]
    pub fn identity(n: usize) -> Self {
        let entries: Vec<i64> = (0..n * n).map(|k| i64::from(k / n == k % n)).collect();
        Self { n, transform: entries.clone(), inverse: entries }
    }

    /// Adds so many times row `from` of the transform to row `to`, and takes as many times column `to` of the inverse
    /// from column `from`. Where an entry would be above 2^52, nothing is done and the answer is false.
    pub fn add(&mut self, to: usize, from: usize, factor: i64) -> bool {
        assert_ne!(to, from);
        let (n, mut next) = (self.n, self.clone());
        for k in 0..n {
            let (row, column) = (n * to + k, n * k + from);
            let above = sum(self.transform[row], factor, self.transform[n * from + k]);
            let below = sum(self.inverse[column], factor.saturating_neg(), self.inverse[n * k + to]);
            let (Some(above), Some(below)) = (above, below) else { return false };
            (next.transform[row], next.inverse[column]) = (above, below);
        }
        *self = next;
        true
    }

    /// Exchanges two rows of the transform.
    pub fn swap(&mut self, i: usize, j: usize) {
        for k in 0..self.n {
            self.transform.swap(i * self.n + k, j * self.n + k);
            self.inverse.swap(k * self.n + i, k * self.n + j);
        }
    }

    /// Changes the signs of a row of the transform.
    pub fn negate(&mut self, i: usize) {
        for k in 0..self.n {
            for entry in [&mut self.transform[i * self.n + k], &mut self.inverse[k * self.n + i]] {
                *entry = entry.wrapping_neg();
            }
        }
    }

    /// The two matrices in each other's place: what is done to rows of the one is then done to columns of the other.
    #[must_use]
    pub fn exchanged(self) -> Self {
        Self { n: self.n, transform: self.inverse, inverse: self.transform }
    }
}

/// The entry with a multiple of another added, if it is at most 2^52.
fn sum(entry: i64, factor: i64, other: i64) -> Option<i64> {
    let sum = i64::try_from(i128::from(entry) + i128::from(factor) * i128::from(other)).ok();
    sum.filter(|z| z.unsigned_abs() <= LARGEST_ENTRY)
}

#[must_use]
pub fn transposed(n: usize, matrix: &[i64]) -> Vec<i64> {
    (0..n * n).map(|k| matrix[k % n * n + k / n]).collect()
}
