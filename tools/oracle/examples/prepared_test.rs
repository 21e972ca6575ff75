//! The run test `prepared_test` as Rust, with the original in the place of the crate `prepared`: what it prints is what is
//! stored in crates/prepared_test/stdout. Refusals 2 to 5, 9, 22 and 23, which the original does not have, are the
//! specification's. The original's Range is 24, whose column it does not tell: that is counted here, over 128 bits.

#![allow(dead_code, clippy::too_many_arguments)]

mod common;
use common::{printing, refusals};

mod prepared {
    use super::common;
    use super::common::NearestPoint;
    use super::refusals::Refusal;
    use oracle::LARGEST_DIMENSION;
    use oracle::enumerate::{PreparedEnumerationScratch, PreparedEnumerator};
    use oracle::error::DecodeError;
    use oracle::int::IntMatrix;

    fn sum(n: usize, left: impl Fn(usize) -> i64, matrix: &[i64], column: usize) -> i128 {
        (0..n).map(|k| i128::from(left(k)) * i128::from(matrix[k * n + column])).sum()
    }

    fn is_identity(n: usize, a: &[i64], b: &[i64]) -> bool {
        (0..n * n).all(|k| sum(n, |i| a[k / n * n + i], b, k % n) == i128::from(k / n == k % n))
    }

    /// 22, or 23.
    fn matrix_fault(n: usize, transform: &[i64], inverse: &[i64]) -> Option<Refusal> {
        if transform.len() != n * n || inverse.len() != n * n {
            return Some(Refusal::MatrixRange(0));
        }
        let beyond = transform.iter().chain(inverse).position(|z| z.unsigned_abs() > 1 << 52);
        if let Some(index) = beyond {
            return Some(Refusal::MatrixRange(index));
        }
        let inverses = is_identity(n, transform, inverse) && is_identity(n, inverse, transform);
        (!inverses).then_some(Refusal::NotInverse)
    }

    pub fn prepared_nearest_ml(
        weights: &[f64],
        mu: &[f64],
        transform: &[i64],
        inverse: &[i64],
        target: &[f64],
        out: &mut [i64],
        budget: u64,
    ) -> Result<NearestPoint, Refusal> {
        let n = weights.len();
        // 22 and 23 stand behind 2 to 5, which are the first that `answer` looks for, and before 9.
        common::answer(LARGEST_DIMENSION, weights, mu, 0, None, |_, _| {
            matrix_fault(n, transform, inverse).map_or(Ok(()), Err)
        })?;
        common::answer(LARGEST_DIMENSION, weights, mu, budget, None, |table, budget| {
            let matrix = |entries| IntMatrix::from_entries(n, entries);
            let prepared = PreparedEnumerator::from_table(table.clone(), matrix(transform), matrix(inverse));
            let scratch = &mut PreparedEnumerationScratch::new();
            let nodes = prepared.nearest_ml(target, out, budget, scratch);
            let nodes = nodes.map_err(|error| match error {
                DecodeError::InvalidRadius { radius_sq } => {
                    // The radius is the seed's distance, so 12 does not arise.
                    let (target, _) = scratch.reduced(n);
                    let (seed, _) = oracle::nearest_plane(table, target, n).unwrap();
                    let finite = table.triangular_distance(target, &seed).is_ok();
                    if finite { Refusal::WidenedRadius(radius_sq) } else { Refusal::CandidateDistance(radius_sq) }
                }
                DecodeError::Range(_) => {
                    let (_, point) = scratch.reduced(n);
                    let outside = |c: &usize| i64::try_from(sum(n, |k| point[k], transform, *c)).is_err();
                    Refusal::MappedRange((0..n).find(outside).unwrap())
                }
                _ => common::refusal(error),
            })?;
            let (reduced_target, point) = scratch.reduced(n);
            Ok(NearestPoint::new(table, reduced_target, point, nodes))
        })
    }
}

include!(concat!(env!("OUT_DIR"), "/prepared_test.rs"));
