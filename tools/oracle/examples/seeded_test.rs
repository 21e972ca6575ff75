//! The run test `seeded_test` as Rust, with the original in the place of the crate `seeded`: what it prints is what is
//! stored in crates/seeded_test/stdout. A distance is that of the original's `triangular_distance`. Refusals 2 to 5 and
//! 9, which the original does not have, are the specification's. By it the original's LengthMismatch is 6 or 10, its
//! InvalidRadius 8, 11, 12 or 13, and its OutsideRadius 16, as in `nearest`. This never comes: the candidate lies
//! strictly inside the widened radius, and at n = 0 the empty vector is found.

#![allow(dead_code, clippy::too_many_arguments)]

mod common;
use common::{printing, refusals};

mod enumerate {
    pub use super::common::NearestPoint;
}

mod seeded {
    use super::common;
    use super::enumerate::NearestPoint;
    use super::refusals::Refusal;
    use oracle::enumerate::EnumerationScratch;
    use oracle::error::DecodeError;
    use oracle::{Enumerator, LARGEST_DIMENSION};

    /// 11, 12 or 13, by the candidate's distance. Each carries what the original's InvalidRadius carries, which is
    /// `value`; in 12 minus zero is taken as zero.
    fn candidate_fault(table: &Enumerator, target: &[f64], candidate: &[i64], radius: f64, value: f64) -> Refusal {
        match table.triangular_distance(target, candidate) {
            Err(_) => Refusal::CandidateDistance(value),
            Ok(distance) if distance > radius => Refusal::CandidateOutside(common::carried(value)),
            Ok(_) => Refusal::WidenedRadius(value),
        }
    }

    pub fn nearest_seeded(
        weights: &[f64],
        mu: &[f64],
        target: &[f64],
        out: &mut [i64],
        candidate: &[i64],
        radius: f64,
        budget: u64,
    ) -> Result<NearestPoint, Refusal> {
        let n = weights.len();
        let fit = target.len() == n && out.len() == n;
        common::answer(LARGEST_DIMENSION, weights, mu, budget, None, |table, budget| {
            let scratch = &mut EnumerationScratch::new();
            let nodes = table.nearest_seeded(target, out, candidate, radius, budget, scratch);
            let nodes = nodes.map_err(|error| match error {
                DecodeError::LengthMismatch { expected, found } if fit => Refusal::CandidateLength(expected, found),
                DecodeError::InvalidRadius { radius_sq } if radius.is_finite() && radius >= 0.0 => {
                    candidate_fault(table, target, candidate, radius, radius_sq)
                }
                _ => common::refusal(error),
            })?;
            Ok(NearestPoint::new(table, target, out, nodes))
        })
    }

    pub fn nearest_ml(
        weights: &[f64],
        mu: &[f64],
        target: &[f64],
        out: &mut [i64],
        budget: u64,
    ) -> Result<NearestPoint, Refusal> {
        common::answer(LARGEST_DIMENSION, weights, mu, budget, None, |table, budget| {
            let scratch = &mut EnumerationScratch::new();
            let nodes = table.nearest_ml(target, out, budget, scratch).map_err(|error| match error {
                DecodeError::InvalidRadius { radius_sq } => {
                    // The radius is the seed's distance, so 12 does not arise.
                    let (seed, _) = oracle::nearest_plane(table, target, target.len()).unwrap();
                    candidate_fault(table, target, &seed, f64::INFINITY, radius_sq)
                }
                _ => common::refusal(error),
            })?;
            Ok(NearestPoint::new(table, target, out, nodes))
        })
    }
}

include!(concat!(env!("OUT_DIR"), "/seeded_test.rs"));
