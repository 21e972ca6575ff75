//! The run test `enumerate_test` as Rust, with the original in the place of the crate `enumerate`: what it prints is
//! what is stored in crates/enumerate_test/stdout. A distance is that of the original's `triangular_distance`, from 24
//! dimensions on the radius that stands at the end of its walk. Refusals 2 to 5 and 9, which the original does not have, are
//! the specification's.

#![allow(dead_code)]

mod common;
use common::{printing, refusals};

mod enumerate {
    use super::common;
    use super::refusals::Refusal;
    use oracle::enumerate::EnumerationScratch;

    pub use common::NearestPoint;

    pub fn nearest(
        weights: &[f64],
        mu: &[f64],
        target: &[f64],
        out: &mut [i64],
        radius: f64,
        budget: u64,
    ) -> Result<NearestPoint, Refusal> {
        common::answer(oracle::LARGEST_SEARCHED, weights, mu, budget, None, |table, budget| {
            let scratch = &mut EnumerationScratch::new();
            let nodes = table.nearest(target, out, radius, budget, scratch).map_err(common::refusal)?;
            let distance = oracle::nearest_distance(table, target, out, radius, budget).unwrap();
            Ok(NearestPoint { nodes, distance })
        })
    }
}

include!(concat!(env!("OUT_DIR"), "/enumerate_test.rs"));
