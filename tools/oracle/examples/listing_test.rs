//! The run test `listing_test` as Rust, with the original in the place of the crate `listing`: what it prints is what
//! is stored in crates/listing_test/stdout. Refusals 2 to 5, 9, 14 and 18, which the original does not have, are
//! the specification's. The nodes, which the original does not hand out, are the least budget that it accepts.

#![allow(dead_code, clippy::too_many_arguments)]

mod common;
use common::{printing, refusals};

mod rounding {
    pub fn to_double(n: i64) -> f64 {
        n as f64
    }
}

mod listing {
    use super::common;
    use super::refusals::Refusal;

    pub struct ListFound {
        pub nodes: u64,
        pub points: usize,
    }

    pub fn list(
        weights: &[f64],
        mu: &[f64],
        target: &[f64],
        distances: &mut [f64],
        points: &mut [i64],
        radius: f64,
        budget: u64,
    ) -> Result<ListFound, Refusal> {
        let (n, places) = (weights.len(), distances.len());
        let size = (places > 4096 || points.len() != n * places).then_some(Refusal::ListSize(places));
        let (found, nodes) = common::answer(oracle::LARGEST_SEARCHED, weights, mu, budget, size, |table, budget| {
            oracle::list(table, target, radius, budget).map_err(common::refusal)
        })?;
        if found.len() > places {
            return Err(Refusal::ListFull(found.len()));
        }
        for (place, (distance, point)) in found.iter().enumerate() {
            distances[place] = *distance;
            points[place * n..][..n].copy_from_slice(point);
        }
        Ok(ListFound { nodes, points: found.len() })
    }
}

include!(concat!(env!("OUT_DIR"), "/listing_test.rs"));
