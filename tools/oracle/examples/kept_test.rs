//! The run test `kept_test` as Rust, with the original in the place of the crate `kept`: what it prints is what is stored in
//! crates/kept_test/stdout. The answer to a search that a named call began is the original's `nearest` with the sum of the
//! budgets. What the original does not have is the specification's: refusals 2 to 5, 9 and 25 to 27, 6 of the block, what a
//! block holds, and the walk of a part that no call has written (`oracle::kept`). Where both speak they must agree.

#![allow(dead_code, unused_assignments, clippy::too_many_arguments)]

mod common;
use common::{printing, refusals};

mod enumerate {
    pub use super::common::NearestPoint;
}

#[path = "common/kept.rs"]
mod kept;

include!(concat!(env!("OUT_DIR"), "/kept_test.rs"));
