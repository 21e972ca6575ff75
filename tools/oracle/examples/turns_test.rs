//! The run test `turns_test` as Rust, with the original in the place of the crates `kept` and `turns`: what it prints is what
//! is stored in crates/turns_test/stdout. A turn is the pickup of the name that it serves, and so its answer the original's
//! `nearest` with the sum of the budgets (`kept_test`). Which name that is, the search that is put out at 2^60 nodes, and
//! refusals 28 and 29 are the specification's (`oracle::turns`).

#![allow(dead_code, clippy::needless_return, clippy::too_many_arguments)]

mod common;
use common::{printing, refusals};

mod enumerate {
    pub use super::common::NearestPoint;
}

#[path = "common/kept.rs"]
mod kept;

mod turns {
    use super::enumerate::NearestPoint;
    use super::kept;
    use super::refusals::Refusal;
    use oracle::LARGEST_DIMENSION;
    use oracle::kept::part;
    use oracle::turns::{MOST_SLICE, next_held, put_out};

    pub struct TurnAnswer {
        pub name: u64,
        pub n: u64,
        pub answer: Result<NearestPoint, Refusal>,
    }

    const fn refused(fault: Refusal) -> TurnAnswer {
        TurnAnswer { name: 0, n: 0, answer: Err(fault) }
    }

    pub fn turn(
        reals: &mut [f64],
        integers: &mut [i64],
        counts: &mut [u64],
        last: &mut u64,
        out: &mut [i64],
        slice: u64,
    ) -> TurnAnswer {
        if !(1..=MOST_SLICE).contains(&slice) {
            return refused(Refusal::SliceRange);
        }
        // Of a name that is one, the lengths alone are looked at.
        if let Some(fault) = kept::block_fault(1, [reals.len(), integers.len(), counts.len()]) {
            return refused(fault);
        }
        let Some(name) = next_held(counts, *last) else { return refused(Refusal::NoneHeld) };
        if out.len() != LARGEST_DIMENSION {
            return refused(Refusal::LengthMismatch(LARGEST_DIMENSION, out.len()));
        }
        *last = name;
        let [r, i, c] = part(name);
        let n = counts[c.start];
        let answer = match put_out(&mut reals[r], &mut integers[i], &mut counts[c], slice) {
            Some((nodes, standing)) => Err(Refusal::BudgetExhausted(nodes, standing)),
            None => kept::pick_up(reals, integers, counts, name, &mut out[..n as usize], slice),
        };
        TurnAnswer { name, n, answer }
    }
}

include!(concat!(env!("OUT_DIR"), "/turns_test.rs"));
