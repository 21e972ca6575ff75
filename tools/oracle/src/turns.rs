//! Turns of kept searches, which the original does not have, read from the specification: which name is served, and the
//! search that its next slice would take past the limit. Nothing here is taken from the port.

use crate::kept::{COUNTS, MOST_NODES, NAMES, is_sound};

/// The largest slice of a turn.
pub const MOST_SLICE: u64 = 1 << 20;

/// The next held name after the one last served, wrapping from 8 to 1, by the counts of a block. What is no name stands for
/// 8.
#[must_use]
pub fn next_held(counts: &[u64], last: u64) -> Option<u64> {
    let all = NAMES as u64;
    let last = if (1..=all).contains(&last) { last } else { all };
    let held = |name: &u64| is_sound(&counts[(*name as usize - 1) * COUNTS..][..COUNTS]);
    (0..all).map(|k| (last + k) % all + 1).find(held)
}

/// Where the next slice of a held part would pass the limit, what 15 tells of it, its nodes and standing radius; the part is
/// emptied.
pub fn put_out(reals: &mut [f64], integers: &mut [i64], counts: &mut [u64], slice: u64) -> Option<(u64, f64)> {
    let (nodes, standing) = (counts[1], reals[576]);
    if nodes + slice <= MOST_NODES {
        return None;
    }
    reals.fill(0.0);
    integers.fill(0);
    counts.fill(0);
    Some((nodes, standing))
}
