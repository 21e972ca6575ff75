//! The smallest bytes that still show a difference.

use super::layout::Job;
use crate::case::Case;
use crate::shrink::{self, LONGEST, TIME, affordable, by_steps};
use std::time::Instant;

/// Simplest first.
const SIMPLE: [u64; 5] = [1, 3, 256, 2, 0];

/// Bytes that `differ` and that no single change makes smaller, or as far as the time allows.
pub fn shrink(bytes: &[u8], differ: &dyn Fn(&[u8]) -> bool) -> Vec<u8> {
    let end = Instant::now() + TIME;
    // Bytes that are no job can become one with a long walk.
    let differ = |bytes: &[u8]| Job::read(bytes).is_none_or(|job| affordable(&job.case)) && differ(bytes);
    let Some(job) = Job::read(bytes) else {
        return by_steps(&bytes.to_vec(), &|bytes| fewer(bytes), end, &|bytes| differ(bytes));
    };
    let differs = &|job: &Job| differ(&job.bytes());
    let mut ample = job.clone();
    ample.case.budget = LONGEST;
    let start = if differs(&ample) { ample } else { job };
    // The budget waits for the dimensions, as there.
    let narrow = by_steps(&start, &|job| smaller(job, false), end, differs);
    by_steps(&narrow, &|job| smaller(job, true), end, differs).bytes()
}

/// Every job one step smaller.
fn smaller(job: &Job, budgets: bool) -> Vec<Job> {
    let with = |case: Case, settings| Job { case, settings };
    let mut list = Vec::new();
    if let Some(settings) = job.settings {
        list.push(with(job.case.clone(), None));
        for k in 0..settings.len() {
            for setting in simpler(settings[k]) {
                let mut simple = settings;
                simple[k] = *setting;
                list.push(with(job.case.clone(), Some(simple)));
            }
        }
    }
    list.extend(shrink::smaller(&job.case, budgets).into_iter().map(|case| with(case, job.settings)));
    list
}

/// The simple settings before `x`, and for any other all of them.
fn simpler(x: u64) -> &'static [u64] {
    let place = SIMPLE.iter().position(|s| *s == x);
    &SIMPLE[..place.unwrap_or(SIMPLE.len())]
}

/// The bytes without some at either end, and with a zero for one.
fn fewer(bytes: &[u8]) -> Vec<Vec<u8>> {
    let len = bytes.len();
    let counts = [len / 2, 8, 4, 1].into_iter().filter(|count| (1..=len).contains(count));
    let mut list: Vec<Vec<u8>> =
        counts.flat_map(|count| [bytes[..len - count].to_vec(), bytes[count..].to_vec()]).collect();
    for place in (0..len).filter(|place| bytes[*place] != 0) {
        let mut zero = bytes.to_vec();
        zero[place] = 0;
        list.push(zero);
    }
    list
}
