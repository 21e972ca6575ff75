//! The job program beside the text that the oracle has for the same bytes.

pub mod layout;
pub mod program;
pub mod random;
pub mod shrink;
pub mod tally;

use program::{Printed, Program};
use std::ops::Range;
use std::sync::Mutex;
use std::thread;
use tally::Tally;

pub struct Comparison {
    pub expected: Printed,
    pub printed: Printed,
}

impl Comparison {
    #[must_use]
    pub fn differs(&self) -> bool {
        self.printed != self.expected
    }
}

/// What was expected for these bytes, and what the program did.
#[must_use]
pub fn compare(program: &Program, bytes: &[u8]) -> Comparison {
    Comparison { expected: Printed::expected(oracle::job_text(bytes)), printed: program.run(bytes) }
}

/// A difference, with its job's number and bytes.
pub struct Found {
    pub number: u64,
    pub bytes: Vec<u8>,
    pub comparison: Comparison,
}

#[derive(Default)]
pub struct Met {
    pub tally: Tally,
    /// The difference with the smallest number.
    pub found: Option<Found>,
}

/// Runs the jobs with these numbers, from as many threads as there are cores, until one differs.
#[must_use]
pub fn run(program: &Program, seed: u64, numbers: Range<u64>) -> Met {
    let (numbers, met) = (Mutex::new(numbers), Mutex::new(Met::default()));
    let next = || numbers.lock().unwrap().next();
    let work = || {
        while let Some(number) = next() {
            let bytes = random::bytes(seed, number);
            let comparison = compare(program, &bytes);
            let mut met = met.lock().unwrap();
            met.tally.count(&bytes, &comparison.expected);
            if comparison.differs() {
                // Smaller numbers were handed out before this one, and each of them is carried to its end.
                *numbers.lock().unwrap() = 0..0;
                if met.found.as_ref().is_none_or(|found| number < found.number) {
                    met.found = Some(Found { number, bytes, comparison });
                }
            }
        }
    };
    let threads = thread::available_parallelism().map_or(1, usize::from);
    thread::scope(|scope| {
        for _ in 0..threads {
            scope.spawn(work);
        }
    });
    met.into_inner().unwrap()
}
