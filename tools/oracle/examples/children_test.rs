//! The run test `children_test` as Rust, with the original's generator in the place of the crate `children`: what it
//! prints is what is stored in crates/children_test/stdout. The original hands out the integers and the state; the
//! double and the term of each are worked out here.

#![allow(dead_code, clippy::new_ret_no_self)]

mod common;
use common::{io, printing};

mod children {
    use oracle::enumerate::Zigzag;

    #[derive(Clone, Copy)]
    pub struct Trial {
        pub z: i64,
        pub value: f64,
        pub term: f64,
    }

    /// The original's generator after `taken` children. It has no copy, so each child starts it anew.
    #[derive(Clone, Copy)]
    pub struct Children {
        center: f64,
        remaining: f64,
        weight: f64,
        taken: usize,
        pub step: u64,
        pub positive_done: bool,
        pub negative_done: bool,
    }

    impl Children {
        fn after(center: f64, remaining: f64, weight: f64, taken: usize, zigzag: &Zigzag) -> Self {
            let (step, positive_done, negative_done) = zigzag.state();
            let step = u64::try_from(step).unwrap();
            Self { center, remaining, weight, taken, step, positive_done, negative_done }
        }

        pub fn new(center: f64, remaining: f64, weight: f64) -> Option<Self> {
            let zigzag = Zigzag::new(center, remaining, weight)?;
            Some(Self::after(center, remaining, weight, 0, &zigzag))
        }

        pub fn next(self) -> Option<(Trial, Self)> {
            let Self { center, remaining, weight, taken, .. } = self;
            let mut zigzag = Zigzag::new(center, remaining, weight).unwrap();
            let z = zigzag.nth(taken)?;
            let value = z as f64;
            let d = center - value;
            let trial = Trial { z, value, term: weight * d * d };
            Some((trial, Self::after(center, remaining, weight, taken + 1, &zigzag)))
        }
    }
}

include!(concat!(env!("OUT_DIR"), "/children_test.rs"));
