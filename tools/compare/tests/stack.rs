//! The stack of a thread that asks for none: 2 MB hold every call, at 64 dimensions a list of 4,096 places too, whether it is
//! walked once or twice. `cargo run --release --bin stack` prints what each call takes.

use compare::answer::{Report, before};
use compare::case::{Call, Case};
use compare::expected::expected;
use compare::port;
use compare::short::running::{PRIVATE, grid_of, row_of};
use compare::stack::used;
use std::thread;

/// What a thread of the standard library has, unless it is told otherwise.
const DEFAULT: usize = 2 << 20;

/// Runs it in such a thread, which ends the process where the stack is too small.
fn in_a_thread<A: Send>(call: impl FnOnce() -> A + Send) -> A {
    thread::scope(|s| thread::Builder::new().stack_size(DEFAULT).spawn_scoped(s, call).unwrap().join().unwrap())
}

/// The port's list in such a thread is the expected one.
fn list(case: &Case) -> Report {
    let (mut points, distances) = before(case);
    let mut distances: Vec<f64> = distances.into_iter().map(f64::from_bits).collect();
    let report = in_a_thread(|| port::list(case, &mut distances, &mut points));
    let right = expected(case).answer;
    let bits: Vec<u64> = distances.into_iter().map(f64::to_bits).collect();
    assert!(report == right.report && points == right.integers && bits == right.doubles, "{case}");
    report
}

#[test]
fn lists() {
    for n in [8, 23, 24, 64] {
        let rows = PRIVATE / n;
        for count in [1, 20, 1472, rows + 1, 4000, 4096] {
            let case = row_of(n, count.min(4096)).with_places(4096);
            assert_eq!(list(&case).number, 0, "{n} {count}");
        }
        assert!(list(&grid_of(n, 4000).with_places(4096)).second > 3900);
        assert_eq!(list(&row_of(n, 4097).with_places(4096)), Report::whole(18, 4097, 0));
    }
    // At 64 dimensions fewer points than the private array holds, and more.
    assert!(list(&grid_of(64, 1400).with_places(4096)).second < 1472);
    assert!(list(&grid_of(64, 1600).with_places(4096)).second > 1472);
}

#[test]
fn searches() {
    for n in [23, 24, 64] {
        let case = Case::new(Call::Nearest, &vec![1.0; n], &vec![0.0; n * n], &vec![0.5; n], n as f64 * 0.25, 5_000);
        let mut out = vec![0; n];
        let report = in_a_thread(|| port::nearest(&case, &mut out));
        assert_eq!(report, expected(&case).answer.report, "{n}");
        assert_eq!(report.number, 15);
    }
}

/// What is painted is what was taken: a kilobyte more in an array of a function shows as that.
#[test]
fn measured() {
    #[inline(never)]
    fn fill<const N: usize>() -> u8 {
        let mut array = [0_u8; N];
        array.iter_mut().enumerate().for_each(|(k, x)| *x = k as u8);
        std::hint::black_box(&mut array)[N / 2]
    }
    let small = used(&mut || _ = fill::<1024>());
    for (bytes, large) in
        [(65_536, used(&mut || _ = fill::<66_560>())), (1 << 20, used(&mut || _ = fill::<1_049_600>()))]
    {
        assert!(large.abs_diff(small + bytes) < 256, "{small} {large}");
    }
}
