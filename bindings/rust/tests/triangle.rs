//! The check of entries one at a time: at the ends of its ranges, and against the refusals of calls on drawn tables.

use snowgimmer::{Refusal, Table, TriangleCheck};

/// 2^52.
const LIMIT: f64 = 4503599627370496.0;

/// The verdict after each of the entries.
fn verdicts(entries: &[(usize, f64)]) -> Vec<Result<(), Refusal>> {
    let mut check = TriangleCheck::new();
    let after = |&(index, entry): &(usize, f64)| {
        check = check.feed(index, entry);
        check.verdict()
    };
    entries.iter().map(after).collect()
}

/// The verdict after one entry.
fn one(index: usize, entry: f64) -> Result<(), Refusal> {
    TriangleCheck::new().feed(index, entry).verdict()
}

fn non_finite(index: usize) -> Result<(), Refusal> {
    Err(Refusal::MuNonFinite { index })
}

fn range(index: usize) -> Result<(), Refusal> {
    Err(Refusal::MuRange { index })
}

#[test]
fn the_start() {
    const START: TriangleCheck = TriangleCheck::new();
    assert_eq!(START.verdict(), Ok(()));
    assert_eq!(START, TriangleCheck::default());
    assert_eq!(START.feed(3, 0.5), START);
}

#[test]
fn one_entry() {
    for entry in [0.0, -0.0, 0.5, f64::MIN_POSITIVE, LIMIT, -LIMIT] {
        assert_eq!(one(3, entry), Ok(()));
    }
    for entry in [4503599627370497.0, -4503599627370497.0, 2.0 * LIMIT, f64::MAX, f64::MIN] {
        assert_eq!(one(3, entry), range(3));
    }
    for entry in [f64::INFINITY, f64::NEG_INFINITY, f64::NAN, -f64::NAN] {
        assert_eq!(one(3, entry), non_finite(3));
    }
}

#[test]
fn one_after_another() {
    assert_eq!(verdicts(&[(3, 2.0 * LIMIT), (6, 0.0), (7, f64::NAN)]), [range(3), range(3), non_finite(7)]);
    assert_eq!(verdicts(&[(12, f64::NAN), (13, f64::INFINITY)]), [non_finite(12), non_finite(12)]);
    assert_eq!(verdicts(&[(3, 0.5), (6, -2.0 * LIMIT), (7, 1e300)]), [Ok(()), range(6), range(6)]);
    assert_eq!(verdicts(&[(3, f64::NAN), (6, 1e300), (7, 0.0)]), [non_finite(3); 3]);
    assert_eq!(verdicts(&[(3, 1e300), (6, f64::NEG_INFINITY), (7, 1e300)]), [range(3), non_finite(6), non_finite(6)]);
}

/// If the indices do not rise, the first is the first that was fed.
#[test]
fn in_another_order() {
    assert_eq!(verdicts(&[(7, 1e300), (3, 1e300)]), [range(7), range(7)]);
    assert_eq!(verdicts(&[(7, f64::NAN), (3, f64::NAN)]), [non_finite(7), non_finite(7)]);
}

#[test]
fn every_index() {
    for index in [0, usize::MAX] {
        assert_eq!(one(index, 0.5), Ok(()));
        assert_eq!(one(index, 1e300), range(index));
        assert_eq!(one(index, f64::NAN), non_finite(index));
        assert_eq!(verdicts(&[(index, 1e300), (5, 0.0)]), [range(index), range(index)]);
    }
}

/// A check is a value: one that was fed stands as it was.
#[test]
fn a_value() {
    let before = TriangleCheck::new().feed(3, 1e300);
    let after = before.feed(6, f64::NAN);
    assert_eq!((before.verdict(), after.verdict()), (range(3), non_finite(6)));
    assert_ne!(before, after);
    assert_eq!(before.feed(6, f64::INFINITY), after);
}

/// The refusal of two calls on the table of these entries, whose other values pass.
fn refused(n: usize, mu: &[f64]) -> Result<(), Refusal> {
    let (weights, zero) = (vec![1.0; n], vec![0.0; n]);
    let table = Table::new(&weights, mu);
    let plane = table.nearest_plane(&mut zero.clone()).map(|_| ());
    assert_eq!(table.nearest(&zero, 0.0, 100).map(|_| ()), plane);
    plane
}

/// Tables of a simple generator, some entries of which are faulty, also where they are not read.
#[test]
fn drawn_tables() {
    const FAULTS: [f64; 7] = [f64::NAN, f64::INFINITY, f64::NEG_INFINITY, 1e300, -1e16, LIMIT, -LIMIT];
    let mut state = 1_u64;
    let mut draw = |below: u64| {
        state = state.wrapping_mul(6364136223846793005).wrapping_add(1442695040888963407);
        (state >> 33) % below
    };
    let mut told = [0; 5];
    for n in (2..=6).cycle().take(2000) {
        let sound = 1 + draw(20);
        let mut entry = || if draw(sound) == 0 { FAULTS[draw(7) as usize] } else { draw(1000) as f64 / 1000.0 - 0.5 };
        let mu: Vec<f64> = (0..n * n).map(|_| entry()).collect();
        let (mut so_far, mut check) = (mu.clone(), TriangleCheck::new());
        let below = || (1..n).flat_map(|j| (0..j).map(move |i| j * n + i));
        below().for_each(|index| so_far[index] = 0.0);
        for index in below() {
            check = check.feed(index, mu[index]);
            so_far[index] = mu[index];
            assert_eq!(check.verdict(), refused(n, &so_far));
        }
        assert_eq!(check.verdict(), refused(n, &mu));
        told[check.verdict().map_or_else(|refusal| refusal.number() as usize, |()| 0)] += 1;
    }
    // each verdict comes often
    assert!(told[0] > 100 && told[3] > 100 && told[4] > 100, "{told:?}");
}
