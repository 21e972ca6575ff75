//! Each number, with its values, and that a refusal leaves every lent slice as it was: NaNs, which the proofs do not
//! tell apart, by their bits.

use snowgimmer::{
    Refusal, change_reference, list, nearest, nearest_ml, nearest_plane, nearest_seeded, ratio, round,
    triangular_distance,
};
use std::fmt::Debug;

/// NaNs with different signs and payloads, the second a signaling one.
const NANS: [u64; 4] = [0x7FF8_0000_DEAD_BEEF, 0x7FF0_0000_0000_0001, 0xFFF8_0000_0000_0000, 0xFFFF_FFFF_FFFF_FFFF];

/// The largest finite weight, over which a distance overflows.
const HUGE: f64 = f64::MAX;

fn nans(places: usize) -> Vec<f64> {
    (0..places).map(|i| f64::from_bits(NANS[i % 4])).collect()
}

fn bits(values: &[f64]) -> Vec<u64> {
    values.iter().map(|x| x.to_bits()).collect()
}

/// The refusal of a call that is lent an output of so many places, which must keep its contents.
fn kept<A: Debug>(places: usize, call: impl FnOnce(&mut [i64]) -> Result<A, Refusal>) -> Refusal {
    let before: Vec<i64> = (0..places as i64).map(|i| i64::MIN + i).collect();
    let mut out = before.clone();
    let refusal = call(&mut out).unwrap_err();
    assert_eq!(out, before);
    refusal
}

/// The refusal of a list of weight 1 over these places, which must keep their contents.
fn list_kept(target: f64, places: usize, points: usize, radius: f64, budget: u64) -> Refusal {
    let mut distances = nans(places);
    kept(points, |points| {
        let listed = list(&[1.0], &[0.0], &[target], &mut distances, points, radius, budget);
        assert_eq!(bits(&distances), bits(&nans(places)));
        listed
    })
}

#[test]
fn tables() {
    let by = |weights: &[f64], mu: &[f64]| kept(2, |out| nearest(weights, mu, &[0.5; 2], out, 1.0, 9));
    assert_eq!(by(&[1.0; 65], &[0.0; 4225]), Refusal::TableSize { weights: 65 });
    assert_eq!(by(&[1.0; 24], &[0.0; 575]), Refusal::TableSize { weights: 24 });
    assert_eq!(by(&[1.0; 2], &[0.0; 3]), Refusal::TableSize { weights: 2 });
    assert_eq!(by(&[1.0; 2], &[0.0, 0.0, f64::NAN, 0.0]), Refusal::MuNonFinite { index: 2 });
    assert_eq!(by(&[1.0; 2], &[0.0, 0.0, -1e16, 0.0]), Refusal::MuRange { index: 2 });
    assert_eq!(by(&[1.0, -0.0], &[0.0; 4]), Refusal::WeightRange { index: 1 });
}

#[test]
fn calls() {
    let one = |target: &[f64], places: usize, radius: f64| {
        kept(places, |out| nearest(&[1.0], &[0.0], target, out, radius, 9))
    };
    assert_eq!(one(&[], 1, 1.0), Refusal::LengthMismatch { expected: 1, found: 0 });
    assert_eq!(one(&[0.5], 3, 1.0), Refusal::LengthMismatch { expected: 1, found: 3 });
    assert_eq!(one(&[f64::INFINITY], 1, 1.0), Refusal::NonFinite { index: 0 });
    assert_eq!(one(&[0.5], 1, -1.0), Refusal::InvalidRadius { radius: -1.0 });
    assert!(matches!(one(&[0.5], 1, f64::NAN), Refusal::InvalidRadius { radius } if radius.is_nan()));
    assert_eq!(
        kept(1, |out| nearest_ml(&[1.0], &[0.0], &[0.5], out, u64::MAX)),
        Refusal::BudgetRange { budget: u64::MAX }
    );
}

#[test]
fn candidates() {
    let seeded = |weight: f64, candidate: &[i64], radius: f64| {
        kept(1, |out| nearest_seeded(&[weight], &[0.0], &[0.5], out, candidate, radius, 9))
    };
    assert_eq!(seeded(1.0, &[0, 0], 1.0), Refusal::CandidateLength { expected: 1, found: 2 });
    assert_eq!(seeded(HUGE, &[1 << 40], 1.0), Refusal::CandidateDistance { total: f64::INFINITY });
    assert_eq!(seeded(1.0, &[2], 2.0), Refusal::CandidateOutside { radius: 2.0 });
    assert_eq!(seeded(1.0, &[0], HUGE), Refusal::WidenedRadius { radius: f64::INFINITY });
}

#[test]
fn searches() {
    let budget = |budget: u64| kept(1, |out| nearest(&[1.0], &[0.0], &[0.5], out, 1.0, budget));
    assert_eq!(budget(1), Refusal::BudgetExhausted { nodes: 1, radius: 0.25 });
    let outside = kept(1, |out| nearest(&[4.0], &[0.0], &[0.75], out, 0.125, 0));
    assert_eq!(outside, Refusal::OutsideRadius { radius: 0.125 });
    // case H, which takes 6 nodes
    let weights = [f64::EPSILON * 2.0, 4.0];
    let seeded = kept(2, |out| nearest_seeded(&weights, &[0.0; 4], &[0.5; 2], out, &[0, 0], 1.0, 5));
    assert_eq!(seeded, Refusal::BudgetExhausted { nodes: 5, radius: 1.0 });
    let ml = kept(2, |out| nearest_ml(&weights, &[0.0; 4], &[0.5; 2], out, 5));
    assert_eq!(ml, Refusal::BudgetExhausted { nodes: 5, radius: 1.0 });
}

#[test]
fn lists() {
    assert_eq!(list_kept(0.5, 4097, 4097, 1.0, 9), Refusal::ListSize { distances: 4097 });
    assert_eq!(list_kept(0.5, 4, 5, 1.0, 9), Refusal::ListSize { distances: 4 });
    assert_eq!(list_kept(0.5, 4, 4, 1.0, 1), Refusal::BudgetExhausted { nodes: 1, radius: 1.0 });
    assert_eq!(list_kept(0.5, 1, 1, 1.0, 9), Refusal::ListFull { points: 2 });
}

/// The refusal is the expected one, and its radius bit for bit: -0.0 == 0.0.
fn same_radius(refusal: Refusal, expected: Refusal) {
    let radius_bits = |refusal: Refusal| match refusal {
        Refusal::InvalidRadius { radius }
        | Refusal::CandidateOutside { radius }
        | Refusal::BudgetExhausted { radius, .. }
        | Refusal::OutsideRadius { radius } => radius.to_bits(),
        _ => panic!("{refusal}"),
    };
    assert_eq!(refusal, expected);
    assert_eq!(radius_bits(refusal), radius_bits(expected), "{refusal}");
}

/// nearest of weight 1
fn nearest_kept(target: f64, radius: f64, budget: u64) -> Refusal {
    kept(1, |out| nearest(&[1.0], &[0.0], &[target], out, radius, budget))
}

/// nearest_seeded of weight 1 with target 0.5 and candidate 0
fn seeded_kept(radius: f64) -> Refusal {
    kept(1, |out| nearest_seeded(&[1.0], &[0.0], &[0.5], out, &[0], radius, 9))
}

#[test]
fn minus_zero_outside() {
    same_radius(nearest_kept(0.5, -0.0, 9), Refusal::OutsideRadius { radius: 0.0 });
}

#[test]
fn minus_zero_budget() {
    same_radius(nearest_kept(1.0, -0.0, 0), Refusal::BudgetExhausted { nodes: 0, radius: 0.0 });
}

#[test]
fn minus_zero_budget_of_a_list() {
    same_radius(list_kept(1.0, 4, 4, -0.0, 0), Refusal::BudgetExhausted { nodes: 0, radius: 0.0 });
}

#[test]
fn minus_zero_candidate_outside() {
    same_radius(seeded_kept(-0.0), Refusal::CandidateOutside { radius: 0.0 });
}

/// The largest double below 0, -2^-1074, comes back as it is.
#[test]
fn just_below_zero() {
    let radius = -5e-324;
    for refusal in [nearest_kept(1.0, radius, 9), seeded_kept(radius), list_kept(1.0, 4, 4, radius, 9)] {
        same_radius(refusal, Refusal::InvalidRadius { radius });
    }
}

#[test]
fn places_after_the_last_point() {
    let (mut distances, mut points) = (nans(4), vec![7; 4]);
    let listed = list(&[1.0], &[0.0], &[0.5], &mut distances, &mut points, 1.0, 9).unwrap();
    assert_eq!((listed.nodes, listed.points), (2, 2));
    assert_eq!((&distances[..2], &points[..]), (&[0.25; 2][..], &[0, 1, 7, 7][..]));
    assert_eq!(bits(&distances[2..]), bits(&nans(4)[2..]));
}

#[test]
fn babai() {
    assert_eq!(kept(1, |out| round(&[0.5; 2], out)), Refusal::LengthMismatch { expected: 2, found: 1 });
    assert_eq!(kept(2, |out| round(&[0.5, f64::NAN], out)), Refusal::NonFinite { index: 1 });
    let mut out = [0; 3];
    assert_eq!(round(&[0.5, -2.5, 1e300], &mut out), Ok(()));
    assert_eq!(out, [1, -3, i64::MAX]);
}

#[test]
fn planes() {
    let plane = |places: usize| {
        let mut coefficients = nans(2);
        kept(places, |out| {
            let answer = nearest_plane(&[1.0; 2], &[0.0; 4], &mut coefficients, out);
            assert_eq!(bits(&coefficients), bits(&nans(2)));
            answer
        })
    };
    assert_eq!(plane(2), Refusal::NonFinite { index: 0 });
    assert_eq!(plane(3), Refusal::LengthMismatch { expected: 2, found: 2 });
    let (mut coefficients, mut out) = ([0.25, 0.5], [0; 2]);
    assert_eq!(nearest_plane(&[1.0; 2], &[0.0, 0.0, 0.5, 0.0], &mut coefficients, &mut out), Ok(()));
    assert_eq!((coefficients, out), ([0.25, -0.5], [0, 1]));
}

#[test]
fn distances() {
    let far = |weight: f64, point: &[i64]| triangular_distance(&[weight], &[0.0], &[0.5], point);
    assert_eq!(far(1.0, &[2]), Ok(2.25));
    assert_eq!(far(1.0, &[]), Err(Refusal::LengthMismatch { expected: 1, found: 0 }));
    assert_eq!(far(HUGE, &[2]), Err(Refusal::CandidateDistance { total: f64::INFINITY }));
}

/// The point after a change of the reference satellite, or the refusal, which must leave the point as it was.
fn changed(point: &[i64], r: usize) -> Result<Vec<i64>, Refusal> {
    let mut after = point.to_vec();
    let answer = change_reference(&mut after, r);
    assert!(answer.is_ok() || after == point);
    answer.map(|()| after)
}

#[test]
fn references() {
    assert_eq!(changed(&[1, 2], 0), Ok(vec![-1, 1]));
    for (point, r) in [(&[][..], 0), (&[0, i64::MIN], 2), (&[1, 2], usize::MAX)] {
        assert_eq!(changed(point, r), Err(Refusal::ReferenceIndex));
    }
    assert_eq!(changed(&[0, i64::MIN], 1), Err(Refusal::ChangedRange { index: 0 }));
    assert_eq!(changed(&[1, i64::MIN], 0), Err(Refusal::ChangedRange { index: 1 }));
    assert_eq!(changed(&[i64::MIN], 0), Err(Refusal::ChangedRange { index: 0 }));
    assert_eq!(changed(&[-1, i64::MIN, i64::MAX], 0), Err(Refusal::ChangedRange { index: 2 }));
    assert_eq!(changed(&[0, -1, i64::MAX], 2), Ok(vec![-i64::MAX, i64::MIN, -i64::MAX]));
}

#[test]
fn one_reference_after_another() {
    let point: Vec<i64> = (0..65).map(|i| i * i - 1000).collect();
    for (r, s) in [(0, 64), (64, 0), (2, 30)] {
        let once = changed(&point, r).unwrap();
        assert_eq!((once[r], once[s]), (-point[r], point[s] - point[r]));
        assert_eq!(changed(&once, r).as_ref(), Ok(&point));
        let mut straight = changed(&point, s).unwrap();
        straight.swap(r, s);
        assert_eq!(changed(&once, s), Ok(straight));
    }
}

#[test]
fn ratios() {
    let by = |p: u64, q: u64| ratio(&nans(2), f64::NAN, p, q).unwrap_err();
    for (p, q) in [(0, 0), (0, 1), (1001, 1), (1001, 0), (5, 6), (5, 2000), (u64::MAX, u64::MAX), ((1 << 32) + 3, 1)] {
        assert_eq!(by(p, q), Refusal::SettingRange { index: 0 });
    }
    for p in [1, 5, 1000] {
        assert_eq!(by(p, 0), Refusal::SettingRange { index: 1 });
    }
}

#[test]
fn told_in_words() {
    let told = |refusal: Refusal, words: &str| assert_eq!(refusal.to_string(), words);
    for weights in [65, usize::MAX] {
        told(
            Refusal::TableSize { weights },
            &format!(
                "refused 2: the table has {weights} weights: nearest and list take at most 64, every other call at most 23"
            ),
        );
    }
    told(
        Refusal::TableSize { weights: 24 },
        "refused 2: the table has 24 weights: nearest and list alone take more than 23, and need 576 entries of mu for \
        them",
    );
    told(Refusal::TableSize { weights: 2 }, "refused 2: mu does not have the 4 entries that 2 weights need");
    told(Refusal::MuRange { index: 2 }, "refused 4: mu[2] is above 2^52 in magnitude");
    told(Refusal::LengthMismatch { expected: 2, found: 1 }, "refused 6: a slice has the length 1, not 2");
    told(Refusal::LengthMismatch { expected: 2, found: 2 }, "refused 6: the output is not 2 long");
    told(
        Refusal::NonFinite { index: 1 },
        "refused 7: target or coefficient 1, given or transformed, is not finite, or above 2^52 in magnitude",
    );
    told(Refusal::InvalidRadius { radius: -1e300 }, "refused 8: the radius -1e300 is negative or not finite");
    told(
        Refusal::BudgetExhausted { nodes: 4, radius: 0.25 },
        "refused 15: the budget ran out after 4 nodes, with the radius at 0.25: a larger budget may do; a search under a \
        name is kept, and pick_up or turn goes on with it",
    );
    told(
        Refusal::BudgetExhausted { nodes: 1 << 60, radius: 0.25 },
        "refused 15: the budget ran out after 1152921504606846976 nodes, with the radius at 0.25: a search may try 2^60 \
        at most; a smaller radius or a reduced table may do",
    );
    told(
        Refusal::ListFull { points: 5 },
        "refused 18: the list has 5 points: lend as many places, 4096 at most, or lower the radius",
    );
    told(
        Refusal::ReferenceIndex,
        "refused 19: the new reference satellite's index is not below the point's length: give that of a coordinate",
    );
    told(
        Refusal::ChangedRange { index: 1 },
        "refused 20: coordinate 1 against the new reference satellite is no i64: another satellite may do",
    );
    told(
        Refusal::SettingRange { index: 0 },
        "refused 21: p is not from 1 to 1000, or it is below q: give p and q from 1 to 1000, p at least q",
    );
    told(Refusal::SettingRange { index: 1 }, "refused 21: q is not from 1 to 1000: give one from 1 to p");
    told(
        Refusal::MatrixRange { index: 0 },
        "refused 22: transform or inverse is not n·n long, or transform[0] is above 2^52 in magnitude: give n·n \
        elements of each, row by row, up to 2^52",
    );
    told(
        Refusal::MatrixRange { index: 5 },
        "refused 22: element 5 of transform and inverse, counted on from the one to the other, is above 2^52 in \
        magnitude: correct it where it is made",
    );
    told(
        Refusal::NotInverse,
        "refused 23: transform and inverse are not inverse to each other: give a matrix of determinant 1 or -1 and its \
        inverse, both row by row",
    );
    told(
        Refusal::MappedRange { column: 1 },
        "refused 24: coordinate 1 of the mapped point is no i64: see that the table is reduced, and that transform and \
        inverse are its own",
    );
    told(Refusal::NameRange, "refused 25: the name is not from 1 to 8: give one of these");
    told(
        Refusal::NameEmpty,
        "refused 26: the name holds no search, or its search has ended: nearest_named keeps one there if its budget runs \
        out",
    );
    told(
        Refusal::SumRange { sum: (1 << 60) + 1 },
        "refused 27: the budgets of the search sum up to 1152921504606846977, above 2^60: give a smaller one",
    );
    told(
        Refusal::SumRange { sum: u64::MAX },
        "refused 27: the budgets of the search sum up to 2^64-1 or more, above 2^60: give a smaller one",
    );
    told(Refusal::SliceRange, "refused 28: the slice is not from 1 to 2^20 nodes: give one of these");
    told(
        Refusal::NoneHeld,
        "refused 29: no name holds a search, so there is none to serve: nearest_named keeps one if its budget runs out",
    );
    let error: &dyn std::error::Error = &Refusal::OutsideRadius { radius: 1.0 };
    assert_eq!(error.to_string(), "refused 16: no vector is inside the radius 1.0: a larger one may do");
}
