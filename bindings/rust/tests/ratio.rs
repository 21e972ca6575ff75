//! The verdict on a list: of lists, at the ends of p and q, where a rounding or an overflow decides, and of doubles
//! that no list has.

use snowgimmer::Ratio::{Fails, Holds, None, Open};
use snowgimmer::{LARGEST_FACTOR, Ratio, Refusal, Table, ratio};

/// The double before one above 0.
fn before(x: f64) -> f64 {
    f64::from_bits(x.to_bits() - 1)
}

/// The verdict by factors that are in range.
fn verdict(distances: &[f64], radius: f64, p: u64, q: u64) -> Ratio {
    ratio(distances, radius, p, q).unwrap()
}

/// The verdict on the list of a table whose mu is 0, by 3 and 1; on no distances where the list is refused.
fn listed(weights: &[f64], target: &[f64], radius: f64, places: usize) -> Ratio {
    let n = weights.len();
    let mu = vec![0.0; n * n];
    let (mut distances, mut points) = (vec![f64::NAN; places], vec![7; places * n]);
    let list = Table::new(weights, &mu).list(target, &mut distances, &mut points, radius, 100);
    verdict(list.map_or(&[], |list| list.distances), radius, 3, 1)
}

/// The same of one weight.
fn one(weight: f64, target: f64, radius: f64) -> Ratio {
    listed(&[weight], &[target], radius, 256)
}

#[test]
fn lists() {
    assert_eq!(listed(&[], &[], 0.0, 1), Holds);
    assert_eq!([0.125, 0.25, before(0.75), 0.75].map(|r| one(4.0, 0.75, r)), [None, Open, Open, Holds]);
    assert_eq!([0.25, 1.0].map(|r| one(1.0, 0.4375, r)), [Open, Fails]);
    // two points, and one place: the list is refused
    assert_eq!([2, 1].map(|places| listed(&[1.0], &[0.5], 1.0, places)), [Fails, None]);
    // 3·d1 overflows
    let largest = [f64::MAX; 3];
    let radii = [5.0 * 2_f64.powi(1021), 3.0 * 2_f64.powi(1022)];
    assert_eq!(radii.map(|r| listed(&largest, &[0.4375; 3], r, 256)), [Open, Fails]);
}

#[test]
fn other_factors() {
    let table = Table::from_rows(&[1.0, 1.0], &[[0.0, 0.0], [0.5, 0.0]]);
    let (mut distances, mut points) = ([0.0; 8], [0; 16]);
    let list = table.list(&[0.25, 0.5], &mut distances, &mut points, 2.0, 100).unwrap();
    assert_eq!(list.distances[..2], [0.25, 0.5]);
    let by = |p, q| verdict(list.distances, 2.0, p, q);
    assert_eq!([by(3, 1), by(2, 1), by(1000, 499), by(1000, 500), by(1, 1)], [Fails, Holds, Fails, Holds, Holds]);
}

/// A first distance of 0 always holds in a list: of one point at a radius of 0, of two points at 0.
#[test]
fn zero() {
    assert_eq!([0.0, -0.0].map(|r| one(1.0, 0.0, r)), [Holds; 2]);
    assert_eq!(one(f64::from_bits(1), 0.5, 0.0), Holds);
    for (p, q) in [(1, 1), (1000, 1), (1000, 1000)] {
        for other in [0.0, -0.0, f64::from_bits(1), f64::MAX] {
            assert_eq!([verdict(&[0.0, other], 1.0, p, q), verdict(&[0.0], other, p, q)], [Holds; 2]);
        }
    }
}

/// Whether the test is met, of doubles by their bits: with the other one as the second distance, as the radius of a
/// lone distance, and as that of a list. A weight of 16·d1 has its nearest point at d1 from 0.25, and the next at 9·d1.
fn met(d1: u64, other: u64, p: u64, q: u64) -> bool {
    let (d1, other) = (f64::from_bits(d1), f64::from_bits(other));
    let (two, lone) = (verdict(&[d1, other], f64::MAX, p, q), verdict(&[d1], other, p, q));
    assert!(matches!((two, lone), (Holds, Holds) | (Fails, Open)), "{two} {lone}");
    let (mut distances, mut points) = ([0.0; 2], [0; 2]);
    let weights = [16.0 * d1];
    let list = Table::new(&weights, &[0.0]).list(&[0.25], &mut distances, &mut points, other, 9).unwrap();
    assert_eq!((list.distances, verdict(list.distances, other, p, q)), (&[d1][..], lone));
    two == Holds
}

/// Each product is rounded once, and nothing is divided.
#[test]
fn roundings() {
    // 3·d1 is above the other one, and rounds to it
    assert!(met(0x3FF0_0000_0000_0003, 0x4008_0000_0000_0004, 3, 1));
    assert!(!met(0x3FF0_0000_0000_0003, 0x4008_0000_0000_0003, 3, 1));
    // a third of the other one rounds to d1, and its quotient by d1 to 3
    assert!(!met(0x3FF0_0000_0000_0001, 0x4008_0000_0000_0001, 3, 1));
    // (p/q)·d1 is above the other one; p·d1/q is not; the other one's quotient by d1 is below p/q
    assert!(met(0x3FFA_EEB0_F8A8_3510, 0x4006_7193_79E1_818D, 5, 3));
    assert!(!met(0x3FF4_B430_798D_66C4, 0x4001_40D3_0FF5_D5A3, 5, 3));
    assert!(met(0x3FF5_7FC9_618F_0ECE, 0x4000_1FD7_092B_4B1A, 3, 2));
}

/// Every p and q at the ends of their range, beside any distances: the index of 21.
#[test]
fn factors() {
    assert_eq!(LARGEST_FACTOR, 1000);
    let ends = [0, 1, 2, 999, 1000, 1001, 2000, (1 << 32) + 1, (1 << 63) + 3, u64::MAX];
    for distances in [&[][..], &[1.0], &[1.0, 3.0], &[f64::NAN, 0.0, 1.0]] {
        for (p, q) in ends.into_iter().flat_map(|p| ends.map(|q| (p, q))) {
            let refused = |index| Err(Refusal::SettingRange { index });
            let told = ratio(distances, 1.0, p, q);
            match (p, q) {
                (1..=1000, 0) => assert_eq!(told, refused(1), "{p} {q}"),
                (1..=1000, _) if q <= p => assert!(told.is_ok(), "{p} {q}"),
                _ => assert_eq!(told, refused(0), "{p} {q}"),
            }
        }
    }
}

/// p·d1 must not overflow; q·d2 may, and so may q·R.
#[test]
fn infinite_products() {
    let most = f64::MAX;
    // 3 times it is halfway between the largest double and 2^1024, and rounds to infinity
    let third = most / 3.0;
    let below = before(third);
    assert_eq!([verdict(&[most, most], most, 1, 1), verdict(&[most, most], most, 2, 2)], [Holds, Fails]);
    assert_eq!([1, 3].map(|q| verdict(&[below, most], most, 3, q)), [Holds; 2]);
    assert_eq!([1, 3].map(|q| verdict(&[third, most], most, 3, q)), [Fails; 2]);
    assert_eq!([below, third].map(|d1| verdict(&[d1], most, 3, 3)), [Holds, Open]);
    let (mut distances, mut points) = ([0.0; 4], [0; 4]);
    let list = Table::new(&[most], &[0.0]).list(&[0.5], &mut distances, &mut points, most, 100).unwrap();
    assert_eq!(list.distances, [most / 4.0; 2]);
    assert_eq!([(3, 3), (4, 4), (5, 5)].map(|(p, q)| verdict(list.distances, most, p, q)), [Holds, Holds, Fails]);
}

/// Any doubles are taken, and only the first two distances are read.
#[test]
fn no_list_has_them() {
    let (nan, inf) = (f64::NAN, f64::INFINITY);
    for radius in [nan, -1.0, 0.0, inf] {
        assert_eq!(verdict(&[], radius, 3, 1), None);
        for d1 in [nan, -nan, inf, -inf] {
            assert_eq!(verdict(&[d1], radius, 3, 1), Open);
            assert_eq!([nan, d1, 0.0, inf].map(|d2| verdict(&[d1, d2], radius, 3, 1)), [Fails; 4]);
        }
        for d1 in [0.0, 1.0, -1.0] {
            assert_eq!([nan, -inf, inf].map(|d2| verdict(&[d1, d2], radius, 3, 1)), [Fails, Fails, Holds]);
        }
    }
    assert_eq!([nan, -1.0, -inf, inf].map(|radius| verdict(&[0.0], radius, 3, 1)), [Open, Open, Open, Holds]);
    assert_eq!([verdict(&[3.0, 1.0], 9.0, 1, 1), verdict(&[-1.0, -3.0], 9.0, 3, 1)], [Fails, Holds]);
    assert_eq!(verdict(&[1.0, 3.0, 0.0, nan], nan, 3, 1), Holds);
    assert_eq!(verdict(&vec![1.0; 5000], 9.0, 3, 1), Fails);
}

#[test]
fn in_words() {
    assert_eq!([None, Holds, Fails, Open].map(|told| told.to_string()), ["none", "holds", "fails", "open"]);
    assert_eq!(format!("{Open:>6}|{None:<6}|{Fails:?}"), "  open|none  |Fails");
}
