//! `ratio`, which the original does not have: the port beside products that are made of whole numbers and rounded here,
//! at the ends of the doubles and of the factors, at ties, at overflow and at random; and on lists, beside what each
//! verdict says of the vectors of a wider list of the Rust.

use compare::case::{Call, Case};
use compare::rng::Rng;
use compare::{Comparison, compare, paper, random, values};
use oracle::Enumerator;
use oracle::enumerate::EnumerationScratch;
use std::fmt;

unsafe extern "C" {
    fn snowgimmer_ratio(
        distances: *const f64,
        distances_len: usize,
        radius: f64,
        p: u64,
        q: u64,
        first: *mut u64,
        second: *mut u64,
        real: *mut f64,
    ) -> u32;
}

/// A number, and the verdict or the index that goes with it.
type Told = (u32, u64);

const NONE: Told = (0, 0);
const HOLDS: Told = (0, 1);
const FAILS: Told = (0, 2);
const OPEN: Told = (0, 3);

/// Cells on each side of the distances that nobody may write.
const GUARD: [u64; 3] = [0x5a5a, 0x7ff0_0000_0000_0001, u64::MAX];

fn port(distances: &[f64], radius: f64, p: u64, q: u64) -> Told {
    let bits: Vec<u64> = distances.iter().map(|x| x.to_bits()).collect();
    let cells = [&GUARD, &bits[..], &GUARD].concat();
    let mut lent = cells.clone();
    let start = lent[GUARD.len()..].as_mut_ptr().cast();
    let (mut first, mut second, mut real) = (7, 7, 7.0);
    let number = unsafe { snowgimmer_ratio(start, distances.len(), radius, p, q, &mut first, &mut second, &mut real) };
    assert_eq!(lent, cells, "{p} {q}");
    assert_eq!((second, real.to_bits()), (0, 0), "{bits:x?} {:016x} {p} {q}", radius.to_bits());
    (number, first)
}

// ---- the reading

/// The bits of infinity: the doubles from +0 up to it are in the order of their bits.
const INFINITY: u64 = 0x7ff0_0000_0000_0000;
const LEADING: u64 = 1 << 52;

/// A product that was rounded to the nearest double, of two equally near ones to the even one.
#[derive(Clone, Copy)]
struct Product {
    /// Its place among the doubles: 0 for both zeros, and the negative ones below it.
    place: i64,
    tie: bool,
}

/// k·x, for k from 1 to 1,000; `None` of a NaN.
fn product(k: u64, x: f64) -> Option<Product> {
    let magnitude = x.to_bits() & (u64::MAX >> 1);
    let (place, tie) = match magnitude {
        0..INFINITY => rounded(k, magnitude),
        INFINITY => (INFINITY, false),
        _ => return None,
    };
    let place = if x.is_sign_negative() { -place.cast_signed() } else { place.cast_signed() };
    Some(Product { place, tie })
}

/// The bits of k times a finite magnitude, given by its bits, and whether that was a tie.
fn rounded(k: u64, magnitude: u64) -> (u64, bool) {
    // the magnitude is digits·2^(steps-1074)
    let (digits, steps) = match magnitude >> 52 {
        0 => (magnitude, 0),
        exponent => (magnitude % LEADING + LEADING, exponent - 1),
    };
    let exact = u128::from(k) * u128::from(digits);
    let lost = (128 - exact.leading_zeros()).saturating_sub(53);
    let (kept, rest) = ((exact >> lost) as u64, exact % (1 << lost));
    let tie = lost > 0 && rest == 1 << (lost - 1);
    let up = lost > 0 && (rest > 1 << (lost - 1) || (tie && kept % 2 == 1));
    // the leading digit adds 1 to the exponent, and a carry beyond it another; a subnormal has no leading digit
    let bits = ((steps + u64::from(lost)) << 52) + kept + u64::from(up);
    (bits.min(INFINITY), tie)
}

/// The test: both are products, that with p is finite, and that with q is not below it.
fn met(d1: f64, other: f64, p: u64, q: u64) -> bool {
    let (Some(least), Some(reached)) = (product(p, d1), product(q, other)) else { return false };
    least.place.unsigned_abs() < INFINITY && reached.place >= least.place
}

/// Refusal 21 and "The ratio" of the specification, read plainly.
fn expected(distances: &[f64], radius: f64, p: u64, q: u64) -> Told {
    let outside = |factor| !(1..=1000).contains(&factor);
    match distances {
        _ if outside(p) || p < q => (21, 0),
        _ if outside(q) => (21, 1),
        [] => NONE,
        [d1] if met(*d1, radius, p, q) => HOLDS,
        [_] => OPEN,
        [d1, d2, ..] if met(*d1, *d2, p, q) => HOLDS,
        _ => FAILS,
    }
}

/// What was compared.
#[derive(Default)]
struct Figures {
    /// Calls by what was told: none, holds, fails, open, 21 (0), 21 (1).
    told: [u64; 6],
    /// Calls with a product that is a tie, with p·d1 infinite, and with both products infinite.
    ties: u64,
    infinite: u64,
    both: u64,
}

impl fmt::Display for Figures {
    fn fmt(&self, out: &mut fmt::Formatter<'_>) -> fmt::Result {
        let Self { told, ties, infinite, both } = self;
        let [none, holds, fails, open, first, second] = told;
        write!(out, "{} calls; none: {none}, holds: {holds}, fails: {fails}, ", told.iter().sum::<u64>())?;
        write!(out, "open: {open}, 21 (0): {first}, 21 (1): {second}; ")?;
        write!(out, "a tie: {ties}, p·d1 infinite: {infinite}, both infinite: {both}")
    }
}

impl Figures {
    /// Holds the port to the reading.
    fn check(&mut self, distances: &[f64], radius: f64, p: u64, q: u64) -> Told {
        let told = port(distances, radius, p, q);
        let bits = || distances.iter().map(|x| format!("{:016x}", x.to_bits())).collect::<Vec<_>>();
        assert_eq!(told, expected(distances, radius, p, q), "{:?} {:016x} {p} {q}", bits(), radius.to_bits());
        let (number, value) = told;
        self.told[if number == 0 { value } else { 4 + value } as usize] += 1;
        if number != 0 || distances.is_empty() {
            return told;
        }
        let other = distances.get(1).copied().unwrap_or(radius);
        let (least, reached) = (product(p, distances[0]), product(q, other));
        let infinite = |x: Option<Product>| x.is_some_and(|x| x.place.unsigned_abs() == INFINITY);
        self.ties += u64::from([least, reached].iter().flatten().any(|x| x.tie));
        self.infinite += u64::from(infinite(least));
        self.both += u64::from(infinite(least) && infinite(reached));
        told
    }

    /// The same double as the second distance and as a lone point's radius.
    fn check_both(&mut self, d1: f64, other: f64, p: u64, q: u64) {
        self.check(&[d1, other], f64::NAN, p, q);
        self.check(&[d1], other, p, q);
    }
}

// ---- cases

/// Zero, the least subnormals and the largest, the least normal double, 1 and its neighbours, 3 and 1,000, around a
/// thousandth and a third of the largest double, that one, infinity, NaNs of both kinds: each with both signs.
fn extremes() -> Vec<f64> {
    let bits = [
        0x0000_0000_0000_0000,
        0x0000_0000_0000_0001,
        0x0000_0000_0000_03e7,
        0x0000_0000_0000_03e8,
        0x000f_ffff_ffff_ffff,
        0x0010_0000_0000_0000,
        0x3fef_ffff_ffff_ffff,
        0x3ff0_0000_0000_0000,
        0x3ff0_0000_0000_0001,
        0x4008_0000_0000_0000,
        0x408f_4000_0000_0000,
        0x7f50_624d_d2f1_a9fb,
        0x7f50_624d_d2f1_a9fc,
        0x7fd5_5555_5555_5554,
        0x7fd5_5555_5555_5555,
        0x7fef_ffff_ffff_ffff,
        0x7ff0_0000_0000_0000,
        0x7ff0_0000_0000_0001,
        0x7ff8_0000_dead_0001,
    ];
    bits.into_iter().flat_map(|x| [x, x | 1 << 63]).map(f64::from_bits).collect()
}

/// Factors at the ends of the range, and others whose low bits are in range.
const FACTORS: [u64; 12] =
    [0, 1, 2, 3, 999, 1000, 1001, 2000, 0x1_0000_0001, 0x8000_0000_0000_0003, u64::MAX - 1, u64::MAX];

#[test]
fn ends() {
    let mut figures = Figures::default();
    let all = extremes();
    for (p, q) in FACTORS.into_iter().flat_map(|p| FACTORS.map(|q| (p, q))) {
        for d1 in all.clone() {
            figures.check(&[], d1, p, q);
            for other in all.clone() {
                figures.check_both(d1, other, p, q);
                figures.check(&[d1, other, f64::NAN], d1, p, q);
            }
        }
    }
    println!("ends: {figures}");
}

/// A double and up to `reach` of its neighbours on each side, by their bits; never across zero.
fn around(x: f64, reach: u64) -> impl Iterator<Item = f64> {
    let bits = x.to_bits();
    (bits.saturating_sub(reach)..=bits.saturating_add(reach)).map(f64::from_bits)
}

/// Every p and q up to 1,002, beside doubles around p·d1/q.
#[test]
fn every_factor() {
    let mut figures = Figures::default();
    for (p, q) in (0..1003).flat_map(|p| (0..1003).map(move |q| (p, q))) {
        let d1 = Rng::of_case(p, q).scaled(-1021, 1010);
        for other in around(p as f64 * d1 / q.max(1) as f64, 1) {
            figures.check_both(d1, other, p, q);
        }
    }
    println!("every factor: {figures}");
}

/// The first double from x on whose product with k is a tie; a power of two has none.
fn tied(k: u64, x: f64) -> Option<f64> {
    let next = (0..2048).map(|step| f64::from_bits(x.to_bits() + step));
    next.into_iter().find(|x| product(k, *x).is_some_and(|product| product.tie))
}

/// Each factor at a tie, as p and as q, the other side beside the product of the two.
#[test]
fn ties() {
    let mut figures = Figures::default();
    for (k, case) in (1..=1000).flat_map(|k| (0..40).map(move |case| (k, case))) {
        let mut rng = Rng::of_case(k, case);
        let Some(x) = tied(k, rng.scaled(-1022, 1012)) else { continue };
        let place = |x: f64| product(k, x).unwrap().place.unsigned_abs();
        let (smaller, larger) = (1 + rng.below(k as usize) as u64, k + rng.below(1001 - k as usize) as u64);
        for other in around(f64::from_bits(place(x)), 1) {
            figures.check_both(x, other, k, 1);
            figures.check_both(other, x, k, k);
            figures.check_both(x, other / smaller as f64, k, smaller);
            figures.check_both(other / larger as f64, x, larger, k);
        }
    }
    println!("ties: {figures}");
}

/// Each factor where its product overflows: halfway to 2^1024 it is a tie, for 3, 7, 9 and other divisors of 2^54-1.
#[test]
fn overflow() {
    let mut figures = Figures::default();
    for k in 1..=1000 {
        let rng = &mut Rng::of_case(7, k);
        for x in around(f64::MAX / k as f64, 3) {
            let (smaller, larger) = (1 + rng.below(k as usize) as u64, k + rng.below(1001 - k as usize) as u64);
            for other in around(f64::MAX / smaller as f64, 2).chain([x, f64::MAX, f64::INFINITY]) {
                figures.check_both(x, other, k, smaller);
                figures.check_both(-x, -other, k, smaller);
            }
            for d1 in around(f64::MAX / larger as f64, 2) {
                figures.check_both(d1, x, larger, k);
            }
        }
    }
    println!("overflow: {figures}");
}

/// The ends of the range often, else in range or any.
fn factor(rng: &mut Rng) -> u64 {
    match rng.below(8) {
        0 | 1 => rng.pick(&[0, 1, 1000, 1001]),
        2 => rng.pick(&FACTORS),
        3 => rng.bits() >> rng.below(64),
        4 | 5 => 1 + rng.below(12) as u64,
        _ => 1 + rng.below(1000) as u64,
    }
}

/// Any double, all exponents alike, or an extreme one.
fn double(rng: &mut Rng, extremes: &[f64]) -> f64 {
    match rng.below(8) {
        0 => rng.pick(extremes),
        1 => f64::from_bits(rng.bits()),
        2 => f64::from_bits(rng.bits() >> 12 >> rng.below(52)),
        3 => values::any(rng),
        _ => rng.scaled(-1022, 1023),
    }
}

#[test]
fn at_random() {
    let (mut figures, all) = (Figures::default(), extremes());
    for case in 0..4_000_000 {
        let rng = &mut Rng::of_case(3, case);
        let (mut p, mut q) = (factor(rng), factor(rng));
        if p < q && !rng.once_in(8) {
            (p, q) = (q, p);
        }
        let d1 = double(rng, &all);
        let quotient = (p as f64 * d1 / q as f64).to_bits();
        let near = f64::from_bits(quotient.wrapping_add(rng.below(7) as u64).wrapping_sub(3));
        let other = if rng.once_in(3) { double(rng, &all) } else { near };
        match rng.below(10) {
            0 => figures.check(&[], d1, p, q),
            1 => figures.check(&[d1, other, double(rng, &all), d1], double(rng, &all), p, q),
            2..6 => figures.check(&[d1], other, p, q),
            _ => figures.check(&[d1, other], double(rng, &all), p, q),
        };
    }
    println!("at random: {figures}");
}

// ---- lists

/// The most prefixes that a wider list opens here.
const FEW: u64 = 2_000;

/// Points with their distances.
type Points = Vec<(f64, Vec<i64>)>;

/// The Rust's list at a radius; `None` if it opens more than a few prefixes.
fn rust_list(case: &Case, radius: f64) -> Option<Points> {
    paper::opened(case, radius, FEW)?;
    let table = Enumerator::from_table(&case.weights, &case.mu);
    let list = table.list(&case.target, radius, FEW, &mut EnumerationScratch::new()).ok()?;
    Some(list.iter().map(|point| (point.distance_sq(), point.point().to_vec())).collect())
}

/// Whether what the verdict means is so of the vectors of a wider list.
fn meant(told: Told, list: &Points, wider: &Points, radius: f64, (p, q): (u64, u64)) -> bool {
    let Some((d1, first)) = list.first() else {
        return told == NONE && wider.iter().all(|(distance, _)| *distance >= radius);
    };
    let other = || wider.iter().filter(|(_, point)| point != first).map(|(distance, _)| *distance);
    match told {
        HOLDS => met(*d1, radius, p, q) && other().all(|distance| met(*d1, distance, p, q)),
        FAILS => {
            let (d2, _) = list[1];
            d2 <= radius && !met(*d1, d2, p, q) && other().all(|distance| distance >= d2)
        }
        OPEN => list.len() == 1 && !met(*d1, radius, p, q) && other().all(|distance| distance >= radius),
        _ => false,
    }
}

/// Random lists: the port's is the Rust's, and the verdict on it is the reading's and means what it says. From 24 dimensions on
/// it need not: there it is counted how often it does not.
#[test]
fn lists() {
    let (mut figures, mut wide) = (Figures::default(), 0);
    let (mut running, mut otherwise) = (Figures::default(), 0);
    let drawn = (0..200_000).map(|number| random::case(5, number)).filter(|case| case.call == Call::List);
    for (number, case) in drawn.enumerate() {
        let Comparison { expected, difference, .. } = compare(&case);
        assert!(difference.is_none(), "{case}");
        if expected.report.number != 0 {
            continue;
        }
        let Some(list) = rust_list(&case, case.radius) else { continue };
        let distances: Vec<f64> = list.iter().map(|(distance, _)| *distance).collect();
        let rng = &mut Rng::of_case(6, number as u64);
        let wider = rust_list(&case, case.radius * rng.uniform(1.0, 9.0));
        wide += u64::from(wider.is_some() && !paper::runs(&case));
        for most in [4, 4, 40, 1000] {
            let p = 1 + rng.below(most) as u64;
            let q = 1 + rng.below(p as usize) as u64;
            let figures = if paper::runs(&case) { &mut running } else { &mut figures };
            let told = figures.check(&distances, case.radius, p, q);
            let meant = meant(told, &list, wider.as_ref().unwrap_or(&list), case.radius, (p, q));
            assert!(meant || paper::runs(&case), "{case} {p} {q}");
            otherwise += u64::from(!meant);
        }
    }
    println!("lists: {figures}; lists beside a wider one: {wide}");
    println!("lists from 24 dimensions on: {running}; verdicts that the wider list does not bear out: {otherwise}");
}
