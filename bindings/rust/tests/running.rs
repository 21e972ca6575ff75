//! nearest and list with n from 24 to 64, whose centres are kept from node to node, and the other calls there.

use snowgimmer::{
    LARGEST_LIST, LARGEST_SEARCHED, Names, Refusal, Table, list, nearest, nearest_ml, nearest_named, nearest_plane,
    nearest_seeded, prepared_nearest_ml, triangular_distance,
};

/// A table of n weights of 1 and mu 0, but for the entry (1, 0), with a target of 0, but for its first numbers.
struct Bench {
    weights: Vec<f64>,
    mu: Vec<f64>,
    target: Vec<f64>,
}

impl Bench {
    fn new(n: usize, entry: f64, first: &[f64]) -> Self {
        let mut mu: Vec<f64> = (0..n * n).map(|k| if k / n > k % n { 0.0 } else { f64::NAN }).collect();
        mu[n] = entry;
        let target = (0..n).map(|i| first.get(i).copied().unwrap_or(0.0)).collect();
        Self { weights: vec![1.0; n], mu, target }
    }

    fn table(&self) -> Table<'_> {
        Table::new(&self.weights, &self.mu)
    }
}

/// The point of n integers that begins with these, and has zeros then.
fn beginning<const N: usize>(first: &[i64]) -> [i64; N] {
    let mut point = [0; N];
    point[..first.len()].copy_from_slice(first);
    point
}

/// The running centre of level 0 is off by 3e-6, so 0.09, the computed distance of (0, 2^40, 0, ..), does not hold it.
#[test]
fn centres_that_are_kept() {
    const FAR: i64 = 1 << 40;
    let bench = Bench::new(24, 0.1, &[0.3, FAR as f64]);
    let (table, target) = (bench.table(), &bench.target[..]);
    assert_eq!(table.nearest(target, 0.09, 1000), Err(Refusal::OutsideRadius { radius: 0.09 }));
    let (mut distances, mut points) = ([7.0; 4], [7; 4 * 24]);
    let listed = table.list(target, &mut distances, &mut points, 0.09, 1000).unwrap();
    assert_eq!((listed.nodes, listed.iter().len()), (23, 0));
    assert_eq!((distances, points), ([7.0; 4], [7; 4 * 24]));

    let found = table.nearest(target, 0.25, 24).unwrap();
    assert_eq!(found.point, beginning::<24>(&[0, FAR]));
    assert_eq!((found.nodes, found.distance.to_bits()), (24, 0x3FB7_0A5C_2900_0000));
    assert_eq!(table.nearest(target, 0.25, 23), Err(Refusal::BudgetExhausted { nodes: 23, radius: 0.25 }));
    let listed = table.list(target, &mut distances, &mut points, 0.25, 24).unwrap();
    assert!(listed.iter().eq([(found.distance, &found.point[..])]));
    assert_eq!((distances[1], points[24]), (7.0, 7));
}

#[test]
fn no_place() {
    let bench = Bench::new(24, 0.1, &[0.3, 2.0]);
    let refusal = bench.table().list(&bench.target, &mut [], &mut [], 0.25, 100).unwrap_err();
    assert_eq!(refusal, Refusal::ListFull { points: 1 });
}

#[test]
fn the_largest() {
    const N: usize = LARGEST_SEARCHED;
    let bench = Bench::new(N, 0.5, &[2.0, 3.0]);
    let (table, target) = (bench.table(), &bench.target[..]);
    let found = table.nearest(target, 0.5, 64).unwrap();
    assert_eq!((&found.point[..], found.nodes, found.distance), (&beginning::<N>(&[2, 3])[..], 64, 0.0));
    assert_eq!(format!("{:?}", found.point), format!("{:?}", beginning::<N>(&[2, 3])));
    let (mut distances, mut points) = ([7.0; 2], [7; 2 * N]);
    let listed = table.list(target, &mut distances, &mut points, 0.5, 64).unwrap();
    assert!(listed.iter().eq([(0.0, &beginning::<N>(&[2, 3])[..])]));
    assert_eq!((distances[1], &points[N..]), (7.0, &[7; N][..]));
}

/// All points whose first coordinates are 0 or 1, which are as near as each other. With 10 of them they have up to 94,208
/// coordinates together, with 11 more, so that the search is made twice.
#[test]
fn long_lists() {
    const N: usize = LARGEST_SEARCHED;
    for halves in [10, 11] {
        let mut bench = Bench::new(N, 0.0, &vec![0.5; halves]);
        bench.weights[halves..].fill(4.0);
        let (radius, all) = (0.25 * halves as f64, 1 << halves);
        let (mut distances, mut points) = (vec![7.0; LARGEST_LIST], vec![7; LARGEST_LIST * N]);
        let (short, coordinates) = (&mut distances[..all - 1], &mut points[..(all - 1) * N]);
        let refusal = bench.table().list(&bench.target, short, coordinates, radius, 100_000).unwrap_err();
        assert_eq!(refusal, Refusal::ListFull { points: all });
        assert!(distances.iter().all(|&d| d == 7.0) && points.iter().all(|&z| z == 7));

        let listed = bench.table().list(&bench.target, &mut distances, &mut points, radius, 100_000).unwrap();
        assert_eq!(listed.iter().len(), all);
        for (k, (distance, point)) in listed.iter().enumerate() {
            let digits: Vec<i64> = (0..halves).rev().map(|bit| (k >> bit & 1) as i64).collect();
            assert_eq!((distance, point), (radius, &beginning::<N>(&digits)[..]));
        }
        assert!(distances[all..].iter().all(|&d| d == 7.0) && points[all * N..].iter().all(|&z| z == 7));
    }
}

/// 2 comes with 65 weights, and in every other call with 24.
#[test]
fn sizes() {
    let Bench { weights: w, mu, target: t } = Bench::new(65, 0.0, &[2.0, 3.0]);
    let (mut out, mut distances) = ([0; 65], [0.0]);
    let refusal = Refusal::TableSize { weights: 65 };
    assert_eq!(nearest(&w, &mu, &t, &mut out, 0.5, 100), Err(refusal));
    assert_eq!(list(&w, &mu, &t, &mut distances, &mut out, 0.5, 100), Err(refusal));

    let Bench { weights: w, mu, target: t } = Bench::new(24, 0.0, &[2.0, 3.0]);
    let (mut out, mut coefficients, matrix) = ([0; 24], [0.0; 24], [0; 576]);
    let refusal = Refusal::TableSize { weights: 24 };
    assert_eq!(nearest(&w, &mu[1..], &t, &mut out, 0.5, 100), Err(refusal));
    assert_eq!(nearest_seeded(&w, &mu, &t, &mut out, &[0; 24], 99.0, 100), Err(refusal));
    assert_eq!(nearest_ml(&w, &mu, &t, &mut out, 100), Err(refusal));
    assert_eq!(prepared_nearest_ml(&w, &mu, &matrix, &matrix, &t, &mut out, 100), Err(refusal));
    assert_eq!(nearest_named(&mut Names::new(), 1, &w, &mu, &t, &mut out, 0.5, 2), Err(refusal));
    assert_eq!(nearest_plane(&w, &mu, &mut coefficients, &mut out), Err(refusal));
    assert_eq!(triangular_distance(&w, &mu, &t, &out), Err(refusal));
    assert_eq!(nearest(&w, &mu, &t, &mut out, 0.5, 100).map(|found| found.nodes), Ok(24));
    assert_eq!(out, beginning::<24>(&[2, 3]));
}

/// The check of entries one at a time is that of the call.
#[test]
fn entries() {
    let faults = [(24, f64::NAN, Refusal::MuNonFinite { index: 24 }), (574, 1e16, Refusal::MuRange { index: 574 })];
    for (k, entry, refusal) in faults {
        let mut bench = Bench::new(24, 0.0, &[]);
        bench.mu[k] = entry;
        assert_eq!(bench.table().nearest(&bench.target, 0.5, 100), Err(refusal));
        assert_eq!(snowgimmer::TriangleCheck::new().feed(k, entry).verdict(), Err(refusal));
    }
}
