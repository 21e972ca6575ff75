//! The stack that the calls need. At n = 23: 1 MB holds a list, and 68 kB a search. At n = 64: 2 MB hold a list, and 64 kB
//! a search.

use snowgimmer::{
    Found, Names, Refusal, list, nearest, nearest_ml, nearest_named, nearest_seeded, pick_up, prepared_nearest_ml,
};
use std::thread;

const N: usize = 23;
const WEIGHTS: [f64; N] = [1.0; N];
const MU: [f64; N * N] = [0.0; N * N];
const TARGET: [f64; N] = [0.0; N];
const ZERO: [i64; N] = [0; N];
const IDENTITY: [i64; N * N] = {
    let mut matrix = [0; N * N];
    let mut i = 0;
    while i < N {
        matrix[i * N + i] = 1;
        i += 1;
    }
    matrix
};

/// Runs the call on a thread with so much stack, which ends the program if it is too little.
fn within<A: Send>(bytes: usize, call: impl FnOnce() -> A + Send) -> A {
    thread::scope(|s| thread::Builder::new().stack_size(bytes).spawn_scoped(s, call).unwrap().join().unwrap())
}

fn search(bytes: usize, call: impl FnOnce(&mut [i64]) -> Result<Found, Refusal> + Send) {
    let mut out = [1; N];
    let found = within(bytes, || call(&mut out)).unwrap();
    assert_eq!((found.nodes, found.distance, out), (N as u64, 0.0, ZERO));
}

#[test]
fn searches() {
    search(68 << 10, |out| nearest(&WEIGHTS, &MU, &TARGET, out, 0.0, 1000));
    search(68 << 10, |out| nearest_seeded(&WEIGHTS, &MU, &TARGET, out, &ZERO, 0.0, 1000));
    search(68 << 10, |out| nearest_ml(&WEIGHTS, &MU, &TARGET, out, 1000));
    search(68 << 10, |out| prepared_nearest_ml(&WEIGHTS, &MU, &IDENTITY, &IDENTITY, &TARGET, out, 1000));
}

/// The block is not on the stack of the call.
#[test]
fn names() {
    let (mut names, mut out) = (Box::new(Names::new()), [1; N]);
    let exhausted = Refusal::BudgetExhausted { nodes: 9, radius: 0.0 };
    let kept = within(68 << 10, || nearest_named(&mut names, 1, &WEIGHTS, &MU, &TARGET, &mut out, 0.0, 9));
    assert_eq!((kept, out), (Err(exhausted), [1; N]));
    search(68 << 10, |out| pick_up(&mut names, 1, out, 1000));
    let kept = within(68 << 10, || nearest_named(&mut names, 1, &WEIGHTS, &MU, &TARGET, &mut out, 0.0, 9));
    assert_eq!(kept, Err(exhausted));
    let found = within(68 << 10, || names.turn(1000)).unwrap().answer.unwrap();
    assert_eq!((found.nodes, found.distance, &found.point[..]), (N as u64, 0.0, &ZERO[..]));
    search(68 << 10, |out| nearest_named(&mut names, 1, &WEIGHTS, &MU, &TARGET, out, 0.0, 1000));
}

#[test]
fn lists() {
    let (mut distances, mut points) = (vec![0.0; 4096], vec![1; 4096 * N]);
    let listed = within(1 << 20, || list(&WEIGHTS, &MU, &TARGET, &mut distances, &mut points, 0.0, 1000));
    assert_eq!(listed.map(|l| (l.nodes, l.points)), Ok((N as u64, 1)));
    assert_eq!((distances[0], &points[..N]), (0.0, &ZERO[..]));
}

/// With n = 64, and all points whose first 11 coordinates are 0 or 1: so many that the search is made twice.
#[test]
fn sixty_four_weights() {
    const N: usize = 64;
    let (mut weights, mut target) = ([4.0; N], [0.0; N]);
    weights[..11].fill(1.0);
    target[..11].fill(0.5);
    let mu = vec![0.0; N * N];
    for places in [2048, 4096] {
        let (mut distances, mut points) = (vec![0.0; places], vec![1; places * N]);
        let listed = within(2 << 20, || list(&weights, &mu, &target, &mut distances, &mut points, 2.75, 100_000));
        assert_eq!(listed.map(|l| l.points), Ok(2048));
        assert_eq!((distances[2047], &points[2047 * N..][..12]), (2.75, &[1, 1, 1, 1, 1, 1, 1, 1, 1, 1, 1, 0][..]));
    }
    let mut out = [1; N];
    let found = within(64 << 10, || nearest(&weights, &mu, &[0.0; N], &mut out, 0.0, 1000)).unwrap();
    assert_eq!((found.nodes, found.distance, out), (N as u64, 0.0, [0; N]));
}
