//! The stack that the port's calls take, as a markdown table: each on two inputs, the larger of which counts.

use compare::case::{Call, Case};
use compare::matrices::Pair;
use compare::port;
use compare::short::running::{grid_of, row_of};
use compare::stack::used;

/// A table whose walk goes down to several leaves: mu of 0, and three targets of a half.
fn halves(call: Call, n: usize) -> Case {
    let mut target = vec![0.0; n];
    [0, n / 2, n - 1].iter().for_each(|level| target[*level] = 0.5);
    Case::new(call, &vec![1.0; n], &vec![0.0; n * n], &target, 0.75, 100_000).with_pair(&Pair::identity(n))
}

/// The bytes that a search takes, which must find a point.
fn search(case: &Case) -> usize {
    let mut out = vec![0; case.weights.len()];
    let mut number = 0;
    let bytes = used(&mut || {
        number = match case.call {
            Call::Nearest => port::nearest(case, &mut out).number,
            Call::Ml => port::nearest_ml(case, &mut out).number,
            _ => port::prepared_nearest_ml(case, &mut out).number,
        }
    });
    told(number, bytes)
}

fn list(case: &Case) -> (usize, u64) {
    let (mut distances, mut points) = (vec![0.0; case.places], vec![0; case.points]);
    let (mut number, mut found) = (0, 0);
    let bytes = used(&mut || {
        let report = port::list(case, &mut distances, &mut points);
        (number, found) = (report.number, report.second);
    });
    (told(number, bytes), found)
}

/// 0 where the call is refused.
fn told(number: u32, bytes: usize) -> usize {
    if number == 0 { bytes } else { 0 }
}

fn cell(bytes: usize) -> String {
    if bytes == 0 { "refused".into() } else { bytes.to_string() }
}

fn main() {
    println!("| call | n | places | stack with one point, bytes | points | stack with these, bytes |");
    println!("|---|---:|---:|---:|---:|---:|");
    for (call, n) in [(Call::Nearest, 8), (Call::Nearest, 23), (Call::Ml, 23), (Call::Prepared, 23)]
        .into_iter()
        .chain([24, 32, 48, 64].map(|n| (Call::Nearest, n)))
    {
        let one = search(&Case { target: vec![0.0; n], ..halves(call, n) });
        println!("| `{}` | {n} | | {} | | {} |", call.name(), cell(one), cell(search(&halves(call, n))));
    }
    for (n, places) in [8, 23, 24, 64].into_iter().flat_map(|n| [1, 92, 256, 1472, 4096].map(|places| (n, places))) {
        let (one, _) = list(&row_of(n, 1).with_places(places));
        // As many as there are places for, in an order that is hard to sort.
        let crowd = if places == 1 { row_of(n, 1) } else { grid_of(n, 9 * places / 10) };
        let (many, points) = list(&crowd.with_places(places));
        println!("| `list` | {n} | {places} | {} | {points} | {} |", cell(one), cell(many));
    }
}
