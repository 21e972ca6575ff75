//! The port's speed beside the Rust's: the same inputs, in turns, in one run. Prints a markdown table.
//!
//! `speed SIDE N PASSES` calls one side alone, `rust` or `port`, so often on the first input of `nearest_ml` at n = N, from
//! n = 24 on of `nearest`, and prints the nodes: for a program that counts instructions, by the difference of two runs.
//! `speed running` prints the rows from n = 24 on alone, `speed kept` those of searches that are put down.

use compare::case::{Call, Case};
use compare::matrices::Pair;
use compare::rng::Rng;
use compare::short::running::PRIVATE;
use compare::{compare, paper, port};
use oracle::Enumerator;
use oracle::enumerate::{EnumerationScratch, PreparedEnumerationScratch, PreparedEnumerator};
use oracle::int::IntMatrix;
use std::hint::black_box;
use std::time::Instant;

/// About how long each side takes in a turn, and both in a row of the table. Many short turns: a side's fastest one is then
/// likely to fall into a quiet moment of the machine.
const TURN: f64 = 0.05;
const ROW: f64 = 10.0;
const FEWEST_TURNS: usize = 9;

/// A pass over a row's inputs opens this many nodes, or has the most inputs; it has the fewest in any case.
const NODES: u64 = 2_000_000;
const FEWEST: usize = 10;
const MOST: usize = 2_000;

const AMPLE: u64 = 1 << 60;

/// A case with its table in the form that the Rust prepares once.
struct Input {
    case: Case,
    table: Enumerator,
}

/// Weights that fall over two and a half orders of magnitude, mu and target uniform.
fn input(call: Call, n: usize, number: u64) -> Input {
    let rng = &mut Rng::of_case(n as u64, number);
    let fall = 10f64.powf(-2.5 / (n - 1) as f64);
    let weights: Vec<f64> = (0..n).map(|i| fall.powi(i as i32) * rng.uniform(0.8, 1.25)).collect();
    let mu: Vec<f64> = (0..n * n).map(|k| if k / n > k % n { rng.uniform(-0.5, 0.5) } else { 0.0 }).collect();
    let target: Vec<f64> = (0..n).map(|_| rng.uniform(-100.0, 100.0)).collect();
    let table = Enumerator::from_table(&weights, &mu);
    Input { case: Case::new(call, &weights, &mu, &target, 0.0, AMPLE), table }
}

/// Weights that fall over so many orders of magnitude, mu uniform, and a target near a vector of integers: what is left of
/// each level's centre is uniform up to `residual`. With so many levels other targets lead to walks without end.
fn near_integers(call: Call, n: usize, number: u64, orders: f64, residual: f64) -> Input {
    let rng = &mut Rng::of_case(200 + n as u64, number);
    let fall = 10f64.powf(-orders / (n - 1) as f64);
    let weights: Vec<f64> = (0..n).map(|i| fall.powi(i as i32) * rng.uniform(0.8, 1.25)).collect();
    let mu: Vec<f64> = (0..n * n).map(|k| if k / n > k % n { rng.uniform(-0.5, 0.5) } else { 0.0 }).collect();
    let mut left = vec![0.0; n];
    for i in (0..n).rev() {
        let above: f64 = (i + 1..n).map(|j| mu[j * n + i] * left[j]).sum();
        left[i] = rng.uniform(-residual, residual) - above;
    }
    let target: Vec<f64> = left.iter().map(|x| rng.uniform(-100.0, 100.0).round() + x).collect();
    let table = Enumerator::from_table(&weights, &mu);
    Input { case: Case::new(call, &weights, &mu, &target, 0.0, AMPLE), table }
}

/// Inputs by number, as many as a row has, and the nodes of a pass over them.
fn inputs<I>(input: impl Fn(u64) -> I, mut nodes: impl FnMut(&I) -> u64) -> (Vec<I>, u64) {
    let (mut inputs, mut total) = (Vec::new(), 0);
    while inputs.len() < FEWEST || (total < NODES && inputs.len() < MOST) {
        let input = input(inputs.len() as u64);
        total += nodes(&input);
        inputs.push(input);
    }
    (inputs, total)
}

/// Nanoseconds of a pass: the fastest turn and the median one.
struct Times {
    best: f64,
    median: f64,
}

fn times(mut turns: Vec<f64>) -> Times {
    turns.sort_by(f64::total_cmp);
    Times { best: turns[0], median: turns[turns.len() / 2] }
}

/// Takes turns, a few passes each. A pass answers the sum of its counts, which must be `expected`.
fn in_turns(expected: u64, sides: [&mut dyn FnMut() -> u64; 2]) -> [Times; 2] {
    let mut turns = [Vec::new(), Vec::new()];
    let start = Instant::now();
    sides[0]();
    let pass = start.elapsed().as_secs_f64();
    let passes = (TURN / pass).ceil() as u32;
    let count = (ROW / (2.0 * pass * f64::from(passes))) as usize;
    for turn in 0..count.max(FEWEST_TURNS) {
        // Who goes first changes, so that a slow stretch of the machine does not fall on one side.
        for side in [turn % 2, 1 - turn % 2] {
            let start = Instant::now();
            for _ in 0..passes {
                assert_eq!(black_box(sides[side]()), expected, "the counts differ");
            }
            turns[side].push(start.elapsed().as_secs_f64() * 1e9 / f64::from(passes));
        }
    }
    turns.map(times)
}

fn print(name: &str, inputs: usize, size: &str, per: f64, [rust, port]: [Times; 2]) {
    println!(
        "| {name} | {inputs} | {size} | {:.2} | {:.2} | {:.2} | {:.2} | {:.2} | {:.2} |",
        rust.best / per,
        port.best / per,
        port.best / rust.best,
        rust.median / per,
        port.median / per,
        port.median / rust.median
    );
}

/// The whole comparison once, so that what is timed is known to be the same.
fn assert_same(case: &Case) {
    assert!(compare(case).difference.is_none(), "the answers differ: {case}");
}

// ---- nearest_ml

fn rust_ml(input: &Input, out: &mut [i64], scratch: &mut EnumerationScratch) -> u64 {
    input.table.nearest_ml(&input.case.target, out, AMPLE, scratch).unwrap()
}

fn time_ml(n: usize) {
    let scratch = &mut EnumerationScratch::new();
    let (mut out, mut other) = (vec![0; n], vec![0; n]);
    let (inputs, nodes) = inputs(|k| input(Call::Ml, n, k), |i| rust_ml(i, &mut out, scratch));
    inputs.iter().for_each(|i| assert_same(&i.case));
    let mut rust = || inputs.iter().map(|i| rust_ml(i, &mut out, scratch)).sum();
    let mut port = || inputs.iter().map(|i| port::nearest_ml(&i.case, &mut other).first).sum();
    let times = in_turns(nodes, [&mut rust, &mut port]);
    let size = format!("{} nodes a call", nodes / inputs.len() as u64);
    print(&format!("nearest_ml, n = {n}, ns a node"), inputs.len(), &size, nodes as f64, times);
}

// ---- nearest

/// The radius is a little more than the distance of the nearest-plane point.
fn running(n: usize, residual: f64, number: u64) -> Input {
    let mut input = near_integers(Call::Nearest, n, number, 1.0, residual);
    let Case { weights, mu, target, .. } = &input.case;
    let seed = paper::plane(mu, &mut target.clone());
    input.case.radius = 1.001 * paper::distance(weights, mu, target, &seed);
    input
}

fn rust_nearest(input: &Input, out: &mut [i64], scratch: &mut EnumerationScratch) -> u64 {
    input.table.nearest(&input.case.target, out, input.case.radius, AMPLE, scratch).unwrap()
}

fn time_nearest(n: usize, residual: f64) {
    let scratch = &mut EnumerationScratch::new();
    let (mut out, mut other) = (vec![0; n], vec![0; n]);
    let (inputs, nodes) = inputs(|k| running(n, residual, k), |i| rust_nearest(i, &mut out, scratch));
    inputs.iter().for_each(|i| assert_same(&i.case));
    let mut rust = || inputs.iter().map(|i| rust_nearest(i, &mut out, scratch)).sum();
    let mut port = || inputs.iter().map(|i| port::nearest(&i.case, &mut other).first).sum();
    let times = in_turns(nodes, [&mut rust, &mut port]);
    let size = format!("{} nodes a call", nodes / inputs.len() as u64);
    print(&format!("nearest, n = {n}, ns a node"), inputs.len(), &size, nodes as f64, times);
}

// ---- prepared_nearest_ml

/// An input with matrices, and the search that the Rust prepares once.
struct Prepared {
    case: Case,
    search: PreparedEnumerator<i64>,
}

/// The largest magnitude of an element of the matrices.
const LARGEST_ELEMENT: u64 = 30;

/// The identity with its rows permuted and multiples of rows added to others, where the elements stay small.
fn pair(n: usize, number: u64) -> Pair {
    let rng = &mut Rng::of_case(100 + n as u64, number);
    let mut pair = Pair::identity(n);
    for i in 0..n {
        pair.swap(i, rng.below(i + 1));
    }
    for _ in 0..8 * n {
        let (to, from, mut next) = (rng.below(n), rng.below(n), pair.clone());
        if to != from && next.add(to, from, rng.pick(&[-2, -1, 1, 2])) {
            let mut elements = next.transform.iter().chain(&next.inverse);
            if elements.all(|z| z.unsigned_abs() <= LARGEST_ELEMENT) {
                pair = next;
            }
        }
    }
    pair
}

/// The input of `nearest_ml` with that number, its target in other coordinates: transformed, it is about the same.
fn prepared(n: usize, number: u64) -> Prepared {
    let Input { case, table } = input(Call::Prepared, n, number);
    let pair = pair(n, number);
    let coordinate = |column| (0..n).map(|row| case.target[row] * pair.transform[row * n + column] as f64).sum();
    let target: Vec<f64> = (0..n).map(coordinate).collect();
    let matrix = |elements| IntMatrix::from_entries(n, elements);
    let search = PreparedEnumerator::from_table(table, matrix(&pair.transform), matrix(&pair.inverse));
    Prepared { case: Case { target, ..case.with_pair(&pair) }, search }
}

fn rust_prepared(input: &Prepared, out: &mut [i64], scratch: &mut PreparedEnumerationScratch) -> u64 {
    input.search.nearest_ml(&input.case.target, out, AMPLE, scratch).unwrap()
}

fn time_prepared(n: usize) {
    let scratch = &mut PreparedEnumerationScratch::new();
    let (mut out, mut other) = (vec![0; n], vec![0; n]);
    let (inputs, nodes) = inputs(|k| prepared(n, k), |i| rust_prepared(i, &mut out, scratch));
    inputs.iter().for_each(|i| assert_same(&i.case));
    let mut rust = || inputs.iter().map(|i| rust_prepared(i, &mut out, scratch)).sum();
    let mut port = || inputs.iter().map(|i| port::prepared_nearest_ml(&i.case, &mut other).first).sum();
    let times = in_turns(nodes, [&mut rust, &mut port]);
    let calls = inputs.len() as u64;
    let size = format!("{} nodes a call", nodes / calls);
    print(&format!("prepared_nearest_ml, n = {n}, µs a call"), inputs.len(), &size, calls as f64 * 1e3, times);
}

// ---- list

fn rust_list(input: &Input, radius: f64, scratch: &mut EnumerationScratch) -> usize {
    input.table.list(&input.case.target, radius, AMPLE, scratch).unwrap().len()
}

/// The radius at which the Rust lists `points`, or as near as a bisection comes; it starts from one that is not larger.
fn radius_of(input: &Input, points: usize, start: f64, scratch: &mut EnumerationScratch) -> f64 {
    let (mut low, mut high) = (0.0, start);
    // Small steps: a ball twice as wide has thousands of times the points.
    while rust_list(input, high, scratch) < points {
        (low, high) = (high, high * 1.15);
    }
    for _ in 0..40 {
        let middle = f64::midpoint(low, high);
        match rust_list(input, middle, scratch) {
            found if found == points => return middle,
            found if found < points => low = middle,
            _ => high = middle,
        }
    }
    high
}

/// Up to 23 dimensions the inputs are those of `nearest_ml`; above them targets are near integers, and weights do not fall.
fn list_input(n: usize, number: u64, points: usize, scratch: &mut EnumerationScratch) -> Input {
    let small = n <= paper::LARGEST_N;
    let mut input = if small { input(Call::List, n, number) } else { near_integers(Call::List, n, number, 0.0, 0.2) };
    let start = if small { input.case.weights.iter().sum::<f64>() / 16.0 } else { 0.3 };
    input.case.radius = radius_of(&input, points, start, scratch);
    input
}

fn time_list(n: usize, points: usize, places: usize) {
    let scratch = &mut EnumerationScratch::new();
    time_lists((0..10).map(|k| list_input(n, k, points, scratch)).collect(), places);
}

/// All vectors of zeros and ones at the twelve highest levels, at one distance: 4,096 points, of which a sort compares the
/// coordinates from the lowest up.
fn equally_near(n: usize) -> Input {
    let (weights, mu, mut target) = (vec![1.0; n], vec![0.0; n * n], vec![0.0; n]);
    target[n - 12..].fill(0.5);
    let table = Enumerator::from_table(&weights, &mu);
    Input { case: Case::new(Call::List, &weights, &mu, &target, 3.0, AMPLE), table }
}

fn time_lists(mut inputs: Vec<Input>, places: usize) {
    let (scratch, n) = (&mut EnumerationScratch::new(), inputs[0].case.weights.len());
    for input in &mut inputs {
        input.case = input.case.clone().with_places(places);
        assert_same(&input.case);
    }
    let (mut distances, mut integers) = (vec![0.0; places], vec![0; places * n]);
    let opened: u64 = inputs.iter().map(|i| paper::listed_nodes(&i.case, AMPLE).unwrap()).sum();
    let mut rust = || inputs.iter().map(|i| rust_list(i, i.case.radius, scratch) as u64).sum();
    let found = rust();
    let mut port = || inputs.iter().map(|i| port::list(&i.case, &mut distances, &mut integers).second).sum();
    let times = in_turns(found, [&mut rust, &mut port]);
    let calls = inputs.len() as u64;
    let size = format!("{} points in {places} places, {} nodes a call", found / calls, opened / calls);
    print(&format!("list, n = {n}, µs a call"), inputs.len(), &size, calls as f64 * 1e3, times);
}

// ---- nearest_named, pick_up and turn

/// The budget of a slice.
const SLICE: u64 = 100_000;

/// A search of about so many nodes: the radius is the first of rising ones whose walk has as many.
fn long_search(n: usize, number: u64, nodes: u64) -> Input {
    let mut input = input(Call::Nearest, n, number);
    let scratch = &mut EnumerationScratch::new();
    let mut out = vec![0; n];
    input.case.target = vec![0.5; n];
    input.case.radius = input.case.weights.iter().sum::<f64>() / 16.0;
    while input.table.nearest(&input.case.target, &mut out, input.case.radius, AMPLE, scratch).unwrap_or(0) < nodes {
        input.case.radius *= 1.05;
    }
    input
}

/// The whole search under a name, in slices of a budget; its nodes.
fn in_slices(case: &Case, name: u64, block: &mut port::Block, out: &mut [i64], slice: u64) -> u64 {
    let mut report = port::nearest_named(block, name, &Case { budget: slice, ..case.clone() }, out);
    while report.number == 15 {
        report = port::pick_up(block, name, out, slice);
    }
    assert_eq!(report.number, 0, "the search ends with its point");
    report.first
}

/// One search by `nearest`, by one named call, and by a named call and pickups.
fn time_kept(n: usize) {
    let Input { case, .. } = long_search(n, 0, 10_000_000);
    let mut out = [vec![0; n], vec![0; n], vec![0; n]];
    let [a, b, c] = &mut out;
    let (mut block, mut other) = (port::Block::empty(), port::Block::empty());
    let nodes = port::nearest(&case, a).first;
    let mut plain = || port::nearest(&case, a).first;
    let mut named = || in_slices(&case, 1, &mut block, b, AMPLE);
    let [whole, once] = in_turns(nodes, [&mut plain, &mut named]);
    let mut sliced = || in_slices(&case, 1, &mut other, c, SLICE);
    let [again, slices] = in_turns(nodes, [&mut plain, &mut sliced]);
    assert!(out[0] == out[1] && out[0] == out[2], "the points differ");
    let size = format!("{nodes} nodes");
    print_beside(&format!("nearest_named, n = {n}, ns a node"), &size, nodes as f64, &once, &whole);
    print_beside(&format!("the same in slices of {SLICE}"), &size, nodes as f64, &slices, &again);
}

fn print_beside(name: &str, size: &str, per: f64, side: &Times, beside: &Times) {
    let (best, median) = (side.best / beside.best, side.median / beside.median);
    println!(
        "| {name} | {size} | {:.2} | {:.2} | {best:.2} | {:.2} | {:.2} | {median:.2} |",
        beside.best / per,
        side.best / per,
        beside.median / per,
        side.median / per
    );
}

/// Searches under the names from 1 on, a slice each and then in turns until no name is held; their nodes.
fn by_turns(cases: &[Case], block: &mut port::Block, out: &mut [i64]) -> u64 {
    let (mut last, mut nodes) = (0, 0);
    begin(cases, block);
    loop {
        let report = port::turn(block, &mut last, out, SLICE).report;
        match report.number {
            0 => nodes += report.first,
            15 => {}
            29 => return nodes,
            _ => unreachable!("the searches end with their points"),
        }
    }
}

/// Keeps the searches under the names from 1 on, a slice each.
fn begin(cases: &[Case], block: &mut port::Block) {
    for (case, name) in cases.iter().zip(1..) {
        let report =
            port::nearest_named(block, name, &Case { budget: SLICE, ..case.clone() }, &mut vec![0; case.places]);
        assert_eq!(report.number, 15, "the search is not over");
    }
}

/// Turns of one node, as many as there are in a pass.
const ONES: u64 = 8_000;

/// Eight searches in turns beside the same ones by pickups, one after another; and turns of one node beside such pickups.
fn time_turns(n: usize) {
    let cases: Vec<Case> = (0..8).map(|number| long_search(n, number, 2_000_000).case).collect();
    let (mut block, mut other) = (port::Block::empty(), port::Block::empty());
    let (mut out, mut places) = (vec![0; n], vec![0; paper::LARGEST_N]);
    let mut after = || (1..).zip(&cases).map(|(name, case)| in_slices(case, name, &mut block, &mut out, SLICE)).sum();
    let nodes = after();
    let mut turns = || by_turns(&cases, &mut other, &mut places);
    let [pickups, turns] = in_turns(nodes, [&mut after, &mut turns]);
    let name = format!("8 searches, n = {n}, slices of {SLICE}, ns a node");
    print_beside(&name, &format!("{nodes} nodes"), nodes as f64, &turns, &pickups);

    begin(&cases, &mut block);
    let start = block;
    let mut pickups = || {
        let mut block = start.clone();
        (0..ONES).map(|k| u64::from(port::pick_up(&mut block, k % 8 + 1, &mut out, 1).number)).sum()
    };
    let mut turns = || {
        let (mut block, mut last) = (start.clone(), 0);
        (0..ONES).map(|_| u64::from(port::turn(&mut block, &mut last, &mut places, 1).report.number)).sum()
    };
    let [pickups, turns] = in_turns(15 * ONES, [&mut pickups, &mut turns]);
    print_beside("the same, slices of 1, µs a slice", &format!("{ONES} slices"), ONES as f64 * 1e3, &turns, &pickups);
}

fn kept_rows() {
    println!("| call | size | nearest, best | this, best | ratio | nearest, median | this, median | ratio |");
    println!("|---|---|---:|---:|---:|---:|---:|---:|");
    time_kept(16);
    println!();
    println!("| turns | size | pickups, best | turns, best | ratio | pickups, median | turns, median | ratio |");
    println!("|---|---|---:|---:|---:|---:|---:|---:|");
    time_turns(16);
}

// ---- one side alone

fn passes(side: &str, n: usize, passes: u64) -> u64 {
    let small = n <= paper::LARGEST_N;
    let input = if small { input(Call::Ml, n, 0) } else { running(n, residual(n), 0) };
    let (scratch, mut out) = (&mut EnumerationScratch::new(), vec![0; n]);
    let mut pass = || match (side, small) {
        ("rust", true) => rust_ml(&input, &mut out, scratch),
        ("rust", false) => rust_nearest(&input, &mut out, scratch),
        (_, true) => port::nearest_ml(&input.case, &mut out).first,
        (_, false) => port::nearest(&input.case, &mut out).first,
    };
    (0..passes).map(|_| black_box(pass())).sum()
}

/// What is left of the centres where walks have some thousands of nodes: less, the more levels there are.
fn residual(n: usize) -> f64 {
    match n {
        ..32 => 0.45,
        32..48 => 0.35,
        48..64 => 0.25,
        _ => 0.2,
    }
}

fn main() {
    let words: Vec<String> = std::env::args().skip(1).collect();
    let word = |k: usize| words.get(k).map_or("", String::as_str);
    match (word(0), word(1).parse(), word(2).parse()) {
        (side @ ("rust" | "port"), Ok(n @ 2..=64), Ok(count)) if words.len() == 3 => {
            println!("{} nodes", passes(side, n, count));
        }
        ("", ..) => {
            head();
            small_rows();
            running_rows();
            println!();
            kept_rows();
        }
        ("kept", ..) if words.len() == 1 => kept_rows(),
        ("running", ..) if words.len() == 1 => {
            head();
            running_rows();
        }
        _ => {
            eprintln!("speed, or speed running, or speed kept, or speed rust|port N PASSES with N from 2 to 64");
            std::process::exit(2);
        }
    }
}

fn head() {
    println!("| call | inputs | size | Rust, best | port, best | ratio | Rust, median | port, median | ratio |");
    println!("|---|---:|---|---:|---:|---:|---:|---:|---:|");
}

/// From 24 dimensions on. A list's places fit the port's private array, but for the last row's, which is walked twice.
fn running_rows() {
    for n in [24, 32, 48, 64] {
        time_nearest(n, residual(n));
    }
    for n in [24, 32, 48, 64] {
        time_list(n, 256, 256);
    }
    for n in [24, 64] {
        let rows = PRIVATE / n;
        time_list(n, 9 * rows / 10, rows);
    }
    time_list(64, 4000, 4096);
    time_lists(vec![equally_near(64)], 4096);
}

fn small_rows() {
    for n in [8, 12, 16, 20, 23] {
        time_ml(n);
    }
    for n in [8, 16, 23] {
        time_prepared(n);
    }
    for n in [8, 16] {
        for (points, places) in [(256, 256), (256, 4096), (4000, 4096)] {
            time_list(n, points, places);
        }
    }
}
