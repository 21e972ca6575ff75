//! `nearest_named` and `pick_up`, which the original does not have. Each answer of a list of pickups is held to `nearest` of
//! the port and of the original with the sum of the budgets, and the block to `oracle::kept`, bit for bit. Then the refusals
//! in their order, and blocks that no call has written: at random, sound ones at random, and kept ones with other numbers in
//! some places.

#[path = "common/blocks.rs"]
mod blocks;

use blocks::{
    Bits, Part, bits, empty_part, kept_part, length_refusal, lent, nearest, output, shorts, small, unwritten, with_part,
};
use compare::answer::{Answer, Report};
use compare::case::{Call, Case};
use compare::paper::MOST_NODES;
use compare::port::{self, Block};
use compare::random::{self, LONG};
use compare::reach::reach;
use compare::rng::Rng;
use oracle::error::DecodeError;
use oracle::kept::{Held, NAMES, part};
use std::collections::BTreeMap;

// ---- blocks

/// The part of a name as doubles, integers and counts.
fn part_of(all: &Bits, name: u64) -> Part {
    let [r, i, c] = part(name);
    let reals = all[0][r].iter().map(|x| f64::from_bits(*x)).collect();
    (reals, all[1][i].iter().map(|z| z.cast_signed()).collect(), all[2][c].to_vec())
}

/// The same numbers. What is computed from a NaN, or gives one, may have any of its bits.
fn same(port: &Bits, expected: &Bits) -> bool {
    let alike = |(a, b): (&u64, &u64)| a == b || (f64::from_bits(*a).is_nan() && f64::from_bits(*b).is_nan());
    port[0].iter().zip(&expected[0]).all(alike) && port[1..] == expected[1..]
}

fn same_report(port: Report, expected: Report) -> bool {
    let [a, b] = [port, expected].map(|r| f64::from_bits(r.real));
    port == expected || (Report { real: 0, ..port } == Report { real: 0, ..expected } && a.is_nan() && b.is_nan())
}

/// A block whose parts are empty, hold searches, or hold anything.
fn any_block(rng: &mut Rng) -> Block {
    let mut block = Block::empty();
    if rng.once_in(2) {
        block.bits_mut().into_iter().flatten().for_each(|cell| *cell = rng.bits());
    }
    for name in 1..=NAMES as u64 {
        if rng.once_in(3) {
            let case = random::over_table(rng, Call::Nearest).with_budget(rng.below(20) as u64);
            let _ = port::nearest_named(&mut block, name, &case, &mut vec![0; case.places]);
        }
    }
    block
}

// ---- expected

/// 25 and 6 of the block.
fn block_refusal(name: u64, lengths: [usize; 3]) -> Option<Report> {
    if !(1..=8).contains(&name) {
        return Some(Report::whole(25, 0, 0));
    }
    length_refusal(lengths)
}

/// What a walk has come to, and the output.
fn answer_of(held: &Held, before: Vec<i64>) -> (Report, Vec<i64>) {
    match held.answer() {
        Ok((point, nodes, distance)) => (Report::found(nodes, distance), point),
        Err(DecodeError::BudgetExhausted { nodes, radius_sq }) => {
            (Report { number: 15, first: nodes, second: 0, real: radius_sq.to_bits() }, before)
        }
        Err(DecodeError::OutsideRadius { radius_sq }) => (Report::double(16, radius_sq), before),
        Err(error) => panic!("{error:?}"),
    }
}

/// What a pickup answers, leaves in the output and leaves in the block, by the reading.
fn picked_up(all: &Bits, name: u64, places: usize, budget: u64) -> (Report, Vec<i64>, Bits) {
    let out = output(places);
    if let Some(report) = block_refusal(name, all.each_ref().map(Vec::len)) {
        return (report, out, all.clone());
    }
    let (mut reals, mut integers, mut counts) = part_of(all, name);
    let Some(mut held) = Held::read(&reals, &integers, &counts) else {
        return (Report::whole(26, 0, 0), out, all.clone());
    };
    if places != held.dimension() {
        return (Report::whole(6, held.dimension() as u64, places as u64), out, all.clone());
    }
    let sum = held.nodes.saturating_add(budget);
    if sum > MOST_NODES {
        return (Report::whole(27, sum, 0), out, all.clone());
    }
    held.run(budget);
    if held.is_over() {
        (reals, integers, counts) = empty_part();
    } else {
        held.write_walk(&mut reals, &mut integers, &mut counts);
    }
    let (report, out) = answer_of(&held, out);
    (report, out, with_part(all, name, &(reals, integers, counts)))
}

/// The block after a named call that ended so.
fn block_after(all: &Bits, name: u64, case: &Case, answer: &Answer) -> Bits {
    if answer.report.number == 15 { with_part(all, name, &kept_part(case)) } else { all.clone() }
}

// ---- one call of the port, held to what is expected

/// A named call; its report.
fn check_named(block: &mut Block, name: u64, case: &Case) -> Report {
    let before = bits(block);
    let expected = match block_refusal(name, before.each_ref().map(Vec::len)) {
        Some(report) => Answer::untouched(case, report),
        None => nearest(case),
    };
    let mut out = output(case.places);
    let report = port::nearest_named(block, name, case, &mut out);
    assert_eq!((report, &out), (expected.report, &expected.integers), "name {name}, {case}");
    assert!(bits(block) == block_after(&before, name, case, &expected) && block.guarded(), "block, {name}, {case}");
    report
}

/// A pickup; its report and output. The port's answer must be the same again from the same block.
fn check_pick_up(block: &mut Block, name: u64, places: usize, budget: u64, what: &str) -> (Report, Vec<i64>) {
    let (before, mut again, mut other) = (bits(block), block.clone(), output(places));
    let (report, out, after) = picked_up(&before, name, places, budget);
    let mut port_out = output(places);
    let port = port::pick_up(block, name, &mut port_out, budget);
    assert!(same_report(port, report), "name {name}, budget {budget}: {port:?}, expected {report:?}: {what}");
    assert_eq!(port_out, out, "name {name}, budget {budget}: {what}");
    assert!(same(&bits(block), &after) && block.guarded(), "block, name {name}, budget {budget}: {what}");
    assert_eq!(port::pick_up(&mut again, name, &mut other, budget), port, "{what}");
    assert!(other == port_out && bits(&again) == bits(block), "not the same again: {what}");
    (port, port_out)
}

/// A named call and pickups, each answer held to one `nearest` with the sum; how often each number was answered.
fn check_list(block: &mut Block, name: u64, case: &Case, budgets: &[u64], tally: &mut BTreeMap<u32, u64>) {
    let mut report = check_named(block, name, case);
    *tally.entry(report.number).or_default() += 1;
    let mut sum = case.budget;
    for &budget in budgets {
        if report.number != 15 {
            break;
        }
        let what = format!("{case}, sum {sum}, of {budgets:?}");
        let (picked, out) = check_pick_up(block, name, case.places, budget, &what);
        *tally.entry(picked.number).or_default() += 1;
        if u128::from(sum) + u128::from(budget) > u128::from(MOST_NODES) {
            assert_eq!(picked, Report::whole(27, sum.saturating_add(budget), 0), "{what}");
            continue;
        }
        sum += budget;
        let expected = nearest(&case.clone().with_budget(sum));
        assert_eq!((picked, &out), (expected.report, &expected.integers), "budget {budget}: {what}");
        report = picked;
    }
    if report.number != 15 && sum != case.budget {
        check_pick_up(block, name, case.places, 1, "after the end");
        assert!(part(name).into_iter().zip(block.bits()).all(|(p, all)| all[p].iter().all(|cell| *cell == 0)));
    }
}

// ---- short cases

#[test]
fn short_cases() {
    let (mut tally, mut block) = (BTreeMap::new(), Block::empty());
    for (k, case) in shorts().iter().enumerate() {
        let name = 1 + k as u64 % 8;
        let nodes = reach(case, LONG).unwrap_or(60).min(60);
        for first in 0..=nodes + 1 {
            let case = case.clone().with_budget(first);
            check_list(&mut block, name, &case, &vec![1; 70], &mut tally);
            for next in 0..=(nodes - first.min(nodes)).min(8) {
                check_list(&mut block, name, &case, &[next, 0, 1, u64::MAX, MOST_NODES, LONG], &mut tally);
            }
        }
    }
    println!("answers by number: {tally:?}");
}

#[test]
fn bench_case() {
    let g = small(&[1.0, 1.0], 0.5, &[0.25, 0.5], 2.0).with_budget(2);
    let (mut block, mut out) = (Block::empty(), output(2));
    assert_eq!(port::nearest_named(&mut block, 1, &g, &mut out).number, 15);
    assert_eq!(port::pick_up(&mut block, 1, &mut out, 3), Report::found(5, 0.25));
    assert_eq!(out, [0, 1]);
    assert_eq!(port::pick_up(&mut block, 1, &mut out, 3).number, 26);
}

// ---- random lists

/// Budgets whose sum stays within what the case's walk may take: all of a walk that ends, else `LONG`.
fn budgets(rng: &mut Rng, case: &Case) -> (u64, Vec<u64>) {
    let ends = reach(case, LONG).is_some();
    let most = if ends { MOST_NODES } else { LONG };
    let mut sum = 0;
    let mut one = |rng: &mut Rng| {
        let budget = match rng.below(12) {
            0 => 0,
            1..4 => 1,
            4..7 => rng.below(10) as u64,
            7..9 => rng.below(200) as u64,
            9 => case.budget.saturating_sub(sum),
            10 => rng.below(2000) as u64,
            // Refused by 27, or taken at exactly 2^60.
            _ => rng.pick(&[u64::MAX, u64::MAX - sum, MOST_NODES - sum + 1, MOST_NODES - sum, MOST_NODES + 1]),
        };
        if u128::from(sum) + u128::from(budget) > u128::from(MOST_NODES) {
            return budget;
        }
        let budget = budget.min(most - sum);
        sum += budget;
        budget
    };
    let first = one(rng);
    (first, (0..1 + rng.below(12)).map(|_| one(rng)).collect())
}

#[test]
fn random_lists() {
    let (mut tally, mut by_dimension, mut block) = (BTreeMap::new(), BTreeMap::<usize, u64>::new(), Block::empty());
    for number in 0..120_000 {
        let mut case = random::case(77, number);
        if case.call != Call::Nearest {
            continue;
        }
        let rng = &mut Rng::of_case(78, number);
        if rng.once_in(50) {
            block = any_block(rng);
        }
        let (first, budgets) = budgets(rng, &case);
        case.budget = first;
        check_list(&mut block, 1 + rng.below(8) as u64, &case, &budgets, &mut tally);
        *by_dimension.entry(case.weights.len()).or_default() += 1;
    }
    println!("answers by number: {tally:?}\nlists by dimension: {by_dimension:?}");
}

// ---- the refusals in their order

#[test]
fn refusals_in_order() {
    let held = {
        let mut block = Block::empty();
        let g = small(&[1.0, 1.0], 0.5, &[0.25, 0.5], 2.0).with_budget(2);
        for name in [1, 8] {
            assert_eq!(check_named(&mut block, name, &g).number, 15);
        }
        bits(&block)
    };
    let good = small(&[1.0, 1.0], 0.5, &[0.25, 0.5], 2.0).with_budget(3);
    let mut faulty = vec![good.clone(), small(&[1.0; 24], 0.0, &[0.5; 24], 2.0), small(&[], 0.0, &[], 0.0)];
    let mut fault = |change: &dyn Fn(&mut Case)| {
        // The fault alone, and with every later one.
        for last in [false, true] {
            let mut case = good.clone();
            if last {
                (case.places, case.radius, case.budget) = (5, -1.0, u64::MAX);
                case.target = vec![f64::NAN];
            }
            change(&mut case);
            faulty.push(case);
        }
    };
    fault(&|case| case.mu.truncate(3));
    fault(&|case| case.mu[2] = f64::NAN);
    fault(&|case| case.mu[2] = 1e16);
    fault(&|case| case.weights[1] = 0.0);
    fault(&|case| case.target = vec![0.0; 3]);
    fault(&|case| case.places = 1);
    fault(&|case| case.target[0] = f64::INFINITY);
    fault(&|case| case.radius = -1.0);
    fault(&|case| case.budget = MOST_NODES + 1);
    let mut calls = 0;
    for name in [0, 1, 2, 8, 9, 1 << 63, u64::MAX] {
        for lengths in 0..27 {
            let mut all = held.clone();
            for (k, slice) in all.iter_mut().enumerate() {
                let length = slice.len() + [0, 1, 2][lengths / 3usize.pow(k as u32) % 3];
                slice.resize(length, 0);
                if slice.len() % 2 == 1 {
                    slice.truncate(slice.len() - 2);
                }
            }
            let lent = lent(&all);
            for case in &faulty {
                check_named(&mut lent.clone(), name, case);
                calls += 1;
            }
            for places in [0, 1, 2, 3] {
                for budget in [0, 1, 3, MOST_NODES - 2, MOST_NODES - 1, u64::MAX - 2, u64::MAX - 1, u64::MAX] {
                    check_pick_up(&mut lent.clone(), name, places, budget, "order");
                    calls += 1;
                }
            }
        }
    }
    println!("{calls} calls");
}

// ---- blocks that no call has written

#[test]
fn blocks_not_written_by_a_call() {
    let mut tally = BTreeMap::<(&str, u32), u64>::new();
    for number in 0..60_000 {
        let rng = &mut Rng::of_case(79, number);
        let name = 1 + rng.below(8) as u64;
        let mut block = Block::empty();
        let kind = ["random", "sound", "mutated", "mutated"][rng.below(4)];
        if rng.once_in(8) {
            block.bits_mut().into_iter().flatten().for_each(|cell| *cell = rng.bits());
        }
        let all = unwritten(rng, block, name, kind);
        let mut block = lent(&all);
        for pickup in 0..3 {
            let n = all[2][part(name)[2].start] as usize;
            let places = if n > 64 || rng.once_in(20) { rng.below(25) } else { n };
            let budget = if rng.once_in(20) { rng.bits() } else { rng.below(300) as u64 };
            let nodes = all[2][part(name)[2].start + 1];
            // A random budget only where 27 refuses it.
            let budget = if nodes.saturating_add(budget) > MOST_NODES { budget } else { budget.min(300) };
            let what = format!("{kind} block {number}, pickup {pickup}");
            let (report, _) = check_pick_up(&mut block, name, places, budget, &what);
            *tally.entry((kind, report.number)).or_default() += 1;
        }
    }
    println!("answers by kind and number: {tally:?}");
}
