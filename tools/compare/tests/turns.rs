//! `turn`, which the original does not have. Rows of named calls, pickups and turns are held to a model: eight names, each
//! with a search and the sum of its budgets, and the name last served. Each answer is one `nearest` of the original with the
//! sum, the block is `oracle::kept`'s, bit for bit, and each turn is the pickup of the name that it serves. Then fairness
//! while others fill and empty names, the refusals in their order, the limit of 2^60 nodes, and blocks that no call has
//! written.

#[path = "common/blocks.rs"]
mod blocks;

use blocks::{
    Bits, Part, bits, empty_part, kept_part, length_refusal, lent, nearest, output, shorts, small, unwritten, with_part,
};
use compare::answer::{Answer, Report, integer_pattern};
use compare::case::{Call, Case};
use compare::paper::MOST_NODES;
use compare::port::{self, Block, Turn};
use compare::random::{self, LONG};
use compare::reach::reach;
use compare::rng::Rng;
use oracle::kept::part;
use oracle::turns::next_held;
use std::collections::BTreeMap;

/// The largest slice, and the places of a turn's output.
const MOST_SLICE: u64 = 1 << 20;
const PLACES: usize = 23;

/// The lengths of a block's slices.
const LENGTHS: [usize; 3] = [5168, 736, 768];

/// 28, 6 of the block, 29, 6 of the output: in this order.
fn turn_refusal(slice: u64, lengths: [usize; 3], held: bool, places: usize) -> Option<Report> {
    if !(1..=MOST_SLICE).contains(&slice) {
        return Some(Report::whole(28, 0, 0));
    }
    if let Some(report) = length_refusal(lengths) {
        return Some(report);
    }
    if !held {
        return Some(Report::whole(29, 0, 0));
    }
    (places != PLACES).then(|| Report::whole(6, PLACES as u64, places as u64))
}

/// The eight names after the one last served, wrapping from 8 to 1. What is no name stands for 8.
fn names_after(last: u64) -> impl Iterator<Item = u64> {
    let last = if (1..=8).contains(&last) { last } else { 8 };
    (0..8).map(move |k| (last + k) % 8 + 1)
}

// ---- the model

/// A search under a name. The budget of its case is the sum of its budgets; `more` is what the test has added to its nodes
/// in the block.
#[derive(Clone)]
struct Search {
    case: Case,
    more: u64,
}

impl Search {
    const fn nodes(&self) -> u64 {
        self.case.budget + self.more
    }

    /// One search with the sum.
    fn answer(&self) -> Answer {
        let mut answer = nearest(&self.case);
        if matches!(answer.report.number, 0 | 15) {
            answer.report.first += self.more;
        }
        answer
    }

    fn part(&self) -> Part {
        let mut part = kept_part(&self.case);
        part.2[1] += self.more;
        part
    }
}

struct Model {
    slots: [Option<Search>; 8],
    last: u64,
    block: Bits,
}

impl Model {
    fn slot(&self, name: u64) -> Option<&Search> {
        self.slots[name as usize - 1].as_ref()
    }

    fn put(&mut self, name: u64, search: Option<Search>) {
        let part = search.as_ref().map_or_else(empty_part, Search::part);
        self.block = with_part(&self.block, name, &part);
        self.slots[name as usize - 1] = search;
    }

    fn next(&self) -> Option<u64> {
        names_after(self.last).find(|name| self.slot(*name).is_some())
    }

    /// What the name holds, with a further budget.
    fn further(&mut self, name: u64, budget: u64) -> Answer {
        let mut search = self.slot(name).unwrap().clone();
        search.case.budget += budget;
        let answer = search.answer();
        self.put(name, (answer.report.number == 15).then_some(search));
        answer
    }

    fn named(&mut self, name: u64, case: &Case) -> Answer {
        if !(1..=8).contains(&name) {
            return Answer::untouched(case, Report::whole(25, 0, 0));
        }
        let answer = nearest(case);
        if answer.report.number == 15 {
            self.put(name, Some(Search { case: case.clone(), more: 0 }));
        }
        answer
    }

    fn pick_up(&mut self, name: u64, places: usize, budget: u64) -> (Report, Vec<i64>) {
        let refused = |report| (report, output(places));
        if !(1..=8).contains(&name) {
            return refused(Report::whole(25, 0, 0));
        }
        let Some(search) = self.slot(name) else { return refused(Report::whole(26, 0, 0)) };
        let (n, sum) = (search.case.places, search.nodes().saturating_add(budget));
        if places != n {
            return refused(Report::whole(6, n as u64, places as u64));
        }
        if sum > MOST_NODES {
            return refused(Report::whole(27, sum, 0));
        }
        let answer = self.further(name, budget);
        (answer.report, answer.integers)
    }

    fn turn(&mut self, places: usize, slice: u64) -> (Turn, Vec<i64>) {
        let (mut out, next) = (output(places), self.next());
        if let Some(report) = turn_refusal(slice, LENGTHS, next.is_some(), places) {
            return (Turn { name: 0, n: 0, report }, out);
        }
        let name = next.unwrap();
        let search = self.slot(name).unwrap().clone();
        let n = search.case.places;
        self.last = name;
        if search.nodes() + slice > MOST_NODES {
            self.put(name, None);
            return (Turn { name, n: n as u64, report: search.answer().report }, out);
        }
        let answer = self.further(name, slice);
        out[..n].copy_from_slice(&answer.integers);
        (Turn { name, n: n as u64, report: answer.report }, out)
    }
}

// ---- a turn as a pickup

/// What the port's pickup of a held name with n places makes of the block, as a turn. What it refuses by 27 a turn tells by
/// 15 as it stands, and empties its name.
fn by_pick_up(before: &Block, name: u64, slice: u64) -> (Turn, Vec<i64>, Bits) {
    let (all, [r, _, c]) = (bits(before), part(name));
    let (n, nodes, standing) = (all[2][c.start], all[2][c.start + 1], all[0][r.start + 576]);
    let (mut block, mut out) = (before.clone(), output(PLACES));
    let report = port::pick_up(&mut block, name, &mut out[..n as usize], slice);
    if report.number != 27 {
        return (Turn { name, n, report }, out, bits(&block));
    }
    assert_eq!(report, Report::whole(27, nodes + slice, 0));
    let report = Report { number: 15, first: nodes, second: 0, real: standing };
    (Turn { name, n, report }, out, with_part(&all, name, &empty_part()))
}

// ---- rows

/// An output between cells that nobody may write.
fn between(out: &[i64]) -> Vec<i64> {
    let guard = |from: usize| (from..from + 3).map(integer_pattern);
    guard(100).chain(out.iter().copied()).chain(guard(200)).collect()
}

/// A turn of the port; its output with the cells beside it.
fn port_turn(block: &mut Block, last: &mut u64, places: usize, slice: u64) -> (Turn, Vec<i64>) {
    let mut cells = between(&output(places));
    let end = cells.len() - 3;
    (port::turn(block, last, &mut cells[3..end], slice), cells)
}

/// How often a call was answered by a number.
type Tally = BTreeMap<(&'static str, u32), u64>;

/// The port's block and name last served beside the model's.
struct Row {
    /// What is printed where they differ.
    what: String,
    calls: u64,
    block: Block,
    last: u64,
    model: Model,
    /// The nodes of the walk that each name was filled with last, if it ends within `LONG`.
    ends: [Option<u64>; 8],
    tally: Tally,
}

impl Row {
    fn new(block: Block, last: u64, what: String) -> Self {
        let model = Model { slots: Default::default(), last, block: bits(&block) };
        Self { what, calls: 0, block, last, model, ends: [None; 8], tally: Tally::new() }
    }

    /// The block and `last` are the model's.
    fn check(&mut self, call: &'static str, report: Report) {
        let (what, k) = (&self.what, self.calls);
        assert_eq!(self.last, self.model.last, "last: {what}, call {k}, {call}");
        assert!(self.block.bits() == self.model.block.each_ref().map(Vec::as_slice), "block: {what}, call {k}, {call}");
        assert!(self.block.guarded(), "guards: {what}, call {k}, {call}");
        self.calls += 1;
        *self.tally.entry((call, report.number)).or_default() += 1;
    }

    fn named(&mut self, name: u64, case: &Case) -> Report {
        let expected = self.model.named(name, case);
        let mut out = output(case.places);
        let report = port::nearest_named(&mut self.block, name, case, &mut out);
        let (what, k) = (&self.what, self.calls);
        assert_eq!((report, &out), (expected.report, &expected.integers), "{what}, call {k}, name {name}, {case}");
        self.check("named", report);
        report
    }

    fn pick_up(&mut self, name: u64, places: usize, budget: u64) -> Report {
        let expected = self.model.pick_up(name, places, budget);
        let mut out = output(places);
        let report = port::pick_up(&mut self.block, name, &mut out, budget);
        assert_eq!((report, out), expected, "{}, call {}, name {name}, budget {budget}", self.what, self.calls);
        self.check("pickup", report);
        report
    }

    fn turn(&mut self, places: usize, slice: u64) -> Turn {
        let (before, last) = (self.block.clone(), self.last);
        let (expected, out) = self.model.turn(places, slice);
        let (told, cells) = port_turn(&mut self.block, &mut self.last, places, slice);
        let (what, k) = (&self.what, self.calls);
        assert_eq!((told, &cells), (expected, &between(&out)), "{what}, call {k}, last {last}, slice {slice}");
        if told.name != 0 {
            let (picked, out, after) = by_pick_up(&before, told.name, slice);
            assert_eq!((told, &cells), (picked, &between(&out)), "the pickup: {what}, call {k}, slice {slice}");
            assert!(self.block.bits() == after.each_ref().map(Vec::as_slice), "the pickup's block: {what}, call {k}");
        }
        self.check("turn", told.report);
        told
    }

    /// A named call with a table.
    fn fill(&mut self, name: u64, table: &Table, budget: u64) -> Report {
        let report = self.named(name, &table.case.clone().with_budget(budget));
        if report.number == 15 {
            self.ends[name as usize - 1] = table.nodes;
        }
        report
    }

    /// The nodes that a held search still needs, if its end is known.
    fn needs(&self, name: u64) -> Option<u64> {
        self.ends[name as usize - 1].map(|nodes| nodes - self.model.slot(name).unwrap().case.budget)
    }

    /// The caller empties a name.
    fn clear(&mut self, name: u64) {
        part(name).into_iter().zip(self.block.bits_mut()).for_each(|(p, slice)| slice[p].fill(0));
        self.model.put(name, None);
    }

    /// The caller writes other nodes into the part of a held name.
    fn set_nodes(&mut self, name: u64, nodes: u64) {
        let Some(search) = self.model.slot(name).filter(|search| search.case.budget <= nodes) else { return };
        let search = Search { more: nodes - search.case.budget, case: search.case.clone() };
        self.block.bits_mut()[2][part(name)[2].start + 1] = nodes;
        self.model.put(name, Some(search));
    }

    fn set_last(&mut self, last: u64) {
        (self.last, self.model.last) = (last, last);
    }
}

fn add(total: &mut Tally, row: &Tally) {
    row.iter().for_each(|(key, count)| *total.entry(*key).or_default() += count);
}

/// A sound case and the nodes of its walk; `None` if it has more than `LONG`.
struct Table {
    case: Case,
    nodes: Option<u64>,
}

/// Half of the random ones have walks of 20 nodes or more: many others end before a turn comes to them.
fn tables(seed: u64, count: u64) -> Vec<Table> {
    let table = |case: Case| Table { nodes: reach(&case, LONG), case };
    let mut all: Vec<Table> = shorts().into_iter().filter(|case| case.places <= PLACES).map(table).collect();
    for number in 0..count {
        let rng = &mut Rng::of_case(seed, number);
        let mut next = table(random::over_table(rng, Call::Nearest));
        while number % 2 == 0 && next.nodes.is_some_and(|nodes| nodes < 20) {
            next = table(random::over_table(rng, Call::Nearest));
        }
        all.push(next);
    }
    all
}

fn name(rng: &mut Rng) -> u64 {
    1 + rng.below(8) as u64
}

fn any_last(rng: &mut Rng) -> u64 {
    match rng.below(8) {
        0 => 0,
        1 => rng.pick(&[9, 10, 16, 255, 256, 1 << 32, (1 << 32) + 3, 1 << 63, u64::MAX - 7, u64::MAX]),
        2 => rng.bits(),
        _ => name(rng),
    }
}

/// Empty names, of zeros or of numbers that are no search.
fn empty_block(rng: &mut Rng) -> Block {
    let mut block = Block::empty();
    if rng.once_in(4) {
        block.bits_mut().into_iter().flatten().for_each(|cell| *cell = rng.bits());
    }
    block
}

/// A budget for what a name holds. Where it is not known that the walk ends, it is a short one.
fn budget(rng: &mut Rng, row: &Row, name: u64) -> u64 {
    let short = match rng.below(10) {
        0..3 => 1,
        3..6 => 1 + rng.below(9) as u64,
        _ => 1 + rng.below(60) as u64,
    };
    if row.model.slot(name).is_none() || rng.once_in(2) {
        return short;
    }
    match row.needs(name) {
        Some(needs) => rng.pick(&[needs, needs - 1, needs + 1, needs / 2, needs / 3, 400, MOST_SLICE]).max(1),
        None => short,
    }
}

/// A named call, which keeps its search more often than not.
fn fill(rng: &mut Rng, row: &mut Row, name: u64, tables: &[Table]) {
    let table = &tables[rng.below(tables.len())];
    let most = table.nodes.unwrap_or(60) as usize;
    let budget = match rng.below(6) {
        0 => 0,
        1 => 1,
        2 if table.nodes.is_some() => rng.pick(&[most as u64, most.saturating_sub(1) as u64, MOST_NODES]),
        _ => rng.below(most + 1) as u64,
    };
    row.fill(name, table, budget);
}

/// A pickup, with any fault that it may have.
fn pick_up(rng: &mut Rng, row: &mut Row, name: u64) {
    let n = row.model.slot(name).map_or(3, |search| search.case.places);
    match rng.below(12) {
        0 => row.pick_up(name, rng.below(25), 0),
        1 => row.pick_up(rng.pick(&[0, 9, u64::MAX]), n, 1),
        2 => row.pick_up(name, n, MOST_NODES + 1 + rng.below(2) as u64),
        3 => row.pick_up(name, n, 0),
        _ => row.pick_up(name, n, budget(rng, row, name)),
    };
}

/// Nodes at or a little below the limit, for a name that is held.
fn near_limit(rng: &mut Rng, row: &mut Row, name: u64) {
    let below = rng.pick(&[0, 1, 2, 3, 10, 60, 61, MOST_SLICE - 1, MOST_SLICE, MOST_SLICE + 1]);
    row.set_nodes(name, MOST_NODES - below);
}

#[test]
fn rows() {
    let (tables, mut tally) = (tables(80, 6_000), Tally::new());
    let (mut by_held, mut by_dimension) = (BTreeMap::<usize, u64>::new(), BTreeMap::<u64, u64>::new());
    let (mut calls, mut put_out) = (0, 0);
    for number in 0..24_000 {
        let rng = &mut Rng::of_case(81, number);
        let mut row = Row::new(empty_block(rng), any_last(rng), format!("row {number}"));
        // Some rows have many names held, some few.
        let (fills, held) = (3 + rng.below(30), rng.below(9));
        for other in 1..=8 {
            if rng.below(8) < held {
                fill(rng, &mut row, other, &tables);
            }
        }
        for _ in 0..10 + rng.below(50) {
            let any = row.model.next().filter(|_| rng.once_in(3)).unwrap_or_else(|| name(rng));
            match rng.below(100) {
                k if k < fills => fill(rng, &mut row, any, &tables),
                33..36 => {
                    // Any fault of the call, and names that are none.
                    let case = random::case(82, rng.bits());
                    let other = rng.pick(&[0, any, any, any, 9, u64::MAX]);
                    let short = case.budget <= LONG || case.budget > MOST_NODES;
                    if case.call == Call::Nearest && short && row.named(other, &case).number == 15 {
                        row.ends[other as usize - 1] = None;
                    }
                }
                36..46 => pick_up(rng, &mut row, any),
                46..48 => near_limit(rng, &mut row, any),
                48 => row.clear(any),
                49 => row.set_last(any_last(rng)),
                50 => _ = row.turn(PLACES, rng.pick(&[0, MOST_SLICE + 1, u64::MAX])),
                51 => _ = row.turn(rng.pick(&[0, 1, 22, 24, 46]), 1),
                // A turn without a name is refused: seldom, so that the others are many.
                _ if row.model.next().is_none() && !rng.once_in(10) => fill(rng, &mut row, any, &tables),
                _ => {
                    *by_held.entry(row.model.slots.iter().flatten().count()).or_default() += 1;
                    let slice = row.model.next().map_or(1, |next| budget(rng, &row, next));
                    let told = row.turn(PLACES, slice);
                    *by_dimension.entry(told.n).or_default() += 1;
                    put_out += u64::from(told.report.number == 15 && row.model.slot(told.name).is_none());
                }
            }
        }
        calls += row.calls;
        add(&mut tally, &row.tally);
    }
    println!("{calls} calls of 24000 rows, answers by number: {tally:?}; {put_out} put out at the limit");
    println!("turns by names held: {by_held:?}\nturns by n: {by_dimension:?}");
}

#[test]
fn bench_case() {
    // Case G under the names 3 and 7: five nodes each.
    let g = small(&[1.0, 1.0], 0.5, &[0.25, 0.5], 2.0).with_budget(2);
    let mut row = Row::new(Block::empty(), 0, "case G".into());
    assert_eq!(row.turn(PLACES, 1).report, Report::whole(29, 0, 0));
    assert_eq!([7, 3].map(|name| row.named(name, &g).number), [15, 15]);
    let turns: Vec<_> = (0..5).map(|_| row.turn(PLACES, 2)).map(|t| (t.name, t.n, t.report.number)).collect();
    assert_eq!(turns, [(3, 2, 15), (7, 2, 15), (3, 2, 0), (7, 2, 0), (0, 0, 29)]);
    assert_eq!(row.last, 7);
}

// ---- fairness

/// What others may do to a name meanwhile.
fn disturb(rng: &mut Rng, row: &mut Row, name: u64, tables: &[Table]) {
    match rng.below(10) {
        0..5 => fill(rng, row, name, tables),
        5..8 => pick_up(rng, row, name),
        8 => near_limit(rng, row, name),
        _ => row.clear(name),
    }
}

/// Slices of one size serve the watched name until it is over, in at most 8·k accepted turns. Others fill, empty and refill
/// the other names between the turns.
#[test]
fn fairness() {
    let (tables, mut tally) = (tables(83, 3_000), Tally::new());
    let watched: Vec<&Table> = tables.iter().filter(|table| table.nodes.is_some_and(|nodes| nodes > 0)).collect();
    let (mut by_rounds, mut turns) = (BTreeMap::<u64, [u64; 2]>::new(), 0);
    for number in 0..12_000 {
        let rng = &mut Rng::of_case(84, number);
        let mut row = Row::new(empty_block(rng), any_last(rng), format!("fairness {number}"));
        let (name, table) = (name(rng), watched[rng.below(watched.len())]);
        let all = table.nodes.unwrap();
        // How busy the other names are: never, seldom, or between any two turns.
        let busy = rng.below(4);
        let others: Vec<u64> = (1..=8).filter(|other| *other != name).collect();
        for other in &others {
            if !rng.once_in(3) {
                fill(rng, &mut row, *other, &tables);
            }
        }
        assert_eq!(row.fill(name, table, rng.below(all as usize) as u64).number, 15, "{table}", table = table.case);
        if rng.once_in(3) {
            row.set_last(name);
        }
        let needs = row.needs(name).unwrap();
        let rounds = 1 + rng.below(10) as u64;
        let slice = if rng.once_in(8) { rng.pick(&[MOST_SLICE, needs, 400]) } else { needs.div_ceil(rounds) };
        let (k, mut accepted) = (needs.div_ceil(slice).max(1), 0);
        loop {
            for _ in 0..rng.below(1 + 2 * busy) {
                let other = others[rng.below(7)];
                disturb(rng, &mut row, other, &tables);
            }
            // Refused turns do not count, and a pickup of no nodes changes nothing.
            match rng.below(20) {
                0 => _ = row.turn(PLACES + 1, slice),
                1 => _ = row.turn(PLACES, 0),
                2 => _ = row.pick_up(name, table.case.places, 0),
                _ => {}
            }
            // A walk that is not known to end would take all of a long slice: others empty such names.
            for other in &others {
                if slice > 400 && row.model.slot(*other).is_some() && row.needs(*other).is_none() {
                    row.clear(*other);
                }
            }
            accepted += 1;
            let told = row.turn(PLACES, slice);
            assert!(told.name != 0);
            if told.name == name && told.report.number != 15 {
                break;
            }
            assert!(accepted < 8 * k, "row {number}: name {name} needs {needs}, slice {slice}, {accepted} turns");
        }
        let count = by_rounds.entry(k).or_default();
        count[0] += 1;
        count[1] += u64::from(accepted == 8 * k);
        turns += accepted;
        add(&mut tally, &row.tally);
    }
    println!("12000 rows, {turns} accepted turns, rows by k with those that took 8k: {by_rounds:?}");
    println!("answers by number: {tally:?}");
}

/// A walk of 93 nodes.
fn ending() -> Table {
    let case = small(&[1.0; 7], 0.3, &[0.5; 7], 3.0);
    assert_eq!(reach(&case, LONG), Some(93));
    Table { case, nodes: Some(93) }
}

/// A walk of 2^23 points at one distance: no slice here comes to its end.
fn endless() -> Table {
    Table { case: small(&[1.0; 23], 0.0, &[0.5; 23], 6.0), nodes: None }
}

/// All other names are held as long as it takes, and the watched name was served last: it ends with turn 8·k.
#[test]
fn exactly_8_k() {
    let mut rows = 0;
    for name in 1..=8 {
        for k in 1..=4 {
            for slice in [1_u64, 2, 3, 7, 20] {
                for needs in [(k - 1) * slice + 1, (k - 1) * slice + slice.div_ceil(2), k * slice] {
                    let mut row = Row::new(Block::empty(), 0, format!("name {name}, needs {needs}, slice {slice}"));
                    for other in 1..=8 {
                        row.fill(other, &endless(), other);
                    }
                    assert_eq!(row.fill(name, &ending(), 93 - needs).number, 15);
                    row.set_last(name);
                    for turn in 1..=8 * k {
                        let told = row.turn(PLACES, slice);
                        assert_eq!(told.name, (name + turn - 1) % 8 + 1);
                        assert_eq!(told.report.number != 15, turn == 8 * k, "{}, turn {turn}", row.what);
                    }
                    rows += 1;
                }
            }
        }
    }
    println!("{rows} rows");
}

// ---- the refusals in their order

/// A turn over a block of any lengths, `held` being the name that it is to serve; the number of its answer.
fn check_turn(all: &Bits, last: u64, places: usize, slice: u64, held: Option<u64>) -> u32 {
    let (before, mut block, mut after) = (lent(all), lent(all), last);
    let (told, cells) = port_turn(&mut block, &mut after, places, slice);
    let lengths = all.each_ref().map(Vec::len);
    let what = format!("lengths {lengths:?}, last {last}, {places} places, slice {slice}, held {held:?}");
    assert!(block.guarded(), "{what}");
    if let Some(report) = turn_refusal(slice, lengths, held.is_some(), places) {
        assert_eq!((told, after), (Turn { name: 0, n: 0, report }, last), "{what}");
        assert!(bits(&block) == *all && cells == between(&output(places)), "{what}");
        return told.report.number;
    }
    let (picked, out, picked_block) = by_pick_up(&before, held.unwrap(), slice);
    assert_eq!((told, after, cells), (picked, picked.name, between(&out)), "{what}");
    assert!(bits(&block) == picked_block, "{what}");
    told.report.number
}

/// A block with case G under some names.
fn holding(names: &[u64]) -> Bits {
    let g = small(&[1.0, 1.0], 0.5, &[0.25, 0.5], 2.0).with_budget(2);
    let mut block = Block::empty();
    for name in names {
        assert_eq!(port::nearest_named(&mut block, *name, &g, &mut output(2)).number, 15);
    }
    bits(&block)
}

#[test]
fn refusals_in_order() {
    let slices = [1, 2, MOST_SLICE, 0, MOST_SLICE + 1, 1 << 32, (1 << 32) + 1, 1 << 63, u64::MAX];
    let held: [&[u64]; 4] = [&[], &[5], &[1, 8], &[1, 2, 3, 4, 5, 6, 7, 8]];
    let mut tally = BTreeMap::<u32, u64>::new();
    for (names, slice) in held.iter().flat_map(|names| slices.map(|slice| (names, slice))) {
        let all = holding(names);
        for lengths in 0..27 {
            let mut all = all.clone();
            for (k, cells) in all.iter_mut().enumerate() {
                let length = cells.len() - 1 + lengths / 3usize.pow(k as u32) % 3;
                cells.resize(length, 0);
            }
            for (places, last) in [0, 2, 22, 23, 24].into_iter().flat_map(|p| [0, 1, 5, 9].map(|last| (p, last))) {
                let next = names_after(last).find(|name| names.contains(name));
                *tally.entry(check_turn(&all, last, places, slice, next)).or_default() += 1;
            }
        }
    }
    println!("answers by number: {tally:?}");
}

#[test]
fn random_refusals() {
    let mut tally = BTreeMap::<u32, u64>::new();
    for number in 0..30_000 {
        let rng = &mut Rng::of_case(85, number);
        let names: Vec<u64> = (1..=8).filter(|_| rng.once_in(3)).collect();
        let names = if rng.once_in(4) { Vec::new() } else { names };
        let mut all = holding(&names);
        let faulty = |rng: &mut Rng| rng.once_in(3);
        if names.is_empty() && faulty(rng) {
            all.iter_mut().flatten().for_each(|cell| *cell = rng.bits());
        }
        for cells in &mut all {
            if faulty(rng) {
                let length = match rng.below(4) {
                    0 => cells.len() - 1,
                    1 => cells.len() + 1,
                    2 => rng.pick(&[0, 1, 8, 92, 96, 646, 736, 768, 5168, 5169]),
                    _ => rng.below(6_000),
                };
                cells.resize(length, 0);
            }
        }
        let slice = match rng.below(6) {
            0 => rng.pick(&[0, MOST_SLICE + 1, u64::MAX]),
            1 => rng.bits() >> rng.below(64),
            _ => 1 + rng.below(MOST_SLICE as usize) as u64,
        };
        let places = if faulty(rng) { rng.below(40) } else { PLACES };
        let last = any_last(rng);
        let next = names_after(last).find(|name| names.contains(name));
        *tally.entry(check_turn(&all, last, places, slice, next)).or_default() += 1;
    }
    println!("answers by number: {tally:?}");
}

// ---- the limit

/// 2^60 - s nodes: a slice of s is served, and one above it puts the search out.
#[test]
fn at_the_limit() {
    let (mut calls, mut put_out) = (0, 0);
    for (table, name, below) in [ending(), endless()]
        .iter()
        .flat_map(|table| (1..=8).flat_map(move |name| (0..=20).map(move |below| (table, name, below))))
    {
        for slice in 1..=22 {
            let mut row = Row::new(Block::empty(), name, format!("2^60 - {below}, name {name}, slice {slice}"));
            row.fill(name % 8 + 1, &endless(), 3);
            row.fill(name, table, 80);
            row.set_nodes(name, MOST_NODES - below);
            // The name after it is served first.
            assert_eq!(row.turn(PLACES, slice).name, name % 8 + 1);
            let told = row.turn(PLACES, slice);
            assert_eq!((told.name, row.last), (name, name));
            let empty = row.model.slot(name).is_none();
            assert!(empty || slice <= below);
            if slice > below {
                assert_eq!((told.report.number, told.report.first), (15, MOST_NODES - below));
                put_out += 1;
            }
            calls += 2;
        }
    }
    println!("{calls} turns, {put_out} put out");
}

/// Turns of one node up to 2^60, and slices as large as they may be.
#[test]
fn up_to_the_limit() {
    let mut row = Row::new(Block::empty(), 8, "up to 2^60".into());
    row.fill(4, &endless(), 7);
    row.set_nodes(4, MOST_NODES - 50);
    for left in (0..50).rev() {
        assert_eq!(row.turn(PLACES, 1).report.first, MOST_NODES - left);
    }
    assert_eq!(row.turn(PLACES, 1).report.first, MOST_NODES);
    assert_eq!(row.turn(PLACES, 1).report, Report::whole(29, 0, 0));
    for (below, slice) in [
        (MOST_SLICE, MOST_SLICE),
        (MOST_SLICE - 1, MOST_SLICE),
        (MOST_SLICE - 1, MOST_SLICE - 1),
        (MOST_SLICE + 1, MOST_SLICE),
        (0, MOST_SLICE),
    ] {
        row.fill(4, &endless(), 7);
        row.set_nodes(4, MOST_NODES - below);
        let served = if slice <= below { slice } else { 0 };
        assert_eq!(row.turn(PLACES, slice).report.first, MOST_NODES - below + served);
        assert_eq!(row.model.slot(4).is_some(), served > 0);
    }
}

// ---- blocks that no call has written

/// The first name after the one last served that a pickup of no nodes does not refuse by 26. Without an output that refuses
/// a held one by 6, so that nothing is changed.
fn next_by_pick_up(block: &mut Block, last: u64) -> Option<u64> {
    names_after(last).find(|name| port::pick_up(block, *name, &mut [], 0).number != 26)
}

#[test]
fn blocks_not_written_by_a_call() {
    let (mut tally, mut by_kind) = (BTreeMap::<u32, u64>::new(), BTreeMap::<(&str, u32), u64>::new());
    for number in 0..40_000 {
        let rng = &mut Rng::of_case(86, number);
        let (mut block, mut kinds) = (Block::empty(), ["empty"; 8]);
        if rng.once_in(8) {
            block.bits_mut().into_iter().flatten().for_each(|cell| *cell = rng.bits());
        }
        for _ in 0..rng.below(7) {
            let (name, kind) = (name(rng), rng.pick(&["random", "sound", "mutated", "mutated"]));
            block = lent(&unwritten(rng, block, name, kind));
            kinds[name as usize - 1] = kind;
        }
        let mut last = any_last(rng);
        for k in 0..4 {
            let what = format!("block {number}, turn {k}, last {last}");
            let next = next_by_pick_up(&mut block, last);
            assert_eq!(next, next_held(block.bits()[2], last), "{what}");
            let slice = match rng.below(4_000) {
                0 => MOST_SLICE,
                1..10 => rng.below(20_000) as u64,
                _ => 1 + rng.below(300) as u64,
            };
            let all = bits(&block);
            let number = check_turn(&all, last, PLACES, slice, next);
            *tally.entry(number).or_default() += 1;
            let Some(next) = next else { break };
            *by_kind.entry((kinds[next as usize - 1], number)).or_default() += 1;
            // The next turn goes on from what this one left.
            port_turn(&mut block, &mut last, PLACES, slice);
            if rng.once_in(10) {
                last = any_last(rng);
            }
        }
    }
    println!("answers by number: {tally:?}\nby the kind of the part served: {by_kind:?}");
}
