//! `check_entry`, which the original does not have: 3 and 4 fed an entry at a time, beside a search of the whole list
//! so far, and beside the calls' own check of the table that has these entries.

use compare::case::{CALLS, Call, Case};
use compare::matrices::Pair;
use compare::paper::{LARGEST_N, LARGEST_SEARCHED, LIMIT};
use compare::port::run;
use compare::rng::Rng;
use std::fmt;

unsafe extern "C" {
    fn snowgimmer_check_entry(
        number: u32,
        at: u64,
        index: usize,
        entry: f64,
        first: *mut u64,
        second: *mut u64,
        real: *mut f64,
    ) -> u32;
}

/// A number, and the index that goes with it.
type Verdict = (u32, u64);

/// An index and the entry there.
type Entry = (usize, f64);

const CLEAN: Verdict = (0, 0);

fn port((number, at): Verdict, (index, entry): Entry) -> Verdict {
    let (mut first, mut second, mut real) = (7, 7, 7.0);
    let answer = unsafe { snowgimmer_check_entry(number, at, index, entry, &mut first, &mut second, &mut real) };
    assert_eq!((second, real.to_bits()), (0, 0), "{number} {at} {index} {:016x}", entry.to_bits());
    (answer, first)
}

/// Refusals 3 and 4 of the specification, read plainly: each searches the whole list.
fn expected(entries: &[Entry]) -> Verdict {
    let first = |fault: fn(f64) -> bool| entries.iter().find(|(_, x)| fault(*x)).map(|(index, _)| *index as u64);
    if let Some(index) = first(|x| !x.is_finite()) {
        return (3, index);
    }
    first(|x| x.abs() > LIMIT).map_or(CLEAN, |index| (4, index))
}

/// What a call's own check says of the table. All else is right. A search has no budget, and ends by 15 at once; with
/// n = 0 a list has no place, and ends by 18.
fn called(case: &Case) -> Verdict {
    let (answer, trespasses) = run(case);
    let report = answer.report;
    assert!(trespasses.is_empty(), "{case}");
    match report.number {
        3 | 4 => {
            assert_eq!((report.second, report.real), (0, 0), "{case}");
            (report.number, report.first)
        }
        0 | 15 | 18 => CLEAN,
        other => panic!("{other}: {case}"),
    }
}

/// What was compared.
#[derive(Default)]
struct Figures {
    lists: u64,
    entries: u64,
    calls: u64,
    /// Lists by the verdict in the end: 0, 3, 4.
    ends: [u64; 3],
    /// Lists in which a 4 became a 3.
    overtaken: u64,
}

impl fmt::Display for Figures {
    fn fmt(&self, out: &mut fmt::Formatter<'_>) -> fmt::Result {
        let Self { lists, entries, calls, ends: [clean, nonfinite, range], overtaken } = self;
        write!(out, "{lists} lists, {entries} entries, {calls} calls on tables; ")?;
        write!(out, "in the end 0: {clean}, 3: {nonfinite}, 4: {range}; 4 before 3: {overtaken}")
    }
}

impl Figures {
    /// Feeds a list and holds each verdict to that of the list so far; `beside` looks at each entry and its verdict.
    fn feed(&mut self, entries: &[Entry], mut beside: impl FnMut(Entry, Verdict)) -> Verdict {
        let mut verdict = CLEAN;
        for (k, entry) in entries.iter().enumerate() {
            let before = verdict;
            verdict = port(before, *entry);
            assert_eq!(verdict, expected(&entries[..=k]), "{:?}", &entries[..=k]);
            beside(*entry, verdict);
            self.overtaken += u64::from(before.0 == 4 && verdict.0 == 3);
        }
        self.lists += 1;
        self.entries += entries.len() as u64;
        self.ends[[0, 3, 4].iter().position(|number| *number == verdict.0).unwrap()] += 1;
        verdict
    }

    /// Feeds what is read of a table. After each entry `nearest_plane`, from 24 dimensions on `nearest`, is called on the
    /// table whose later entries are 0, and in the end every call that takes so many on the whole table.
    fn feed_table(&mut self, n: usize, mu: &[f64]) {
        let read: Vec<Entry> = (0..n * n).filter(|k| k / n > k % n).map(|k| (k, mu[k])).collect();
        let first = if n > LARGEST_N { Call::Nearest } else { Call::Plane };
        let mut case = Case::new(first, &vec![1.0; n], mu, &vec![0.0; n], 0.0, 0).with_pair(&Pair::identity(n));
        for (k, _) in &read {
            case.mu[*k] = 0.0;
        }
        assert_eq!(called(&case), CLEAN, "{case}");
        let verdict = self.feed(&read, |(k, entry), verdict| {
            case.mu[k] = entry;
            assert_eq!(called(&case), verdict, "{case}");
        });
        let calls = CALLS.iter().filter(|call| call.takes_table() && n <= call.largest());
        for call in calls.clone() {
            case.call = *call;
            assert_eq!(called(&case), verdict, "{case}");
        }
        self.calls += (1 + read.len() + calls.count()) as u64;
    }
}

/// Both zeros, the limit and its neighbours, the ends of the doubles, infinities, NaNs of both signs and kinds with
/// payloads, by their bits.
const EXTREMES: [u64; 22] = [
    0x0000_0000_0000_0000,
    0x8000_0000_0000_0000,
    0x0000_0000_0000_0001,
    0x8000_0000_0000_0001,
    0x3ff0_0000_0000_0000,
    0x432f_ffff_ffff_ffff,
    0x4330_0000_0000_0000,
    0xc330_0000_0000_0000,
    0x4330_0000_0000_0001,
    0xc330_0000_0000_0001,
    0x4340_0000_0000_0000,
    0xc340_0000_0000_0000,
    0x7fef_ffff_ffff_ffff,
    0xffef_ffff_ffff_ffff,
    0x7ff0_0000_0000_0000,
    0xfff0_0000_0000_0000,
    0x7ff8_0000_0000_0000,
    0x7ff8_0000_dead_0001,
    0xffff_ffff_ffff_ffff,
    0x7ff0_0000_0000_0001,
    0xfff0_0000_beef_0002,
    0x7ff7_ffff_ffff_ffff,
];

fn extreme(rng: &mut Rng) -> f64 {
    f64::from_bits(rng.pick(&EXTREMES))
}

/// An entry that the check would refuse, for places that no call reads.
fn unread(rng: &mut Rng) -> f64 {
    f64::from_bits(rng.pick(&EXTREMES[8..]))
}

/// Every single value, pair and triple at the entries of n = 2 and 3: 0 is among the values, so a triple can be a pair.
#[test]
fn extremes() {
    let mut figures = Figures::default();
    let mut rng = Rng::of_case(1, 0);
    let mut table = |read: &[(usize, u64)], n: usize| {
        let mut mu: Vec<f64> = (0..n * n).map(|_| unread(&mut rng)).collect();
        for (k, bits) in read {
            mu[*k] = f64::from_bits(*bits);
        }
        figures.feed_table(n, &mu);
    };
    table(&[], 0);
    table(&[], 1);
    for a in EXTREMES {
        table(&[(2, a)], 2);
        for b in EXTREMES {
            for c in EXTREMES {
                table(&[(3, a), (6, b), (7, c)], 3);
            }
        }
    }
    println!("extremes: {figures}");
}

/// Entries of a table or a list: sound ones, and extremes in a share that is the same for all of it.
fn entries(rng: &mut Rng, count: usize) -> Vec<f64> {
    let share = rng.pick(&[1, 2, 10, 100, 1000]);
    let widest = rng.pick(&[51, 51, 51, 53, 1023]);
    let each = |rng: &mut Rng| match rng.below(4) {
        _ if rng.once_in(share) => extreme(rng),
        0 => rng.uniform(-1.0, 1.0),
        1 => rng.pick(&[0.0, -0.0, 0.5, -0.5, LIMIT, -LIMIT]),
        _ => rng.sign() * rng.scaled(-1022, widest),
    };
    (0..count).map(|_| each(rng)).collect()
}

fn random_table(figures: &mut Figures, case: u64, n: usize) {
    let mut rng = Rng::of_case(1, case);
    let values = entries(&mut rng, n * n);
    let place = |(k, entry): (usize, f64)| if k / n > k % n { entry } else { unread(&mut rng) };
    let mu: Vec<f64> = values.into_iter().enumerate().map(place).collect();
    figures.feed_table(n, &mu);
}

#[test]
fn random_tables() {
    let mut figures = Figures::default();
    for case in 0..24_000 {
        random_table(&mut figures, case, case as usize % 24);
    }
    println!("random tables: {figures}");
}

#[test]
fn large_tables() {
    let mut figures = Figures::default();
    for n in LARGEST_N + 1..=LARGEST_SEARCHED {
        for case in 0..10 {
            random_table(&mut figures, 100_000 + 100 * n as u64 + case, n);
        }
    }
    println!("large tables: {figures}");
}

/// Lists that no table has: any rising indices, up to the largest.
#[test]
fn rising_indices() {
    let mut figures = Figures::default();
    for case in 0..200_000 {
        let mut rng = Rng::of_case(2, case);
        let count = if rng.once_in(20) { rng.below(600) } else { rng.below(24) };
        let width = rng.below(64) as u32;
        let mut indices: Vec<usize> = (0..count).map(|_| (rng.bits() >> width) as usize).collect();
        if rng.once_in(10) {
            indices.push(usize::MAX);
        }
        indices.sort_unstable();
        indices.dedup();
        let values = entries(&mut rng, indices.len());
        let list: Vec<Entry> = indices.into_iter().zip(values).collect();
        figures.feed(&list, |_, _| ());
    }
    println!("rising indices: {figures}");
}

/// The rule for one entry. A verdict that can't be a list's, in its number or its index, is handed in like any other.
fn ruled((number, at): Verdict, (index, entry): Entry) -> Verdict {
    match number {
        0 | 4 if !entry.is_finite() => (3, index as u64),
        0 if entry.abs() > LIMIT => (4, index as u64),
        0 => CLEAN,
        _ => (number, at),
    }
}

#[test]
fn states() {
    // Numbers whose low bytes are 0, 3 or 4 too.
    let large = [255, 256, 259, 260, 0x1_0003, 0x1_0004, 0x8000_0000, 0x8000_0003, 0x8000_0004, u32::MAX - 1, u32::MAX];
    let mut figures = [0u64; 4];
    for number in (0..=40).chain(large) {
        for at in [0, 1, 7, 1 << 32, 1 << 63, u64::MAX] {
            for index in [0, 5, 1 << 63, usize::MAX] {
                for entry in EXTREMES.map(f64::from_bits) {
                    let (before, entry) = ((number, at), (index, entry));
                    let after = ruled(before, entry);
                    assert_eq!(port(before, entry), after, "{before:?} {entry:?}");
                    figures[[0, 3, 4].iter().position(|number| *number == after.0).unwrap_or(3)] += 1;
                }
            }
        }
    }
    let [clean, nonfinite, range, other] = figures;
    let all = clean + nonfinite + range + other;
    println!("states: {all} calls; 0: {clean}, 3: {nonfinite}, 4: {range}, another number: {other}");
}
