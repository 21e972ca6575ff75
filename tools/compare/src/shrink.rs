//! The smallest case that still shows a difference: dimensions are dropped and values replaced by simpler ones.

use crate::case::{Call, Case};
use crate::matrices::Pair;
use crate::paper::runs;
use crate::reach::reach;
use std::time::{Duration, Instant};

/// Walks no longer than this are tried, so that a simpler radius does not open a ball without end.
pub const LONGEST: u64 = 5_000;

/// What is smallest after this time is printed.
pub const TIME: Duration = Duration::from_secs(20);

/// With many dimensions only so many numbers of each slice are made simpler one by one, the first that can be: a list of all
/// such cases would be long.
const FEW: usize = 24;

/// Simplest first.
const SIMPLE: [f64; 10] = [0.0, 1.0, 0.5, -0.5, -1.0, 2.0, 0.25, 1.5, 4.0, 100.0];

/// A case that `differs` and that no single change makes smaller, or as far as the time allows.
pub fn shrink(case: &Case, differs: &dyn Fn(&Case) -> bool) -> Case {
    let end = Instant::now() + TIME;
    let differs = &|case: &Case| affordable(case) && differs(case);
    let ample = ample(case, differs);
    // The budget and the places wait for the dimensions.
    let narrow = by_steps(&ample, &|case| smaller(case, false), end, differs);
    by_steps(&narrow, &|case| smaller(case, true), end, differs)
}

/// The case with a budget and places that leave room, if it still differs: tight ones would tie it to its dimensions.
fn ample(case: &Case, differs: &dyn Fn(&Case) -> bool) -> Case {
    let mut wide = case.clone();
    wide.budget = LONGEST;
    if case.call == Call::List && case.points == case.places * case.weights.len() {
        wide = wide.with_places(256);
    }
    if differs(&wide) { wide } else { case.clone() }
}

/// Goes round the changes, which `smaller` lists, until none of them helps.
pub fn by_steps<T: Clone>(whole: &T, smaller: &dyn Fn(&T) -> Vec<T>, end: Instant, differs: &dyn Fn(&T) -> bool) -> T {
    let mut smallest = whole.clone();
    let (mut place, mut failed) = (0, 0);
    let mut list = smaller(&smallest);
    while failed < list.len() && Instant::now() < end {
        let next = &list[place % list.len()];
        if differs(next) {
            smallest = next.clone();
            list = smaller(&smallest);
            failed = 0;
        } else {
            place += 1;
            failed += 1;
        }
    }
    smallest
}

/// Whether the case's walk is one that is tried.
#[must_use]
pub fn affordable(case: &Case) -> bool {
    case.budget <= LONGEST || reach(case, LONGEST).is_some()
}

/// Every case one step smaller; one with a smaller budget or fewer places only if `budgets` says so.
#[must_use]
pub fn smaller(case: &Case, budgets: bool) -> Vec<Case> {
    let n = case.weights.len();
    let mut list = Vec::new();
    if case.mu.len() == n * n && case.call.takes_table() {
        list.extend((0..n).map(|i| without(case, i)));
    }
    lengths(case, &mut list);
    // Dimensions fall once the matrices are simple.
    pairs(case, &mut list);
    if runs(case) {
        many_at_once(case, &mut list);
    }
    let few = if runs(case) { FEW } else { usize::MAX };
    list.extend(simpler(case.radius).into_iter().map(|radius| Case { radius, ..case.clone() }));
    if budgets {
        room(case, &mut list);
    }
    let mut doubles = |get: fn(&mut Case) -> &mut Vec<f64>| {
        let now = get(&mut case.clone()).clone();
        let places = (0..now.len()).map(|k| (k, simpler(now[k]))).filter(|(_, steps)| !steps.is_empty());
        for (k, x) in places.take(few).flat_map(|(k, steps)| steps.into_iter().map(move |x| (k, x))) {
            let mut c = case.clone();
            get(&mut c)[k] = x;
            list.push(c);
        }
    };
    doubles(|c| &mut c.target);
    doubles(|c| &mut c.mu);
    doubles(|c| &mut c.weights);
    let mut integers = |get: fn(&mut Case) -> &mut Vec<i64>| {
        for k in 0..get(&mut case.clone()).len() {
            for z in simpler_integers(get(&mut case.clone())[k]) {
                let mut c = case.clone();
                get(&mut c)[k] = z;
                list.push(c);
            }
        }
    };
    integers(|c| &mut c.candidate);
    integers(|c| &mut c.transform);
    integers(|c| &mut c.inverse);
    list
}

/// The case with a row, a column or all that is not read of mu set to 0, with the targets from a level up or down set to 0,
/// and with weights 1.
fn many_at_once(case: &Case, list: &mut Vec<Case>) {
    let n = case.weights.len();
    let mut add = |change: &dyn Fn(&mut Case)| {
        let mut c = case.clone();
        change(&mut c);
        let bits =
            |c: &Case| [&c.mu, &c.target, &c.weights].map(|list| list.iter().map(|x| x.to_bits()).collect::<Vec<_>>());
        if bits(&c) != bits(case) {
            list.push(c);
        }
    };
    let of_mu = |c: &mut Case, zero: &dyn Fn(usize, usize) -> bool| {
        c.mu.iter_mut().enumerate().filter(|(k, _)| zero(k / n, k % n)).for_each(|(_, x)| *x = 0.0);
    };
    add(&|c| of_mu(c, &|row, column| row <= column));
    add(&|c| of_mu(c, &|row, column| row > column));
    add(&|c| c.weights.fill(1.0));
    for level in 0..n {
        add(&|c| of_mu(c, &|row, column| row > column && row == level));
        add(&|c| of_mu(c, &|row, column| row > column && column == level));
    }
    for level in [n / 4, n / 2, 3 * n / 4].into_iter().filter(|level| *level < case.target.len()) {
        add(&|c| c.target[level..].fill(0.0));
        add(&|c| c.target[..level].fill(0.0));
    }
}

/// The case with other matrices, which are inverse to each other if its own are.
fn pairs(case: &Case, list: &mut Vec<Case>) {
    let n = case.weights.len();
    if !case.call.takes_matrices() || case.transform.len() != n * n || case.inverse.len() != n * n {
        return;
    }
    let pair = Pair { n, transform: case.transform.clone(), inverse: case.inverse.clone() };
    let mut add = |next: Pair, target: Vec<f64>| {
        if size(&next) < size(&pair) {
            list.push(Case { target, ..case.clone().with_pair(&next) });
        }
    };
    add(Pair::identity(n), case.target.clone());
    rows(&pair, &mut |next| add(next, case.target.clone()));
    columns(&pair, &case.target, &mut add);
}

/// A multiple of a row of the transform taken from another one, two exchanged, the signs of one changed.
fn rows(pair: &Pair, add: &mut dyn FnMut(Pair)) {
    let Pair { n, transform, inverse } = pair;
    let mut changed = |change: &dyn Fn(&mut Pair)| {
        let mut next = pair.clone();
        change(&mut next);
        add(next);
    };
    for (to, from) in (0..n * n).map(|k| (k / n, k % n)) {
        if to == from {
            changed(&|next| next.negate(to));
            continue;
        }
        changed(&|next| next.swap(to, from));
        // The whole quotient at once: a step by one would be taken as often as the quotient says.
        let above = |k: usize| transform[n * to + k].checked_div(transform[n * from + k]);
        let below = |k: usize| inverse[n * k + from].checked_div(inverse[n * k + to]).map(i64::saturating_neg);
        let mut factors: Vec<i64> = (0..*n).map(above).chain((0..*n).map(below)).flatten().collect();
        factors.sort_unstable();
        factors.dedup();
        for factor in factors.into_iter().map(i64::saturating_neg).filter(|factor| saves(pair, to, from, *factor)) {
            changed(&|next| _ = next.add(to, from, factor));
        }
    }
}

/// Whether the magnitudes are less in all once a multiple is added: so that not every multiple makes a pair.
fn saves(pair: &Pair, to: usize, from: usize, factor: i64) -> bool {
    let Pair { n, transform, inverse } = pair;
    let size = |factor: i128| -> u128 {
        let above = |k: usize| i128::from(transform[n * to + k]) + factor * i128::from(transform[n * from + k]);
        let below = |k: usize| i128::from(inverse[n * k + from]) - factor * i128::from(inverse[n * k + to]);
        let both = (0..*n).flat_map(|k| [above(k).unsigned_abs(), below(k).unsigned_abs()]);
        both.fold(0, u128::saturating_add)
    };
    size(factor.into()) < size(0)
}

/// Two columns of the transform exchanged or the signs of one changed, and the target with them: so the search stays.
fn columns(pair: &Pair, target: &[f64], add: &mut dyn FnMut(Pair, Vec<f64>)) {
    let n = pair.n.min(target.len());
    for (i, j) in (0..n).flat_map(|i| (i..n).map(move |j| (i, j))) {
        let (mut next, mut target) = (pair.clone().exchanged(), target.to_vec());
        if i == j {
            next.negate(i);
            target[i] = -target[i];
        } else {
            next.swap(i, j);
            target.swap(i, j);
        }
        add(next.exchanged(), target);
    }
}

/// The sum of the magnitudes, and how many entries are not the identity's.
fn size(pair: &Pair) -> (u128, usize) {
    let entries = pair.transform.iter().chain(&pair.inverse);
    let units = Pair::identity(pair.n).transform.repeat(2);
    let other = entries.clone().zip(&units).filter(|(z, unit)| z != unit).count();
    (entries.map(|z| u128::from(z.unsigned_abs())).sum(), other)
}

/// The case without coordinate `i`; lengths that were off stay off by as much.
fn without(case: &Case, i: usize) -> Case {
    let n = case.weights.len();
    let mut c = case.clone();
    c.weights.remove(i);
    let other = |k: &usize| k / n != i && k % n != i;
    c.mu = (0..n * n).filter(other).map(|k| case.mu[k]).collect();
    for matrix in [&mut c.transform, &mut c.inverse] {
        // What a matrix has too much it keeps.
        *matrix = (0..matrix.len()).filter(|k| *k >= n * n || other(k)).map(|k| matrix[k]).collect();
    }
    if i < c.target.len() {
        c.target.remove(i);
    }
    if i < c.candidate.len() {
        c.candidate.remove(i);
    }
    if c.call == Call::List {
        c.points = c.points.saturating_sub(c.places);
    } else {
        c.places = c.places.saturating_sub(1);
    }
    c
}

fn lengths(case: &Case, list: &mut Vec<Case>) {
    let n = case.weights.len();
    let mut add = |change: &dyn Fn(&mut Case)| {
        let mut c = case.clone();
        change(&mut c);
        list.push(c);
    };
    if case.call.takes_candidate() && case.candidate.len() > n {
        add(&|c| c.candidate.truncate(n));
    } else if !case.call.takes_candidate() && !case.candidate.is_empty() {
        add(&|c| c.candidate.clear());
    }
    if case.target.len() > n.max(1) {
        add(&|c| c.target.truncate(c.target.len() - 1));
    }
    if case.transform.len() > n * n {
        add(&|c| c.transform.truncate(n * n));
    }
    if case.inverse.len() > n * n {
        add(&|c| c.inverse.truncate(n * n));
    }
    if case.call != Call::List && case.places > n {
        add(&|c| c.places -= 1);
    }
}

/// A smaller budget, and fewer places for a list.
fn room(case: &Case, list: &mut Vec<Case>) {
    let budget = case.budget;
    let budgets = [0, budget / 2, budget - budget / 8, budget.saturating_sub(1)];
    list.extend(budgets.into_iter().filter(|b| *b < budget).map(|budget| Case { budget, ..case.clone() }));
    let places = [0, case.places / 2, case.places.saturating_sub(1)];
    let fewer = places.into_iter().filter(|p| case.call == Call::List && *p < case.places);
    list.extend(fewer.map(|places| case.clone().with_places(places)));
}

/// The simple doubles before `x`, and for any other all of them, its whole part and its first digits.
fn simpler(x: f64) -> Vec<f64> {
    if let Some(place) = SIMPLE.iter().position(|s| s.to_bits() == x.to_bits()) {
        return SIMPLE[..place].to_vec();
    }
    let digits = [52, 44, 32, 16, 8].map(|k| f64::from_bits(x.to_bits() >> k << k));
    let others = [x.trunc()].into_iter().chain(digits);
    SIMPLE.into_iter().chain(others.filter(|y| shorter(*y, x))).collect()
}

/// Fewer digits: so that shrinking ends.
fn shorter(y: f64, x: f64) -> bool {
    y.to_bits().trailing_zeros() > x.to_bits().trailing_zeros() && !y.is_nan()
}

fn simpler_integers(z: i64) -> Vec<i64> {
    [0, 1, -1, z / 2].into_iter().filter(|s| s.unsigned_abs() < z.unsigned_abs() || (*s > 0 && *s == -z)).collect()
}
