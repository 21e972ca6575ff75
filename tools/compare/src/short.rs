//! Short cases, exhaustively around each boundary: every check's edge, small grids at n = 0, 1 and 2, and from 24 dimensions
//! on what the running centres come upon.

mod prepared;
pub mod running;

use crate::case::{CALLS, Call, Case};
use crate::paper::{self, LARGEST_N, LARGEST_SEARCHED, LIMIT, MOST_NODES, MOST_PLACES};
use crate::reach::{points, reach};
use crate::values::SMALLEST;

/// Takes the cases one after the other.
pub type Visit<'a> = &'a mut dyn FnMut(Case);

/// Every short case, always in this order.
pub fn cases(visit: Visit) {
    roundings(visit);
    table_sizes(visit);
    table_values(visit);
    lengths(visit);
    call_values(visit);
    list_sizes(visit);
    no_dimension(visit);
    one_dimension(visit);
    two_dimensions(visit);
    two_tests(visit);
    large_weights(visit);
    wide_centres(visit);
    long_lists(visit);
    list_orders(visit);
    prepared::cases(visit);
    running::cases(visit);
}

fn with_neighbours(values: &[f64]) -> Vec<f64> {
    values.iter().flat_map(|&x| [x.next_down(), x, x.next_up()]).collect()
}

/// The ends of the doubles, the limit with its neighbours, and NaNs of both kinds and signs.
fn special() -> Vec<f64> {
    let mut list = with_neighbours(&[0.0, 0.5, 1.0, LIMIT, 2.0 * LIMIT, f64::MAX, f64::MIN_POSITIVE, 2f64.powi(63)]);
    list.extend(list.clone().iter().map(|x| -x));
    let nans = [0x7ff8_0000_0000_0000, 0xfff8_0000_0000_0123, 0x7ff0_0000_0000_0001, 0xfff0_0000_0dea_d000];
    list.extend(nans.map(f64::from_bits));
    list
}

// ---- rounding

fn roundings(visit: Visit) {
    let mut values = special();
    for exponent in 0..2048u64 {
        for digits in [0, 1, 1 << 51, (1 << 51) - 1, (1 << 51) + 1, (1 << 52) - 1] {
            values.push(f64::from_bits((exponent << 52) | digits));
        }
    }
    let halves: Vec<f64> = (0..1000).map(|k| f64::from(k) / 2.0).collect();
    let powers = (0..65).flat_map(|k| [-1.5, -1.0, -0.5, 0.0, 0.5, 1.0, 1.5].map(|d| 2f64.powi(k) + d));
    values.extend(with_neighbours(&halves));
    values.extend(with_neighbours(&powers.collect::<Vec<_>>()));
    for x in values {
        for x in [x, -x] {
            visit(Case::new(Call::RoundAway, &[], &[], &[x], 0.0, 0));
            for n in 1..3 {
                let coefficients = if n == 1 { vec![x] } else { vec![0.5, x] };
                visit(round(&coefficients, n));
            }
        }
    }
    for n in 0..6 {
        for places in 0..6 {
            visit(round(&vec![2.5; n], places));
            visit(round(&vec![f64::NAN; n], places));
        }
    }
}

fn round(coefficients: &[f64], places: usize) -> Case {
    Case::new(Call::Round, &[], &[], coefficients, 0.0, 0).with_places(places)
}

// ---- checks

fn table_calls() -> impl Iterator<Item = Call> {
    CALLS.into_iter().filter(|call| call.takes_table())
}

/// A case of n dimensions that passes its checks: B's kind of table, a radius of 4 and room for its points.
fn sound(call: Call, n: usize) -> Case {
    let target: Vec<f64> = (0..n).map(|i| 0.25 * i as f64).collect();
    let case = Case::new(call, &vec![4.0; n], &vec![0.0; n * n], &target, 4.0, 50);
    if call == Call::List { case.with_places(20) } else { case }
}

fn table_sizes(visit: Visit) {
    for call in table_calls() {
        for n in (0..4).chain(LARGEST_N - 1..LARGEST_N + 4).chain(LARGEST_SEARCHED - 1..LARGEST_SEARCHED + 3) {
            for entries in (n * n).saturating_sub(2)..n * n + 3 {
                for wrong in [false, true] {
                    let mut case = sound(call, n);
                    case.budget = 20;
                    case.mu.resize(entries, if wrong { f64::NAN } else { 0.0 });
                    visit(case);
                }
            }
        }
    }
}

/// Each special double at each place of a table, and each pair of faults.
fn table_values(visit: Visit) {
    for call in table_calls() {
        for n in 1..4 {
            for x in special() {
                for k in 0..n * n + n {
                    let mut case = sound(call, n);
                    case.budget = 20;
                    *entry(&mut case, k) = x;
                    visit(case);
                }
            }
            for (j, k) in (0..n * n + n).flat_map(|j| (0..n * n + n).map(move |k| (j, k))) {
                for (x, y) in [(f64::NAN, 2.0 * LIMIT), (2.0 * LIMIT, -1.0), (f64::INFINITY, 0.0), (0.0, -0.0)] {
                    let mut case = sound(call, n);
                    case.budget = 20;
                    *entry(&mut case, j) = x;
                    *entry(&mut case, k) = y;
                    visit(case);
                }
            }
        }
    }
}

fn entry(case: &mut Case, k: usize) -> &mut f64 {
    let n = case.weights.len();
    if k < n { &mut case.weights[k] } else { &mut case.mu[k - n] }
}

/// Every combination of lengths up to n+2, beside a sound and a faulty target, radius and budget.
fn lengths(visit: Visit) {
    for call in table_calls() {
        for n in 0..4 {
            for (target, places, candidate) in triples(n + 3) {
                for faulty in 0..8 {
                    let mut case = sound(call, n);
                    case.target.resize(target, 0.5);
                    case.candidate.resize(candidate, 0);
                    if call == Call::List {
                        case.points = places * n + candidate.saturating_sub(n);
                    }
                    case.places = places;
                    spoil(&mut case, faulty);
                    visit(case);
                }
            }
        }
    }
}

fn triples(below: usize) -> impl Iterator<Item = (usize, usize, usize)> {
    (0..below * below * below).map(move |k| (k % below, k / below % below, k / below / below))
}

/// By its three bits: a target that is not finite, a negative radius, a budget too large.
fn spoil(case: &mut Case, faulty: u32) {
    if faulty & 1 != 0
        && let Some(last) = case.target.last_mut()
    {
        *last = f64::NAN;
    }
    if faulty & 2 != 0 {
        case.radius = -1.0;
    }
    if faulty & 4 != 0 {
        case.budget = MOST_NODES + 1;
    }
}

fn call_values(visit: Visit) {
    let budgets = [0, 1, MOST_NODES - 1, MOST_NODES, MOST_NODES + 1, 1 << 61, 1 << 63, u64::MAX];
    for call in table_calls() {
        for n in 1..3 {
            for (k, x) in (0..n).flat_map(|k| special().into_iter().map(move |x| (k, x))) {
                for faulty in 0..8 {
                    let mut case = sound(call, n);
                    case.target[k] = x;
                    spoil(&mut case, faulty & 6);
                    case.candidate = paper::plane(&case.mu, &mut case.target.clone());
                    case.candidate.truncate(if faulty & 1 == 0 { n } else { 0 });
                    visit(case);
                }
            }
            for radius in special() {
                for (budget, candidate) in budgets.into_iter().flat_map(|b| [0, 1, n].map(|c| (b, c))) {
                    let mut case = sound(call, n);
                    // Where the ball is wide, only a small budget ends the walk.
                    case.budget = if radius > 100.0 && budget <= MOST_NODES { budget.min(60) } else { budget };
                    case.radius = radius;
                    case.candidate.truncate(candidate);
                    visit(case);
                }
            }
        }
    }
}

fn list_sizes(visit: Visit) {
    for n in 0..4 {
        let sizes = (0..n + 4).chain([MOST_PLACES - 1, MOST_PLACES, MOST_PLACES + 1, MOST_PLACES + 2]);
        for places in sizes {
            for points in [n * places, n * places + 1, (n * places).saturating_sub(1), 0, places] {
                for faulty in 0..8 {
                    let mut case = sound(Call::List, n).with_places(places);
                    case.points = points;
                    spoil(&mut case, faulty);
                    visit(case);
                }
            }
        }
    }
}

// ---- grids

/// A search with every budget from 0 to two above its count, or to `most`.
fn budgets(case: &Case, most: u64, visit: Visit) {
    let last = reach(case, most).map_or(most, |nodes| nodes + 2);
    for budget in 0..=last {
        let mut case = case.clone();
        case.budget = budget;
        visit(case);
    }
}

/// A list with its count as budget, one less and one more, and places from none to one above its points.
fn lists(case: &Case, visit: Visit) {
    let most = 60;
    let count = reach(case, most).unwrap_or(most);
    for budget in count.saturating_sub(1)..=count + 1 {
        let found = points(case, budget);
        for places in [0, found.saturating_sub(1), found, found + 1] {
            let mut case = case.clone().with_places(places);
            case.budget = budget;
            visit(case);
        }
    }
}

fn no_dimension(visit: Visit) {
    for call in table_calls() {
        for radius in special() {
            for budget in [0, 1, MOST_NODES, MOST_NODES + 1] {
                for places in 0..3 {
                    visit(Case::new(call, &[], &[], &[], radius, budget).with_places(places));
                }
            }
        }
    }
}

/// The distances of the points near the target, with their neighbours, and both zeros.
fn radii(weights: &[f64], mu: &[f64], target: &[f64], near: &[Vec<i64>]) -> Vec<f64> {
    let distances: Vec<f64> = near.iter().map(|z| paper::distance(weights, mu, target, z)).collect();
    let mut list = with_neighbours(&distances);
    list.extend([0.0, -0.0]);
    list.retain(|r| r.is_finite() && *r >= 0.0);
    list.sort_by(f64::total_cmp);
    list.dedup_by_key(|r| r.to_bits());
    list
}

fn one_dimension(visit: Visit) {
    let weights = [SMALLEST, 2.0 * f64::EPSILON, 0.25, 1.0, 3.0, 4.0, 1e300, f64::MAX];
    let mut targets: Vec<f64> = (-6..=6).map(|k| f64::from(k) / 4.0).collect();
    targets.extend([LIMIT, -LIMIT, LIMIT - 0.5, 0.5 - LIMIT, SMALLEST, -0.0, 0.5f64.next_down(), 1e15 + 0.5]);
    for (weight, target) in weights.iter().flat_map(|w| targets.iter().map(move |t| (*w, *t))) {
        let nearest = paper::round_away(target);
        let near: Vec<Vec<i64>> = (-3..=3).map(|k| vec![nearest + k]).collect();
        let case = |call, radius| Case::new(call, &[weight], &[f64::NAN], &[target], radius, 0);
        budgets(&case(Call::Ml, 0.0), 20, visit);
        let mut wide = radii(&[weight], &[0.0], &[target], &near);
        wide.extend([f64::MAX, f64::MAX / 2.0, 100.0]);
        for radius in wide {
            budgets(&case(Call::Nearest, radius), 20, visit);
            lists(&case(Call::List, radius), visit);
            for z in near.iter().chain([&vec![i64::MIN], &vec![i64::MAX], &vec![0]]) {
                budgets(&case(Call::Seeded, radius).with_candidate(z), 12, visit);
                visit(case(Call::Distance, radius).with_candidate(z));
            }
        }
        visit(case(Call::Plane, 0.0));
    }
}

fn two_dimensions(visit: Visit) {
    let weights = [2.0 * f64::EPSILON, 1.0, 4.0];
    // The last of each has digits without end, so that another order of operations rounds otherwise.
    let entries = [-0.5, 0.0, 0.25, 0.5, 1.0, 0.3];
    let targets = [-0.5, 0.0, 0.25, 0.5, 1.0, 0.7];
    let near: Vec<Vec<i64>> = (-1..=1).flat_map(|x| (-1..=1).map(move |y| vec![x, y])).collect();
    for k in 0..weights.len() * weights.len() * entries.len() * targets.len() * targets.len() {
        let (i, k) = (k % 3, k / 3);
        let (j, k) = (k % 3, k / 3);
        let (e, k) = (k % 6, k / 6);
        let w = [weights[i], weights[j]];
        let mu = [f64::NAN, f64::INFINITY, entries[e], 3.0 * LIMIT];
        let target = [targets[k % 6], targets[k / 6]];
        let case = |call, radius| Case::new(call, &w, &mu, &target, radius, 0);
        budgets(&case(Call::Ml, 0.0), 16, visit);
        visit(case(Call::Plane, 0.0));
        for (r, radius) in radii(&w, &mu, &target, &near).into_iter().enumerate() {
            budgets(&case(Call::Nearest, radius), 10, visit);
            lists(&case(Call::List, radius), visit);
            let z = &near[r % near.len()];
            budgets(&case(Call::Seeded, radius).with_candidate(z), 6, visit);
            visit(case(Call::Distance, radius).with_candidate(z));
        }
    }
}

/// Terms and radii a few last places from 1, under a partial sum of halves of a last place: where R - partial rounds,
/// the two tests of a child part, each way.
fn two_tests(visit: Visit) {
    let ulp = f64::EPSILON;
    for (i, j, k) in triples(9) {
        let weights = [4.0 * (1.0 + i as f64 * ulp), (j + 1) as f64 * 2.0 * ulp];
        let radius = 1.0 + k as f64 * ulp;
        for target in [[0.5, 0.5], [0.5, 0.0], [-1.5, 0.5]] {
            let case = |call| Case::new(call, &weights, &[0.0; 4], &target, radius, 0);
            budgets(&case(Call::Nearest), 12, visit);
            lists(&case(Call::List), visit);
            for z in [[0, 0], [-1, 1]] {
                budgets(&case(Call::Seeded).with_candidate(&z), 3, visit);
                visit(case(Call::Distance).with_candidate(&z));
            }
        }
    }
}

/// Weights at the largest double: a distance that overflows, and one whose widened radius does. Four halves under one
/// weight have that weight as distance.
fn large_weights(visit: Visit) {
    for n in 3..7 {
        for places in 0..80 {
            let weights = vec![f64::from_bits(f64::MAX.to_bits() - places); n];
            let case = |call, radius| Case::new(call, &weights, &vec![0.0; n * n], &vec![0.5; n], radius, 9);
            visit(case(Call::Ml, 0.0));
            for radius in [weights[0].next_down(), weights[0], weights[0].next_up(), f64::MAX] {
                visit(case(Call::Seeded, radius));
                visit(case(Call::Nearest, radius));
                visit(case(Call::List, radius));
            }
            visit(case(Call::Distance, 0.0));
        }
    }
}

/// Centres up to 2^103: from about 2^53 up several integers have one double, from 2^63 up the nearest is i64's end.
fn wide_centres(visit: Visit) {
    for power in 0..=52 {
        let entry = 2f64.powi(power);
        for (entry, half) in [(entry, 0.5), (-entry, 0.5), (entry, -0.5), (entry - 0.5, 0.25)] {
            // Below a residual of a half at level 2, level 1 is up to 2^51 off, and level 0 that times mu.
            let mu = [0.0, 0.0, 0.0, entry, 0.0, 0.0, 0.0, entry, 0.0];
            for weights in [[1.0; 3], [SMALLEST, 1.0, 1.0], [1e-200, 1e-30, 1.0], [SMALLEST; 3]] {
                for radius in [0.0, 0.25, 1.0, 1e30, 1e100, f64::MAX] {
                    let case = |call| Case::new(call, &weights, &mu, &[half, 0.0, half], radius, 0);
                    few_budgets(&case(Call::Nearest), visit);
                    few_budgets(&case(Call::Ml), visit);
                    few_budgets(&case(Call::List).with_places(300), visit);
                }
            }
        }
    }
    for power in 26..=33 {
        at_the_ends(2f64.powi(power), visit);
    }
}

fn few_budgets(case: &Case, visit: Visit) {
    for budget in [0, 1, 2, 3, 7, 40, 300] {
        visit(Case { budget, ..case.clone() });
    }
}

/// Last centres at and beside 2^51 to 2^65 on both sides, walked to the end: up to 1,024 integers have one double.
fn at_the_ends(entry: f64, visit: Visit) {
    for (beside, weight) in [0.0, 2048.0, -2048.0, 4096.0, -4096.0]
        .into_iter()
        .flat_map(|b| [1.0, 2f64.powi(-22), 2f64.powi(-24)].map(|w| (b, w)))
    {
        for (sign, radius) in [0.25, 0.5, 0.75].into_iter().flat_map(|r| [(1.0, r), (-1.0, r)]) {
            let mu = [0.0, 0.0, 0.0, sign * entry, 0.0, 0.0, beside, entry, 0.0];
            let case = |call| Case::new(call, &[weight, 1.0, 1.0], &mu, &[0.0, 0.0, 0.5], radius, MOST_NODES);
            for call in [Call::Nearest, Call::Seeded, Call::Ml, Call::Prepared, Call::List] {
                let z = paper::plane(&mu, &mut [0.0, 0.0, 0.5]);
                let case = case(call).with_candidate(&z);
                let count = reach(&case, 9_000);
                let budgets = count.map_or(vec![600, 9_000], |k| vec![k.saturating_sub(1), k, MOST_NODES]);
                let found = if call == Call::List { points(&case, 9_000) } else { 3 };
                for (budget, places) in budgets.into_iter().flat_map(|b| [(b, found), (b, found.saturating_sub(1))]) {
                    visit(Case { budget, ..case.clone().with_places(places.min(MOST_PLACES)) });
                }
            }
        }
    }
}

/// Lists around 256 and 4,096 points, and around as many places: there a call takes longer arrays, and there they end.
fn long_lists(visit: Visit) {
    for most in [256, 4096] {
        let half = most as f64 / 2.0 - 1.0;
        let far = [(0.0, half), (0.5, half + 0.5), (0.0, half + 1.0), (0.5, half + 1.5), (0.0, half + 553.0)];
        for (target, radius) in far {
            for places in [0, 1, 255, 256, 257, 4094, 4095, 4096] {
                for budget in [0, most - 2, most - 1, most, most + 1, most + 2, 10_000, MOST_NODES] {
                    let case = Case::new(Call::List, &[1.0], &[0.0], &[target], radius * radius, budget);
                    visit(case.with_places(places));
                }
            }
        }
    }
    for radius in [300.0, 1300.0, 1310.0, 1330.0] {
        for places in [255, 256, 257, 942, 4095, 4096] {
            let case = Case::new(Call::List, &[1.0, 1.0], &[0.0; 4], &[0.0, 0.25], radius, MOST_NODES);
            visit(case.with_places(places));
        }
    }
}

/// Lists with an order that is hard to make: many equal distances, distances over many powers of two, all beside the
/// radius or all far below it; the same subnormal and huge.
fn list_orders(visit: Visit) {
    let flat = 2f64.powi(-40);
    let shapes: [(&[f64], &[f64], f64); 10] = [
        (&[1.0; 3], &[0.0; 3], 90.0),
        (&[1.0; 3], &[0.5; 3], 90.0),
        (&[1.0; 3], &[0.5; 3], 2.7),
        (&[1.0; 4], &[0.0, 0.0, 0.5, 0.5], 27.0),
        (&[1.0, 2.0, 1.5], &[0.1, 0.2, 0.3], 110.0),
        (&[1.0, 1000.0], &[0.0, 0.0], 400_000.0),
        (&[flat, 1.0], &[0.25, 0.5], 0.25 + 600_000.0 * flat),
        (&[flat, flat, 1.0], &[0.25, 0.5, 0.5], 0.25 + 600.0 * flat),
        (&[1.0, flat], &[0.5, 0.0], 0.25 + 600_000.0 * flat),
        (&[1.0, 1.0], &[0.0, 0.0], 0.0),
    ];
    for (weights, target, radius) in shapes {
        for scale in [1.0, 2f64.powi(-1022), 2f64.powi(-1060), 2f64.powi(-1074), 2f64.powi(1000)] {
            for entry in [0.0, 0.25, -0.5] {
                list_order(weights, entry, target, radius, scale, visit);
            }
        }
    }
}

fn list_order(weights: &[f64], entry: f64, target: &[f64], radius: f64, scale: f64, visit: Visit) {
    let n = weights.len();
    let weights: Vec<f64> = weights.iter().map(|w| w * scale).collect();
    let mu: Vec<f64> = (0..n * n).map(|k| if k % n < k / n { entry } else { 0.0 }).collect();
    // A few shapes have far more points when their terms round to 0; their walks are stopped.
    let budget = 20_000;
    let case = Case::new(Call::List, &weights, &mu, target, radius * scale, budget);
    if weights.contains(&0.0) {
        return visit(case);
    }
    let found = points(&case, budget);
    for places in [found.saturating_sub(1), found, MOST_PLACES] {
        visit(case.clone().with_places(places.min(MOST_PLACES)));
    }
}
