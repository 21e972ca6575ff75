//! Short cases from 24 dimensions on, where the centres run: the checks' edges, inputs that tell the walk from others, ties,
//! coordinates at the ends of i64, weights at the ends of the doubles, and lists around the port's private arrays.

use super::{Visit, budgets, sound, special, spoil, triples, with_neighbours};
use crate::case::{Call, Case};
use crate::paper::{self, LARGEST_N, LARGEST_SEARCHED, LIMIT, MOST_NODES, MOST_PLACES};
use crate::reach::{points, reach};
use crate::values::SMALLEST;

const FIRST: usize = LARGEST_N + 1;
const LAST: usize = LARGEST_SEARCHED;

const SEARCHES: [Call; 2] = [Call::Nearest, Call::List];

pub fn cases(visit: Visit) {
    checks(visit);
    call_values(visit);
    lengths(visit);
    list_sizes(visit);
    told_apart(visit);
    ties(visit);
    at_the_ends(visit);
    walked_to_the_ends(visit);
    dense(visit);
    two_tests(visit);
    infinite_sums(visit);
    largest_weights(visit);
    smallest_weights(visit);
    long_lists(visit);
}

/// A coordinate's value.
pub type At = (usize, f64);

/// Entries mu by row and column, and targets; everything else is 0.
#[derive(Clone, Copy)]
pub struct Input {
    pub mu: &'static [(usize, usize, f64)],
    pub target: &'static [At],
    pub radius: f64,
}

impl Input {
    /// The input in so many dimensions, with weights 1. What is not read of mu is a NaN.
    #[must_use]
    pub fn case(&self, call: Call, n: usize) -> Case {
        let mut case = flat(call, n, self.target, self.radius);
        for &(row, column, x) in self.mu {
            case.mu[row * n + column] = x;
        }
        case
    }
}

/// Weights 1, these targets and else zeros; what is not read of mu is a NaN.
fn flat(call: Call, n: usize, targets: &[At], radius: f64) -> Case {
    let mu: Vec<f64> = (0..n * n).map(|k| if k / n > k % n { 0.0 } else { f64::NAN }).collect();
    let mut target = vec![0.0; n];
    for &(level, t) in targets {
        target[level] = t;
    }
    Case::new(call, &vec![1.0; n], &mu, &target, radius, MOST_NODES)
}

// ---- checks

fn checks(visit: Visit) {
    for (n, call) in [FIRST, LAST].into_iter().flat_map(|n| SEARCHES.map(|call| (n, call))) {
        // The first and the last entry that is read, others of the first column and the last row, and unread ones.
        let entries = [n, n * n - 2, n * n - n, 2 * n + 1, 0, 1, n - 1, n * n - 1];
        let sound = || Case { budget: 20, ..sound(call, n) };
        for x in special() {
            for k in entries {
                let mut case = sound();
                case.mu[k] = x;
                visit(case);
            }
            for level in [0, n - 1] {
                let (mut weighted, mut aimed) = (sound(), sound());
                weighted.weights[level] = x;
                aimed.target[level] = x;
                visit(weighted);
                visit(aimed);
            }
        }
        for (j, k) in entries.into_iter().flat_map(|j| entries.map(|k| (j, k))) {
            for (x, y) in [(f64::NAN, 2.0 * LIMIT), (2.0 * LIMIT, f64::INFINITY)] {
                let mut case = sound();
                (case.mu[j], case.mu[k]) = (x, y);
                case.weights[n / 2] = -1.0;
                visit(case);
            }
        }
    }
}

fn call_values(visit: Visit) {
    for (n, call) in [FIRST, LAST].into_iter().flat_map(|n| SEARCHES.map(|call| (n, call))) {
        for radius in special() {
            for budget in [0, 1, n as u64, 300, MOST_NODES, MOST_NODES + 1, u64::MAX] {
                // Where the ball is wide, only a small budget ends the walk.
                let budget = if radius > 1.0 && budget == MOST_NODES { 300 } else { budget };
                visit(Case { radius, budget, ..sound(call, n) });
                visit(Case { radius, ..flat(call, n, &[(n - 1, 1.0)], 0.0) }.with_budget(budget));
            }
        }
    }
}

fn lengths(visit: Visit) {
    for (n, call) in [FIRST, LAST].into_iter().flat_map(|n| SEARCHES.map(|call| (n, call))) {
        let around = [0, LARGEST_N, n - 1, n, n + 1];
        for (target, places) in around.into_iter().flat_map(|t| around.map(|p| (t, p))) {
            for faulty in 0..8 {
                let mut case = sound(call, n);
                case.target.resize(target, 0.5);
                case = if call == Call::List { case.with_places(places) } else { Case { places, ..case } };
                spoil(&mut case, faulty);
                visit(case);
            }
        }
    }
}

fn list_sizes(visit: Visit) {
    for n in [FIRST, LAST] {
        for places in [0, 1, 20, MOST_PLACES, MOST_PLACES + 1] {
            let exact = n * places;
            for points in [exact, exact + 1, exact.saturating_sub(1), exact + n, LARGEST_N * places] {
                for faulty in [0, 1, 2, 4] {
                    let mut case = Case { places, points, ..sound(Call::List, n) };
                    spoil(&mut case, faulty);
                    visit(case);
                }
            }
        }
    }
}

// ---- other walks

const THIRD: f64 = 1.0 / 3.0;
/// 2^51 + 0.5
const HALF_WAY: f64 = 2_251_799_813_685_248.5;

/// Inputs at which a walk that looks right has another count or list; `tests/running.rs` says which walk each.
pub const TOLD_APART: [Input; 11] = [
    Input { mu: &[(1, 0, 0.1)], target: &[(0, 0.3), (1, 1_099_511_627_776.0)], radius: 0.09 },
    Input {
        mu: &[(1, 0, 1.0 / 1024.0), (2, 1, 281_474_976_710_656.0), (3, 2, 4096.0)],
        target: &[(3, 0.25)],
        radius: 0.0625,
    },
    Input { mu: &[(1, 0, 0.3)], target: &[(1, HALF_WAY), (2, 0.25), (4, 0.25)], radius: 0.5 },
    Input {
        mu: &[(1, 0, THIRD), (4, 1, 0.1)],
        target: &[(0, 1_048_576.1), (1, HALF_WAY), (2, 0.25), (3, 0.5)],
        radius: 2.0,
    },
    Input { mu: &[(1, 0, -0.3), (2, 0, THIRD)], target: &[(0, 1_048_576.1), (1, 0.5), (2, LIMIT - 1.0)], radius: 0.75 },
    Input { mu: &[(3, 2, THIRD)], target: &[(2, 0.3), (3, HALF_WAY)], radius: 0.25 },
    Input { mu: &[(1, 0, 0.3)], target: &[(1, HALF_WAY)], radius: 0.75 },
    Input { mu: &[(1, 0, 0.3)], target: &[(1, LIMIT - 1.0), (2, 0.3)], radius: 0.09 },
    Input { mu: &[(1, 0, 4096.0), (2, 0, 0.3)], target: &[(2, 0.5)], radius: 2.0 },
    Input { mu: &[(1, 0, 0.1), (2, 1, 3.0)], target: &[(0, HALF_WAY), (2, -0.5)], radius: 0.5 },
    Input { mu: &[(1, 0, 3.0)], target: &[(0, LIMIT - 1.0), (1, -0.5)], radius: 0.5 },
];

/// Each with every budget, and with radii beside its own; those of more than a few nodes with some budgets.
fn told_apart(visit: Visit) {
    for (input, n) in TOLD_APART.iter().flat_map(|input| [FIRST, 25, 40, LAST].map(|n| (input, n))) {
        budgets(&input.case(Call::Nearest, n), 250, visit);
        for radius in with_neighbours(&[input.radius]).into_iter().chain([0.0, -0.0, input.radius / 2.0]) {
            for call in SEARCHES {
                around(&Case { radius, ..input.case(call, n) }, 2_000, visit);
            }
        }
    }
}

/// A search with budgets around its count, a list also with places around its points; up to `most` nodes.
fn around(case: &Case, most: u64, visit: Visit) {
    let count = reach(case, most);
    let some = count.map_or(vec![most / 7, most], |k| vec![0, k.saturating_sub(1), k, MOST_NODES]);
    for budget in some {
        let case = case.clone().with_budget(budget);
        if case.call != Call::List {
            visit(case);
            continue;
        }
        let found = points(&case, budget.min(most));
        for places in [found.saturating_sub(1), found, found + 1] {
            visit(case.clone().with_places(places.min(MOST_PLACES)));
        }
    }
}

// ---- ties

/// Up to 32 vectors at one distance: halves at the lowest levels, the highest, or spread over all.
fn ties(visit: Visit) {
    for (n, halves) in [FIRST, LAST].into_iter().flat_map(|n| [1, 2, 3, 5].map(|k| (n, k))) {
        let spread = |k: usize| k * (n - 1) / halves;
        let places: [&dyn Fn(usize) -> usize; 3] = [&|k| k, &|k| n - 1 - k, &spread];
        for (place, entry) in places.into_iter().flat_map(|p| [0.0, -2.0, 0.5].map(|e| (p, e))) {
            for half in [0.5, -0.5] {
                let targets: Vec<At> = (0..halves).map(|k| (place(k), half)).collect();
                let exact = halves as f64 * 0.25;
                for radius in [exact.next_down(), exact, exact + 0.5] {
                    for call in SEARCHES {
                        let mut case = flat(call, n, &targets, radius);
                        // A row of the triangle, and an entry beside the diagonal, with this entry.
                        for column in 0..halves {
                            case.mu[halves * n + column] = entry;
                        }
                        case.mu[(n - 1) * n + n - 2] = entry;
                        around(&case, 600, visit);
                    }
                }
            }
        }
    }
}

// ---- coordinates and centres at the ends

/// A residual at one level, times mu at the next two: the third has a centre up to 2^103. Its integer, or the end of i64 in
/// its place, moves every centre below, where weights are as small.
fn at_the_ends(visit: Visit) {
    for (n, power) in [FIRST, LAST].into_iter().flat_map(|n| [0, 30, 32, 52].map(|p| (n, p))) {
        let entry = 2f64.powi(power);
        for (top, below) in [3, n / 2, n - 1].into_iter().flat_map(|t| [0.1, LIMIT, -LIMIT, 0.0].map(|b| (t, b))) {
            for (small, radius) in [(1.0, 0.25), (1.0, 1.5), (SMALLEST, 0.5), (1e-250, 1.0), (SMALLEST, f64::MAX)] {
                for (sign, call) in [1.0, -1.0].into_iter().flat_map(|s| SEARCHES.map(|call| (s, call))) {
                    let mut case = third(call, n, top, entry, radius);
                    case.mu[(top - 1) * n + top - 2] *= sign;
                    case.weights[..top - 1].fill(small);
                    case.mu[(top - 2) * n..][..top - 2].fill(below);
                    stopped(&case, visit);
                }
            }
        }
    }
}

/// A half at level `top`, and the entry below it and below that one.
fn third(call: Call, n: usize, top: usize, entry: f64, radius: f64) -> Case {
    let mut case = flat(call, n, &[(top, 0.5)], radius);
    case.mu[top * n + top - 1] = entry;
    case.mu[(top - 1) * n + top - 2] = entry;
    case
}

/// Centres at and beside 2^61 to 2^65 on both sides, walked to the end: up to 1,024 integers have one double, and the steps
/// from one to the next are 0 or 1,024 as doubles.
fn walked_to_the_ends(visit: Visit) {
    for (n, entry) in [FIRST, LAST].into_iter().flat_map(|n| [31, 32, 33].map(|p| (n, 2f64.powi(p)))) {
        for (top, beside) in [2, 3].into_iter().flat_map(|t| [0.0, -2048.0].map(|b| (t, b))) {
            for (sign, call) in [1.0, -1.0].into_iter().flat_map(|s| SEARCHES.map(|call| (s, call))) {
                let mut case = third(call, n, top, entry, 0.25);
                case.mu[(top - 1) * n + top - 2] *= sign;
                case.mu[top * n + top - 2] = beside;
                // A step of 1,024 moves the centre below it by 1.
                if top == 3 {
                    case.mu[n] = 1.0 / 1024.0;
                }
                around(&case, 4_000, visit);
            }
        }
    }
}

/// With a few budgets that stop the walk, on its way down to the first leaf and behind it.
fn stopped(case: &Case, visit: Visit) {
    let n = case.weights.len();
    let case = if case.call == Call::List { case.clone().with_places(200) } else { case.clone() };
    for budget in [n - 1, n + 2, 200] {
        visit(case.clone().with_budget(budget as u64));
    }
}

/// Every entry and every target at the limits: sums and changes of 2^104 that cancel, and what is lost by them.
fn dense(visit: Visit) {
    let entries = [LIMIT, -LIMIT, LIMIT - 0.5, 0.1];
    for n in [FIRST, 33, LAST] {
        for (k, weight) in (0..8).flat_map(|k| [1.0, SMALLEST, 1e-60, 1e300].map(|w| (k, w))) {
            let entry = |i: usize| if i / n > i % n { entries[(i + k * i / n) % 4] } else { -1e300 };
            let mu: Vec<f64> = (0..n * n).map(entry).collect();
            let target: Vec<f64> = (0..n).map(|i| [LIMIT, -LIMIT, 0.5, LIMIT - 1.0, 0.3][(i * (k + 1)) % 5]).collect();
            for (radius, call) in [0.0, -0.0, 1.0, f64::MAX].into_iter().flat_map(|r| SEARCHES.map(|c| (r, c))) {
                stopped(&Case::new(call, &vec![weight; n], &mu, &target, radius, 0), visit);
            }
        }
    }
}

// ---- weights at the ends

/// Terms a few last places from 1, above a partial sum of halves of a last place: there the two tests of a child part.
fn two_tests(visit: Visit) {
    let ulp = f64::EPSILON;
    for (n, (i, j, k)) in [FIRST, LAST].into_iter().flat_map(|n| triples(4).map(move |t| (n, t))) {
        let (low, high) = (n / 3, n - 2);
        for (target, call) in [0.5, -1.5].into_iter().flat_map(|t| SEARCHES.map(|call| (t, call))) {
            let mut case = flat(call, n, &[(low, target), (high, 0.5)], 1.0 + k as f64 * ulp);
            case.weights.fill(2f64.powi(60));
            case.weights[low] = 4.0 * (1.0 + i as f64 * ulp);
            case.weights[high] = (j + 1) as f64 * 2.0 * ulp;
            around(&case, 600, visit);
        }
    }
}

/// The same at the largest double: at level 0 a step has a term some last places below it, and the partial sum above it is of
/// eighths of a last place. With twelve a step passes the first test, and the sum rounds to infinity.
#[must_use]
pub fn infinite_sum(call: Call, n: usize, eighths: u32, step: usize, radius: usize) -> Case {
    let below = |places: usize| f64::from_bits(f64::MAX.to_bits() - places as u64);
    let mut case = flat(call, n, &[(1, 2f64.powi(-26))], below(radius));
    case.weights.fill(f64::MAX);
    case.weights[0] = below(step);
    // The square of the target is 2^-52, and a last place 2^971.
    case.weights[1] = f64::from(eighths) * 2f64.powi(1020);
    case
}

fn infinite_sums(visit: Visit) {
    for (eighths, step) in (1..=16).flat_map(|eighths| (0..3).map(move |step| (eighths, step))) {
        for (radius, call) in [0, 1].into_iter().flat_map(|r| SEARCHES.map(|call| (r, call))) {
            around(&infinite_sum(call, FIRST, eighths, step, radius), 600, visit);
        }
    }
    around(&infinite_sum(Call::List, LAST, 12, 1, 0), 4_000, visit);
}

/// Halves under weights at the largest double: four have it as their distance, and the sum of five is infinite.
fn largest_weights(visit: Visit) {
    for (n, halves) in [FIRST, LAST].into_iter().flat_map(|n| (2..7).map(move |k| (n, k))) {
        for places in [0, 1, 2, 5, 70] {
            let weight = f64::from_bits(f64::MAX.to_bits() - places);
            for radius in [weight, weight.next_down(), f64::MAX, 1.0] {
                for call in SEARCHES {
                    let targets: Vec<At> = (0..halves).map(|k| (k * (n / halves), 0.5)).collect();
                    let case = Case { weights: vec![weight; n], ..flat(call, n, &targets, radius) };
                    around(&case, 600, visit);
                }
            }
        }
    }
}

/// Weights so small that terms round to 0: vectors at distance 0 besides the target, also at a radius of 0.
fn smallest_weights(visit: Visit) {
    for n in [FIRST, LAST] {
        for weight in [SMALLEST, 3.0 * SMALLEST, f64::MIN_POSITIVE, 1e-300] {
            for radius in [0.0, -0.0, SMALLEST, 2.0 * SMALLEST, weight] {
                for (halves, call) in (0..5).flat_map(|k| SEARCHES.map(|call| (k, call))) {
                    let targets: Vec<At> = (0..halves).map(|k| (k * 5, [0.5, -0.5, 0.25][k % 3])).collect();
                    let mut case = Case { weights: vec![1.0; n], ..flat(call, n, &targets, radius) };
                    (0..halves).for_each(|k| case.weights[k * 5] = weight);
                    around(&case, 600, visit);
                }
            }
        }
    }
}

// ---- lists

/// The coordinates that the port's longest private array holds: a list of more points than that is walked again.
pub const PRIVATE: usize = MOST_PLACES * LARGEST_N;

/// A list of so many points at level 0, in zigzag order; above it each level has one integer.
#[must_use]
pub fn row_of(n: usize, count: usize) -> Case {
    let half = if count.is_multiple_of(2) { 0.5 } else { 0.0 };
    let reach = (count - 1) as f64 / 2.0;
    let mut case = flat(Call::List, n, &[(0, half), (n - 1, 3.0)], reach * reach);
    case.weights[1..].fill(2f64.powi(60));
    case
}

/// About as many points at two levels, whose distances rise and fall along the walk, many of them equal.
#[must_use]
pub fn grid_of(n: usize, count: usize) -> Case {
    let mut case = flat(Call::List, n, &[(0, 0.25), (n - 1, 0.5)], count as f64 / std::f64::consts::PI);
    case.weights[1..n - 1].fill(2f64.powi(60));
    case.mu[(n - 1) * n] = 0.5;
    case
}

/// All vectors of zeros and ones at the lowest so many levels, at one distance.
#[must_use]
pub fn cube_of(n: usize, levels: usize) -> Case {
    let halves: Vec<At> = (0..levels).map(|level| (level, 0.5)).collect();
    let mut case = flat(Call::List, n, &halves, 0.25 * levels as f64);
    case.weights[levels..].fill(2f64.powi(60));
    case
}

/// Points and places around the lengths of the port's private arrays: 256 places; 32,768 and 94,208 coordinates.
fn long_lists(visit: Visit) {
    for n in [FIRST, LAST] {
        let rows = PRIVATE / n;
        for count in [256, 257, 32_768 / n, 32_768 / n + 1, rows - 1, rows, rows + 1, MOST_PLACES, MOST_PLACES + 1] {
            for places in [count - 1, count, MOST_PLACES] {
                visit(row_of(n, count).with_places(places.min(MOST_PLACES)));
            }
        }
        // With places for more than the array holds, and few points or none, or a budget that does not suffice.
        let nodes = paper::listed_nodes(&row_of(n, rows + 1), 100_000).unwrap_or(0);
        for (count, budget) in [(1, MOST_NODES), (2, MOST_NODES), (rows + 1, nodes), (rows + 1, nodes - 1), (rows, 9)] {
            for places in [rows, rows + 1, MOST_PLACES] {
                visit(row_of(n, count).with_budget(budget).with_places(places));
            }
        }
        visit(Case { radius: 0.0, ..row_of(n, 2) }.with_places(MOST_PLACES));
    }
    let rows = PRIVATE / LAST;
    for case in [grid_of(LAST, rows - 20), grid_of(LAST, rows + 100), cube_of(LAST, 11), cube_of(FIRST, 12)] {
        let found = points(&case, 200_000);
        for places in [found - 1, found, rows, rows + 1, MOST_PLACES] {
            visit(case.clone().with_places(places));
        }
    }
}
