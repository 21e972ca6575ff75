//! From 24 dimensions on: inputs that tell the walk with running centres from walks that look like it, each with the answer of
//! the port and of the Rust, and with what the other walk comes to; where the promises of the smaller dimensions end; the
//! ends of i64 and of the doubles; lists that the port walks twice; answers that are nearly right; what the random cases
//! come upon; and a smallest case.

mod common;

use common::{answers, differs, exhausted, found, refused};
use compare::answer::{Answer, Report};
use compare::case::{CALLS, Call, Case};
use compare::expected::expected;
use compare::paper::running::{Anew, Centers, Running, Walked, walk};
use compare::paper::{self, LIMIT};
use compare::rng::Rng;
use compare::short::running::{Input, PRIVATE, TOLD_APART, cube_of, grid_of, infinite_sum, row_of};
use compare::shrink::shrink;
use compare::{Comparison, compare, random};
use std::collections::BTreeMap;

const N: usize = 24;
const LAST: usize = 64;

/// A vector of n integers, 0 but for these.
fn point(n: usize, coordinates: &[(usize, i64)]) -> Vec<i64> {
    let mut point = vec![0; n];
    coordinates.iter().for_each(|(k, z)| point[*k] = *z);
    point
}

/// Input k in 24 dimensions.
fn nearest(k: usize) -> Case {
    TOLD_APART[k].case(Call::Nearest, N).with_budget(10_000)
}

/// The same as a list with room for its points.
fn list(k: usize) -> Case {
    TOLD_APART[k].case(Call::List, N).with_budget(10_000).with_places(200)
}

/// The list has so many nodes and points, of the port and of the Rust.
fn listed(case: &Case, nodes: u64, points: u64) -> Answer {
    let Comparison { expected, difference, .. } = compare(case);
    assert!(difference.is_none(), "{case}");
    assert_eq!(expected.report, Report::whole(0, nodes, points), "{case}");
    expected
}

// ---- other walks

#[derive(Clone, Copy, PartialEq)]
enum Other {
    /// The first sums take the higher targets as they fall.
    Falling,
    /// Each first sum begins at 0, and its own target is added last.
    TargetLast,
    /// The first sums, or the changes, with products that are not rounded.
    FusedStart,
    FusedChange,
    /// The old integer less the new one exactly, and then as a double.
    Exact,
    /// old·mu - new·mu, its difference or each product added.
    Products,
    ProductByProduct,
    /// A coordinate becomes 0 again when its level is left, and the centres with it, or without them.
    Back,
    BackAlone,
    /// Centres and coordinates become again what they were when the level was entered: when it is left, or also before
    /// each of its children.
    Restored,
    Entry,
    /// The centres change only where the walk goes down.
    Descent,
}

struct OtherCenters<'a> {
    kind: Other,
    mu: &'a [f64],
    point: Vec<i64>,
    centers: Vec<f64>,
    waiting: Option<(usize, i64)>,
    saved: Vec<(Vec<i64>, Vec<f64>)>,
}

impl<'a> OtherCenters<'a> {
    fn new(kind: Other, mu: &'a [f64], target: &'a [f64]) -> Self {
        let n = target.len();
        let start = |level: usize| {
            let (own, above) = (target[level], level + 1..n);
            let product = |j: usize| target[j] * mu[j * n + level];
            match kind {
                Other::Falling => above.rev().fold(own, |c, j| c + product(j)),
                Other::TargetLast => above.fold(0.0, |c, j| c + product(j)) + own,
                Other::FusedStart => above.fold(own, |c, j| target[j].mul_add(mu[j * n + level], c)),
                _ => above.fold(own, |c, j| c + product(j)),
            }
        };
        let centers = (0..n).map(start).collect();
        Self { kind, mu, point: vec![0; n], centers, waiting: None, saved: Vec::new() }
    }

    fn change(&mut self, level: usize, z: i64) {
        let (n, old) = (self.point.len(), self.point[level]);
        if old == z {
            return;
        }
        let (from, to) = (old as f64, z as f64);
        let exact = (i128::from(old) - i128::from(z)) as f64;
        for (lower, c) in self.centers[..level].iter_mut().enumerate() {
            let mu = self.mu[level * n + lower];
            *c = match self.kind {
                Other::FusedChange => (from - to).mul_add(mu, *c),
                Other::Exact => *c + exact * mu,
                Other::Products => *c + (from * mu - to * mu),
                Other::ProductByProduct => *c + from * mu - to * mu,
                _ => *c + (from - to) * mu,
            };
        }
        self.point[level] = z;
    }

    fn change_waiting(&mut self) {
        if let Some((level, z)) = self.waiting.take() {
            self.change(level, z);
        }
    }
}

impl Centers for OtherCenters<'_> {
    fn at(&mut self, level: usize) -> f64 {
        self.change_waiting();
        self.saved.push((self.point.clone(), self.centers.clone()));
        self.centers[level]
    }

    fn moved(&mut self, level: usize, z: i64) {
        match self.kind {
            Other::Descent => self.waiting = Some((level, z)),
            Other::Entry => {
                (self.point, self.centers) = self.saved.last().unwrap().clone();
                self.change(level, z);
            }
            _ => self.change(level, z),
        }
    }

    fn left(&mut self, level: usize) {
        let entered = self.saved.pop().unwrap();
        match self.kind {
            Other::Back => self.change(level, 0),
            Other::BackAlone => self.point[level] = 0,
            Other::Restored | Other::Entry => (self.point, self.centers) = entered,
            _ => {}
        }
    }

    fn point(&mut self) -> &[i64] {
        self.change_waiting();
        &self.point
    }
}

fn walked(case: &Case, centers: impl Centers) -> Walked {
    walk(&case.weights, centers, case.radius, case.budget, case.call == Call::List)
}

fn other(case: &Case, kind: Other) -> Walked {
    walked(case, OtherCenters::new(kind, &case.mu, &case.target))
}

/// The other walk's nodes, and how many points it finds.
fn counts(case: &Case, kind: Other) -> (u64, usize) {
    let Walked { nodes, found, .. } = other(case, kind);
    (nodes, found.len())
}

/// mu[24] 0.1, target 0.3, 2^40; R 0.09. The first centre is 0.1·2^40 + 0.3, rounded, and then that less 0.1·2^40.
#[test]
fn recomputed_centers() {
    refused(&nearest(0), Report::double(16, 0.09));
    refused(&nearest(0).with_budget(22), exhausted(22, 0.09));
    answers(&list(0), Report::whole(0, 23, 0), &[], &[]);
    answers(&list(0).with_budget(23), Report::whole(0, 23, 0), &[], &[]);
    refused(&list(0).with_budget(22), exhausted(22, 0.09));
    // With centres made anew there is a point.
    let vector = point(N, &[(1, 1 << 40)]);
    for case in [nearest(0), list(0)] {
        let Walked { nodes, found, .. } = walked(&case, Anew::new(&case.mu, &case.target));
        assert_eq!((nodes, found), (24, vec![(0.09, vector.clone())]));
    }
    for n in [25, 40, LAST] {
        refused(&TOLD_APART[0].case(Call::Nearest, n), Report::double(16, 0.09));
        listed(&TOLD_APART[0].case(Call::List, n), n as u64 - 1, 0);
    }
}

/// mu[74] 2^12, mu[49] 2^48, mu[24] 2^-10, target[3] 0.25; R 0.0625. Coordinate 1 goes from -2^58 by ones, which as doubles
/// are steps of 0 or 64.
#[test]
fn difference_of_doubles() {
    found(&nearest(1), &point(N, &[(0, 1 << 48), (1, -(1 << 58) - 32), (2, 1024)]), 120, 0.0625);
    listed(&list(1), 120, 49);
    assert_eq!(counts(&nearest(1), Other::Exact), (112, 1));
    assert_eq!(counts(&list(1), Other::Exact), (112, 41));
}

/// mu[24] 0.3, target[1] 2^51+0.5, [2] 0.25, [4] 0.25; R 0.5. 0.3·2^51 is rounded to halves.
#[test]
fn difference_before_product() {
    let near = |z: i64| point(N, &[(1, z)]);
    found(&nearest(2), &near((1 << 51) + 1), 25, 0.390625);
    let answer = listed(&list(2), 26, 2);
    assert_eq!(answer.integers[..N], near((1 << 51) + 1));
    for kind in [Other::Products, Other::ProductByProduct] {
        let Walked { nodes, found, .. } = other(&nearest(2), kind);
        assert_eq!((nodes, &found[0].1), (26, &near(1 << 51)));
        let Walked { nodes, found, .. } = other(&list(2), kind);
        assert_eq!((nodes, found.len(), &found[0].1), (26, 2, &near(1 << 51)));
    }
}

/// mu[24] 1/3, mu[97] 0.1, target 2^20+0.1, 2^51+0.5, 0.25, 0.5; R 2. A coordinate stays when its level is left.
#[test]
fn coordinates_stay() {
    let near = |third: i64| point(N, &[(0, 1 << 20), (1, (1 << 51) + 1), (3, third)]);
    found(&nearest(3), &near(1), 73, 0.578125);
    let answer = listed(&list(3), 6354, 178);
    assert_eq!(answer.integers[..N], near(1));
    let Walked { nodes, found, .. } = other(&nearest(3), Other::Back);
    assert_eq!((nodes, &found[0].1), (74, &near(0)));
    let Walked { nodes, found, .. } = other(&list(3), Other::Back);
    assert_eq!((nodes, found.len(), &found[0].1), (6354, 178, &near(0)));
    // Without the centres: as many nodes of nearest, and another list.
    assert_eq!(counts(&nearest(3), Other::BackAlone), (73, 1));
    assert_eq!(counts(&list(3), Other::BackAlone), (7035, 859));
}

/// mu[24] -0.3, mu[48] 1/3, target 2^20+0.1, 0.5, 2^52-1; R 0.75. The first sums take the targets as they rise, the own first.
#[test]
fn first_sums_rise() {
    assert_eq!(compare(&nearest(4)).expected.report.first, 27);
    listed(&list(4), 27, 3);
    for kind in [Other::Falling, Other::TargetLast] {
        assert_eq!((counts(&nearest(4), kind).0, counts(&list(4), kind)), (25, (26, 2)));
    }
}

/// A product is rounded before it is added. In the first sums: mu[74] 1/3, target[2] 0.3, [3] 2^51+0.5; R 0.25. In the
/// changes: mu[24] 0.3, target[1] 2^51+0.5, R 0.75; mu[24] 0.3, target[1] 2^52-1, [2] 0.3, R 0.09.
#[test]
fn products_are_rounded() {
    assert_eq!(compare(&nearest(5)).expected.report.first, 25);
    listed(&list(5), 25, 1);
    assert_eq!((counts(&nearest(5), Other::FusedStart), counts(&list(5), Other::FusedStart)), ((22, 0), (22, 0)));
    assert_eq!(compare(&nearest(6)).expected.report.first, 25);
    assert_eq!(counts(&nearest(6), Other::FusedChange), (26, 1));
    listed(&list(7), 24, 1);
    assert_eq!(counts(&list(7), Other::FusedChange), (23, 0));
}

/// mu[24] 2^12, mu[48] 0.3, target[2] 0.5; R 2. A child whose sum is above the radius changes the centres too.
#[test]
fn each_node_changes() {
    assert_eq!(compare(&nearest(8)).expected.report.first, 72);
    assert_eq!(counts(&nearest(8), Other::Descent), (73, 1));
}

/// mu[24] 0.1, mu[49] 3, target 2^51+0.5, 0, -0.5; R 0.5: nothing is put back on the way up. mu[24] 3, target 2^52-1, -0.5;
/// R 0.5: nor before a level's next child.
#[test]
fn nothing_is_put_back() {
    assert_eq!(counts(&nearest(8), Other::Restored), (73, 1));
    listed(&list(9), 29, 2);
    assert_eq!(counts(&list(9), Other::Restored), (27, 0));
    listed(&list(10), 26, 2);
    assert_eq!(counts(&list(10), Other::Entry), (27, 3));
    assert_eq!(counts(&nearest(6), Other::Entry), (26, 1));
}

/// Every input above by the port and the Rust, in all dimensions, and by the plain reading of the walk.
#[test]
fn in_every_dimension() {
    for (input, n) in TOLD_APART.iter().flat_map(|input| (N..=LAST).map(move |n| (input, n))) {
        for call in [Call::Nearest, Call::List] {
            let case = input.case(call, n).with_budget(10_000).with_places(if call == Call::List { 300 } else { n });
            let Comparison { expected, difference, .. } = compare(&case);
            assert!(difference.is_none(), "{case}");
            let Walked { nodes, exhausted, .. } = walked(&case, Running::new(&case.mu, &case.target));
            assert!(expected.report.number != 0 || expected.report.first == nodes, "{case}");
            assert_eq!(expected.report.number == 15, exhausted, "{case}");
        }
    }
}

// ---- what is promised up to 23 dimensions alone

/// The smallest input above: a vector at distance 0.09 is admitted, and is not in the list; it is found at R 0.25, and told
/// at another distance. One dimension less, and it is found and listed at 0.09.
#[test]
fn not_the_admitted_vectors() {
    let Input { mu, target, .. } = TOLD_APART[0];
    let at = |call, n: usize, radius: f64| Input { mu, target, radius }.case(call, n);
    let vector = |n| point(n, &[(1, 1 << 40)]);
    let distance = |n: usize| {
        let case = at(Call::List, n, 0.09);
        let of_the_rust = oracle::Enumerator::from_table(&case.weights, &case.mu)
            .triangular_distance(&case.target, &vector(n))
            .unwrap();
        assert_eq!(of_the_rust, paper::distance(&case.weights, &case.mu, &case.target, &vector(n)));
        of_the_rust
    };
    for n in [N, LAST] {
        assert_eq!(distance(n), 0.09);
        let admitted = at(Call::List, n, 0.09);
        assert_eq!(walked(&admitted, Anew::new(&admitted.mu, &admitted.target)).found, [(0.09, vector(n))]);
        assert_eq!(paper::opened(&admitted, 0.09, 1000), Some(n as u64));
        listed(&admitted, n as u64 - 1, 0);
        // What is left of 0.3 by the walk.
        let left = (0.3 + 0.1 * 2f64.powi(40)) - 0.1 * 2f64.powi(40);
        assert!(left * left > 0.09);
        found(&at(Call::Nearest, n, 0.25), &vector(n), n as u64, left * left);
        answers(&at(Call::List, n, 0.25), Report::whole(0, n as u64, 1), &vector(n), &[left * left]);
    }
    assert_eq!(distance(23), 0.09);
    found(&at(Call::Nearest, 23, 0.09), &vector(23), 23, 0.09);
    answers(&at(Call::List, 23, 0.09), Report::whole(0, 23, 1), &vector(23), &[0.09]);
}

/// The list beside a nearest point is not looked at, since it need not begin at its distance.
#[test]
fn no_list_beside() {
    assert_eq!(compare(&nearest(2)).other_first, None);
}

// ---- dimensions

/// 2 starts at 65 for nearest and list, at 24 for the other calls on a table; before every other check.
#[test]
fn dimensions() {
    for (call, n) in CALLS.iter().flat_map(|call| [23, 24, 25, 63, 64, 65, 66].map(|n| (*call, n))) {
        if call.takes_table() {
            let case = Case::new(call, &vec![1.0; n], &vec![0.0; n * n], &vec![1.0; n], 0.0, n as u64);
            let case = case.with_candidate(&vec![1; n]);
            let most = if matches!(call, Call::Nearest | Call::List) { 64 } else { 23 };
            if n > most {
                refused(&case, Report::whole(2, n as u64, 0));
                let faulty = Case { radius: -1.0, budget: u64::MAX, target: vec![f64::NAN], ..case.clone() };
                refused(
                    &Case { weights: vec![f64::NAN; n], mu: vec![f64::NAN; n * n], ..faulty },
                    Report::whole(2, n as u64, 0),
                );
            } else {
                assert_eq!(compare(&case).expected.report.number, 0, "{case}");
                assert!(compare(&case).difference.is_none(), "{case}");
            }
            for entries in [n * n - 1, n * n + 1, 23 * 23, 24 * 24, 64 * 64] {
                if entries != n * n {
                    refused(&Case { mu: vec![0.0; entries], ..case.clone() }, Report::whole(2, n as u64, 0));
                }
            }
        }
    }
}

/// Each check of the two calls at 24 and 64 dimensions, and their order.
#[test]
fn refusals() {
    for (n, call) in [N, LAST].into_iter().flat_map(|n| [Call::Nearest, Call::List].map(|call| (n, call))) {
        let sound = || Case::new(call, &vec![1.0; n], &vec![0.0; n * n], &vec![1.0; n], 0.0, n as u64);
        let wrong = |change: &dyn Fn(&mut Case), report: Report| {
            let mut case = sound();
            change(&mut case);
            refused(&case, report);
        };
        let last = n * n - 2;
        wrong(&|c| (c.mu[n], c.mu[last]) = (2.0 * LIMIT, f64::NAN), Report::whole(3, last as u64, 0));
        wrong(&|c| (c.mu[n], c.mu[last]) = (2.0 * LIMIT, -2.0 * LIMIT), Report::whole(4, n as u64, 0));
        wrong(&|c| (c.weights[n - 1], c.target[0]) = (0.0, f64::NAN), Report::whole(5, n as u64 - 1, 0));
        wrong(&|c| c.target.truncate(23), Report::whole(6, n as u64, 23));
        wrong(&|c| (c.target[n - 1], c.radius) = (LIMIT + 1.0, -1.0), Report::whole(7, n as u64 - 1, 0));
        wrong(&|c| (c.radius, c.budget) = (-1.0, u64::MAX), Report::double(8, -1.0));
        wrong(&|c| c.budget = (1 << 60) + 1, Report::whole(9, (1 << 60) + 1, 0));
        wrong(&|c| c.budget = n as u64 - 1, exhausted(n as u64 - 1, 0.0));
        wrong(&|c| (c.radius, c.budget) = (-0.0, 0), exhausted(0, 0.0));
        if call == Call::Nearest {
            wrong(&|c| c.places = 23, Report::whole(6, n as u64, 23));
            wrong(&|c| (c.radius, c.target[3]) = (-0.0, 0.5), Report::double(16, 0.0));
        } else {
            wrong(&|c| *c = c.clone().with_places(4097), Report::whole(14, 4097, 0));
            wrong(&|c| c.points -= 1, Report::whole(14, n as u64, 0));
            wrong(&|c| *c = c.clone().with_places(0), Report::whole(18, 1, 0));
            listed(&Case { radius: -0.0, ..sound() }, n as u64, 1);
        }
        // What is not read.
        let mut unread = sound();
        (0..n * n).filter(|k| k / n <= k % n).for_each(|k| unread.mu[k] = f64::NAN);
        assert_eq!(compare(&unread).expected.report.number, 0);
        assert!(compare(&unread).difference.is_none());
    }
}

// ---- the ends

/// mu[48+1] and mu[24] 2^32, target[2] 0.5; R 0.25: centres of 2^63 and -2^63 at level 0. 512 and 513 integers have these
/// doubles, all of them at 0.25; the walk comes last upon the smallest of the first, and first upon that of the second.
#[test]
fn ends_of_i64() {
    let input = Input { mu: &[(1, 0, 4_294_967_296.0), (2, 1, 4_294_967_296.0)], target: &[(2, 0.5)], radius: 0.25 };
    for n in [N, LAST] {
        let nodes = (n - 3) as u64 + (2 + 512) + (2 + 513);
        let lowest = point(n, &[(0, i64::MIN), (1, 1 << 31)]);
        found(&input.case(Call::Nearest, n).with_budget(nodes), &lowest, nodes, 0.25);
        refused(&input.case(Call::Nearest, n).with_budget(nodes - 1), exhausted(nodes - 1, 0.25));
        let case = input.case(Call::List, n).with_budget(nodes).with_places(1025);
        let answer = listed(&case, nodes, 1025);
        assert_eq!(answer.integers[..n], lowest);
        assert_eq!(answer.integers[1024 * n..], point(n, &[(0, i64::MAX), (1, -(1 << 31)), (2, 1)]));
        refused(&case.with_places(1024), Report::whole(18, 1025, 0));
    }
}

/// Weights of the largest double and one, at level 0, that is a last place less; above it a term of one and a half last places.
/// A step at level 0 has the term that is left, and the sum rounds to infinity: it is a node, and no leaf.
#[test]
fn infinite_sums() {
    let (last_place, partial) = (2f64.powi(971), 1.5 * 2f64.powi(971));
    assert_eq!(f64::MAX - partial, f64::MAX - last_place);
    assert_eq!(partial + (f64::MAX - last_place), f64::INFINITY);
    for n in [N, LAST] {
        let case = |call| infinite_sum(call, n, 12, 1, 0).with_budget(5_000);
        found(&case(Call::Nearest), &vec![0; n], 3 * n as u64, partial);
        // Zeros, and a step at level 1 each way.
        listed(&case(Call::List), (n * (n - 2) + 8) as u64, 3);
    }
}

/// Four halves: 16 vectors at one distance. The first of them is found, since nothing rounds.
#[test]
fn ties() {
    for n in [N, LAST] {
        let levels = [0, 7, n / 2, n - 1];
        let mut target = vec![0.0; n];
        levels.iter().for_each(|level| target[*level] = 0.5);
        let case = |call| Case::new(call, &vec![1.0; n], &vec![0.0; n * n], &target, 1.0, 10_000);
        let Comparison { expected, difference, .. } = compare(&case(Call::Nearest));
        assert!(difference.is_none());
        assert_eq!((expected.integers, expected.report.real), (vec![0; n], 1.0_f64.to_bits()));
        let answer = listed(&case(Call::List).with_places(17), compare(&case(Call::List)).expected.report.first, 16);
        assert_eq!(answer.integers[..n], vec![0; n]);
    }
}

// ---- long lists

/// As many points as the port's longest private array holds, at 64 dimensions 1,472, one less and one more, and up to 4,097;
/// with just enough places, one too few, and 4,096.
#[test]
fn around_the_private_array() {
    for n in [N, 41, LAST] {
        let rows = PRIVATE / n;
        assert_eq!((N, PRIVATE / N, PRIVATE / LAST), (24, 3925, 1472));
        for count in [1, rows - 1, rows, rows + 1, 4095, 4096, 4097] {
            let (case, nodes) = (row_of(n, count), (count + n - 1) as u64);
            for places in [count - 1, count, rows, rows + 1, 4096].into_iter().filter(|places| *places <= 4096) {
                let case = case.clone().with_places(places).with_budget(nodes);
                if places < count {
                    refused(&case, Report::whole(18, count as u64, 0));
                } else {
                    listed(&case, nodes, count as u64);
                }
                refused(&case.with_budget(nodes - 1), exhausted(nodes - 1, row_of(n, count).radius));
            }
        }
    }
}

/// Distances that rise and fall along the walk, many of them equal: below the array's length, above it, and of all places.
#[test]
fn long_lists_in_order() {
    for n in [N, LAST] {
        let rows = PRIVATE / n;
        for count in [rows - 50, rows + 50, 4000] {
            let case = grid_of(n, count).with_places(4096);
            let Comparison { expected, difference, .. } = compare(&case);
            assert!(difference.is_none(), "{case}");
            let distances = &expected.doubles[..expected.report.second as usize];
            assert!(distances.len().abs_diff(count) < 50);
            assert!(distances.is_sorted() && distances.windows(2).filter(|pair| pair[0] == pair[1]).count() > 500);
        }
    }
}

/// All at one distance, so that the coordinates alone decide: 2,048 and 4,096 vectors of zeros and ones.
#[test]
fn long_lists_at_one_distance() {
    for (n, levels) in [N, LAST].into_iter().flat_map(|n| [11, 12].map(|levels| (n, levels))) {
        let case = cube_of(n, levels).with_places(4096);
        let answer = listed(&case, paper::listed_nodes(&case, 10_000).unwrap(), 1 << levels);
        for (k, point) in answer.integers.chunks(n).take(1 << levels).enumerate() {
            let binary = (0..levels).map(|level| (k >> (levels - 1 - level) & 1) as i64);
            assert!(point.iter().copied().eq(binary.chain(vec![0; n - levels])), "{n} {k}");
        }
    }
}

// ---- nearly right answers

/// The answer that is expected does not count as a difference, and each of these changes of it does.
fn notices(case: &Case, changes: &[&dyn Fn(&mut Answer)]) {
    let right = expected(case).answer;
    assert!(!differs(case, right.clone()), "{case}");
    for (k, change) in changes.iter().enumerate() {
        let mut wrong = right.clone();
        change(&mut wrong);
        assert!(differs(case, wrong), "{k}: {case}");
    }
}

#[test]
fn nearly_right() {
    let case = nearest(2);
    let told = paper::distance(&case.weights, &case.mu, &case.target, &expected(&case).answer.integers);
    notices(
        &case,
        &[
            &|a| a.report.real = told.to_bits(),
            &|a| a.report.real = case.radius.to_bits(),
            &|a| a.report.first += 1,
            &|a| a.integers[1] -= 1,
            &|a| *a.integers.last_mut().unwrap() = -1,
            &|a| a.report = Report::whole(2, 24, 0),
        ],
    );
    let case = row_of(LAST, 1500).with_places(4096);
    notices(
        &case,
        &[
            &|a| a.report.first -= 1,
            &|a| a.report.second -= 1,
            &|a| a.doubles.swap(1471, 1472),
            &|a| a.integers.swap(1499 * LAST, 1498 * LAST),
            &|a| a.doubles[1500] = 0,
            &|a| a.integers[1500 * LAST] = 0,
            &|a| *a.integers.last_mut().unwrap() = 0,
        ],
    );
    notices(&row_of(LAST, 1500).with_places(1499), &[&|a| a.report.first = 1499, &|a| a.integers[0] = 0]);
    notices(&nearest(0), &[&|a| a.report.real ^= 1, &|a| a.report.number = 15, &|a| a.integers[0] = 0]);
}

// ---- the random cases

/// Kinds of answers, and whether the case has such a one.
fn kinds(case: &Case, answer: &Answer) -> Vec<(&'static str, bool)> {
    let (n, report) = (case.weights.len(), answer.report);
    let nearest = case.call == Call::Nearest;
    let ended = report.number == 0;
    let integers = match (ended, nearest) {
        (false, _) => &[][..],
        (_, true) => &answer.integers,
        _ => &answer.integers[..n * report.second as usize],
    };
    let anew = walked(case, Anew::new(&case.mu, &case.target));
    let distance = |z: &[i64]| paper::distance(&case.weights, &case.mu, &case.target, z).to_bits();
    let rows = PRIVATE / n;
    let beyond = |limit: u64| integers.iter().any(|z| z.unsigned_abs() > limit);
    let is_zero = |bits: u64| case.radius.to_bits() == bits;
    vec![
        ("found", ended && nearest),
        ("listed, no point", ended && !nearest && report.second == 0),
        ("listed, one point", ended && !nearest && report.second == 1),
        ("listed, more than 256 points", ended && !nearest && report.second > 256),
        ("listed, more points than the private array holds", ended && !nearest && report.second > rows as u64),
        (
            "listed, more places than that, and fewer points",
            ended && case.places > rows && report.second <= rows as u64,
        ),
        (
            "listed, two at one distance",
            ended && !nearest && report.second > 1 && answer.doubles[0] == answer.doubles[1],
        ),
        ("found at another distance than triangular_distance", ended && nearest && distance(integers) != report.real),
        (
            "found another point than with centres made anew",
            ended && nearest && anew.found.first().is_none_or(|f| f.1 != integers),
        ),
        ("nothing found, but with centres made anew", report.number == 16 && !anew.found.is_empty()),
        ("listed with another count than the opened prefixes", ended && !nearest && anew.nodes != report.first),
        ("a coordinate beyond 2^53", beyond(1 << 53)),
        ("a coordinate within 1,024 of an end of i64", beyond((1 << 63) - 1024)),
        ("a distance of 0", ended && nearest && report.real == 0),
        ("a subnormal distance", ended && nearest && f64::from_bits(report.real).is_subnormal()),
        ("a distance above 2^1000", ended && nearest && f64::from_bits(report.real) > 2f64.powi(1000)),
        ("no budget to spare", ended && case.budget == report.first),
        ("a budget of 2^60", ended && case.budget == 1 << 60),
        (
            "one node too few",
            report.number == 15
                && !walked(&case.clone().with_budget(case.budget + 1), Running::new(&case.mu, &case.target)).exhausted,
        ),
        (
            "15 with a radius that has shrunk",
            report.number == 15 && report.real != paper::handed_on(case.radius).to_bits(),
        ),
        ("just enough places", ended && !nearest && case.places as u64 == report.second),
        ("one place too few", report.number == 18 && case.places as u64 + 1 == report.first),
        ("a radius of 0", ended && is_zero(0)),
        ("a radius of minus zero", ended && is_zero(1 << 63)),
        ("minus zero, 15", report.number == 15 && is_zero(1 << 63)),
        ("minus zero, 16", report.number == 16 && is_zero(1 << 63)),
        ("an entry that is not read is a NaN", ended && case.mu[0].is_nan()),
    ]
}

/// Every number and every kind is come upon, and a point and a list in each dimension; with `-- --nocapture` it is printed how
/// often.
#[test]
fn random_cases() {
    let mut counts: BTreeMap<String, u64> = BTreeMap::new();
    let mut by_dimension = [[0_u64; LAST + 1]; 2];
    let searches = |case: &Case| matches!(case.call, Call::Nearest | Call::List) && case.weights.len() > 23;
    for case in (0..60_000).map(|number| random::case(7, number)).filter(searches) {
        let Comparison { expected, difference, .. } = compare(&case);
        assert!(difference.is_none(), "{case}");
        let number = expected.report.number;
        *counts.entry(format!("number {number:2}")).or_default() += 1;
        if [0, 15, 16, 18].contains(&number) {
            by_dimension[usize::from(case.call == Call::List)][case.weights.len()] += u64::from(number == 0);
            for (kind, is) in kinds(&case, &expected) {
                *counts.entry(kind.into()).or_default() += u64::from(is);
            }
        }
    }
    println!("random: {counts:#?}");
    for number in [0, 2, 3, 4, 5, 6, 7, 8, 9, 14, 15, 16, 18] {
        assert!(counts.contains_key(&format!("number {number:2}")), "{number}");
    }
    assert!(counts.values().all(|count| *count > 0), "{counts:#?}");
    assert!(by_dimension.iter().all(|found| found[N..].iter().all(|count| *count > 0)), "{by_dimension:?}");
}

// ---- the smallest case

/// A difference at 64 dimensions with every entry filled is brought down to 24 with a few.
#[test]
fn shrunk() {
    let rng = &mut Rng::of_case(9, 9);
    let mut case = TOLD_APART[2].case(Call::List, LAST).with_places(100);
    for entry in case.mu[8 * LAST..].iter_mut().filter(|entry| **entry == 0.0) {
        *entry = rng.uniform(-0.5, 0.5);
    }
    let runs = |c: &Case| c.weights.len() > 23 && expected(c).answer.report.number == 0;
    let differs =
        |c: &Case| runs(c) && walked(c, Running::new(&c.mu, &c.target)).found != other(c, Other::Products).found;
    assert!(differs(&case));
    let smallest = shrink(&case, &differs);
    let filled = smallest.mu.iter().chain(&smallest.target).filter(|x| **x != 0.0).count();
    assert!(smallest.weights.len() < 30 && filled < 30, "{filled}: {smallest}");
}
