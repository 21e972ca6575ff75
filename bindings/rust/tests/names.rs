//! Searches under names: what pickups come to, what a name holds, each refusal and their order, the block as slices and as
//! bytes, contents that the library has not written, and drawn tables in slices of the budget beside `nearest`.

use snowgimmer::{
    LARGEST_BUDGET, LARGEST_DIMENSION, NAMES, NAMES_SIZE, Names, Refusal, Table, nearest, nearest_named, pick_up,
};

/// Case G: 2 nodes find its point, (0, 1) at 0.25, and 5 end the search at the radius 2.
const WEIGHTS: [f64; 2] = [1.0, 1.0];
const MU: [f64; 4] = [0.0, 0.0, 0.5, 0.0];
const TARGET: [f64; 2] = [0.25, 0.5];

/// A point, its nodes and its distance.
type Answer = Result<(Vec<i64>, u64, f64), Refusal>;

fn g() -> Answer {
    Ok((vec![0, 1], 5, 0.25))
}

fn exhausted(nodes: u64, radius: f64) -> Answer {
    Err(Refusal::BudgetExhausted { nodes, radius })
}

/// A table, a target and a radius.
#[derive(Clone)]
struct Search {
    weights: Vec<f64>,
    mu: Vec<f64>,
    target: Vec<f64>,
    radius: f64,
}

impl Search {
    fn g() -> Self {
        Self { weights: WEIGHTS.to_vec(), mu: MU.to_vec(), target: TARGET.to_vec(), radius: 2.0 }
    }

    /// Case H at the radius 1, inside which there is nothing; 2 nodes tell so.
    fn h() -> Self {
        Self { weights: vec![2.0 * f64::EPSILON, 4.0], mu: vec![0.0; 4], target: vec![0.5; 2], radius: 1.0 }
    }

    /// A drawn table of 12 weights, which fall: a search of some thousand nodes.
    fn drawn(draw: &mut impl FnMut() -> f64) -> Self {
        const N: usize = 12;
        let weights = (0..N).map(|i| f64::from(1 << (9 - 9 * i / (N - 1))) * (1.0 + draw())).collect();
        let mu = (0..N * N).map(|_| draw() - 0.5).collect();
        let target = (0..N).map(|_| 20.0 * draw() - 10.0).collect();
        Self { weights, mu, target, radius: 80.0 }
    }

    fn with(&self, change: impl FnOnce(&mut Self)) -> Self {
        let mut changed = self.clone();
        change(&mut changed);
        changed
    }

    /// In one search.
    fn whole(&self, budget: u64) -> Answer {
        let mut out = vec![0; self.weights.len()];
        let found = nearest(&self.weights, &self.mu, &self.target, &mut out, self.radius, budget)?;
        Ok((out, found.nodes, found.distance))
    }
}

/// A simple generator of numbers below 1.
fn draws() -> impl FnMut() -> f64 {
    let mut state = 1_u64;
    move || {
        state = state.wrapping_mul(6364136223846793005).wrapping_add(1442695040888963407);
        (state >> 11) as f64 / (1_u64 << 53) as f64
    }
}

/// The answer of a call that is lent so many places, which a refusal must leave as they were.
fn answer(places: usize, call: impl FnOnce(&mut [i64]) -> Result<snowgimmer::Found, Refusal>) -> Answer {
    let before: Vec<i64> = (0..places as i64).map(|i| i64::MIN + i).collect();
    let mut out = before.clone();
    let answer = call(&mut out);
    assert!(answer.is_ok() || out == before);
    answer.map(|found| (out, found.nodes, found.distance))
}

/// A block with its calls.
#[derive(Clone)]
struct Block(Box<Names>);

impl Block {
    fn new() -> Self {
        Self(Box::new(Names::new()))
    }

    fn bytes(&self) -> Box<[u8; NAMES_SIZE]> {
        let mut bytes = Box::new([7; NAMES_SIZE]);
        self.0.write_to(&mut bytes);
        bytes
    }

    fn is_empty(&self) -> bool {
        self.bytes().iter().all(|&byte| byte == 0)
    }

    /// What the call gives, which must leave the block as it was.
    fn unchanged<A>(&mut self, call: impl FnOnce(&mut Self) -> A) -> A {
        let before = self.bytes();
        let given = call(self);
        assert!(self.bytes() == before);
        given
    }

    fn search(&mut self, name: u64, s: &Search, budget: u64) -> Answer {
        answer(s.weights.len(), |out| {
            nearest_named(&mut self.0, name, &s.weights, &s.mu, &s.target, out, s.radius, budget)
        })
    }

    fn g(&mut self, name: u64, budget: u64) -> Answer {
        self.search(name, &Search::g(), budget)
    }

    fn pick_up_into(&mut self, places: usize, name: u64, budget: u64) -> Answer {
        answer(places, |out| pick_up(&mut self.0, name, out, budget))
    }

    /// By a function and, from the same block, by the method.
    fn pick_up(&mut self, name: u64, budget: u64) -> Answer {
        let (mut other, places) = (self.clone(), self.0.dimension(name).unwrap_or(2));
        let given = self.pick_up_into(places, name, budget);
        let by_value = other.0.pick_up(name, budget).map(|found| (found.point.to_vec(), found.nodes, found.distance));
        assert_eq!(given, by_value);
        assert!(self.bytes() == other.bytes());
        given
    }
}

#[test]
fn picked_up() {
    let mut block = Block::new();
    assert_eq!(block.g(3, 2), exhausted(2, 0.25));
    assert_eq!(block.0.dimension(3), Ok(2));
    assert_eq!(block.pick_up(3, 3), g());
    assert!(block.is_empty());
    assert_eq!(block.pick_up(3, 3), Err(Refusal::NameEmpty));
    // 2 nodes and 2, none and 1
    assert_eq!(block.g(3, 2), exhausted(2, 0.25));
    assert_eq!(block.pick_up(3, 2), exhausted(4, 0.25));
    assert_eq!(block.unchanged(|block| block.pick_up(3, 0)), exhausted(4, 0.25));
    assert_eq!(block.pick_up(3, 1), g());
    // one by one
    assert_eq!(block.g(3, 0), exhausted(0, 2.0));
    for nodes in 1..5 {
        assert_eq!(block.pick_up(3, 1), exhausted(nodes, if nodes < 2 { 2.0 } else { 0.25 }));
    }
    assert_eq!(block.pick_up(3, 1), g());
}

#[test]
fn nothing_inside_the_radius() {
    let mut block = Block::new();
    assert_eq!(block.search(8, &Search::h(), 1), exhausted(1, 1.0));
    assert_eq!(block.pick_up(8, 1), Err(Refusal::OutsideRadius { radius: 1.0 }));
    assert!(block.is_empty());
    assert_eq!(block.pick_up(8, 1), Err(Refusal::NameEmpty));
}

#[test]
fn an_older_search() {
    let mut block = Block::new();
    assert_eq!(block.g(3, 2), exhausted(2, 0.25));
    let outside = Search::g().with(|s| s.radius = 0.125);
    assert_eq!(block.unchanged(|block| block.g(3, 5)), g());
    let refusal = Refusal::OutsideRadius { radius: 0.125 };
    assert_eq!(block.unchanged(|block| block.search(3, &outside, 9)), Err(refusal));
    assert_eq!(block.pick_up(3, 0), exhausted(2, 0.25));
    // one that is kept takes its place
    assert_eq!(block.g(3, 4), exhausted(4, 0.25));
    assert_eq!(block.pick_up(3, 0), exhausted(4, 0.25));
    assert_eq!(block.search(3, &Search::h(), 1), exhausted(1, 1.0));
    assert_eq!(block.pick_up(3, 0), exhausted(1, 1.0));
}

#[test]
fn names_apart() {
    let mut block = Block::new();
    for name in 1..=NAMES {
        assert_eq!(block.g(name, name % 5), exhausted(name % 5, if name % 5 < 2 { 2.0 } else { 0.25 }));
    }
    for name in (1..=NAMES).rev() {
        assert_eq!(block.pick_up(name, 100), g());
        assert!((1..=NAMES).filter(|&other| block.0.dimension(other).is_ok()).eq(1..name));
    }
    assert!(block.is_empty());
}

/// The caller's table and target are the caller's again.
#[test]
fn its_own_copy() {
    let mut block = Block::new();
    let mut search = Search::g().with(|s| (s.mu[0], s.mu[1], s.mu[3]) = (f64::NAN, f64::INFINITY, 1e300));
    assert_eq!(block.search(1, &search, 2), exhausted(2, 0.25));
    search.weights.fill(f64::NAN);
    search.mu.fill(f64::NAN);
    search.target.fill(f64::NAN);
    assert_eq!(block.pick_up(1, 3), g());
}

#[test]
fn no_dimension() {
    let mut block = Block::new();
    let none = Search { weights: vec![], mu: vec![], target: vec![], radius: 2.0 };
    assert_eq!(block.unchanged(|block| block.search(1, &none, 0)), Ok((vec![], 0, 0.0)));
    assert_eq!(block.g(1, 2), exhausted(2, 0.25));
    assert_eq!(block.unchanged(|block| block.search(1, &none, 0)), Ok((vec![], 0, 0.0)));
}

/// By a table's method.
#[test]
fn of_a_table() {
    let mut names = Names::default();
    let table = Table::new(&WEIGHTS, &MU);
    assert_eq!(table.nearest_named(&mut names, 3, &TARGET, 2.0, 5), table.nearest(&TARGET, 2.0, 5));
    assert_eq!(names.dimension(3), Err(Refusal::NameEmpty));
    assert_eq!(table.nearest_named(&mut names, 3, &TARGET, 2.0, 2), table.nearest(&TARGET, 2.0, 2));
    assert_eq!(names.pick_up(3, 3), table.nearest(&TARGET, 2.0, 5));
}

#[test]
fn name_range() {
    let mut block = Block::new();
    assert_eq!(block.g(3, 2), exhausted(2, 0.25));
    let wrong = Search::g().with(|s| (s.weights[1], s.radius) = (0.0, -1.0));
    for name in [0, 9, 1 << 32, u64::MAX] {
        assert_eq!(block.unchanged(|block| block.search(name, &wrong, u64::MAX)), Err(Refusal::NameRange));
        assert_eq!(block.unchanged(|block| block.pick_up_into(1, name, u64::MAX)), Err(Refusal::NameRange));
        assert_eq!(block.unchanged(|block| block.0.dimension(name)), Err(Refusal::NameRange));
        assert_eq!(block.unchanged(|block| block.0.pick_up(name, u64::MAX)), Err(Refusal::NameRange));
    }
    assert_eq!(block.pick_up(3, 3), g());
}

#[test]
fn name_empty() {
    let mut block = Block::new();
    for name in 1..=NAMES {
        assert_eq!(block.pick_up_into(1, name, u64::MAX), Err(Refusal::NameEmpty));
        assert_eq!(block.0.dimension(name), Err(Refusal::NameEmpty));
    }
    assert!(block.is_empty());
}

/// 2 to 9 under a name: one after the other is mended.
#[test]
fn the_order_of_the_checks() {
    let mut block = Block::new();
    assert_eq!(block.g(3, 2), exhausted(2, 0.25));
    let mut s = Search { weights: vec![1.0, 0.0], mu: vec![0.0, 0.0, 1e16], target: vec![f64::NAN], radius: -1.0 };
    let mut refused = |s: &Search, places: usize, refusal: Refusal| {
        let budget = LARGEST_BUDGET + 1;
        let given = block.unchanged(|block| {
            answer(places, |out| nearest_named(&mut block.0, 3, &s.weights, &s.mu, &s.target, out, s.radius, budget))
        });
        assert_eq!(given, Err(refusal));
    };
    refused(&s, 3, Refusal::TableSize { weights: 2 });
    s.mu.push(0.0);
    refused(&s, 3, Refusal::MuRange { index: 2 });
    refused(&s.with(|s| s.mu[2] = f64::NAN), 3, Refusal::MuNonFinite { index: 2 });
    s.mu[2] = 0.5;
    refused(&s, 3, Refusal::WeightRange { index: 1 });
    s.weights[1] = 1.0;
    refused(&s, 3, Refusal::LengthMismatch { expected: 2, found: 1 });
    s.target.push(0.5);
    refused(&s, 3, Refusal::LengthMismatch { expected: 2, found: 3 });
    refused(&s, 2, Refusal::NonFinite { index: 0 });
    s.target[0] = 0.25;
    refused(&s, 2, Refusal::InvalidRadius { radius: -1.0 });
    s.radius = 2.0;
    refused(&s, 2, Refusal::BudgetRange { budget: LARGEST_BUDGET + 1 });
    assert_eq!(block.pick_up(3, 3), g());
}

#[test]
fn sizes() {
    let mut block = Block::new();
    let of = |n: usize| Search { weights: vec![1.0; n], mu: vec![0.0; n * n], target: vec![0.5; n], radius: 99.0 };
    for n in [24, 64, 65] {
        assert_eq!(block.search(1, &of(n), 2), Err(Refusal::TableSize { weights: n }));
    }
    assert!(block.is_empty());
    let n = LARGEST_DIMENSION;
    assert_eq!(block.search(1, &of(n), 2), exhausted(2, 99.0));
    assert_eq!(block.0.dimension(1), Ok(n));
    assert_eq!(block.pick_up(1, 1000), of(n).whole(1002));
}

#[test]
fn outputs() {
    let mut block = Block::new();
    assert_eq!(block.g(3, 2), exhausted(2, 0.25));
    for found in [0, 1, 3, 23] {
        // before 27
        let refusal = Refusal::LengthMismatch { expected: 2, found };
        assert_eq!(block.unchanged(|block| block.pick_up_into(found, 3, u64::MAX)), Err(refusal));
    }
    assert_eq!(block.pick_up(3, 3), g());
}

#[test]
fn sums() {
    let mut block = Block::new();
    assert_eq!(block.g(3, 2), exhausted(2, 0.25));
    for (budget, sum) in [
        (LARGEST_BUDGET - 1, LARGEST_BUDGET + 1),
        (LARGEST_BUDGET, LARGEST_BUDGET + 2),
        (u64::MAX - 3, u64::MAX - 1),
        (u64::MAX - 2, u64::MAX),
        (u64::MAX - 1, u64::MAX),
        (u64::MAX, u64::MAX),
    ] {
        assert_eq!(block.unchanged(|block| block.pick_up(3, budget)), Err(Refusal::SumRange { sum }));
    }
    // exactly 2^60
    assert_eq!(block.pick_up(3, LARGEST_BUDGET - 2), g());
}

/// In slices of the budget a search gives what it gives in one, bit for bit.
#[test]
fn slices() {
    let (mut block, mut draw) = (Block::new(), draws());
    for budget in [1, 7, 100, 1000] {
        let search = Search::drawn(&mut draw);
        let (point, nodes, distance) = search.whole(100_000).unwrap();
        assert!(nodes > 1000);
        let (mut spent, mut given) = (budget, block.search(5, &search, budget));
        while let Err(refusal) = given {
            assert_eq!(refusal, search.whole(spent).unwrap_err());
            spent += budget;
            given = block.pick_up_into(12, 5, budget);
        }
        let (found, all, at) = given.unwrap();
        assert_eq!((found, all, at.to_bits()), (point, nodes, distance.to_bits()));
        assert!(spent >= nodes && spent < nodes + budget);
    }
    assert!(block.is_empty());
}

#[test]
fn bytes() {
    let mut block = Block::new();
    assert_eq!(block.g(3, 2), exhausted(2, 0.25));
    assert_eq!(block.search(8, &Search::h(), 1), exhausted(1, 1.0));
    let stored = block.bytes();
    let mut other = Block::new();
    assert_eq!(other.g(1, 2), exhausted(2, 0.25));
    other.0.read_from(&stored);
    assert!(other.bytes() == stored);
    assert_eq!(other.pick_up(1, 3), Err(Refusal::NameEmpty));
    assert_eq!(other.pick_up(3, 3), g());
    assert_eq!(other.pick_up(8, 1), Err(Refusal::OutsideRadius { radius: 1.0 }));
    assert!(other.is_empty());
    block.0.clear();
    assert!(block.is_empty());
    assert_eq!(format!("{:?}", block.0), "Names { .. }");
}

/// Whatever is in it, a name ends as a search or is empty, and tries at most as many nodes as the budget says.
fn run_contents(block: &mut Block, name: u64) -> bool {
    let Ok(n) = block.0.dimension(name) else {
        return false;
    };
    assert!((1..=LARGEST_DIMENSION).contains(&n));
    let Err(Refusal::BudgetExhausted { nodes, .. }) = block.pick_up_into(n, name, 0) else {
        panic!("a budget of 0 ends with 15");
    };
    match block.pick_up_into(n, name, 50) {
        Ok((_, all, _)) => assert!((nodes..=nodes + 50).contains(&all)),
        Err(Refusal::BudgetExhausted { nodes: all, .. }) => assert_eq!(all, nodes + 50),
        Err(Refusal::OutsideRadius { .. }) => (),
        Err(refusal) => assert_eq!(refusal, Refusal::SumRange { sum: nodes + 50 }),
    }
    true
}

/// Contents that the library has not written: bytes of one kind, and kept searches with elements that are drawn.
#[test]
fn other_contents() {
    let mut block = Block::new();
    for byte in [0, 1, 0x7F, 0xFF] {
        block.0.read_from(&[byte; NAMES_SIZE]);
        for name in 1..=NAMES {
            assert_eq!(block.pick_up(name, 9), Err(Refusal::NameEmpty));
        }
    }
    let mut draw = draws();
    let search = Search::drawn(&mut draw);
    block.0.clear();
    for name in 1..=NAMES {
        assert!(block.search(name, &search, 100 * name).is_err());
    }
    let (stored, mut run) = (block.bytes(), 0);
    let ends = [0, 1, 2, 11, 12, 22, 23, 24, 1 << 60, i64::MAX as u64, 1 << 63, u64::MAX, f64::NAN.to_bits()];
    for _ in 0..500 {
        let mut bytes = stored.clone();
        for _ in 0..60 {
            let (at, end) = ((draw() * 6672.0) as usize, ends[(draw() * ends.len() as f64) as usize]);
            bytes[8 * at..][..8].copy_from_slice(&end.to_ne_bytes());
        }
        block.0.read_from(&bytes);
        run += (1..=NAMES).filter(|&name| run_contents(&mut block, name)).count();
    }
    assert!(run > 1000, "{run}");
}

unsafe extern "C" {
    fn snowgimmer_nearest_named(
        reals: *mut f64,
        reals_len: usize,
        integers: *mut i64,
        integers_len: usize,
        counts: *mut u64,
        counts_len: usize,
        name: u64,
        weights: *const f64,
        weights_len: usize,
        mu: *const f64,
        mu_len: usize,
        target: *const f64,
        target_len: usize,
        out: *mut i64,
        out_len: usize,
        radius: f64,
        budget: u64,
        first: *mut u64,
        second: *mut u64,
        real: *mut f64,
    ) -> u32;

    fn snowgimmer_pick_up(
        reals: *mut f64,
        reals_len: usize,
        integers: *mut i64,
        integers_len: usize,
        counts: *mut u64,
        counts_len: usize,
        name: u64,
        out: *mut i64,
        out_len: usize,
        budget: u64,
        first: *mut u64,
        second: *mut u64,
        real: *mut f64,
    ) -> u32;
}

/// The library's functions over slices of any length.
struct Slices {
    reals: Vec<f64>,
    integers: Vec<i64>,
    counts: Vec<u64>,
    out: [i64; 2],
}

impl Slices {
    fn zeros(lengths: [usize; 3]) -> Self {
        let [reals, integers, counts] = lengths;
        Self { reals: vec![0.0; reals], integers: vec![0; integers], counts: vec![0; counts], out: [7, 8] }
    }

    /// Case G with so many entries mu: the answer's number and its report.
    fn named(&mut self, name: u64, mu: &[f64], budget: u64) -> (u32, u64, u64, f64) {
        let (mut first, mut second, mut real) = (77, 77, 77.0);
        // SAFETY: live slices with their own lengths; what is written is no other's
        let number = unsafe {
            snowgimmer_nearest_named(
                self.reals.as_mut_ptr(),
                self.reals.len(),
                self.integers.as_mut_ptr(),
                self.integers.len(),
                self.counts.as_mut_ptr(),
                self.counts.len(),
                name,
                WEIGHTS.as_ptr(),
                2,
                mu.as_ptr(),
                mu.len(),
                TARGET.as_ptr(),
                2,
                self.out.as_mut_ptr(),
                2,
                2.0,
                budget,
                &mut first,
                &mut second,
                &mut real,
            )
        };
        (number, first, second, real)
    }

    fn pick_up(&mut self, name: u64, budget: u64) -> (u32, u64, u64, f64) {
        let (mut first, mut second, mut real) = (77, 77, 77.0);
        // SAFETY: live slices with their own lengths; what is written is no other's
        let number = unsafe {
            snowgimmer_pick_up(
                self.reals.as_mut_ptr(),
                self.reals.len(),
                self.integers.as_mut_ptr(),
                self.integers.len(),
                self.counts.as_mut_ptr(),
                self.counts.len(),
                name,
                self.out.as_mut_ptr(),
                2,
                budget,
                &mut first,
                &mut second,
                &mut real,
            )
        };
        (number, first, second, real)
    }
}

/// 6 of the block comes behind 25 and before 2 and 26, and tells the first slice that is wrong.
#[test]
fn block_lengths() {
    let right = [5168, 736, 768];
    for (wrong, &expected) in right.iter().enumerate() {
        for found in [0, expected - 1, expected + 1] {
            let mut lengths = right;
            lengths[wrong] = found;
            lengths[wrong + 1..].fill(0);
            let mut slices = Slices::zeros(lengths);
            let mismatch = (6, expected as u64, found as u64, 0.0);
            assert_eq!((slices.named(1, &MU[1..], 2), slices.pick_up(1, 2)), (mismatch, mismatch));
            assert_eq!((slices.named(9, &MU[1..], 2), slices.pick_up(0, 2)), ((25, 0, 0, 0.0), (25, 0, 0, 0.0)));
            assert_eq!(slices.out, [7, 8]);
        }
    }
    let mut slices = Slices::zeros(right);
    assert_eq!(slices.pick_up(1, 2), (26, 0, 0, 0.0));
    assert_eq!(slices.named(1, &MU[1..], 2), (2, 2, 0, 0.0));
    assert_eq!(slices.named(1, &MU, 2), (15, 2, 0, 0.25));
    assert_eq!(slices.out, [7, 8]);
    assert_eq!(slices.pick_up(1, 3), (0, 5, 0, 0.25));
    assert_eq!(slices.out, [0, 1]);
}
