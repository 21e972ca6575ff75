//! Turns of kept searches: which name is served, what becomes of the name last served, each refusal and their order, the
//! bound on the turns that a search waits, the limit of 2^60 nodes, and rows of drawn calls beside pickups.

use snowgimmer::{
    LARGEST_BUDGET, LARGEST_DIMENSION, LARGEST_SLICE, NAMES, NAMES_SIZE, Names, Refusal, Table, Turn, nearest,
    nearest_named, pick_up,
};

/// Case G: 2 nodes find its point, (0, 1) at 0.25, and 5 end the search at the radius 2.
const WEIGHTS: [f64; 2] = [1.0, 1.0];
const MU: [f64; 4] = [0.0, 0.0, 0.5, 0.0];
const TARGET: [f64; 2] = [0.25, 0.5];

/// Where the places of the counts and the name last served begin in a block's bytes.
const COUNTS: usize = 8 * (5168 + 736);
const LAST: usize = COUNTS + 8 * 768;

/// A point, its nodes and its distance.
type Answer = Result<(Vec<i64>, u64, f64), Refusal>;

fn g() -> Answer {
    Ok((vec![0, 1], 5, 0.25))
}

fn exhausted(nodes: u64, radius: f64) -> Answer {
    Err(Refusal::BudgetExhausted { nodes, radius })
}

fn answer(turn: Turn) -> Answer {
    turn.answer.map(|found| (found.point.to_vec(), found.nodes, found.distance))
}

/// A block with its calls.
#[derive(Clone)]
struct Block(Box<Names>);

impl Block {
    fn new() -> Self {
        Self(Box::new(Names::new()))
    }

    /// With case G under these names, each after so many nodes.
    fn held(names: impl IntoIterator<Item = u64>, budget: u64) -> Self {
        let mut block = Self::new();
        block.hold(names, budget);
        block
    }

    fn hold(&mut self, names: impl IntoIterator<Item = u64>, budget: u64) {
        let radius = if budget < 2 { 2.0 } else { 0.25 };
        for name in names {
            let refusal = Table::new(&WEIGHTS, &MU).nearest_named(&mut self.0, name, &TARGET, 2.0, budget);
            assert_eq!(refusal, Err(Refusal::BudgetExhausted { nodes: budget, radius }));
        }
    }

    fn bytes(&self) -> Box<[u8; NAMES_SIZE]> {
        let mut bytes = Box::new([7; NAMES_SIZE]);
        self.0.write_to(&mut bytes);
        bytes
    }

    /// Sets a double or a whole number by hand.
    fn set(&mut self, at: usize, element: [u8; 8]) {
        let mut bytes = self.bytes();
        bytes[at..][..8].copy_from_slice(&element);
        self.0.read_from(&bytes);
    }

    fn set_last(&mut self, last: u64) {
        self.set(LAST, last.to_ne_bytes());
    }

    /// Whether every name is empty.
    fn is_empty(&self) -> bool {
        self.bytes()[..LAST].iter().all(|&byte| byte == 0)
    }

    /// The parts of the other names, as bytes.
    fn others(&self, name: u64) -> Vec<u8> {
        let bytes = self.bytes();
        let (reals, rest) = bytes[..LAST].split_at(8 * 5168);
        let (integers, counts) = rest.split_at(8 * 736);
        let apart = |slice: &[u8], size: usize| {
            let parts = slice.chunks(8 * size).enumerate().filter(|&(k, _)| k as u64 + 1 != name);
            parts.flat_map(|(_, part)| part.to_vec()).collect::<Vec<u8>>()
        };
        [apart(reals, 646), apart(integers, 92), apart(counts, 96)].concat()
    }

    /// The turn is refused by a check, and leaves everything as it was.
    fn refuse(&mut self, slice: u64, refusal: Refusal) {
        let before = self.bytes();
        assert_eq!(self.0.turn(slice), Err(refusal));
        assert!(self.bytes() == before);
    }

    /// The turn serves this name, whose search has n = 2, and leaves the others as they were.
    fn serve(&mut self, slice: u64, name: u64, expected: Answer) {
        let before = self.others(name);
        let turn = self.0.turn(slice).unwrap();
        assert_eq!((turn.name, turn.n, answer(turn)), (name, 2, expected));
        assert_eq!(turn.kept, self.0.dimension(name).is_ok());
        assert_eq!(self.0.last_served(), Some(name));
        assert!(self.others(name) == before);
    }
}

#[test]
fn slice_range() {
    for mut block in [Block::new(), Block::held([3], 2)] {
        for last in [0, 5, 3] {
            block.set_last(last);
            for slice in [0, LARGEST_SLICE + 1, 1 << 32, u64::MAX] {
                block.refuse(slice, Refusal::SliceRange);
            }
        }
    }
    let mut block = Block::held([3], 2);
    block.serve(1, 3, exhausted(3, 0.25));
    block.serve(LARGEST_SLICE, 3, g());
}

#[test]
fn none_held() {
    let mut block = Block::new();
    for slice in [1, 3, LARGEST_SLICE] {
        block.refuse(slice, Refusal::NoneHeld);
    }
    assert_eq!(block.0.last_served(), None);
    block.hold([3], 2);
    block.serve(3, 3, g());
    block.refuse(3, Refusal::NoneHeld);
    assert_eq!(block.0.last_served(), Some(3));
}

#[test]
fn one_after_the_other() {
    let mut block = Block::held([1, 2], 0);
    for (nodes, radius) in [(1, 2.0), (2, 0.25)] {
        for name in [1, 2] {
            block.serve(1, name, exhausted(nodes, radius));
        }
    }
    // empty names are passed over, and 1 follows 8
    let mut block = Block::held([2, 5, 8], 0);
    for (nodes, radius) in [(1, 2.0), (2, 0.25), (3, 0.25)] {
        for name in [2, 5, 8] {
            block.serve(1, name, exhausted(nodes, radius));
        }
    }
}

#[test]
fn before_the_first() {
    let all = Block::held(1..=NAMES, 2);
    for (last, name) in [(0, 1), (8, 1), (9, 1), (1 << 32, 1), (u64::MAX, 1), (1, 2), (4, 5), (7, 8)] {
        let mut block = all.clone();
        block.set_last(last);
        assert_eq!(block.0.last_served(), (1..=8).contains(&last).then_some(last));
        block.serve(1, name, exhausted(3, 0.25));
    }
}

/// A program that looks from 1 on again would serve name 1.
#[test]
fn last_served() {
    let mut block = Block::held(1..=4, 2);
    block.serve(1, 1, exhausted(3, 0.25));
    // emptied by its turn
    block.serve(3, 2, g());
    block.serve(1, 3, exhausted(3, 0.25));
    // emptied by a pickup
    assert!(block.0.pick_up(3, 2).is_ok());
    assert_eq!(block.0.last_served(), Some(3));
    block.serve(1, 4, exhausted(3, 0.25));

    // emptied and filled again
    let mut block = Block::held(1..=3, 2);
    block.serve(3, 1, g());
    block.hold([1], 2);
    block.serve(1, 2, exhausted(3, 0.25));
    // replaced
    block.hold([2], 0);
    block.serve(1, 3, exhausted(3, 0.25));
    // picked up: no turn, and a refused one is none either
    assert!(block.0.pick_up(1, 2).is_err());
    block.refuse(0, Refusal::SliceRange);
    block.serve(1, 1, g());
    block.serve(1, 2, exhausted(1, 2.0));
}

#[test]
fn alone() {
    let mut block = Block::held([5], 2);
    block.serve(1, 5, exhausted(3, 0.25));
    block.serve(1, 5, exhausted(4, 0.25));
    block.serve(1, 5, g());
    assert!(block.is_empty());
}

/// Each search needs 3 nodes more, and the eighth ends by turn 8·k, where k slices are 3 nodes or more.
#[test]
fn eight_searches() {
    let mut block = Block::held(1..=NAMES, 2);
    for name in 1..=NAMES {
        block.serve(3, name, g());
    }
    block.refuse(3, Refusal::NoneHeld);
    block.hold(1..=NAMES, 2);
    for expected in [exhausted(4, 0.25), g()] {
        for name in 1..=NAMES {
            block.serve(2, name, expected.clone());
        }
    }
    block.refuse(2, Refusal::NoneHeld);
    // also if the other names are filled again at once
    block.hold(1..8, 4);
    block.hold([8], 2);
    for expected in [exhausted(4, 0.25), g()] {
        for name in 1..8 {
            block.serve(2, name, g());
            block.hold([name], 4);
        }
        block.serve(2, 8, expected);
    }
}

#[test]
fn nothing_inside_the_radius() {
    let mut names = Names::new();
    // case H, of which 2 nodes tell so
    let (weights, halves) = ([2.0 * f64::EPSILON, 4.0], [0.5; 2]);
    assert!(Table::new(&weights, &[0.0; 4]).nearest_named(&mut names, 8, &halves, 1.0, 1).is_err());
    let turn = names.turn(1).unwrap();
    assert_eq!((turn.name, turn.n, turn.kept), (8, 2, false));
    assert_eq!(turn.answer, Err(Refusal::OutsideRadius { radius: 1.0 }));
    assert_eq!(names.turn(1), Err(Refusal::NoneHeld));
}

#[test]
fn any_dimension() {
    let mut names = Box::new(Names::new());
    for n in [1, 2, 22, LARGEST_DIMENSION] {
        let target: Vec<f64> = (0..n).map(|i| i as f64 - 0.25).collect();
        let (weights, mu) = (vec![1.0; n], vec![0.0; n * n]);
        let table = Table::new(&weights, &mu);
        for budget in [0, n as u64 - 1] {
            assert!(table.nearest_named(&mut names, 4, &target, 2.0, budget).is_err());
            let turn = names.turn(LARGEST_SLICE).unwrap();
            assert_eq!((turn.name, turn.n, turn.kept), (4, n, false));
            assert_eq!(turn.answer, table.nearest(&target, 2.0, LARGEST_BUDGET));
            assert!(turn.answer.unwrap().point.iter().copied().eq(0..n as i64));
        }
    }
}

/// The nodes of name 3 are set by hand, with so many left up to 2^60.
#[test]
fn the_limit() {
    for left in 0..5 {
        for slice in 1..6 {
            let mut block = Block::held([3, 4], 2);
            let nodes = LARGEST_BUDGET - left;
            block.set(COUNTS + 8 * (2 * 96 + 1), nodes.to_ne_bytes());
            if slice > left {
                // so that it is seen which radius is told: what is kept is 0.25
                block.set(8 * (2 * 646 + 576), 0.1875_f64.to_ne_bytes());
                block.serve(slice, 3, exhausted(nodes, 0.1875));
                assert_eq!(block.0.pick_up(3, 0), Err(Refusal::NameEmpty));
            } else if slice < 3 {
                block.serve(slice, 3, exhausted(nodes + slice, 0.25));
                let kept = Refusal::BudgetExhausted { nodes: nodes + slice, radius: 0.25 };
                assert_eq!(block.0.pick_up(3, 0), Err(kept));
            } else {
                block.serve(slice, 3, Ok((vec![0, 1], nodes + 3, 0.25)));
            }
            block.serve(3, 4, g());
        }
    }
}

#[test]
fn bytes() {
    let mut block = Block::held([2, 6], 0);
    block.serve(1, 2, exhausted(1, 2.0));
    let stored = block.bytes();
    assert_eq!(stored[LAST..], 2_u64.to_ne_bytes());
    let mut other = Block::new();
    other.0.read_from(&stored);
    assert_eq!(other.0.last_served(), Some(2));
    other.serve(1, 6, exhausted(1, 2.0));
    // a block of 0.11.0 is one without the last 8 bytes
    let mut earlier = [0; NAMES_SIZE];
    earlier[..LAST].copy_from_slice(&stored[..LAST]);
    other.0.read_from(&earlier);
    assert_eq!(other.0.last_served(), None);
    other.serve(1, 2, exhausted(2, 0.25));
    block.0.clear();
    assert_eq!((block.0.last_served(), block.is_empty()), (None, true));
    assert!(block.bytes().iter().all(|&byte| byte == 0));
}

/// A simple generator of whole numbers below a limit.
fn draws() -> impl FnMut(u64) -> u64 {
    let mut state = 1_u64;
    move |limit| {
        state = state.wrapping_mul(6364136223846793005).wrapping_add(1442695040888963407);
        (state >> 33) % limit
    }
}

/// A drawn table with a target, for a search of some thousand nodes.
fn drawn(draw: &mut impl FnMut(u64) -> u64) -> (Vec<f64>, Vec<f64>, Vec<f64>) {
    let n = 6 + draw(7) as usize;
    let weights = (0..n).map(|i| f64::from(1 << (9 - 9 * i / (n - 1))) * (1.0 + draw(1000) as f64 / 1000.0)).collect();
    let mu = (0..n * n).map(|_| draw(1001) as f64 / 1000.0 - 0.5).collect();
    let target = (0..n).map(|_| draw(20001) as f64 / 1000.0 - 10.0).collect();
    (weights, mu, target)
}

/// A turn is a pickup of the next held name. Gives whether a name was served.
fn as_pick_up(block: &mut Block, slice: u64) -> bool {
    let mut other = block.clone();
    let last = block.0.last_served().unwrap_or(8);
    let Some(name) = (last..last + 8).map(|k| k % 8 + 1).find(|&name| other.0.dimension(name).is_ok()) else {
        block.refuse(slice, Refusal::NoneHeld);
        return false;
    };
    let (n, given) = (other.0.dimension(name).unwrap(), other.0.pick_up(name, slice));
    let before = block.clone();
    let turn = block.0.turn(slice).unwrap();
    assert_eq!((turn.name, turn.n), (name, n));
    assert_eq!(block.0.last_served(), Some(name));
    if let Err(Refusal::SumRange { sum }) = given {
        assert!(matches!(turn.answer, Err(Refusal::BudgetExhausted { nodes, .. }) if nodes == sum - slice));
        assert!(!turn.kept && block.0.dimension(name).is_err() && block.others(name) == before.others(name));
        return true;
    }
    assert_eq!(turn.answer, given);
    assert_eq!(turn.kept, other.0.dimension(name).is_ok());
    assert!(block.bytes()[..LAST] == other.bytes()[..LAST]);
    true
}

/// Rows of calls that fill, pick up and serve names, some of which hold what the library has not written.
#[test]
fn drawn_rows() {
    let (mut block, mut draw, mut served) = (Block::new(), draws(), 0);
    for _ in 0..1500 {
        let name = 1 + draw(8);
        match draw(16) {
            0 => {
                let (weights, mu, target) = drawn(&mut draw);
                let _ = Table::new(&weights, &mu).nearest_named(&mut block.0, name, &target, 80.0, draw(20));
            }
            1 => {
                let _ = block.0.pick_up(name, draw(200));
            }
            2 => {
                let place = 96 * (name as usize - 1);
                block.set(COUNTS + 8 * (place + draw(5) as usize), draw(24).to_ne_bytes());
                block.set(COUNTS + 8 * (place + 1), (LARGEST_BUDGET - draw(100)).to_ne_bytes());
                block.set_last(draw(12));
            }
            _ => served += u32::from(as_pick_up(&mut block, 1 + draw(100))),
        }
    }
    assert!(served > 500, "{served}");
}

/// A search comes to its end within 8·k turns, and to the same end as in one, whoever fills, empties and picks up the
/// other names.
#[test]
fn in_time() {
    let mut draw = draws();
    for name in 1..=NAMES {
        let mut block = Block::new();
        let (weights, mu, target) = drawn(&mut draw);
        let (n, slice) = (weights.len(), 10 + draw(90));
        let (mut whole, mut out) = (vec![0; n], vec![0; n]);
        let found = nearest(&weights, &mu, &target, &mut whole, 80.0, LARGEST_BUDGET).unwrap();
        assert!(nearest_named(&mut block.0, name, &weights, &mu, &target, &mut out, 80.0, 0).is_err());
        let most = 8 * found.nodes.div_ceil(slice);
        block.set_last(1 + draw(8));
        let mut turns = 0;
        let ended = loop {
            for other in (1..=NAMES).filter(|&other| other != name) {
                match draw(4) {
                    0 => block.hold([other], draw(3)),
                    1 => drop(block.0.pick_up(other, draw(5))),
                    _ => (),
                }
            }
            turns += 1;
            let turn = block.0.turn(slice).unwrap();
            if turn.name == name && !turn.kept {
                break turn;
            }
        };
        assert!(turns <= most, "{turns} turns, and at most {most} were promised");
        assert_eq!(answer(ended), Ok((whole, found.nodes, found.distance)));
    }
}

unsafe extern "C" {
    fn snowgimmer_turn(
        reals: *mut f64,
        reals_len: usize,
        integers: *mut i64,
        integers_len: usize,
        counts: *mut u64,
        counts_len: usize,
        last: *mut u64,
        out: *mut i64,
        out_len: usize,
        slice: u64,
        name: *mut u64,
        n: *mut u64,
        first: *mut u64,
        second: *mut u64,
        real: *mut f64,
    ) -> u32;

    fn snowgimmer_nearest_named(
        reals: *mut f64,
        reals_len: usize,
        integers: *mut i64,
        integers_len: usize,
        counts: *mut u64,
        counts_len: usize,
        name: u64,
        weights: *const f64,
        weights_len: usize,
        mu: *const f64,
        mu_len: usize,
        target: *const f64,
        target_len: usize,
        out: *mut i64,
        out_len: usize,
        radius: f64,
        budget: u64,
        first: *mut u64,
        second: *mut u64,
        real: *mut f64,
    ) -> u32;
}

/// The library's function over slices of any length.
#[derive(Clone, PartialEq)]
struct Slices {
    reals: Vec<f64>,
    integers: Vec<i64>,
    counts: Vec<u64>,
    last: u64,
    out: Vec<i64>,
}

/// The number, the name, n and the report.
type Told = (u32, u64, u64, u64, u64, f64);

impl Slices {
    /// Case G under name 3 after 2 nodes, and an output of so many places.
    fn held(places: usize) -> Self {
        let (reals, integers, counts) = (vec![0.0; 5168], vec![0; 736], vec![0; 768]);
        let mut slices = Self { reals, integers, counts, last: 5, out: vec![7; places] };
        let (mut first, mut second, mut real) = (0, 0, 0.0);
        let mut out = [0; 2];
        // SAFETY: live slices with their own lengths; what is written is no other's
        let number = unsafe {
            snowgimmer_nearest_named(
                slices.reals.as_mut_ptr(),
                slices.reals.len(),
                slices.integers.as_mut_ptr(),
                slices.integers.len(),
                slices.counts.as_mut_ptr(),
                slices.counts.len(),
                3,
                WEIGHTS.as_ptr(),
                2,
                MU.as_ptr(),
                4,
                TARGET.as_ptr(),
                2,
                out.as_mut_ptr(),
                2,
                2.0,
                2,
                &mut first,
                &mut second,
                &mut real,
            )
        };
        assert_eq!((number, first), (15, 2));
        slices
    }

    fn turn(&mut self, slice: u64) -> Told {
        let (mut name, mut n, mut first, mut second, mut real) = (77, 77, 77, 77, 77.0);
        // SAFETY: live slices with their own lengths; what is written is no other's
        let number = unsafe {
            snowgimmer_turn(
                self.reals.as_mut_ptr(),
                self.reals.len(),
                self.integers.as_mut_ptr(),
                self.integers.len(),
                self.counts.as_mut_ptr(),
                self.counts.len(),
                &mut self.last,
                self.out.as_mut_ptr(),
                self.out.len(),
                slice,
                &mut name,
                &mut n,
                &mut first,
                &mut second,
                &mut real,
            )
        };
        (number, name, n, first, second, real)
    }

    /// The turn is refused by a check, and leaves everything as it was.
    fn refuse(&mut self, slice: u64, number: u32, first: usize, second: usize) {
        let before = self.clone();
        assert_eq!(self.turn(slice), (number, 0, 0, first as u64, second as u64, 0.0));
        assert!(*self == before);
    }
}

/// 28, 6 of the block's slices, 29, 6 of the output.
#[test]
fn lengths() {
    for places in [0, 22, 23, 24] {
        let right = [5168, 736, 768];
        for (wrong, &expected) in right.iter().enumerate() {
            for found in [0, expected - 1, expected + 1] {
                let mut lengths = right;
                lengths[wrong] = found;
                lengths[wrong + 1..].fill(0);
                let mut slices = Slices::held(places);
                slices.reals.resize(lengths[0], 0.0);
                slices.integers.resize(lengths[1], 0);
                slices.counts.resize(lengths[2], 0);
                slices.refuse(0, 28, 0, 0);
                slices.refuse(3, 6, expected, found);
            }
        }
        let mut slices = Slices::held(places);
        slices.refuse(0, 28, 0, 0);
        if places == 23 {
            assert_eq!(slices.turn(3), (0, 3, 2, 5, 0, 0.25));
            assert_eq!((&slices.out[..2], slices.last), (&[0, 1][..], 3));
            assert!(slices.out[2..].iter().all(|&z| z == 7));
        } else {
            slices.refuse(3, 6, 23, places);
            slices.counts.fill(0);
        }
        slices.refuse(3, 29, 0, 0);
    }
}

/// The pickup's own output has n places, and the turn's 23: the places behind the point stay.
#[test]
fn places_behind_the_point() {
    let mut slices = Slices::held(23);
    slices.out = (0..23).map(|i| i64::MIN + i).collect();
    let before = slices.out.clone();
    assert_eq!(slices.turn(1), (15, 3, 2, 3, 0, 0.25));
    assert_eq!(slices.out, before);
    assert_eq!(slices.turn(2), (0, 3, 2, 5, 0, 0.25));
    assert_eq!((&slices.out[..2], &slices.out[2..]), (&[0, 1][..], &before[2..]));
    let mut out = [0; 2];
    let mut block = Block::held([3], 3);
    assert_eq!(pick_up(&mut block.0, 3, &mut out, 2).map(|found| found.nodes), Ok(5));
    assert_eq!(out, slices.out[..2]);
}
