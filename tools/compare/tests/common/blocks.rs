//! What the tests of kept searches share: blocks as bits, the answer of one `nearest` and the part that it is kept in, short
//! cases, and parts that no call has written.

use compare::answer::{Answer, Report, integer_pattern};
use compare::case::{Call, Case};
use compare::expected::expected;
use compare::paper::{LARGEST_N, MOST_NODES};
use compare::port::{self, Block};
use compare::random;
use compare::rng::Rng;
use compare::values;
use oracle::kept::{COUNTS, Held, INTEGERS, REALS, part};

pub type Bits = [Vec<u64>; 3];

pub fn bits(block: &Block) -> Bits {
    block.bits().map(<[u64]>::to_vec)
}

/// A block that holds these bits, of any lengths.
pub fn lent(all: &Bits) -> Block {
    let integers: Vec<i64> = all[1].iter().map(|z| z.cast_signed()).collect();
    Block::new(&all[0], &integers, &all[2])
}

/// The doubles, integers and counts of a name.
pub type Part = (Vec<f64>, Vec<i64>, Vec<u64>);

pub fn empty_part() -> Part {
    (vec![0.0; REALS], vec![0; INTEGERS], vec![0; COUNTS])
}

/// The part that keeps a search whose nodes were not enough, by the specification's walk.
pub fn kept_part(case: &Case) -> Part {
    let mut held = Held::begin(&case.weights, &case.mu, &case.target, case.radius);
    held.run(case.budget);
    let (mut reals, mut integers, mut counts) = empty_part();
    held.write_table(&mut reals);
    held.write_walk(&mut reals, &mut integers, &mut counts);
    (reals, integers, counts)
}

/// The block with another part under a name.
pub fn with_part(all: &Bits, name: u64, (reals, integers, counts): &Part) -> Bits {
    let ([r, i, c], mut all) = (part(name), all.clone());
    all[0][r].iter_mut().zip(reals).for_each(|(to, x)| *to = x.to_bits());
    all[1][i].iter_mut().zip(integers).for_each(|(to, z)| *to = z.cast_unsigned());
    all[2][c].copy_from_slice(counts);
    all
}

// ---- expected

pub fn output(places: usize) -> Vec<i64> {
    (0..places).map(integer_pattern).collect()
}

/// 6 of the block.
pub fn length_refusal(lengths: [usize; 3]) -> Option<Report> {
    let wrong = lengths.into_iter().zip([5168, 736, 768]).find(|(found, expected)| found != expected);
    wrong.map(|(found, expected)| Report::whole(6, expected as u64, found as u64))
}

/// The answer of `nearest` with n up to 23, of the original and the reading.
pub fn nearest(case: &Case) -> Answer {
    if case.weights.len() > LARGEST_N {
        return Answer::untouched(case, Report::whole(2, case.weights.len() as u64, 0));
    }
    let expected = expected(case);
    assert_eq!(expected.disagreement, None, "{case}");
    let (port, trespasses) = port::run(case);
    assert!(port == expected.answer && trespasses.is_empty(), "nearest itself differs: {case}");
    expected.answer
}

// ---- short cases

pub fn small(weights: &[f64], entry: f64, target: &[f64], radius: f64) -> Case {
    let n = weights.len();
    let mut mu = vec![f64::NAN; n * n];
    (0..n * n).filter(|k| k / n > k % n).for_each(|k| mu[k] = entry);
    Case::new(Call::Nearest, weights, &mu, target, radius, 0)
}

/// Cases A to I and their like, ties, both zeros, the ends of the doubles, and centres beyond 2^62.
pub fn shorts() -> Vec<Case> {
    let (limit, most, least) = (4_503_599_627_370_496.0, f64::MAX, f64::from_bits(1));
    let mut far = small(&[1.0, 1.0, 1.0], 0.0, &[0.0, 0.0, 0.25], 0.1);
    (far.mu[3], far.mu[7]) = (-limit, 4096.0);
    let mut farther = far.clone();
    (farther.mu[3], farther.mu[7]) = (limit, 8192.0);
    vec![
        small(&[], 0.0, &[], 0.0),
        small(&[4.0], 0.0, &[0.75], 0.25),
        small(&[4.0], 0.0, &[0.75], 0.125),
        small(&[1.0], 0.0, &[0.5], 1.0),
        small(&[1.0], 0.0, &[limit], 0.0),
        small(&[0.1], 0.0, &[2.5], 2.1),
        small(&[least], 0.0, &[0.5], -0.0),
        small(&[most], 0.0, &[0.25], most),
        small(&[1.0, 1.0], 0.5, &[0.25, 0.5], 2.0),
        small(&[1.0, 1.0], 0.5, &[1.25, 2.0], -0.0),
        small(&[1.0, 1.0], 0.5, &[1.0, 2.0], -0.0),
        small(&[2.0 * f64::EPSILON, 4.0], 0.0, &[0.5, 0.5], 1.0),
        small(&[2.0 * f64::EPSILON, 4.0], 0.0, &[0.5, 0.5], 1.0 + f64::EPSILON),
        small(&[most, most], 0.0, &[0.5, 0.5], most),
        small(&[4.0, 4.0], 1.5, &[0.5, 1.5], 2.0),
        small(&[1.7, 0.4, 2.1], -0.7, &[-1.4, 0.9, 1.7], 1.3),
        small(&[1.0; 5], 0.3, &[0.5; 5], 1.6),
        small(&[1.0; 23], 0.0, &[0.1; 23], 1.0),
        small(&[1.0; 24], 0.0, &[0.1; 24], 1.0),
        far,
        farther,
    ]
}

// ---- parts that no call has written

/// A sound part, its other numbers at random.
fn sound_part(rng: &mut Rng, all: &mut Bits, name: u64) {
    let ([r, i, c], n) = (part(name), 1 + rng.below(LARGEST_N));
    let integer = |rng: &mut Rng| match rng.below(4) {
        0 => rng.bits(),
        1 => rng.pick(&[i64::MAX, i64::MIN, i64::MAX - 5, i64::MIN + 5]).cast_unsigned(),
        _ => (rng.below(9) as i64 - 4).cast_unsigned(),
    };
    let plain = rng.once_in(2);
    all[0][r].iter_mut().for_each(|x| *x = if plain { rng.uniform(0.1, 3.0) } else { values::any(rng) }.to_bits());
    all[1][i].iter_mut().for_each(|z| *z = integer(rng));
    let nodes = rng.pick(&[0, 1, 5, 100, MOST_NODES - 3, MOST_NODES - 1, MOST_NODES]);
    let counts = &mut all[2][c];
    counts.iter_mut().for_each(|k| *k = rng.below(3) as u64);
    let mut levels: Vec<u64> = (0..n as u64).filter(|_| rng.once_in(2)).collect();
    if levels.is_empty() {
        levels.push(rng.below(n) as u64);
    }
    counts[..4].copy_from_slice(&[n as u64, nodes, rng.below(2) as u64, levels.len() as u64]);
    for (k, level) in levels.iter().enumerate() {
        counts[4 + k] = *level;
        counts[27 + k] = (rng.below(8) as u64).min(2 * nodes + 1);
        if rng.once_in(4) {
            counts[27 + k] = 2 * nodes + 1 - rng.below(2) as u64;
        }
    }
}

/// Other numbers in some places of a part.
fn mutate(rng: &mut Rng, all: &mut Bits, name: u64) {
    for _ in 0..1 + rng.below(5) {
        let slice = rng.below(3);
        let place = part(name)[slice].start + rng.below([REALS, INTEGERS, COUNTS][slice]);
        // Half of the counts' changes are where the soundness test looks.
        let place = if slice == 2 && rng.once_in(2) { part(name)[2].start + rng.below(28) } else { place };
        let old = all[slice][place];
        all[slice][place] = match rng.below(6) {
            0 => rng.bits(),
            1 => old.wrapping_add(1),
            2 => old.wrapping_sub(1),
            3 => old ^ (1 << rng.below(64)),
            4 if slice == 0 => values::any(rng).to_bits(),
            _ => rng.pick(&[0, 1, 2, 22, 23, 24, MOST_NODES, MOST_NODES + 1, u64::MAX, 1 << 63]),
        };
    }
}

/// The block with such a part under a name: `sound`, `mutated`, which is a kept search with other numbers in some places,
/// or of any numbers.
pub fn unwritten(rng: &mut Rng, mut block: Block, name: u64, kind: &str) -> Bits {
    if kind == "mutated" {
        let case = random::over_table(rng, Call::Nearest).with_budget(rng.below(200) as u64);
        let _ = port::nearest_named(&mut block, name, &case, &mut vec![0; case.places]);
    }
    let mut all = bits(&block);
    match kind {
        "sound" => sound_part(rng, &mut all, name),
        "mutated" => mutate(rng, &mut all, name),
        _ => {
            let zeros = rng.once_in(2);
            part(name).into_iter().zip(&mut all).for_each(|(p, slice)| {
                slice[p].iter_mut().for_each(|cell| *cell = if zeros { rng.below(3) as u64 } else { rng.bits() });
            });
        }
    }
    all
}
