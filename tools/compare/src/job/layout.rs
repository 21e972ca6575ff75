//! A job's bytes, and bytes whose layout is at fault.

use crate::case::{Call, Case};
use crate::paper::LARGEST_N;
use crate::random::resize;
use crate::rng::Rng;

#[derive(Clone)]
pub struct Job {
    /// A list without places: those of a job are a setting.
    pub case: Case,
    /// p, q and places; `None` where the job ends with the budget.
    pub settings: Option<[u64; 3]>,
}

/// A job's sections in their order, each item by its bits.
pub type Sections = Vec<Vec<u64>>;

impl Job {
    #[must_use]
    pub fn new(case: Case, settings: Option<[u64; 3]>) -> Self {
        Self { case: case.with_places(0).with_candidate(&[]), settings }
    }

    /// `None` if these bytes are no job.
    #[must_use]
    pub fn read(bytes: &[u8]) -> Option<Self> {
        let oracle::Job { weights, mu, target, radius, budget, settings } = oracle::job(bytes)?;
        let without = Self::new(Case::new(Call::List, &weights, &mu, &target, radius, budget), None);
        let ends_with_budget = without.bytes() == bytes;
        Some(Self { settings: (!ends_with_budget).then_some(settings), ..without })
    }

    #[must_use]
    pub fn sections(&self) -> Sections {
        let Case { weights, mu, target, radius, budget, .. } = &self.case;
        let n = weights.len();
        let bits = |list: &[f64]| list.iter().map(|x| x.to_bits()).collect();
        let read = (0..n * n).filter(|k| k / n > k % n).map(|k| mu[k].to_bits()).collect();
        let five = vec![bits(weights), read, bits(target), vec![radius.to_bits()], vec![*budget]];
        five.into_iter().chain(self.settings.map(Vec::from)).collect()
    }

    #[must_use]
    pub fn bytes(&self) -> Vec<u8> {
        bytes(&self.sections())
    }
}

/// Each section's count and then its items.
#[must_use]
pub fn bytes(sections: &[Vec<u64>]) -> Vec<u8> {
    let mut bytes = Vec::new();
    for items in sections {
        bytes.extend((items.len() as u32).to_le_bytes());
        bytes.extend(items.iter().flat_map(|item| item.to_le_bytes()));
    }
    bytes
}

// ---- layouts at fault

/// Bytes that in most cases are no job, made from the sections of one.
pub fn broken(rng: &mut Rng, sections: Sections) -> Vec<u8> {
    match rng.below(12) {
        0..3 => cut(rng, &sections),
        3..6 => other_count(rng, &sections),
        6 | 7 => bytes(&other_sections(rng, sections)),
        8 => bytes(&other_size(rng, sections)),
        9 | 10 => surplus(rng, bytes(&sections)),
        _ => any_bytes(rng),
    }
}

/// Where a section begins.
fn start(rng: &mut Rng, sections: &[Vec<u64>]) -> usize {
    let before = rng.below(sections.len());
    bytes(&sections[..before]).len()
}

/// Cut anywhere, or within a count or the first item after it.
fn cut(rng: &mut Rng, sections: &[Vec<u64>]) -> Vec<u8> {
    let mut whole = bytes(sections);
    let end = if rng.once_in(2) { rng.below(whole.len()) } else { start(rng, sections) + rng.below(13) };
    whole.truncate(end);
    whole
}

/// A count changed in one of its bytes: in a bit, by one, or to any other.
fn other_count(rng: &mut Rng, sections: &[Vec<u64>]) -> Vec<u8> {
    let mut whole = bytes(sections);
    let place = start(rng, sections) + rng.below(4);
    let byte = whole[place];
    let any = rng.bits() as u8;
    whole[place] = rng.pick(&[byte ^ (1 << (any % 8)), byte.wrapping_add(1), byte.wrapping_sub(1), any]);
    whole
}

/// Two sections in each other's place, one left out or one twice.
fn other_sections(rng: &mut Rng, mut sections: Sections) -> Sections {
    let (i, j) = (rng.below(sections.len()), rng.below(sections.len()));
    match rng.below(4) {
        0 => drop(sections.remove(i)),
        1 => sections.insert(j, sections[i].clone()),
        _ => sections.swap(i, j),
    }
    sections
}

/// Sections whose counts are those of their items: one with some more or fewer, or all of them with too many dimensions.
fn other_size(rng: &mut Rng, mut sections: Sections) -> Sections {
    if rng.once_in(3) {
        let n = LARGEST_N + 1 + rng.below(10);
        sections[0].resize(n, 1.0_f64.to_bits());
        sections[1].resize(n * (n - 1) / 2, 0);
        sections[2].resize(n, 0);
    } else {
        let place = rng.below(sections.len());
        resize(rng, &mut sections[place], 1);
    }
    sections
}

/// Bytes behind a job: itself, as many as the program reads and about that many, or a few.
fn surplus(rng: &mut Rng, mut whole: Vec<u8>) -> Vec<u8> {
    let filler = rng.pick(&[0, 3, 255]);
    match rng.below(4) {
        0 => whole.extend(whole.clone()),
        1 => whole.resize(rng.pick(&[4095, 4096, 4097, 8192]), filler),
        2 => whole.resize(whole.len() + 1 + rng.below(40), filler),
        _ => whole.extend((0..1 + rng.below(40)).map(|_| rng.bits() as u8)),
    }
    whole
}

/// From no byte to more than the program reads.
fn any_bytes(rng: &mut Rng) -> Vec<u8> {
    let most = rng.pick(&[0, 40, 200, 5000]);
    let kind = rng.below(4);
    let byte = |rng: &mut Rng| match kind {
        0 => 0,
        1 => 255,
        2 => rng.below(3) as u8,
        _ => rng.bits() as u8,
    };
    (0..rng.below(most + 1)).map(|_| byte(rng)).collect()
}
