//! Searches that are kept under names when their budget runs out, are picked up with a further one, and take turns.

use crate::{Found, LARGEST_DIMENSION, NAMES, NAMES_SIZE, Nearest, Refusal, ffi, told};
use core::fmt;
use core::hint::black_box;
use core::iter::once;

const REALS: usize = 5168;
const INTEGERS: usize = 736;
const COUNTS: usize = 768;

/// A block of eight names, 1 to 8. Each holds a nearest search whose budget ran out, or is empty.
///
/// A search that is kept there goes on when there is time for it, and others may be made in between:
///
/// ```
/// use snowgimmer::{Names, Refusal, Table};
///
/// let mut names = Names::new();
/// let table = Table::from_rows(&[1.0, 1.0], &[[0.0, 0.0], [0.5, 0.0]]);
/// let refusal = table.nearest_named(&mut names, 3, &[0.25, 0.5], 2.0, 2).unwrap_err();
/// assert_eq!(refusal, Refusal::BudgetExhausted { nodes: 2, radius: 0.25 });
///
/// // with three nodes more it ends, and the name is empty
/// let found = names.pick_up(3, 3)?;
/// assert_eq!(found.point, [0, 1]);
/// assert_eq!((found.nodes, found.distance), (5, 0.25));
/// assert_eq!(names.pick_up(3, 3), Err(Refusal::NameEmpty));
/// # Ok::<(), Refusal>(())
/// ```
///
/// Where several searches share one computer, [`Names::turn`] serves one after the other.
///
/// **It has 53,384 bytes**, and the crate allocates nothing. A small stack may not have room for it as a local. A
/// static one, for which [`Names::new`] is `const`, is never on a stack; `Box::new(Names::new())` may be for a moment.
///
/// ```
/// use snowgimmer::Names;
/// use std::sync::Mutex;
///
/// static KEPT: Mutex<Names> = Mutex::new(Names::new());
/// assert!(KEPT.lock().unwrap().pick_up(1, 100).is_err());
/// ```
///
/// **What is in it** is for the library to read and write. [`Names::write_to`] and [`Names::read_from`] store it as
/// bytes, also for another machine of the same byte order. A name is empty if its numbers fail a test: n is at most 23,
/// the nodes are at most 2^60, at least one level is open, the open levels rise and are below n, and none has made more
/// steps than the nodes allow. Any other contents, whoever wrote them, are run safely as the search that they say, and
/// a call tries at most as many nodes as its budget says. But what is found then is only what these numbers say.
///
/// **It holds the tables and targets** of the searches that are kept. If they are confidential, [`Names::clear`] it
/// after use.
///
/// Since 0.11.0.
#[derive(Clone)]
pub struct Names {
    reals: [f64; REALS],
    integers: [i64; INTEGERS],
    counts: [u64; COUNTS],
    // the name last served by a turn, 0 before the first
    last: u64,
}

const _: () = assert!(size_of::<Names>() == NAMES_SIZE);

impl Names {
    /// Eight empty names.
    #[must_use]
    pub const fn new() -> Self {
        Self { reals: [0.0; REALS], integers: [0; INTEGERS], counts: [0; COUNTS], last: 0 }
    }

    /// Empties every name, by zeros, and makes the next turn the first.
    pub fn clear(&mut self) {
        self.reals.fill(0.0);
        self.integers.fill(0);
        self.counts.fill(0);
        self.last = 0;
        // so that the zeros are written also where nothing reads them
        black_box(self);
    }

    /// Goes on with the search that a name holds, with a further budget, as [`pick_up`], and gives its point by value.
    ///
    /// # Errors
    ///
    /// Those of [`pick_up`], but for 6.
    pub fn pick_up(&mut self, name: u64, budget: u64) -> Result<Nearest, Refusal> {
        Nearest::written(self.dimension(name)?, |out| pick_up(self, name, out, budget))
    }

    /// Goes on with one of the kept searches by a slice of 1 to 2^20 nodes, and by the next call with another: serves the
    /// first name behind [`Names::last_served`] that holds a search, and gives that name with what came of it. After 8
    /// comes 1, and empty names are passed over; the first turn looks from 1 on. The call needs 16 kB of stack.
    ///
    /// ```
    /// use snowgimmer::{Names, Refusal, Table};
    ///
    /// let mut names = Names::new();
    /// let table = Table::from_rows(&[1.0, 1.0], &[[0.0, 0.0], [0.5, 0.0]]);
    /// for name in [2, 7] {
    ///     assert!(table.nearest_named(&mut names, name, &[0.25, 0.5], 2.0, 1).is_err());
    /// }
    /// let mut ended = vec![];
    /// loop {
    ///     match names.turn(2) {
    ///         Ok(turn) if turn.kept => (), // what can't wait is done here
    ///         Ok(turn) => ended.push((turn.name, turn.answer.map(|found| found.nodes))),
    ///         Err(Refusal::NoneHeld) => break,
    ///         Err(refusal) => return Err(refusal),
    ///     }
    /// }
    /// assert_eq!(ended, [(2, Ok(5)), (7, Ok(5))]);
    /// # Ok::<(), Refusal>(())
    /// ```
    ///
    /// **No search waits for ever.** One for which k more slices are enough has ended with the 8·k-th accepted turn, if
    /// all turns have that slice, whatever is kept, picked up or emptied under other names meanwhile; it may be picked
    /// up itself. It takes that no other search is kept in its place, and that no slice is due that would take it past
    /// 2^60 nodes. Only an accepted turn, one that gives a [`Turn`], changes [`Names::last_served`]: the name stays the
    /// last one where it is emptied, filled again or picked up otherwise. If it alone is held, it is served again.
    ///
    /// **The limit.** If the nodes of a search and the slice are above 2^60 together, its turn answers
    /// [`Refusal::BudgetExhausted`] as the search stands, with its nodes and its standing radius, and empties the name.
    /// [`Turn::kept`] tells this from a search that is kept.
    ///
    /// # Errors
    ///
    /// In this order: [`Refusal::SliceRange`]; [`Refusal::NoneHeld`]. Both leave everything as it was. How the search
    /// that was served ended is in [`Turn::answer`].
    ///
    /// Since 0.12.0.
    pub fn turn(&mut self, slice: u64) -> Result<Turn, Refusal> {
        let (mut out, mut name, mut n) = ([0; LARGEST_DIMENSION], 0, 0);
        // SAFETY: live slices with their own lengths, and locals; none of them is another's (see the crate's head)
        let answer = told(|r| unsafe {
            ffi::snowgimmer_turn(
                self.reals.as_mut_ptr(),
                self.reals.len(),
                self.integers.as_mut_ptr(),
                self.integers.len(),
                self.counts.as_mut_ptr(),
                self.counts.len(),
                &mut self.last,
                out.as_mut_ptr(),
                out.len(),
                slice,
                &mut name,
                &mut n,
                &mut r.first,
                &mut r.second,
                &mut r.real,
            )
        });
        let n = n as usize;
        match answer {
            // a check refused the turn, and no name was served
            Err(refusal) if name == 0 => Err(refusal),
            Err(refusal) => Ok(Turn { name, n, answer: Err(refusal), kept: self.dimension(name).is_ok() }),
            Ok(report) => {
                let answer = Nearest::written(n, |point| {
                    point.copy_from_slice(&out[..n]);
                    Ok(Found { nodes: report.first, distance: report.real })
                });
                Ok(Turn { name, n, answer, kept: false })
            }
        }
    }

    /// The name last served by a turn, or `None` before the first. It is stored with the block's bytes; a number there
    /// that is no name counts as none. Since 0.12.0.
    #[must_use]
    pub fn last_served(&self) -> Option<u64> {
        (1..=NAMES).contains(&self.last).then_some(self.last)
    }

    /// n of the search that a name holds. The block is lent for the asking, and not changed.
    ///
    /// ```
    /// use snowgimmer::{NAMES, Names, nearest_named};
    ///
    /// let (mut names, mut out) = (Names::new(), [0]);
    /// assert!(nearest_named(&mut names, 3, &[1.0], &[0.0], &[0.5], &mut out, 1.0, 1).is_err());
    /// // the names that hold a search
    /// assert!((1..=NAMES).filter(|&name| names.dimension(name).is_ok()).eq([3]));
    /// assert_eq!(names.dimension(3), Ok(1));
    /// ```
    ///
    /// # Errors
    ///
    /// [`Refusal::NameRange`]; [`Refusal::NameEmpty`].
    pub fn dimension(&mut self, name: u64) -> Result<usize, Refusal> {
        // an output of no element is refused by 6, since no search with n = 0 is kept
        match pick_up(self, name, &mut [], 0) {
            Err(Refusal::LengthMismatch { expected, .. }) => Ok(expected),
            Err(refusal) => Err(refusal),
            Ok(_) => unreachable!("the library keeps no search with n = 0"),
        }
    }

    /// Writes the block as bytes, in the machine's byte order, as `struct snowgimmer_names` has them in C.
    ///
    /// ```
    /// use snowgimmer::{NAMES_SIZE, Names};
    ///
    /// let mut bytes = [1; NAMES_SIZE];
    /// Names::new().write_to(&mut bytes);
    /// assert_eq!(bytes, [0; NAMES_SIZE]);
    /// ```
    pub fn write_to(&self, bytes: &mut [u8; NAMES_SIZE]) {
        let reals = self.reals.iter().map(|x| x.to_ne_bytes());
        let integers = self.integers.iter().map(|z| z.to_ne_bytes());
        let counts = self.counts.iter().chain(once(&self.last)).map(|k| k.to_ne_bytes());
        for (place, element) in bytes.chunks_exact_mut(8).zip(reals.chain(integers).chain(counts)) {
            place.copy_from_slice(&element);
        }
    }

    /// Takes the block from such bytes, whoever wrote them, in the place of what was in it. Those of 0.11.0 are 8
    /// fewer: put zeros behind them.
    pub fn read_from(&mut self, bytes: &[u8; NAMES_SIZE]) {
        let mut elements = bytes.chunks_exact(8).map(|place| {
            let mut element = [0; 8];
            element.copy_from_slice(place);
            element
        });
        self.reals.iter_mut().zip(&mut elements).for_each(|(x, element)| *x = f64::from_ne_bytes(element));
        self.integers.iter_mut().zip(&mut elements).for_each(|(z, element)| *z = i64::from_ne_bytes(element));
        let counts = self.counts.iter_mut().chain(once(&mut self.last));
        counts.zip(&mut elements).for_each(|(k, element)| *k = u64::from_ne_bytes(element));
    }
}

impl Default for Names {
    fn default() -> Self {
        Self::new()
    }
}

/// Without what is in it.
impl fmt::Debug for Names {
    fn fmt(&self, f: &mut fmt::Formatter<'_>) -> fmt::Result {
        f.debug_struct("Names").finish_non_exhaustive()
    }
}

/// What [`Names::turn`] gives: which search it served, and what came of it. Since 0.12.0.
#[derive(Debug, Clone, Copy, PartialEq)]
#[non_exhaustive]
pub struct Turn {
    /// The name that was served.
    pub name: u64,
    /// The n of its search.
    pub n: usize,
    /// The answer of [`Names::pick_up`] under this name, with the slice for its budget: the point that was found,
    /// [`Refusal::BudgetExhausted`] with all nodes since the start of the search, or [`Refusal::OutsideRadius`].
    pub answer: Result<Nearest, Refusal>,
    /// Whether the name still holds the search. If not, the search has ended: by a point, by
    /// [`Refusal::OutsideRadius`], or by [`Refusal::BudgetExhausted`] because with this slice its nodes would have
    /// passed 2^60.
    pub kept: bool,
}

/// The search of [`nearest`](crate::nearest), with n up to 23, under a name from 1 to 8. The point that it writes to
/// `out`, the number of nodes and the distance are those of [`nearest`](crate::nearest).
///
/// If it ends with [`Refusal::BudgetExhausted`] it is kept under the name, in the place of what that held, with its own
/// copy of table and target and with its walk where it stopped: [`pick_up`] goes on from there. If it ends otherwise,
/// the block is as it was, also where the name holds an older search. With n = 0 nothing is ever kept, since the empty
/// point is found without a node. The call needs 18 kB of stack.
///
/// ```
/// use snowgimmer::{Names, Refusal, nearest_named, pick_up};
///
/// let (mut names, mut out) = (Names::new(), [0; 2]);
/// let (weights, mu, target) = ([1.0, 1.0], [0.0, 0.0, 0.5, 0.0], [0.25, 0.5]);
/// let refusal = nearest_named(&mut names, 3, &weights, &mu, &target, &mut out, 2.0, 2).unwrap_err();
/// assert_eq!(refusal, Refusal::BudgetExhausted { nodes: 2, radius: 0.25 });
///
/// let found = pick_up(&mut names, 3, &mut out, 3)?;
/// assert_eq!((found.nodes, found.distance, out), (5, 0.25, [0, 1]));
/// # Ok::<(), Refusal>(())
/// ```
///
/// # Errors
///
/// In this order: [`Refusal::NameRange`]; 2 to 9, the table and the call, 2 if n is above 23;
/// [`Refusal::BudgetExhausted`], by which the search is kept; [`Refusal::OutsideRadius`]. Any other than
/// [`Refusal::BudgetExhausted`] leaves the block as it was, and each leaves `out` as it was.
///
/// Since 0.11.0.
#[expect(clippy::too_many_arguments, reason = "those of `nearest`, with a block and a name")]
pub fn nearest_named(
    names: &mut Names,
    name: u64,
    weights: &[f64],
    mu: &[f64],
    target: &[f64],
    out: &mut [i64],
    radius: f64,
    budget: u64,
) -> Result<Found, Refusal> {
    // SAFETY: live slices with their own lengths; the block's and `out` are no others' (see the crate's head)
    let report = told(|r| unsafe {
        ffi::snowgimmer_nearest_named(
            names.reals.as_mut_ptr(),
            names.reals.len(),
            names.integers.as_mut_ptr(),
            names.integers.len(),
            names.counts.as_mut_ptr(),
            names.counts.len(),
            name,
            weights.as_ptr(),
            weights.len(),
            mu.as_ptr(),
            mu.len(),
            target.as_ptr(),
            target.len(),
            out.as_mut_ptr(),
            out.len(),
            radius,
            budget,
            &mut r.first,
            &mut r.second,
            &mut r.real,
        )
    })?;
    Ok(Found { nodes: report.first, distance: report.real })
}

/// Goes on with the search that a name holds, with a further budget. After any number of pickups the answer, the point
/// in `out`, the number of nodes and the distance are those of one search that has the sum of all budgets. A pickup
/// takes the time of its own nodes, not that of the walk from its start. Table and target are the copies that were kept,
/// whatever has become of the caller's own.
///
/// If it ends with a point or with [`Refusal::OutsideRadius`], the name is empty then. If it ends with
/// [`Refusal::BudgetExhausted`], the search is kept again where it stopped; the nodes told are all so far, which is the
/// sum of the budgets. A budget of 0 is taken, and tells the same again. [`Names::pick_up`] gives the point by value,
/// and needs no n. The call needs 16 kB of stack.
///
/// ```
/// use snowgimmer::{Names, Refusal, nearest_named, pick_up};
///
/// let (mut names, mut out) = (Names::new(), [0]);
/// let mut answer = nearest_named(&mut names, 1, &[1.0], &[0.0], &[0.5], &mut out, 1.0, 1);
/// while let Err(Refusal::BudgetExhausted { .. }) = answer {
///     // what can't wait is done here
///     answer = pick_up(&mut names, 1, &mut out, 1);
/// }
/// assert_eq!((answer?.nodes, out), (2, [0]));
/// # Ok::<(), Refusal>(())
/// ```
///
/// # Errors
///
/// In this order: [`Refusal::NameRange`]; [`Refusal::NameEmpty`]; [`Refusal::LengthMismatch`] if `out` does not have
/// the n elements of the search that is kept; [`Refusal::SumRange`], in the place of 9, if the sum of its budgets, this
/// one too, is above 2^60; [`Refusal::BudgetExhausted`]; [`Refusal::OutsideRadius`], with the radius that the search was
/// given at first. The first four leave the block as it was, and each leaves `out` as it was.
///
/// Since 0.11.0.
pub fn pick_up(names: &mut Names, name: u64, out: &mut [i64], budget: u64) -> Result<Found, Refusal> {
    // SAFETY: live slices with their own lengths; the block's and `out` are no others' (see the crate's head)
    let report = told(|r| unsafe {
        ffi::snowgimmer_pick_up(
            names.reals.as_mut_ptr(),
            names.reals.len(),
            names.integers.as_mut_ptr(),
            names.integers.len(),
            names.counts.as_mut_ptr(),
            names.counts.len(),
            name,
            out.as_mut_ptr(),
            out.len(),
            budget,
            &mut r.first,
            &mut r.second,
            &mut r.real,
        )
    })?;
    Ok(Found { nodes: report.first, distance: report.real })
}
