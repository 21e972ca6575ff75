//! The check of a table's triangle, an entry at a time.

use crate::{Refusal, Report, ffi};

/// The check of a table's entries, refusals 3 and 4, an entry at a time, so that a table can be checked while it is
/// being received, from a file or over a radio link.
///
/// Feed the entries with j > i, which are those that the calls read, and no others, by rising index j·n+i: row 1, then
/// row 2, and so on. After each one the verdict is that on all entries so far. After the last one it is the refusal, 3,
/// 4 or none, that every call on the table gives once its lengths are right: 2 comes before them and the others after.
/// These stay the calls' own, and each call still checks the whole table.
///
/// ```
/// use snowgimmer::{Refusal, TriangleCheck};
///
/// const N: usize = 3;
///
/// /// mu over a link that gives the entries below the diagonal, row by row.
/// fn receive(mut link: impl FnMut() -> f64) -> Result<[[f64; N]; N], Refusal> {
///     let (mut mu, mut check) = ([[0.0; N]; N], TriangleCheck::new());
///     for j in 1..N {
///         for i in 0..j {
///             mu[j][i] = link();
///             check = check.feed(j * N + i, mu[j][i]);
///             if let Err(refusal @ Refusal::MuNonFinite { .. }) = check.verdict() {
///                 return Err(refusal); // it is final: the rest need not be received
///             }
///         }
///     }
///     check.verdict().map(|()| mu)
/// }
///
/// let mut sent = [0.5, -0.25, 0.125].into_iter();
/// assert_eq!(receive(|| sent.next().unwrap()), Ok([[0.0; N], [0.5, 0.0, 0.0], [-0.25, 0.125, 0.0]]));
///
/// // an entry above 2^52, and then one that is not finite: the last one is not received
/// let mut sent = [1e16, f64::NAN, 0.125].into_iter();
/// assert_eq!(receive(|| sent.next().unwrap()), Err(Refusal::MuNonFinite { index: 6 }));
/// assert_eq!(sent.next(), Some(0.125));
/// ```
///
/// Since 0.4.0.
#[derive(Debug, Clone, Copy, PartialEq, Eq, Default)]
pub struct TriangleCheck {
    // what the library answered and told in first: 0 and 0, or 3 or 4 and an index; `new` and `feed` make no others
    number: u32,
    first: u64,
}

impl TriangleCheck {
    /// The check before the first entry.
    #[must_use]
    pub const fn new() -> Self {
        Self { number: 0, first: 0 }
    }

    /// The check with one more entry: its index j·n+i among the n·n, and its value. Every index is taken, and every
    /// value.
    #[must_use]
    pub fn feed(self, index: usize, entry: f64) -> Self {
        let mut r = Report::default();
        // SAFETY: numbers, and the fields of a local (see the crate's head)
        let number = unsafe {
            ffi::snowgimmer_check_entry(self.number, self.first, index, entry, &mut r.first, &mut r.second, &mut r.real)
        };
        Self { number, first: r.first }
    }

    /// The verdict on the entries so far.
    ///
    /// # Errors
    ///
    /// [`Refusal::MuNonFinite`] if an entry is not finite. It is final: the rest of the table need not be received.
    ///
    /// [`Refusal::MuRange`] if all are finite and one is above 2^52 in magnitude. It becomes [`Refusal::MuNonFinite`] if
    /// a later entry is not finite.
    ///
    /// Each has the index of the first such entry; if the indices did not rise, of the first that was fed.
    pub fn verdict(self) -> Result<(), Refusal> {
        match self.number {
            0 => Ok(()),
            number => Err(Refusal::new(number, self.first, 0, 0.0)),
        }
    }
}
