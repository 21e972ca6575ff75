//! The verdict on a list: whether its first point stands out.

use crate::{Refusal, ffi, told};
use core::fmt;

/// The verdict on a list, by its first distances d1 and d2, its radius and the factors p and q of [`ratio`].
///
/// "Other" is every vector of n integers but the list's first point, listed or not. Every product is rounded once, to a
/// double, and where p·d1 overflows the test is not met. What is said here is promised of the distances that a list at
/// this radius wrote, with n up to 23. Of a list with n from 24 on a verdict compares the distances, and says nothing of
/// vectors that are not listed.
///
/// `Display` gives the word that the job program prints: none, holds, fails or open.
#[derive(Debug, Clone, Copy, PartialEq, Eq, Hash)]
pub enum Ratio {
    /// There is no distance: no list, or no vector that is admitted at the radius.
    None,
    /// q·radius ≥ p·d1, and q times the computed distance of every other vector is no less than p·d1 either. A first
    /// distance of 0 always holds, and then says nothing of how far the second vector is.
    Holds,
    /// Another vector is listed at d2, and no other is nearer; q·d2 < p·d1, or p·d1 overflows.
    Fails,
    /// One point alone is listed, so no other vector is nearer than the radius; q·radius < p·d1, or p·d1 overflows.
    /// Whether another one is too near is not known: unless p·d1 overflows, a radius above p·d1/q decides it.
    Open,
}

impl Ratio {
    /// The verdict of a number that the library tells.
    fn new(number: u64) -> Self {
        match number {
            0 => Self::None,
            1 => Self::Holds,
            2 => Self::Fails,
            3 => Self::Open,
            _ => unreachable!("the library has no verdict {number}"),
        }
    }
}

impl fmt::Display for Ratio {
    fn fmt(&self, f: &mut fmt::Formatter<'_>) -> fmt::Result {
        f.pad(match self {
            Self::None => "none",
            Self::Holds => "holds",
            Self::Fails => "fails",
            Self::Open => "open",
        })
    }
}

/// Whether the first point of a list stands out: q·d2 ≥ p·d1 of its first distances d1 and d2. Where one point alone is
/// listed, the radius stands for d2. p and q are from 1 to 1,000, and p is at least q; with 3 and 1, d2 has to be
/// 3 times d1 or more.
///
/// Pass the distances that a list wrote, as many as it has points, and the radius that it was given; of a list that was
/// refused, pass none. Any doubles are taken, NaNs too, in any order, and only the first two are read; but what
/// [`Ratio`] says of the vectors is promised only of the distances that a list at this radius wrote, with n up to 23.
///
/// ```
/// use snowgimmer::{Ratio, Refusal, Table, ratio};
///
/// let table = Table::from_rows(&[1.0, 1.0], &[[0.0, 0.0], [0.5, 0.0]]);
/// let (mut distances, mut points) = ([0.0; 8], [0; 16]);
/// let list = table.list(&[0.25, 0.5], &mut distances, &mut points, 2.0, 100)?;
/// assert_eq!(list.distances[..2], [0.25, 0.5]);
/// assert_eq!(ratio(list.distances, 2.0, 3, 1)?, Ratio::Fails); // 0.5 is below 3 times 0.25
/// assert_eq!(ratio(list.distances, 2.0, 2, 1)?, Ratio::Holds); // and not below 2 times it
///
/// // p is the larger factor
/// assert_eq!(ratio(list.distances, 2.0, 1, 3), Err(Refusal::SettingRange { index: 0 }));
/// # Ok::<(), Refusal>(())
/// ```
///
/// # Errors
///
/// [`Refusal::SettingRange`] if p or q is not from 1 to 1,000, or p is below q.
///
/// Since 0.7.0.
pub fn ratio(distances: &[f64], radius: f64, p: u64, q: u64) -> Result<Ratio, Refusal> {
    // SAFETY: a live slice with its own length, which is not written (see the crate's head)
    let report = told(|r| unsafe {
        ffi::snowgimmer_ratio(
            distances.as_ptr(),
            distances.len(),
            radius,
            p,
            q,
            &mut r.first,
            &mut r.second,
            &mut r.real,
        )
    })?;
    Ok(Ratio::new(report.first))
}
