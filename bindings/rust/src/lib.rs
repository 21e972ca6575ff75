//! The nearest integer vector to a target in a triangular table's metric, and the list of all within a radius.
//!
//! For n weights w, entries mu and a target t each search is over the vectors z of n signed 64-bit integers, by the
//! least
//!
//! ```text
//! distance(z) = sum over i of  w[i] * (c[i] - z[i])^2
//! c[i]        = t[i] + sum over j > i of  mu[j*n+i] * (t[j] - z[j])
//! ```
//!
//! which is (t-z)' L W L' (t-z) with W = diag(w) and L the unit lower triangular matrix that has `mu[j*n+i]` in row j
//! and column i. **Distance and radius are squares**, as this sum is; both are computed in doubles, and "nearest" is by
//! the computed distance. A radius of minus zero counts as 0.
//!
//! n is 0 to 64 in [`nearest`] and [`list`](list()), and 0 to 23 in every other call with a table. See
//! [from n = 24 on](#from-n--24-on).
//!
//! mu is n·n entries **row by row**, of which only those below the diagonal, `mu[j*n+i]` with j > i, are read. A matrix
//! stored column by column gives the nearest point of another table, and no check can tell; [`Table::from_rows`] takes
//! rows.
//!
//! ```
//! use snowgimmer::{Refusal, Table};
//!
//! let table = Table::from_rows(&[1.0, 1.0], &[[0.0, 0.0], [0.5, 0.0]]);
//! let target = [0.25, 0.5];
//! let found = table.nearest(&target, 2.0, 100)?;
//! assert_eq!(found.point, [0, 1]);
//! assert_eq!((found.nodes, found.distance), (5, 0.25));
//!
//! // a budget of 4 nodes is too small by one
//! let refusal = table.nearest(&target, 2.0, 4).unwrap_err();
//! assert_eq!(refusal, Refusal::BudgetExhausted { nodes: 4, radius: 0.25 });
//! # Ok::<(), Refusal>(())
//! ```
//!
//! [`Table`] gives points by value. The functions beside it write to slices that they are lent, and have the names of
//! the Rust original's, which has no [`change_reference`] and no [`ratio`]. The latter is the verdict on a list, whether
//! its first point stands out. [`prepared_nearest_ml`], the original's `PreparedEnumerator::nearest_ml` with its matrices
//! lent, takes a target in the receiver's coordinates and gives the point in them, by a table of reduced ones.
//! [`TriangleCheck`] checks a table's entries one at a time, while the table is being received. [`nearest_named`] keeps a
//! search whose budget runs out in [`Names`], which the caller owns, and [`pick_up`] goes on with it; [`Names::turn`]
//! serves the searches that are kept there one after the other. The original has none of the three. Every one is that
//! of the proved library: for all inputs its answer is the one that the library's contract fixes, and a refusal leaves
//! every slice that it was lent as it was. **The exception** is [`Names`]: it is changed by
//! [`Refusal::BudgetExhausted`] of [`nearest_named`], [`pick_up`] and a turn, since the search is kept there, and by
//! [`Refusal::OutsideRadius`] of [`pick_up`] and a turn, which empties the name.
//!
//! The crate needs no standard library, allocates nothing, and keeps nothing between calls but in the caller's
//! [`Names`]. The variable SNOWGIMMER_LIB names the folder of `libsnowgimmer.a`, or the file, while a program is built.
//!
//! # From n = 24 on
//!
//! [`nearest`] and [`list`](list()) alone take n from 24 to 64. There the centres c are not computed anew at each node:
//! they are kept, and changed by what one coordinate changed by (docs/SPECIFICATION.md, "Running centres"). So their
//! roundings depend on the path of the search. **Not promised there**, and not so at every input:
//!
//! - that no vector is nearer than the point found, or that its distance is the formula's, computed as above;
//! - that a list begins at the distance that [`nearest`] tells;
//! - that a list has every vector inside the radius, or no other;
//! - that no vector is inside the radius where nothing is found, by [`Refusal::OutsideRadius`] or an empty list;
//! - that a verdict of [`ratio()`] says anything of vectors that are not listed.
//!
//! Promised there: the answers are those of that search, for all inputs; a point is n integers, and its distance from 0
//! to the radius; a list is strictly in its order, and has no vector twice; the nodes are at most the budget; an answer
//! other than [`Refusal::BudgetExhausted`] is that of every larger budget; a refusal changes nothing.
//!
//! The roundings are those of the largest centre on the path. With a reduced table and targets of a few cycles they are
//! in the last digits of a distance. So take whole cycles off a large target first, and add them to the point.
//!
//! # Why the calls are sound
//!
//! `unsafe` stands only in the calls of the library. Each pointer and length comes from one slice that is borrowed for
//! the whole call, so it is aligned, not null, and valid for that length. What the library writes is behind a `&mut`,
//! so it overlaps nothing else that is passed; the report's three fields are a local's. The library keeps no pointer,
//! and its functions are proved safe for every input.

#![no_std]
#![warn(missing_docs)]

mod ffi;
mod names;
mod ratio;
mod refusal;
mod table;
mod triangle;

pub use names::{Names, Turn, nearest_named, pick_up};
pub use ratio::{Ratio, ratio};
pub use refusal::Refusal;
pub use table::{List, Nearest, Point, Table};
pub use triangle::TriangleCheck;

/// The largest n of every call with a table but [`nearest`] and [`list`](list()).
pub const LARGEST_DIMENSION: usize = 23;

/// The largest n of [`nearest`] and [`list`](list()), and of a [`Point`]. Since 0.10.0; before it was 23.
pub const LARGEST_SEARCHED: usize = 64;

/// The most places that a list may be lent.
pub const LARGEST_LIST: usize = 4096;

/// The largest budget.
pub const LARGEST_BUDGET: u64 = 1 << 60;

/// The largest p and q of a [`ratio()`].
pub const LARGEST_FACTOR: u64 = 1000;

/// The largest name under which a search is kept; the smallest is 1.
pub const NAMES: u64 = 8;

/// The largest slice of a [`Names::turn`]; the smallest is 1. Since 0.12.0.
pub const LARGEST_SLICE: u64 = 1 << 20;

/// How many bytes a [`Names`] has. Before 0.12.0 it had 8 less, since it was without the name last served.
pub const NAMES_SIZE: usize = 53_384;

/// What a call tells beside the slices that it is lent.
#[derive(Default)]
struct Report {
    first: u64,
    second: u64,
    real: f64,
}

/// The report of a call that succeeded, or its refusal.
fn told(call: impl FnOnce(&mut Report) -> u32) -> Result<Report, Refusal> {
    let mut report = Report::default();
    match call(&mut report) {
        0 => Ok(report),
        number => Err(Refusal::new(number, report.first, report.second, report.real)),
    }
}

/// The nearest integer; of two equally near ones that with the larger magnitude. A value too large for an `i64` gives
/// `i64::MAX`, one too small `i64::MIN`, and a NaN 0.
///
/// ```
/// assert_eq!([0.5, -0.5, -2.5, f64::NAN].map(snowgimmer::round_away), [1, -1, -3, 0]);
/// ```
#[must_use]
pub fn round_away(x: f64) -> i64 {
    ffi::snowgimmer_round_away(x)
}

/// What a nearest search gives beside the point that it writes. Since 0.3.0; before, the searches gave the nodes alone.
#[derive(Debug, Clone, Copy, PartialEq)]
#[non_exhaustive]
pub struct Found {
    /// How many nodes the search tried; where it was picked up, all since its start.
    pub nodes: u64,
    /// The point's computed distance, a square: exactly what [`triangular_distance`] gives for it, and for
    /// [`prepared_nearest_ml`] that of the point before mapping, in the table's coordinates. It is finite, and +0 where
    /// n is 0. From n = 24 on it is the sum that the search came to, from 0 to the radius.
    pub distance: f64,
}

/// Finds the nearest integer vector inside the radius, writes it to `out`, coordinate 0 first, and gives the number of
/// nodes and the vector's distance, which is also the first of a [`list`] at the same radius. The radius and the
/// distance are squares.
///
/// n is at most 64. [From n = 24 on](crate#from-n--24-on) it is not promised that the point is the nearest, nor that its
/// distance is its computed one or the first of a list. The call needs 60 kB of stack.
///
/// ```
/// let mut out = [0; 2];
/// let found = snowgimmer::nearest(&[1.0, 1.0], &[0.0, 0.0, 0.5, 0.0], &[0.25, 0.5], &mut out, 2.0, 100)?;
/// assert_eq!((found.nodes, found.distance, out), (5, 0.25, [0, 1]));
/// # Ok::<(), snowgimmer::Refusal>(())
/// ```
///
/// # Errors
///
/// 2 to 9, the table and the call, 2 if n is above 64; [`Refusal::BudgetExhausted`]; [`Refusal::OutsideRadius`].
pub fn nearest(
    weights: &[f64],
    mu: &[f64],
    target: &[f64],
    out: &mut [i64],
    radius: f64,
    budget: u64,
) -> Result<Found, Refusal> {
    // SAFETY: live slices with their own lengths, and `out` is no other's (see the crate's head)
    let report = told(|r| unsafe {
        ffi::snowgimmer_nearest(
            weights.as_ptr(),
            weights.len(),
            mu.as_ptr(),
            mu.len(),
            target.as_ptr(),
            target.len(),
            out.as_mut_ptr(),
            out.len(),
            radius,
            budget,
            &mut r.first,
            &mut r.second,
            &mut r.real,
        )
    })?;
    Ok(Found { nodes: report.first, distance: report.real })
}

/// Finds the nearest integer vector inside the widened radius, a candidate inside the radius being known, writes it to
/// `out` and gives the number of nodes and the vector's distance. The radius and the distance are squares; widened the
/// radius is radius + (2^-52·max(radius, 1))·4n.
///
/// Once the checks have passed it ends with a point or with [`Refusal::BudgetExhausted`], and always with a point if
/// the budget is at least the number of nodes that a [`list`] takes at the widened radius.
///
/// ```
/// let mut out = [0];
/// let found = snowgimmer::nearest_seeded(&[1.0], &[0.0], &[0.5], &mut out, &[2], 2.25, 100)?;
/// assert_eq!((found.nodes, found.distance, out), (4, 0.25, [0]));
/// # Ok::<(), snowgimmer::Refusal>(())
/// ```
///
/// # Errors
///
/// 2 to 9, the table and the call; 10 to 13, the candidate and the radius; [`Refusal::BudgetExhausted`].
pub fn nearest_seeded(
    weights: &[f64],
    mu: &[f64],
    target: &[f64],
    out: &mut [i64],
    candidate: &[i64],
    radius: f64,
    budget: u64,
) -> Result<Found, Refusal> {
    // SAFETY: live slices with their own lengths, and `out` is no other's (see the crate's head)
    let report = told(|r| unsafe {
        ffi::snowgimmer_nearest_seeded(
            weights.as_ptr(),
            weights.len(),
            mu.as_ptr(),
            mu.len(),
            target.as_ptr(),
            target.len(),
            out.as_mut_ptr(),
            out.len(),
            candidate.as_ptr(),
            candidate.len(),
            radius,
            budget,
            &mut r.first,
            &mut r.second,
            &mut r.real,
        )
    })?;
    Ok(Found { nodes: report.first, distance: report.real })
}

/// Finds the nearest integer vector, writes it to `out` and gives the number of nodes and the vector's distance, a
/// square. The candidate is the nearest-plane point, and the radius that point's distance, widened as in
/// [`nearest_seeded`].
///
/// Once the checks have passed it ends with a point or with [`Refusal::BudgetExhausted`], and always with a point if
/// the budget is at least the number of nodes that a [`list`] takes at the widened radius.
///
/// ```
/// let mut out = [0];
/// let found = snowgimmer::nearest_ml(&[4.0], &[0.0], &[0.75], &mut out, 100)?;
/// assert_eq!((found.nodes, found.distance, out), (1, 0.25, [1]));
/// # Ok::<(), snowgimmer::Refusal>(())
/// ```
///
/// # Errors
///
/// 2 to 7 and 9, the table and the call; 11 and 13, the candidate's distance; [`Refusal::BudgetExhausted`].
pub fn nearest_ml(weights: &[f64], mu: &[f64], target: &[f64], out: &mut [i64], budget: u64) -> Result<Found, Refusal> {
    // SAFETY: live slices with their own lengths, and `out` is no other's (see the crate's head)
    let report = told(|r| unsafe {
        ffi::snowgimmer_nearest_ml(
            weights.as_ptr(),
            weights.len(),
            mu.as_ptr(),
            mu.len(),
            target.as_ptr(),
            target.len(),
            out.as_mut_ptr(),
            out.len(),
            budget,
            &mut r.first,
            &mut r.second,
            &mut r.real,
        )
    })?;
    Ok(Found { nodes: report.first, distance: report.real })
}

/// Finds the nearest integer vector to a target in the receiver's coordinates, by a table of reduced (decorrelated)
/// ones, writes it to `out` in the same coordinates and gives the number of nodes and the distance, a square.
///
/// `transform` and `inverse` are n·n integers each, row by row. `transform` maps reduced coordinates to the receiver's,
/// and `inverse` maps them back:
///
/// ```text
/// receiver[column] = sum over rows of  reduced[row] * transform[row*n+column]
/// reduced[column]  = sum over rows of  receiver[row] * inverse[row*n+column]
/// ```
///
/// For float ambiguities a with the covariance matrix Q and the Z-transform z = Z'a, `inverse` is Z, `transform` Z^-1,
/// and the table is that of the covariance matrix Z'QZ. For a lattice basis with the rows B, reduced to U·B,
/// `transform` is U, `inverse` U^-1, and the table is that of U·B. Two matrices that are both transposed, or exchanged
/// with each other, are still inverse to each other: no check can tell, and the answer is another point.
///
/// The transformed target is computed in doubles: for each column the sum over the rows, from row 0 on, of the row's
/// target times `inverse[row*n+column]`, starting at +0; each product and each sum is rounded. The search is that of
/// [`nearest_ml`] from the transformed target, and its point is mapped by `transform` to `out`, in whole numbers and so
/// exactly. **The distance is that in the table's coordinates**, from the transformed target, and "nearest" is by it: no
/// vector of reduced coordinates has a smaller one than the vector that was mapped, and `inverse` maps `out` back to
/// that vector.
///
/// Once the checks have passed it ends with a point, with [`Refusal::BudgetExhausted`] or with [`Refusal::MappedRange`].
/// Beside the search it makes the two products of the matrices, 2·n³ multiplications.
///
/// ```
/// // three float ambiguities in cycles, and a Z-transform by which they are decorrelated
/// let target = [5.45, 3.10, 2.97];
/// let z = [[-2, 3, 1], [3, -3, -1], [-1, 1, 0]];
/// let z_inverse = [[1, 1, 0], [1, 1, 1], [0, -1, -3]];
/// // the table of the reduced ambiguities, whose covariance matrix is Z'QZ
/// let weights = [0.23201003429164407, 0.8808564288448116, 1.597444089456869];
/// let mu = [[0.0; 3], [-0.2676677848571493, 0.0, 0.0], [-0.33235022626471844, -0.13099041533546327, 0.0]];
///
/// let (transform, inverse) = (z_inverse.as_flattened(), z.as_flattened());
/// let mut out = [0; 3];
/// let found =
///     snowgimmer::prepared_nearest_ml(&weights, mu.as_flattened(), transform, inverse, &target, &mut out, 100)?;
/// assert_eq!((found.nodes, out), (3, [5, 3, 4]));
/// assert!((found.distance - 0.218331).abs() < 1e-6);
/// # Ok::<(), snowgimmer::Refusal>(())
/// ```
///
/// # Errors
///
/// In this order: 2 to 5, the table; [`Refusal::MatrixRange`]; [`Refusal::NotInverse`], by the products in whole
/// numbers; 6, 7 and 9, the call, 7 with the index in the given target or, where that is sound, the column of the
/// transformed one; 11 and 13, the candidate's distance; [`Refusal::BudgetExhausted`]; [`Refusal::MappedRange`].
///
/// Since 0.9.0.
pub fn prepared_nearest_ml(
    weights: &[f64],
    mu: &[f64],
    transform: &[i64],
    inverse: &[i64],
    target: &[f64],
    out: &mut [i64],
    budget: u64,
) -> Result<Found, Refusal> {
    // SAFETY: live slices with their own lengths, and `out` is no other's (see the crate's head)
    let report = told(|r| unsafe {
        ffi::snowgimmer_prepared_nearest_ml(
            weights.as_ptr(),
            weights.len(),
            mu.as_ptr(),
            mu.len(),
            transform.as_ptr(),
            transform.len(),
            inverse.as_ptr(),
            inverse.len(),
            target.as_ptr(),
            target.len(),
            out.as_mut_ptr(),
            out.len(),
            budget,
            &mut r.first,
            &mut r.second,
            &mut r.real,
        )
    })?;
    Ok(Found { nodes: report.first, distance: report.real })
}

/// What a list gives beside the slices that it writes.
#[derive(Debug, Clone, Copy, PartialEq, Eq)]
#[non_exhaustive]
pub struct Listed {
    /// How many nodes the search tried.
    pub nodes: u64,
    /// How many points it wrote.
    pub points: usize,
}

/// Lists every integer vector that is admitted at the radius, by distance and then coordinates: the distances go to
/// `distances`, at most 4,096, and n coordinates for each to `points`, which is n times as long. What lies behind
/// the last point stays as it was. The radius and the distances are squares.
///
/// n is at most 64. [From n = 24 on](crate#from-n--24-on) it is not promised that every such vector is listed, or no
/// other: the list has the points that the search came to.
///
/// With at most 256 places and 5,888 coordinates in `points`, as 92 places have with n = 64, the call needs 0.15 MB of
/// stack; with at most 32,768 coordinates 0.5 MB; else 1 MB. A thread's usual 2 MB are enough. Where the points have
/// more than 94,208 coordinates together, as 1,473 points with n = 64 have, the search is made twice, so that its time
/// doubles, and the sort takes some milliseconds, up to a second where thousands of points are equally near.
///
/// ```
/// let (mut distances, mut points) = ([0.0; 4], [7; 4]);
/// let listed = snowgimmer::list(&[1.0], &[0.0], &[0.5], &mut distances, &mut points, 1.0, 100)?;
/// assert_eq!((listed.nodes, listed.points), (2, 2));
/// assert_eq!((distances, points), ([0.25, 0.25, 0.0, 0.0], [0, 1, 7, 7]));
/// # Ok::<(), snowgimmer::Refusal>(())
/// ```
///
/// # Errors
///
/// 2 to 9, the table and the call, 2 if n is above 64; [`Refusal::ListSize`]; [`Refusal::BudgetExhausted`];
/// [`Refusal::ListFull`].
pub fn list(
    weights: &[f64],
    mu: &[f64],
    target: &[f64],
    distances: &mut [f64],
    points: &mut [i64],
    radius: f64,
    budget: u64,
) -> Result<Listed, Refusal> {
    // SAFETY: live slices with their own lengths; `distances` and `points` are no others' (see the crate's head)
    let report = told(|r| unsafe {
        ffi::snowgimmer_list(
            weights.as_ptr(),
            weights.len(),
            mu.as_ptr(),
            mu.len(),
            target.as_ptr(),
            target.len(),
            distances.as_mut_ptr(),
            distances.len(),
            points.as_mut_ptr(),
            points.len(),
            radius,
            budget,
            &mut r.first,
            &mut r.second,
            &mut r.real,
        )
    })?;
    Ok(Listed { nodes: report.first, points: report.second as usize })
}

/// Writes [`round_away`] of each coefficient to `out`.
///
/// ```
/// let mut out = [0; 3];
/// snowgimmer::round(&[0.5, -2.5, 1e300], &mut out)?;
/// assert_eq!(out, [1, -3, i64::MAX]);
/// # Ok::<(), snowgimmer::Refusal>(())
/// ```
///
/// # Errors
///
/// [`Refusal::LengthMismatch`]; [`Refusal::NonFinite`].
pub fn round(coefficients: &[f64], out: &mut [i64]) -> Result<(), Refusal> {
    // SAFETY: live slices with their own lengths, and `out` is no other's (see the crate's head)
    told(|r| unsafe {
        ffi::snowgimmer_round(
            coefficients.as_ptr(),
            coefficients.len(),
            out.as_mut_ptr(),
            out.len(),
            &mut r.first,
            &mut r.second,
            &mut r.real,
        )
    })?;
    Ok(())
}

/// Babai's nearest plane: writes the point z to `out` and leaves t - z in the coefficients, which hold t.
///
/// ```
/// let (mut coefficients, mut out) = ([0.25, 0.5], [0; 2]);
/// snowgimmer::nearest_plane(&[1.0, 1.0], &[0.0, 0.0, 0.5, 0.0], &mut coefficients, &mut out)?;
/// assert_eq!((coefficients, out), ([0.25, -0.5], [0, 1]));
/// # Ok::<(), snowgimmer::Refusal>(())
/// ```
///
/// # Errors
///
/// 2 to 5, the table; [`Refusal::LengthMismatch`], with the coefficients' length also where `out` is the wrong one;
/// [`Refusal::NonFinite`].
pub fn nearest_plane(weights: &[f64], mu: &[f64], coefficients: &mut [f64], out: &mut [i64]) -> Result<(), Refusal> {
    // SAFETY: live slices with their own lengths; `coefficients` and `out` are no others' (see the crate's head)
    told(|r| unsafe {
        ffi::snowgimmer_nearest_plane(
            weights.as_ptr(),
            weights.len(),
            mu.as_ptr(),
            mu.len(),
            coefficients.as_mut_ptr(),
            coefficients.len(),
            out.as_mut_ptr(),
            out.len(),
            &mut r.first,
            &mut r.second,
            &mut r.real,
        )
    })?;
    Ok(())
}

/// The computed distance of a point, a square.
///
/// ```
/// assert_eq!(snowgimmer::triangular_distance(&[1.0], &[0.0], &[0.5], &[2]), Ok(2.25));
/// ```
///
/// # Errors
///
/// 2 to 7, the point in the output's place; [`Refusal::CandidateDistance`] if it overflows.
pub fn triangular_distance(weights: &[f64], mu: &[f64], target: &[f64], point: &[i64]) -> Result<f64, Refusal> {
    // SAFETY: live slices with their own lengths, none of them written (see the crate's head)
    let report = told(|r| unsafe {
        ffi::snowgimmer_distance(
            weights.as_ptr(),
            weights.len(),
            mu.as_ptr(),
            mu.len(),
            target.as_ptr(),
            target.len(),
            point.as_ptr(),
            point.len(),
            &mut r.first,
            &mut r.second,
            &mut r.real,
        )
    })?;
    Ok(report.real)
}

/// Changes the reference satellite, against which a point's cycles are counted, to that of coordinate r: coordinate r
/// becomes -a(r), now the former reference satellite's, and each other a(i) becomes a(i) - a(r), exactly. The point may
/// have any length. The same change once more brings the first point back.
///
/// Lend only coordinates that are counted against the one satellite. The table and the target stay those of the former
/// reference satellite: with them a changed point has a distance that means nothing.
///
/// ```
/// let table = snowgimmer::Table::from_rows(&[1.0, 1.0], &[[0.0, 0.0], [0.5, 0.0]]);
/// let mut point = table.nearest(&[0.25, 0.5], 2.0, 100)?.point;
/// assert_eq!(point, [0, 1]);
///
/// // the reference satellite sets, and that of coordinate 1 is taken in its place
/// snowgimmer::change_reference(&mut point, 1)?;
/// assert_eq!(point, [-1, -1]);
/// # Ok::<(), snowgimmer::Refusal>(())
/// ```
///
/// # Errors
///
/// [`Refusal::ReferenceIndex`] if r is not below the point's length; [`Refusal::ChangedRange`] if a coordinate, r's own
/// too, becomes no `i64`.
pub fn change_reference(point: &mut [i64], r: usize) -> Result<(), Refusal> {
    // SAFETY: a live slice with its own length (see the crate's head)
    told(|report| unsafe {
        ffi::snowgimmer_change_reference(
            point.as_mut_ptr(),
            point.len(),
            r,
            &mut report.first,
            &mut report.second,
            &mut report.real,
        )
    })?;
    Ok(())
}
