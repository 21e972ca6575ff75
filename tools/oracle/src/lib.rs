//! The Rust original of the search, compiled unchanged from a folder outside this project (see `build.rs`), over a
//! table that is handed in. No line of it stands here.

// The original names its sister crate `lattica`: this crate answers to that name, with the modules of the stand-in.
extern crate self as lattica;

mod standin;
pub use standin::{basis, error, gso, int, reduce};

include!(concat!(env!("OUT_DIR"), "/root.rs"));

mod job;
pub mod kept;
mod lines;
pub mod turns;
pub use job::{Job, job, job_text};
pub use lines::answer;

use error::DecodeError;

/// The most dimensions of a table.
pub const LARGEST_DIMENSION: usize = 23;
/// The most dimensions of the table of `nearest` and `list`.
pub const LARGEST_SEARCHED: usize = 64;

/// A search over a table: n weights, and n·n entries mu.
pub type Enumerator = enumerate::Enumerator<i64>;

/// `round_away`, which is private to the original.
#[must_use]
pub fn rounded_away(v: f64) -> i64 {
    round_away(v)
}

/// A point, the nodes that its search opened, and the point's distance.
pub type Found = Result<(Vec<i64>, u64, f64), DecodeError>;

/// Points with their distances, and the nodes that their search opened.
pub type Listed = Result<(Vec<(f64, Vec<i64>)>, u64), DecodeError>;

/// What a search found, with the distance that `triangular_distance` gives its point: the original hands none out.
fn found(table: &Enumerator, target: &[f64], point: Vec<i64>, nodes: u64) -> Found {
    let distance = table.triangular_distance(target, &point)?;
    Ok((point, nodes, distance))
}

/// `nearest` with an output of the given length.
///
/// # Errors
///
/// As the original; so in every function below.
pub fn nearest(table: &Enumerator, target: &[f64], places: usize, radius: f64, budget: u64) -> Found {
    let mut out = vec![0; places];
    let nodes = table.nearest(target, &mut out, radius, budget, &mut enumerate::EnumerationScratch::new())?;
    let distance = nearest_distance(table, target, &out, radius, budget)?;
    Ok((out, nodes, distance))
}

/// The distance of the point that `nearest` found so: what `triangular_distance` gives it. Where the centres run, it is the
/// radius that stands at the walk's end, and `triangular_distance` may give another.
pub fn nearest_distance(
    table: &Enumerator,
    target: &[f64],
    point: &[i64],
    radius: f64,
    budget: u64,
) -> Result<f64, DecodeError> {
    if table.dim() < enumerate::FIRST_RUNNING {
        table.triangular_distance(target, point)
    } else {
        table.standing_radius(target, radius, budget, &mut enumerate::EnumerationScratch::new())
    }
}

/// `nearest_seeded` with an output of the given length.
pub fn nearest_seeded(
    table: &Enumerator,
    target: &[f64],
    places: usize,
    candidate: &[i64],
    radius: f64,
    budget: u64,
) -> Found {
    let mut out = vec![0; places];
    let scratch = &mut enumerate::EnumerationScratch::new();
    let nodes = table.nearest_seeded(target, &mut out, candidate, radius, budget, scratch)?;
    found(table, target, out, nodes)
}

/// `nearest_ml` with an output of the given length.
pub fn nearest_ml(table: &Enumerator, target: &[f64], places: usize, budget: u64) -> Found {
    let mut out = vec![0; places];
    let nodes = table.nearest_ml(target, &mut out, budget, &mut enumerate::EnumerationScratch::new())?;
    found(table, target, out, nodes)
}

/// The prepared `nearest_ml` with an output of the given length; the matrices have n·n entries each, row by row. The
/// distance is that of the point before it is mapped, at the transformed target: the search leaves both in its scratch.
pub fn prepared_nearest_ml(
    table: &Enumerator,
    transform: &[i64],
    inverse: &[i64],
    target: &[f64],
    places: usize,
    budget: u64,
) -> Found {
    let matrix = |entries| int::IntMatrix::from_entries(table.dim(), entries);
    let prepared = enumerate::PreparedEnumerator::from_table(table.clone(), matrix(transform), matrix(inverse));
    let mut out = vec![0; places];
    let scratch = &mut enumerate::PreparedEnumerationScratch::new();
    let nodes = prepared.nearest_ml(target, &mut out, budget, scratch)?;
    let (target, point) = scratch.reduced(table.dim());
    Ok((out, nodes, table.triangular_distance(target, point)?))
}

/// The points of `list` with their distances, and the nodes of its walk: the least budget that it accepts.
pub fn list(table: &Enumerator, target: &[f64], radius: f64, budget: u64) -> Listed {
    let listed = |budget| table.list(target, radius, budget, &mut enumerate::EnumerationScratch::new());
    let points = listed(budget)?.iter().map(|p| (p.distance_sq(), p.point().to_vec())).collect();
    let (mut refused, mut accepted) = (None, 0);
    while accepted < budget && listed(accepted).is_err() {
        refused = Some(accepted);
        accepted = budget.min(2 * accepted + 1);
    }
    while let Some(below) = refused.filter(|below| below + 1 < accepted) {
        let middle = below + (accepted - below) / 2;
        if listed(middle).is_ok() {
            accepted = middle;
        } else {
            refused = Some(middle);
        }
    }
    Ok((points, accepted))
}

/// `round` with an output of the given length.
pub fn round(coefficients: &[f64], places: usize) -> Result<Vec<i64>, DecodeError> {
    let mut out = vec![0; places];
    babai::round(coefficients, &mut out)?;
    Ok(out)
}

/// `nearest_plane` with an output of the given length: the point, and what is left in the coefficients.
pub fn nearest_plane(
    table: &Enumerator,
    coefficients: &[f64],
    places: usize,
) -> Result<(Vec<i64>, Vec<f64>), DecodeError> {
    let mut left = coefficients.to_vec();
    let mut out = vec![0; places];
    babai::nearest_plane(table.gso(), &mut left, &mut out)?;
    Ok((out, left))
}
