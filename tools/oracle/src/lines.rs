//! The command's lines: README.md has their format.

use crate::error::DecodeError;
use crate::{Enumerator, Found, LARGEST_DIMENSION, LARGEST_SEARCHED};

/// The answer to one case, or what is wrong with its line.
#[must_use]
pub fn answer(line: &str) -> String {
    case(line).unwrap_or_else(|fault| format!("malformed {fault}"))
}

/// A line's fields but its call.
struct Case {
    table: Enumerator,
    target: Vec<f64>,
    radius: f64,
    budget: u64,
    candidate: Vec<i64>,
    places: usize,
    /// The transform and its inverse: only `prepared_nearest_ml` has to have them.
    matrices: Option<[Vec<i64>; 2]>,
}

fn case(line: &str) -> Result<String, String> {
    let fields: Vec<&str> = line.split_whitespace().collect();
    let Some((call, fields)) = fields.split_first() else {
        return Err("line: fewer than 8 fields".into());
    };
    called(call, &Case::read(fields, largest(call))?)
}

/// The most dimensions of a call's table.
fn largest(call: &str) -> usize {
    if matches!(call, "nearest" | "list") { LARGEST_SEARCHED } else { LARGEST_DIMENSION }
}

fn called(call: &str, case: &Case) -> Result<String, String> {
    let Case { table, target, radius, budget, candidate, places, matrices } = case;
    let (radius, budget, places) = (*radius, *budget, *places);
    Ok(match call {
        "nearest" => found(crate::nearest(table, target, places, radius, budget)),
        "nearest_seeded" => found(crate::nearest_seeded(table, target, places, candidate, radius, budget)),
        "nearest_ml" => found(crate::nearest_ml(table, target, places, budget)),
        "prepared_nearest_ml" => {
            let [transform, inverse] = matrices.as_ref().ok_or("line: fewer than 11 fields")?;
            found(crate::prepared_nearest_ml(table, transform, inverse, target, places, budget))
        }
        "list" => text(crate::list(table, target, radius, budget), |(points, nodes)| {
            let lines: String = points.iter().map(|(d, z)| format!(" {} {}", bits(*d), integers(z))).collect();
            format!("listed {nodes} {}{lines}", points.len())
        }),
        "round" => text(crate::round(target, places), |z| format!("rounded {}", integers(&z))),
        "nearest_plane" => text(crate::nearest_plane(table, target, places), |(z, left)| {
            format!("plane {} {}", integers(&z), doubles(&left))
        }),
        "triangular_distance" => {
            if target.len() != table.dim() || candidate.len() != table.dim() {
                return Err("target or candidate: not n long".into());
            }
            text(table.triangular_distance(target, candidate), |d| format!("distance {}", bits(d)))
        }
        "round_away" => {
            let z: Vec<i64> = target.iter().map(|&v| crate::rounded_away(v)).collect();
            format!("rounded {}", integers(&z))
        }
        _ => return Err(format!("call: {call}")),
    })
}

// ---- reading

impl Case {
    fn read(fields: &[&str], largest: usize) -> Result<Self, String> {
        let [n, weights, mu, target, radius, budget, candidate, rest @ ..] = fields else {
            return Err("line: fewer than 8 fields".into());
        };
        let n: usize = decimal("n", n)?;
        let weights = items("weights", weights, double)?;
        let mu = items("mu", mu, double)?;
        if n > largest || weights.len() != n || mu.len() != n * n {
            return Err(format!("table: n above {largest}, or not n weights and n·n entries"));
        }
        let matrix = |name, text| {
            let entries = items(name, text, decimal::<i64>)?;
            if entries.len() == n * n { Ok(entries) } else { Err(format!("{name}: not n·n entries")) }
        };
        let matrices = match rest {
            [] | [_] => None,
            [_, transform, inverse] => Some([matrix("transform", transform)?, matrix("inverse", inverse)?]),
            _ => return Err("line: 10 fields, or more than 11".into()),
        };
        Ok(Self {
            table: Enumerator::from_table(&weights, &mu),
            target: items("target", target, double)?,
            radius: double("radius", radius)?,
            budget: decimal("budget", budget)?,
            candidate: items("candidate", candidate, decimal)?,
            places: rest.first().map_or(Ok(n), |places| decimal("places", places))?,
            matrices,
        })
    }
}

fn decimal<T: std::str::FromStr>(field: &str, text: &str) -> Result<T, String> {
    text.parse().map_err(|_| format!("{field}: {text}"))
}

fn double(field: &str, text: &str) -> Result<f64, String> {
    if text.len() != 16 {
        return Err(format!("{field}: {text}"));
    }
    u64::from_str_radix(text, 16).map(f64::from_bits).map_err(|_| format!("{field}: {text}"))
}

fn items<T>(field: &str, text: &str, item: impl Fn(&str, &str) -> Result<T, String>) -> Result<Vec<T>, String> {
    if text == "-" {
        return Ok(Vec::new());
    }
    text.split(',').map(|t| item(field, t)).collect()
}

// ---- writing

fn bits(x: f64) -> String {
    if x.is_nan() { "nan".into() } else { format!("{:016x}", x.to_bits()) }
}

fn bracketed(items: impl Iterator<Item = String>) -> String {
    format!("[{} ]", items.map(|i| format!(" {i}")).collect::<String>())
}

fn integers(z: &[i64]) -> String {
    bracketed(z.iter().map(i64::to_string))
}

fn doubles(x: &[f64]) -> String {
    bracketed(x.iter().map(|&v| bits(v)))
}

fn text<T>(answer: Result<T, DecodeError>, write: impl Fn(T) -> String) -> String {
    match answer {
        Ok(value) => write(value),
        Err(DecodeError::LengthMismatch { expected, found }) => format!("LengthMismatch({expected}, {found})"),
        Err(DecodeError::NonFinite { index }) => format!("NonFinite({index})"),
        Err(DecodeError::InvalidRadius { radius_sq }) => format!("InvalidRadius({})", bits(radius_sq)),
        Err(DecodeError::OutsideRadius { radius_sq }) => format!("OutsideRadius({})", bits(radius_sq)),
        Err(DecodeError::BudgetExhausted { nodes, radius_sq }) => {
            format!("BudgetExhausted({nodes}, {})", bits(radius_sq))
        }
        // What stands in it is the stand-in's.
        Err(DecodeError::Range(_)) => "Range()".into(),
    }
}

fn found(answer: Found) -> String {
    text(answer, |(point, nodes, distance)| format!("found {nodes} {} {}", bits(distance), integers(&point)))
}
