//! The numbered refusals, with what each carries.

use crate::{LARGEST_BUDGET, LARGEST_DIMENSION, LARGEST_SEARCHED, LARGEST_SLICE};
use core::error::Error;
use core::fmt;

/// Why a call was refused. Its number is that of the library's header, where 17 is free: no refusal has it. `Display`
/// gives a sentence.
///
/// No value is minus zero: where 12, 15 and 16 gave a radius of minus zero back before 0.5.0, they give 0.
#[derive(Debug, Clone, Copy, PartialEq)]
#[non_exhaustive]
pub enum Refusal {
    /// 2: more than 23 weights, in `nearest` and `list` more than 64, or mu of another length than n·n.
    TableSize {
        /// How many weights there are.
        weights: usize,
    },
    /// 3: an entry of mu that is read is not finite.
    MuNonFinite {
        /// Its index among the n·n.
        index: usize,
    },
    /// 4: an entry of mu that is read is above 2^52 in magnitude.
    MuRange {
        /// Its index among the n·n.
        index: usize,
    },
    /// 5: a weight is not finite or not above 0.
    WeightRange {
        /// Its index.
        index: usize,
    },
    /// 6: a slice is not as long as expected; in `pick_up` the output, if it does not have the kept search's n.
    LengthMismatch {
        /// The length that it should have.
        expected: usize,
        /// The length that it has; in `nearest_plane` that of the coefficients, also where the output is the wrong one.
        found: usize,
    },
    /// 7: a target or a coefficient is not finite, or a target is above 2^52 in magnitude.
    NonFinite {
        /// Its index; in `prepared_nearest_ml`, where the given target is sound, the column of the transformed one.
        index: usize,
    },
    /// 8: the radius is negative or not finite.
    InvalidRadius {
        /// The radius.
        radius: f64,
    },
    /// 9: the budget is above 2^60.
    BudgetRange {
        /// The budget.
        budget: u64,
    },
    /// 10: the candidate is not n long.
    CandidateLength {
        /// n.
        expected: usize,
        /// The candidate's length.
        found: usize,
    },
    /// 11: the distance of the candidate, or of the point, overflows.
    CandidateDistance {
        /// The sum that is not finite.
        total: f64,
    },
    /// 12: the candidate's distance is above the radius.
    CandidateOutside {
        /// The radius.
        radius: f64,
    },
    /// 13: the widened radius is not finite.
    WidenedRadius {
        /// The widened radius.
        radius: f64,
    },
    /// 14: more than 4,096 distances, or points without n integers for each.
    ListSize {
        /// How many distances there are.
        distances: usize,
    },
    /// 15: the budget ran out. A search under a name is kept then, and `pick_up` or a turn goes on with it; the
    /// exception is a turn by which its nodes would pass 2^60, see [`Turn::kept`](crate::Turn::kept).
    BudgetExhausted {
        /// How many nodes were tried; of a search that was picked up, all since its start.
        nodes: u64,
        /// The radius that stood when the search stopped.
        radius: f64,
    },
    /// 16: no vector is inside the radius; from n = 24 on, none was found inside it.
    OutsideRadius {
        /// The radius.
        radius: f64,
    },
    /// 18: more points than places.
    ListFull {
        /// How many points there are.
        points: usize,
    },
    /// 19: the index of the new reference satellite is not below the point's length.
    ReferenceIndex,
    /// 20: a coordinate against the new reference satellite is no `i64`.
    ChangedRange {
        /// Its index.
        index: usize,
    },
    /// 21: a factor of a ratio is not from 1 to 1,000, or p is below q.
    SettingRange {
        /// 0: p is out of range, or below q. 1: q is 0.
        index: usize,
    },
    /// 22: transform or inverse is not n·n long, or an element of them is above 2^52 in magnitude.
    MatrixRange {
        /// 0 if one is not n·n long; else the element's index, those of the inverse being counted from n·n on.
        index: usize,
    },
    /// 23: transform and inverse are not inverse to each other.
    NotInverse,
    /// 24: a coordinate of the mapped point is no `i64`.
    MappedRange {
        /// Its column.
        column: usize,
    },
    /// 25: the name is not from 1 to 8.
    NameRange,
    /// 26: the name holds no search.
    NameEmpty,
    /// 27: the sum of a kept search's budgets, that of this pickup too, is above 2^60.
    SumRange {
        /// The sum, or `u64::MAX` if it is larger than that.
        sum: u64,
    },
    /// 28: the slice of a turn is not from 1 to 2^20.
    SliceRange,
    /// 29: no name holds a search that a turn could serve.
    NoneHeld,
}

impl Refusal {
    /// The refusal of a number, from the report's values.
    pub(crate) fn new(number: u32, first: u64, second: u64, real: f64) -> Self {
        let (a, b) = (first as usize, second as usize);
        match number {
            2 => Self::TableSize { weights: a },
            3 => Self::MuNonFinite { index: a },
            4 => Self::MuRange { index: a },
            5 => Self::WeightRange { index: a },
            6 => Self::LengthMismatch { expected: a, found: b },
            7 => Self::NonFinite { index: a },
            8 => Self::InvalidRadius { radius: real },
            9 => Self::BudgetRange { budget: first },
            10 => Self::CandidateLength { expected: a, found: b },
            11 => Self::CandidateDistance { total: real },
            12 => Self::CandidateOutside { radius: real },
            13 => Self::WidenedRadius { radius: real },
            14 => Self::ListSize { distances: a },
            15 => Self::BudgetExhausted { nodes: first, radius: real },
            16 => Self::OutsideRadius { radius: real },
            18 => Self::ListFull { points: a },
            19 => Self::ReferenceIndex,
            20 => Self::ChangedRange { index: a },
            21 => Self::SettingRange { index: a },
            22 => Self::MatrixRange { index: a },
            23 => Self::NotInverse,
            24 => Self::MappedRange { column: a },
            25 => Self::NameRange,
            26 => Self::NameEmpty,
            27 => Self::SumRange { sum: first },
            28 => Self::SliceRange,
            29 => Self::NoneHeld,
            _ => unreachable!("the library has no refusal {number}"),
        }
    }

    /// Its number.
    #[must_use]
    pub const fn number(&self) -> u32 {
        match self {
            Self::TableSize { .. } => 2,
            Self::MuNonFinite { .. } => 3,
            Self::MuRange { .. } => 4,
            Self::WeightRange { .. } => 5,
            Self::LengthMismatch { .. } => 6,
            Self::NonFinite { .. } => 7,
            Self::InvalidRadius { .. } => 8,
            Self::BudgetRange { .. } => 9,
            Self::CandidateLength { .. } => 10,
            Self::CandidateDistance { .. } => 11,
            Self::CandidateOutside { .. } => 12,
            Self::WidenedRadius { .. } => 13,
            Self::ListSize { .. } => 14,
            Self::BudgetExhausted { .. } => 15,
            Self::OutsideRadius { .. } => 16,
            Self::ListFull { .. } => 18,
            Self::ReferenceIndex => 19,
            Self::ChangedRange { .. } => 20,
            Self::SettingRange { .. } => 21,
            Self::MatrixRange { .. } => 22,
            Self::NotInverse => 23,
            Self::MappedRange { .. } => 24,
            Self::NameRange => 25,
            Self::NameEmpty => 26,
            Self::SumRange { .. } => 27,
            Self::SliceRange => 28,
            Self::NoneHeld => 29,
        }
    }
}

impl fmt::Display for Refusal {
    fn fmt(&self, f: &mut fmt::Formatter<'_>) -> fmt::Result {
        write!(f, "refused {}: ", self.number())?;
        match *self {
            Self::TableSize { weights: n } if n > LARGEST_SEARCHED => {
                write!(f, "the table has {n} weights: nearest and list take at most 64, every other call at most 23")
            }
            Self::TableSize { weights: n } if n > LARGEST_DIMENSION => {
                write!(
                    f,
                    "the table has {n} weights: nearest and list alone take more than 23, and need {} entries of mu \
                    for them",
                    n * n
                )
            }
            Self::TableSize { weights: n } => write!(f, "mu does not have the {} entries that {n} weights need", n * n),
            Self::MuNonFinite { index } => write!(f, "mu[{index}] is not finite"),
            Self::MuRange { index } => write!(f, "mu[{index}] is above 2^52 in magnitude"),
            Self::WeightRange { index } => write!(f, "weights[{index}] is not a finite number above 0"),
            Self::LengthMismatch { expected: n, found } if n == found => write!(f, "the output is not {n} long"),
            Self::LengthMismatch { expected: n, found } => write!(f, "a slice has the length {found}, not {n}"),
            Self::NonFinite { index: i } => {
                write!(f, "target or coefficient {i}, given or transformed, is not finite, or above 2^52 in magnitude")
            }
            Self::InvalidRadius { radius } => write!(f, "the radius {radius:?} is negative or not finite"),
            Self::BudgetRange { budget } => write!(f, "the budget {budget} is above 2^60"),
            Self::CandidateLength { expected: n, found } => write!(f, "the candidate has {found} coordinates, not {n}"),
            Self::CandidateDistance { total } => {
                write!(f, "the distance of the candidate or point overflows to {total:?}")
            }
            Self::CandidateOutside { radius } => write!(f, "the candidate's distance is above the radius {radius:?}"),
            Self::WidenedRadius { radius } => write!(f, "the widened radius is {radius:?}, and has to be finite"),
            Self::ListSize { distances: d } => {
                write!(f, "{d} distances: at most 4096 are taken, and n coordinates for each")
            }
            Self::BudgetExhausted { nodes, radius } if nodes > LARGEST_BUDGET - LARGEST_SLICE => {
                write!(
                    f,
                    "the budget ran out after {nodes} nodes, with the radius at {radius:?}: a search may try 2^60 at \
                    most; a smaller radius or a reduced table may do"
                )
            }
            Self::BudgetExhausted { nodes, radius } => {
                write!(
                    f,
                    "the budget ran out after {nodes} nodes, with the radius at {radius:?}: a larger budget may do; a \
                    search under a name is kept, and pick_up or turn goes on with it"
                )
            }
            Self::OutsideRadius { radius } => {
                write!(f, "no vector is inside the radius {radius:?}: a larger one may do")
            }
            Self::ListFull { points } => {
                write!(f, "the list has {points} points: lend as many places, 4096 at most, or lower the radius")
            }
            Self::ReferenceIndex => {
                write!(
                    f,
                    "the new reference satellite's index is not below the point's length: give that of a coordinate"
                )
            }
            Self::ChangedRange { index: i } => {
                write!(f, "coordinate {i} against the new reference satellite is no i64: another satellite may do")
            }
            Self::SettingRange { index: 0 } => {
                write!(f, "p is not from 1 to 1000, or it is below q: give p and q from 1 to 1000, p at least q")
            }
            Self::SettingRange { .. } => write!(f, "q is not from 1 to 1000: give one from 1 to p"),
            Self::MatrixRange { index: 0 } => {
                write!(
                    f,
                    "transform or inverse is not n·n long, or transform[0] is above 2^52 in magnitude: give n·n \
                    elements of each, row by row, up to 2^52"
                )
            }
            Self::MatrixRange { index: i } => {
                write!(
                    f,
                    "element {i} of transform and inverse, counted on from the one to the other, is above 2^52 in \
                    magnitude: correct it where it is made"
                )
            }
            Self::NotInverse => {
                write!(
                    f,
                    "transform and inverse are not inverse to each other: give a matrix of determinant 1 or -1 and \
                    its inverse, both row by row"
                )
            }
            Self::MappedRange { column: c } => {
                write!(
                    f,
                    "coordinate {c} of the mapped point is no i64: see that the table is reduced, and that transform \
                    and inverse are its own"
                )
            }
            Self::NameRange => write!(f, "the name is not from 1 to 8: give one of these"),
            Self::NameEmpty => {
                write!(
                    f,
                    "the name holds no search, or its search has ended: nearest_named keeps one there if its budget \
                    runs out"
                )
            }
            Self::SumRange { sum: u64::MAX } => {
                write!(f, "the budgets of the search sum up to 2^64-1 or more, above 2^60: give a smaller one")
            }
            Self::SumRange { sum } => {
                write!(f, "the budgets of the search sum up to {sum}, above 2^60: give a smaller one")
            }
            Self::SliceRange => write!(f, "the slice is not from 1 to 2^20 nodes: give one of these"),
            Self::NoneHeld => {
                write!(
                    f,
                    "no name holds a search, so there is none to serve: nearest_named keeps one if its budget runs out"
                )
            }
        }
    }
}

impl Error for Refusal {}
