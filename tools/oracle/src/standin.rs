//! What the original names of the crate `lattica`, which is not published with it: as much as makes its files compile.
//! A table that is handed in meets only `Gso` and `DecodeError`, and matrices that are handed in with it meet
//! `IntMatrix::get`, `Int::widen` and `Int::narrow`. The rest factors and reduces Gram matrices; it panics.

pub mod error {
    #[derive(Debug, Clone, Copy, PartialEq)]
    pub enum Op {
        Add,
        Mul,
        /// What `lattica` calls it is not known: the original only hands `narrow`'s error on.
        Narrow,
    }

    #[derive(Debug, Clone, Copy, PartialEq)]
    pub enum RangeError {
        Overflow { op: Op, width_bits: u32 },
        Shape { expected: usize, found: usize },
    }

    #[derive(Debug, Clone, Copy, PartialEq)]
    pub enum ReduceError {
        Singular,
        Range(RangeError),
    }

    #[derive(Debug, Clone, Copy, PartialEq)]
    pub enum DecodeError {
        LengthMismatch { expected: usize, found: usize },
        NonFinite { index: usize },
        InvalidRadius { radius_sq: f64 },
        OutsideRadius { radius_sq: f64 },
        BudgetExhausted { nodes: u64, radius_sq: f64 },
        Range(RangeError),
    }

    impl From<RangeError> for ReduceError {
        fn from(error: RangeError) -> Self {
            Self::Range(error)
        }
    }

    impl From<RangeError> for DecodeError {
        fn from(error: RangeError) -> Self {
            Self::Range(error)
        }
    }
}

pub mod int {
    use super::error::{Op, RangeError};
    use core::fmt::Debug;

    pub trait Int: Copy + Debug + PartialEq {
        const ZERO: Self;
        const ONE: Self;
        fn widen(self) -> i128;
        /// # Errors
        /// Where the integer does not fit.
        fn narrow(wide: i128) -> Result<Self, RangeError>;
        fn is_zero(self) -> bool;
        /// # Errors
        /// On overflow.
        fn try_sub(self, other: Self) -> Result<Self, RangeError>;
    }

    impl Int for i64 {
        const ZERO: Self = 0;
        const ONE: Self = 1;
        fn widen(self) -> i128 {
            i128::from(self)
        }
        fn narrow(wide: i128) -> Result<Self, RangeError> {
            Self::try_from(wide).map_err(|_| RangeError::Overflow { op: Op::Narrow, width_bits: Self::BITS })
        }
        fn is_zero(self) -> bool {
            self == 0
        }
        fn try_sub(self, _: Self) -> Result<Self, RangeError> {
            unimplemented!()
        }
    }

    /// A matrix that is handed in, with (row, column) at row·columns+column.
    #[derive(Debug, Clone)]
    pub struct IntMatrix<T: Int> {
        columns: usize,
        entries: Vec<T>,
    }

    impl<T: Int> IntMatrix<T> {
        pub fn from_entries(columns: usize, entries: &[T]) -> Self {
            Self { columns, entries: entries.to_vec() }
        }
        pub fn rows(&self) -> usize {
            unimplemented!()
        }
        pub fn get(&self, row: usize, column: usize) -> T {
            self.entries[row * self.columns + column]
        }
        pub fn det(&self) -> Result<T, RangeError> {
            unimplemented!()
        }
        pub fn negate_row(&mut self, _: usize) -> Result<(), RangeError> {
            unimplemented!()
        }
    }

    pub fn adjugate<T: Int>(_: &IntMatrix<T>) -> Result<IntMatrix<T>, RangeError> {
        unimplemented!()
    }
}

pub mod basis {
    use super::error::RangeError;
    use super::int::{Int, IntMatrix};

    #[derive(Debug, Clone)]
    pub struct Gram<T: Int>(IntMatrix<T>);

    impl<T: Int> Gram<T> {
        pub fn dim(&self) -> usize {
            unimplemented!()
        }
        pub fn det(&self) -> Result<T, RangeError> {
            unimplemented!()
        }
        pub fn entry(&self, _: usize, _: usize) -> T {
            unimplemented!()
        }
        pub fn as_matrix(&self) -> &IntMatrix<T> {
            &self.0
        }
    }
}

pub mod gso {
    use super::basis::Gram;
    use super::error::ReduceError;
    use super::int::Int;
    use core::marker::PhantomData;

    /// A table's mu, with mu(j, i) at j·n+i.
    #[derive(Debug, Clone)]
    pub struct Gso<T: Int> {
        n: usize,
        mu: Vec<f64>,
        of: PhantomData<T>,
    }

    impl<T: Int> Gso<T> {
        pub fn from_table(n: usize, mu: &[f64]) -> Self {
            Self { n, mu: mu.to_vec(), of: PhantomData }
        }
        pub const fn dim(&self) -> usize {
            self.n
        }
        pub fn mu(&self, j: usize, i: usize) -> f64 {
            self.mu[j * self.n + i]
        }
        pub fn new(_: &Gram<T>) -> Result<Self, ReduceError> {
            unimplemented!()
        }
        pub fn norm_sq(&self, _: usize) -> (T, T) {
            unimplemented!()
        }
    }
}

pub mod reduce {
    use super::basis::Gram;
    use super::error::ReduceError;
    use super::int::{Int, IntMatrix};

    #[derive(Debug, Clone, Copy)]
    pub struct Delta;

    #[derive(Debug, Clone)]
    pub struct Reduced<T: Int> {
        pub gram: Gram<T>,
        pub transform: IntMatrix<T>,
    }

    pub fn lll<T: Int>(_: &Gram<T>, _: Delta) -> Result<Reduced<T>, ReduceError> {
        unimplemented!()
    }
}
