//! A table with its calls as methods, and what they give.

use crate::{Found, LARGEST_SEARCHED, Names, Refusal};
use core::fmt;
use core::ops::{Deref, DerefMut};

/// A table: n weights and n·n entries mu, row by row. The library reads `mu[j*n+i]` where j > i and no other.
///
/// What a table must be (n at most 64 for [`Table::nearest`] and [`Table::list`] and at most 23 for the others, mu n·n
/// long, weights above 0, entries up to 2^52 in magnitude) the library checks at every call.
#[derive(Debug, Clone, Copy, PartialEq)]
pub struct Table<'a> {
    weights: &'a [f64],
    mu: &'a [f64],
}

impl<'a> Table<'a> {
    /// The table of weights and of entries mu, row by row.
    ///
    /// ```
    /// use snowgimmer::{Refusal, Table};
    ///
    /// let table = Table::new(&[1.0, 1.0], &[0.0, 0.0, 0.5]); // an entry is missing
    /// assert_eq!(table.nearest_ml(&[0.25, 0.5], 100), Err(Refusal::TableSize { weights: 2 }));
    /// ```
    #[must_use]
    pub const fn new(weights: &'a [f64], mu: &'a [f64]) -> Self {
        Self { weights, mu }
    }

    /// The table of N weights and of mu as N rows of N, which the compiler checks.
    ///
    /// ```
    /// use snowgimmer::Table;
    ///
    /// let table = Table::from_rows(&[1.0, 1.0], &[[0.0, 0.0], [0.5, 0.0]]);
    /// assert_eq!(table, Table::new(&[1.0, 1.0], &[0.0, 0.0, 0.5, 0.0]));
    /// ```
    #[must_use]
    pub fn from_rows<const N: usize>(weights: &'a [f64; N], mu: &'a [[f64; N]; N]) -> Self {
        Self { weights, mu: mu.as_flattened() }
    }

    /// n, the number of weights.
    #[must_use]
    pub const fn dimension(&self) -> usize {
        self.weights.len()
    }

    /// The nearest integer vector inside the radius, a square. n is at most 64;
    /// [from n = 24 on](crate#from-n--24-on) it is not promised that no vector is nearer.
    ///
    /// # Errors
    ///
    /// Those of [`nearest`](crate::nearest).
    pub fn nearest(&self, target: &[f64], radius: f64, budget: u64) -> Result<Nearest, Refusal> {
        self.search(|out| crate::nearest(self.weights, self.mu, target, out, radius, budget))
    }

    /// The nearest integer vector, a candidate inside the radius being known.
    ///
    /// ```
    /// let table = snowgimmer::Table::new(&[1.0], &[0.0]);
    /// let found = table.nearest_seeded(&[0.5], &[2], 2.25, 100)?;
    /// assert_eq!((found.point[0], found.nodes, found.distance), (0, 4, 0.25));
    /// # Ok::<(), snowgimmer::Refusal>(())
    /// ```
    ///
    /// # Errors
    ///
    /// Those of [`nearest_seeded`](crate::nearest_seeded).
    pub fn nearest_seeded(
        &self,
        target: &[f64],
        candidate: &[i64],
        radius: f64,
        budget: u64,
    ) -> Result<Nearest, Refusal> {
        self.search(|out| crate::nearest_seeded(self.weights, self.mu, target, out, candidate, radius, budget))
    }

    /// The nearest integer vector of all, from the nearest-plane point as candidate.
    ///
    /// # Errors
    ///
    /// Those of [`nearest_ml`](crate::nearest_ml).
    pub fn nearest_ml(&self, target: &[f64], budget: u64) -> Result<Nearest, Refusal> {
        self.search(|out| crate::nearest_ml(self.weights, self.mu, target, out, budget))
    }

    /// The nearest integer vector of all to a target in the receiver's coordinates, in them: this table is that of
    /// the reduced coordinates, which `transform` maps to the receiver's and `inverse` maps back, n·n integers each, row
    /// by row. The distance is that of the point before mapping, in this table's coordinates. Since 0.9.0.
    ///
    /// ```
    /// let table = snowgimmer::Table::from_rows(&[1.0, 1.0], &[[0.0, 0.0], [0.5, 0.0]]);
    /// let (transform, inverse) = ([1, 2, 1, 3], [3, -2, -1, 1]);
    /// // the transformed target is 0.25, 0.5, and the nearest vector there is 0, 1
    /// let found = table.prepared_nearest_ml(&transform, &inverse, &[0.75, 2.0], 100)?;
    /// assert_eq!((&found.point[..], found.nodes, found.distance), (&[1, 3][..], 3, 0.25));
    /// # Ok::<(), snowgimmer::Refusal>(())
    /// ```
    ///
    /// # Errors
    ///
    /// Those of [`prepared_nearest_ml`](crate::prepared_nearest_ml).
    pub fn prepared_nearest_ml(
        &self,
        transform: &[i64],
        inverse: &[i64],
        target: &[f64],
        budget: u64,
    ) -> Result<Nearest, Refusal> {
        self.search(|out| crate::prepared_nearest_ml(self.weights, self.mu, transform, inverse, target, out, budget))
    }

    /// The nearest integer vector inside the radius, a square, by a search under a name from 1 to 8: if its budget runs
    /// out it is kept there, and [`Names::pick_up`] goes on with it. n is at most 23. Since 0.11.0.
    ///
    /// # Errors
    ///
    /// Those of [`nearest_named`](crate::nearest_named).
    pub fn nearest_named(
        &self,
        names: &mut Names,
        name: u64,
        target: &[f64],
        radius: f64,
        budget: u64,
    ) -> Result<Nearest, Refusal> {
        self.search(|out| crate::nearest_named(names, name, self.weights, self.mu, target, out, radius, budget))
    }

    /// Every integer vector that is admitted at the radius, by distance and then coordinates, in the places lent: one of
    /// `distances`, at most 4,096, and n of `points` for each vector. n is at most 64;
    /// [from n = 24 on](crate#from-n--24-on) it is not promised that every such vector is listed, or no other. The call
    /// needs up to 1 MB of stack, with few places 0.15 MB ([`list`](crate::list)).
    ///
    /// ```
    /// let table = snowgimmer::Table::from_rows(&[1.0, 1.0], &[[0.0, 0.0], [0.5, 0.0]]);
    /// let (mut distances, mut points) = ([0.0; 8], [0; 16]);
    /// let list = table.list(&[0.25, 0.5], &mut distances, &mut points, 0.5, 100)?;
    /// assert!(list.iter().eq([(0.25, &[0, 1][..]), (0.5, &[0, 0]), (0.5, &[1, 0])]));
    /// # Ok::<(), snowgimmer::Refusal>(())
    /// ```
    ///
    /// # Errors
    ///
    /// Those of [`list`](crate::list).
    pub fn list<'s>(
        &self,
        target: &[f64],
        distances: &'s mut [f64],
        points: &'s mut [i64],
        radius: f64,
        budget: u64,
    ) -> Result<List<'s>, Refusal> {
        let listed = crate::list(self.weights, self.mu, target, distances, points, radius, budget)?;
        let dimension = self.dimension();
        let points = &points[..listed.points * dimension];
        Ok(List { nodes: listed.nodes, distances: &distances[..listed.points], points, dimension })
    }

    /// Babai's nearest plane: the point z, near but not always nearest. It leaves t - z in the coefficients, which hold
    /// t.
    ///
    /// ```
    /// let table = snowgimmer::Table::from_rows(&[1.0, 1.0], &[[0.0, 0.0], [0.5, 0.0]]);
    /// let mut coefficients = [0.25, 0.5];
    /// assert_eq!(table.nearest_plane(&mut coefficients)?, [0, 1]);
    /// assert_eq!(coefficients, [0.25, -0.5]);
    /// # Ok::<(), snowgimmer::Refusal>(())
    /// ```
    ///
    /// # Errors
    ///
    /// Those of [`nearest_plane`](crate::nearest_plane).
    pub fn nearest_plane(&self, coefficients: &mut [f64]) -> Result<Point, Refusal> {
        let mut point = Point::zero(self.dimension());
        crate::nearest_plane(self.weights, self.mu, coefficients, &mut point)?;
        Ok(point)
    }

    /// The computed distance of a point from the target, a square.
    ///
    /// # Errors
    ///
    /// Those of [`triangular_distance`](crate::triangular_distance).
    pub fn triangular_distance(&self, target: &[f64], point: &[i64]) -> Result<f64, Refusal> {
        crate::triangular_distance(self.weights, self.mu, target, point)
    }

    /// The point that a search writes, its nodes and its distance.
    fn search(&self, call: impl FnOnce(&mut [i64]) -> Result<Found, Refusal>) -> Result<Nearest, Refusal> {
        Nearest::written(self.dimension(), call)
    }
}

/// What a nearest search gives.
#[derive(Debug, Clone, Copy, PartialEq)]
#[non_exhaustive]
pub struct Nearest {
    /// The nearest vector.
    pub point: Point,
    /// How many nodes the search tried; where it was picked up, all since its start.
    pub nodes: u64,
    /// The vector's computed distance, a square: exactly what [`Table::triangular_distance`] gives for it, and for
    /// [`Table::prepared_nearest_ml`] that of the vector before mapping, in the table's coordinates. It is finite, and
    /// +0 where n is 0. From n = 24 on it is the sum that the search came to, from 0 to the radius. Since 0.3.0.
    pub distance: f64,
}

impl Nearest {
    /// The point of n integers that a search writes, its nodes and its distance.
    pub(crate) fn written(n: usize, call: impl FnOnce(&mut [i64]) -> Result<Found, Refusal>) -> Result<Self, Refusal> {
        let mut point = Point::zero(n);
        let Found { nodes, distance } = call(&mut point)?;
        Ok(Self { point, nodes, distance })
    }
}

/// A vector of up to 64 integers, coordinate 0 first: a slice by value.
#[derive(Clone, Copy, PartialEq, Eq, Hash)]
pub struct Point {
    // zero from the dimension on
    coordinates: [i64; LARGEST_SEARCHED],
    dimension: usize,
}

impl Point {
    /// A point for the library to write. With more weights than it can have coordinates the library refuses the table.
    fn zero(dimension: usize) -> Self {
        Self { coordinates: [0; LARGEST_SEARCHED], dimension: dimension.min(LARGEST_SEARCHED) }
    }
}

impl Deref for Point {
    type Target = [i64];

    fn deref(&self) -> &[i64] {
        &self.coordinates[..self.dimension]
    }
}

impl DerefMut for Point {
    fn deref_mut(&mut self) -> &mut [i64] {
        &mut self.coordinates[..self.dimension]
    }
}

impl fmt::Debug for Point {
    fn fmt(&self, f: &mut fmt::Formatter<'_>) -> fmt::Result {
        (**self).fmt(f)
    }
}

impl<const N: usize> PartialEq<[i64; N]> for Point {
    fn eq(&self, other: &[i64; N]) -> bool {
        **self == other[..]
    }
}

/// What [`Table::list`] gives: the vectors found, in the places that it was lent.
#[derive(Debug, Clone, Copy, PartialEq)]
#[non_exhaustive]
pub struct List<'s> {
    /// How many nodes the search tried.
    pub nodes: u64,
    /// The distances, squares, in rising order: one for each vector.
    pub distances: &'s [f64],
    /// The coordinates: n for each vector.
    pub points: &'s [i64],
    dimension: usize,
}

impl<'s> List<'s> {
    /// Each vector after its distance.
    pub fn iter(&self) -> impl ExactSizeIterator<Item = (f64, &'s [i64])> + use<'s> {
        let List { points, dimension, .. } = *self;
        self.distances.iter().enumerate().map(move |(i, &distance)| (distance, &points[i * dimension..][..dimension]))
    }
}
