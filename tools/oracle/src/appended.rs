// ---- appended by tools/oracle/build.rs: the original ends above

impl<T: Int> Enumerator<T> {
    /// The search over a table that is handed in: n weights, and mu with mu(j, i) at j·n+i.
    #[must_use]
    pub fn from_table(weights: &[f64], mu: &[f64]) -> Self {
        Self { gso: Gso::from_table(weights.len(), mu), mu: mu.to_vec(), weights: weights.to_vec() }
    }

    /// The orthogonalization that `nearest_plane` takes.
    #[must_use]
    pub const fn gso(&self) -> &Gso<T> {
        &self.gso
    }

    /// `triangular_distance`, which is private.
    ///
    /// # Errors
    ///
    /// As there.
    pub fn triangular_distance(&self, target: &[f64], point: &[i64]) -> Result<f64, DecodeError> {
        triangular_distance(&self.mu, &self.weights, target, point)
    }

    /// The radius that stands when the walk of `nearest` has ended, where that is `Search`, which is private: what the walk
    /// itself has as its point's distance.
    ///
    /// # Errors
    ///
    /// As `nearest`; target and radius must pass its checks.
    pub fn standing_radius(
        &self,
        target: &[f64],
        radius_sq: f64,
        node_budget: u64,
        scratch: &mut EnumerationScratch,
    ) -> Result<f64, DecodeError> {
        let n = self.dim();
        scratch.reserve(n);
        let mut search = Search {
            mu: &self.mu,
            weights: &self.weights,
            target,
            point: &mut scratch.point[..n],
            best: &mut scratch.best[..n],
            centers: &mut scratch.centers[..n],
            partials: &mut scratch.partials[..n],
            children: &mut scratch.children[..n],
            radius_sq,
            node_budget,
            nodes: 0,
            found: false,
        };
        search.run()?;
        if search.found { Ok(search.radius_sq) } else { Err(DecodeError::OutsideRadius { radius_sq }) }
    }
}

/// The first dimension whose searches are `Search` and `ListSearch`, with running centres.
pub const FIRST_RUNNING: usize = ITERATIVE_DIMENSION;

impl<T: Int> PreparedEnumerator<T> {
    /// The search over a table and two matrices that are handed in, in the place of what `new` gets by reduction.
    #[must_use]
    pub const fn from_table(enumerator: Enumerator<T>, transform: IntMatrix<T>, inverse: IntMatrix<T>) -> Self {
        Self { enumerator, transform, inverse }
    }
}

impl PreparedEnumerationScratch {
    /// What a search of n dimensions leaves here: the transformed target, and its point before that is mapped.
    #[must_use]
    pub fn reduced(&self, n: usize) -> (&[f64], &[i64]) {
        (&self.transformed_target[..n], &self.reduced_point[..n])
    }
}

/// A level's generator, which is private: its children, and the state after them.
#[derive(Debug, Clone)]
pub struct Zigzag(Children);

impl Zigzag {
    /// None where the level has no children.
    #[must_use]
    pub fn new(center: f64, remaining: f64, weight: f64) -> Option<Self> {
        Children::new(center, remaining, weight).map(Self)
    }

    /// The number of the next step, and whether the upward and the downward direction are closed.
    #[must_use]
    pub const fn state(&self) -> (i64, bool, bool) {
        (self.0.step, self.0.positive_done, self.0.negative_done)
    }
}

impl Iterator for Zigzag {
    type Item = i64;

    fn next(&mut self) -> Option<i64> {
        self.0.next()
    }
}
