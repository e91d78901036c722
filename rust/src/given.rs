//! The data of a fit.

use crate::counts::{Counts, bad_weight};
use crate::listings::Listings;
use crate::matrix::DenseMatrix;

/// The data of a fit: all that it is given apart from its parameters and draws.
///
/// ```
/// use tailboardy::{Counts, DenseMatrix, Draws, Given, Listings, RandomForestRegressor};
///
/// let x = DenseMatrix::from_2d_array(&[[7.5], [6.8], [7.1]])?;
/// let given = Given {
///     x: &x,
///     y: &[3.0, 1.0, 2.0],
///     weights: &[],
///     counts: &Counts::drawn(100, 3, 0)?,
///     listings: &Listings::sorted(&x),
/// };
/// let draws = Draws::seeded(&given, Default::default());
/// let forest = RandomForestRegressor::fit_given(&given, &draws, Default::default())?;
/// let same = RandomForestRegressor::fit(&x, given.y, Default::default())?;
/// assert_eq!(forest.nodes(), same.nodes());
/// # Ok::<(), tailboardy::Refusal>(())
/// ```
#[derive(Debug, Clone, Copy)]
pub struct Given<'a> {
    /// Feature values.
    pub x: &'a DenseMatrix,
    /// Targets, one per row.
    pub y: &'a [f64],
    /// Weights, one per row, or an empty slice for none.
    pub weights: &'a [f64],
    /// How many times each row is in each tree's bag.
    pub counts: &'a Counts,
    /// For each feature the rows in ascending order of value.
    pub listings: &'a Listings,
}

impl Given<'_> {
    /// Whether a tree with these counts keeps a row.
    pub(crate) fn keeps(&self, counts: &[u32], row: usize) -> bool {
        let weighs = self.weights.is_empty() || self.weights.get(row).is_some_and(|it| *it > 0.0);
        weighs && counts.get(row).is_some_and(|count| *count > 0)
    }

    /// Whether draws are needed: a fit on any other data is refused before it uses a draw.
    pub(crate) fn fits(&self) -> bool {
        let rows = self.x.shape().0;
        let finite = |list: &[f64]| list.iter().all(|number| number.is_finite());
        self.y.len() == rows
            && (self.weights.is_empty() || self.weights.len() == rows)
            && self.counts.shape().1 == rows
            && finite(self.x.values())
            && finite(self.y)
            && bad_weight(self.weights).is_none()
            && self.counts.numbers().iter().all(|count| *count <= 65_535)
            && self.listings.check(self.x).is_ok()
    }
}
