//! Nodes in columns, as the library has them.

use std::ops::Range;

/// Nodes in six columns, which are all that a prediction needs; the shortest column decides how many nodes there are. The trees of a forest
/// follow one another, each with its own node numbers starting at 0; the first node of each tree is its root. A node whose children are
/// both 0 is a leaf; of its entries only the value means anything. A fit fills two more columns, [`Behind`](crate::Behind).
///
/// ```
/// use tailboardy::{DecisionTreeRegressor, DenseMatrix};
///
/// let x = DenseMatrix::from_2d_array(&[[1.0], [2.0]])?;
/// let tree = DecisionTreeRegressor::fit(&x, &[5.0, 7.0], Default::default())?;
/// let nodes = tree.nodes();
/// assert!(!nodes.is_empty() && nodes.len() == 3);
/// assert_eq!(nodes.value, [6.0, 5.0, 7.0]);
/// assert_eq!((nodes.feature[0], nodes.threshold[0]), (0, 1.5));
/// assert_eq!((nodes.true_child[0], nodes.false_child[0]), (1, 2));
/// # Ok::<(), tailboardy::Refusal>(())
/// ```
#[derive(Debug, Clone, Default, PartialEq)]
pub struct Nodes {
    /// The mean of the targets in the node.
    pub value: Vec<f64>,
    /// The feature that is compared.
    pub feature: Vec<u32>,
    /// What it is compared with.
    pub threshold: Vec<f64>,
    /// How much the split gains.
    pub score: Vec<f64>,
    /// The child for rows whose value is at or below the threshold.
    pub true_child: Vec<u32>,
    /// The child for all other rows, including those with a NaN. It is the next node after the true child.
    pub false_child: Vec<u32>,
}

/// Some nodes' columns, borrowed.
#[derive(Debug, Clone, Copy)]
pub(crate) struct Columns<'a> {
    pub value: &'a [f64],
    pub feature: &'a [u32],
    pub threshold: &'a [f64],
    pub score: &'a [f64],
    pub true_child: &'a [u32],
    pub false_child: &'a [u32],
}

/// A call of the library whose arguments include the six columns, in the middle.
macro_rules! over {
    ($call:ident($($before:expr),*; $columns:expr; $($after:expr),*)) => {{
        let columns = $columns;
        tailboardy_sys::linked::$call(
            $($before,)*
            columns.value,
            columns.feature,
            columns.threshold,
            columns.score,
            columns.true_child,
            columns.false_child,
            $($after),*
        )
    }};
}
pub(crate) use over;

impl Nodes {
    /// `length` nodes, all zero.
    pub(crate) fn zeros(length: usize) -> Self {
        Nodes {
            value: vec![0.0; length],
            feature: vec![0; length],
            threshold: vec![0.0; length],
            score: vec![0.0; length],
            true_child: vec![0; length],
            false_child: vec![0; length],
        }
    }

    /// The number of nodes, which is the length of the shortest column.
    #[must_use]
    pub fn len(&self) -> usize {
        let all = self.columns();
        let wholes = [all.feature, all.true_child, all.false_child].map(<[u32]>::len);
        let reals = [all.value, all.threshold, all.score].map(<[f64]>::len);
        wholes.into_iter().chain(reals).min().unwrap_or(0)
    }

    /// Whether there are no nodes.
    #[must_use]
    pub fn is_empty(&self) -> bool {
        self.len() == 0
    }

    pub(crate) fn columns(&self) -> Columns<'_> {
        Columns {
            value: &self.value,
            feature: &self.feature,
            threshold: &self.threshold,
            score: &self.score,
            true_child: &self.true_child,
            false_child: &self.false_child,
        }
    }

    /// Keeps the first `length` nodes in every column.
    pub(crate) fn keep(&mut self, length: usize) {
        self.value.truncate(length);
        self.feature.truncate(length);
        self.threshold.truncate(length);
        self.score.truncate(length);
        self.true_child.truncate(length);
        self.false_child.truncate(length);
    }

    /// Reserves space for `more` nodes.
    pub(crate) fn reserve(&mut self, more: usize) {
        self.value.reserve_exact(more);
        self.feature.reserve_exact(more);
        self.threshold.reserve_exact(more);
        self.score.reserve_exact(more);
        self.true_child.reserve_exact(more);
        self.false_child.reserve_exact(more);
    }

    /// Adds more nodes.
    pub(crate) fn extend(&mut self, from: &Nodes) {
        self.value.extend_from_slice(&from.value);
        self.feature.extend_from_slice(&from.feature);
        self.threshold.extend_from_slice(&from.threshold);
        self.score.extend_from_slice(&from.score);
        self.true_child.extend_from_slice(&from.true_child);
        self.false_child.extend_from_slice(&from.false_child);
    }
}

impl<'a> Columns<'a> {
    pub(crate) fn part(&self, part: &Range<usize>) -> Columns<'a> {
        Columns {
            value: cut(self.value, part),
            feature: cut(self.feature, part),
            threshold: cut(self.threshold, part),
            score: cut(self.score, part),
            true_child: cut(self.true_child, part),
            false_child: cut(self.false_child, part),
        }
    }
}

/// The part of a column that is there.
pub(crate) fn cut<'a, T>(column: &'a [T], part: &Range<usize>) -> &'a [T] {
    let end = part.end.min(column.len());
    &column[part.start.min(end)..end]
}
