//! What stands behind each node, in columns, as the library has it.

use crate::columns::cut;
use std::ops::Range;

/// How many rows stand behind each node, and how much they weigh: two columns beside those of [`Nodes`](crate::Nodes), in the same order. A
/// fit fills them. No prediction needs them, so a table of nodes and a model file do not have them.
///
/// ```
/// use tailboardy::{DecisionTreeRegressor, DenseMatrix};
///
/// // the third row weighs nothing, so the tree does not keep it
/// let x = DenseMatrix::from_2d_array(&[[1.0], [2.0], [3.0]])?;
/// let (y, weights) = ([5.0, 7.0, 9.0], [1.0, 3.0, 0.0]);
/// let tree = DecisionTreeRegressor::fit_with_weights(&x, &y, &weights, Default::default())?;
/// let behind = tree.behind().unwrap();
/// assert_eq!(tree.nodes().value, [6.5, 5.0, 7.0]);
/// assert_eq!(behind.count, [2, 1, 1]);
/// assert_eq!(behind.mass, [4.0, 1.0, 3.0]);
/// # Ok::<(), tailboardy::Refusal>(())
/// ```
#[derive(Debug, Clone, Default, PartialEq)]
pub struct Behind {
    /// The number of rows in the node, each counted as often as it is in the tree's bag.
    pub count: Vec<u32>,
    /// Their mass: the sum of their counts, each multiplied by its weight if there are weights. It is what the value was divided by; if it
    /// is not above 0, the value is 0.
    pub mass: Vec<f64>,
}

/// What stands behind some nodes, borrowed.
#[derive(Debug, Clone, Copy)]
pub(crate) struct Backing<'a> {
    pub count: &'a [u32],
    pub mass: &'a [f64],
}

impl Behind {
    /// For `length` nodes, all zero.
    pub(crate) fn zeros(length: usize) -> Self {
        Behind {
            count: vec![0; length],
            mass: vec![0.0; length],
        }
    }

    /// Keeps what stands behind the first `length` nodes.
    pub(crate) fn keep(&mut self, length: usize) {
        self.count.truncate(length);
        self.mass.truncate(length);
    }

    /// Reserves space for `more` nodes.
    pub(crate) fn reserve(&mut self, more: usize) {
        self.count.reserve_exact(more);
        self.mass.reserve_exact(more);
    }

    /// Adds what stands behind more nodes.
    pub(crate) fn extend(&mut self, from: &Behind) {
        self.count.extend_from_slice(&from.count);
        self.mass.extend_from_slice(&from.mass);
    }

    /// What stands behind some of the nodes.
    pub(crate) fn part(&self, part: &Range<usize>) -> Backing<'_> {
        Backing {
            count: cut(&self.count, part),
            mass: cut(&self.mass, part),
        }
    }
}
