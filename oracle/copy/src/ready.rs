//! tailboardy: fits and means with everything else prepared in advance, so that only the published code is timed.

use crate::ensemble::base_forest::{self, window as forest_window};
use crate::harness::{self, Data, Grown, Params};
use crate::linalg::basic::lent::Matrix;
use crate::tree::base_tree::{BaseTree, window as tree_window};
use crate::tree::criterion::MSECriterion;
use rand::tape::{self, Tape, Told};

/// What must be ready before the loop over trees in `BaseForest::fit`: sorted columns and, here, the bags too. There are no weights.
pub struct Ready {
    x: Matrix,
    y: Vec<f64>,
    order: Vec<Vec<usize>>,
    bags: Vec<Vec<usize>>,
}

/// The grown forest, and what was drawn for each tree.
pub struct Forest {
    forest: forest_window::Forest,
    told: Vec<Told>,
}

/// Rows for predictions.
pub struct Rows(Matrix);

impl Ready {
    pub fn new(data: &Data, counts: &[u32]) -> Self {
        let bags = counts.chunks(data.rows);
        Ready {
            x: Matrix::new(data.rows, data.features, data.x),
            y: data.y.to_vec(),
            order: harness::order(data),
            bags: bags.map(harness::wide).collect(),
        }
    }

    /// Sets up a tape for each tree. The tapes are not checked, so using them takes less time than drawing.
    pub fn lay(&self, tapes: &[Tape]) {
        tape::clear();
        tapes.iter().for_each(|made| tape::lay_good(made.clone()));
    }

    /// Grows every tree as that loop does. Without tapes the draws are made from `seed`.
    pub fn fit(&self, params: &Params, seed: u64) -> Forest {
        let mut trees = Vec::with_capacity(self.bags.len());
        for (tree, bag) in self.bags.iter().enumerate() {
            let grown = BaseTree::fit_weak_learner(
                &self.x,
                &self.y,
                None,
                bag.clone(),
                params.tried,
                &self.order,
                &MSECriterion,
                params.of_tree(seed.wrapping_add(tree as u64)),
            );
            trees.push(grown.expect("rows fit a u32"));
        }
        let features = self.order.len();
        Forest {
            forest: forest_window::from_trees(trees, features, None),
            told: tape::told(),
        }
    }
}

impl Rows {
    pub fn new(rows: usize, features: usize, x: &[f64]) -> Self {
        Rows(Matrix::new(rows, features, x))
    }
}

impl Forest {
    pub fn means(&self, rows: &Rows) -> Vec<f64> {
        base_forest::predict_mean(&self.forest, &rows.0).expect("a mean for each row")
    }

    pub fn into_trees(self) -> Vec<Grown> {
        let trees: Vec<tree_window::Tree> = forest_window::into_trees(self.forest);
        let trees = trees.into_iter().zip(self.told);
        trees.map(|(tree, told)| Grown::new(tree, told)).collect()
    }
}
