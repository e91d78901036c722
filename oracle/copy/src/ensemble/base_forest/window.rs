//! tailboardy: access to what `base_forest.rs` keeps private. It reads and builds, but makes no decisions.

use super::BaseForest;
use crate::linalg::basic::lent::Matrix;
use crate::tree::base_tree::window::Tree;

pub type Forest = BaseForest<f64, f64, Matrix, Vec<f64>, f64>;

/// A forest of existing trees; `in_bag` has a list of rows for each tree.
pub fn from_trees(trees: Vec<Tree>, features: usize, in_bag: Option<Vec<Vec<bool>>>) -> Forest {
    BaseForest {
        trees: Some(trees),
        num_features: Some(features),
        samples: in_bag,
    }
}

pub fn into_trees(forest: Forest) -> Vec<Tree> {
    forest.trees.expect("a forest that stands")
}
