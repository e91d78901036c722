//! tailboardy: the two traits that `decision_tree_regressor.rs` implements; the file that declares them is not among the copied ones.

use crate::error::Failed;

pub trait SupervisedEstimator<X, Y, P>: Predictor<X, Y> {
    fn new() -> Self;
    fn fit(x: &X, y: &Y, parameters: P) -> Result<Self, Failed>
    where
        Self: Sized;
}

pub trait Predictor<X, Y> {
    fn predict(&self, x: &X) -> Result<Y, Failed>;
}
