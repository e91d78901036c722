//! Converts a fit to the form that the copy takes.

use crate::call::calls::Fit;
use copy::harness::{Data, Params};

pub fn data(fit: &Fit) -> Data<'_> {
    Data {
        rows: fit.rows,
        features: fit.features,
        x: &fit.x,
        y: &fit.y,
        weights: &fit.weights,
        listings: &fit.listings,
    }
}

/// The parameters for smartcore, whose default for the features tried is the square root of their number, rounded down.
pub fn params(fit: &Fit) -> Params {
    let root = (fit.features as f64).sqrt().floor() as usize;
    Params {
        limit: fit.limit,
        least_leaf: fit.least_leaf,
        least_split: fit.least_split,
        tried: fit.tried.map_or(root, |tried| tried as usize),
        random: fit.random,
    }
}

pub fn tree_counts(fit: &Fit, tree: usize) -> &[u32] {
    &fit.counts[tree * fit.rows..(tree + 1) * fit.rows]
}
