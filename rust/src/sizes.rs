//! Checks of sizes.

use crate::fault::Fault;
use crate::limits::{MAX_FEATURES, MAX_ROWS, MAX_TREES};
use crate::refusal::Refusal;
use tailboardy_sys::linked;

/// Asks the library whether it accepts these sizes, before anything is allocated for a call. The library checks sizes first, so calls
/// with empty lists are enough.
pub(crate) fn check(rows: usize, features: usize, trees: usize) -> Result<(), Refusal> {
    let of_data = linked::check_listings(rows, features, &[], &[]).number;
    let of_trees = linked::check_forest(1, trees, &[], &[], &[], &[], &[], &[], &[]);
    match (of_data, of_trees) {
        (1, _) | (_, 1) => Err(Refusal::of(1, fault(rows, features, trees))),
        _ => Ok(()),
    }
}

/// Allocates a result for each row, once the sizes are checked.
pub(crate) fn room(rows: usize, features: usize, trees: usize) -> Result<Vec<f64>, Refusal> {
    check(rows, features, trees)?;
    Ok(vec![0.0; rows])
}

/// The size that is out of range.
pub(crate) fn fault(rows: usize, features: usize, trees: usize) -> Option<Fault> {
    if !(1..=MAX_ROWS).contains(&rows) {
        Some(Fault::Rows(rows))
    } else if !(1..=MAX_FEATURES).contains(&features) {
        Some(Fault::Features(features))
    } else if !(1..=MAX_TREES).contains(&trees) {
        Some(Fault::Trees(trees))
    } else {
        None
    }
}
