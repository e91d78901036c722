//! What is expected of a fit that cuts at measured values, which smartcore cannot do: its answer with cuts halfway, with other
//! thresholds. Either cut is at least the lower of two neighbouring values and below the upper one, so both send the same rows the same
//! way, and everything else in the answer is the same. The second judge has no part in this.

use crate::call::calls::Fit;
use crate::judge::reach;
use copy::harness::NodeRecord;

/// Replaces the thresholds of a tree that the copy grew.
pub fn thresholds(fit: &Fit, tree: usize, nodes: &mut [NodeRecord]) {
    let own = nodes.to_vec();
    reach::each_split(fit, tree, &own, |number, [on_true, _]| {
        let feature = own[number].feature as usize;
        let values = on_true
            .iter()
            .map(|row| fit.x[row * fit.features + feature]);
        nodes[number].threshold = first_of_highest(values);
    });
}

/// Of the highest values the first in the order of the listing. They are equal, but one zero may be -0 and another +0.
fn first_of_highest(mut values: impl Iterator<Item = f64> + Clone) -> f64 {
    let highest = values.clone().fold(f64::NEG_INFINITY, f64::max);
    let first = values.find(|value| *value == highest);
    first.expect("some rows go to the true child")
}
