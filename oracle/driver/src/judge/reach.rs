//! Which rows reach the nodes of a tree that the copy grew. The second judge has no part in this.

use crate::call::calls::Fit;
use copy::harness::NodeRecord;

/// Lets the kept rows go down from the root by the copy's own thresholds, and tells of each split its number and the rows of its true and
/// of its false child, in the order in which the listing of its feature has them. A child's number is above its parent's, so a node's
/// rows are all there when its turn comes.
pub fn each_split(
    fit: &Fit,
    tree: usize,
    nodes: &[NodeRecord],
    mut each: impl FnMut(usize, [&[usize]; 2]),
) {
    let places = places(fit);
    let mut reach: Vec<Vec<usize>> = vec![Vec::new(); nodes.len()];
    reach[0] = (0..fit.rows).filter(|row| fit.kept(tree, *row)).collect();
    for (number, node) in nodes.iter().enumerate() {
        // a leaf
        if node.true_child == 0 {
            continue;
        }
        let feature = node.feature as usize;
        let goes = |row: &usize| fit.x[row * fit.features + feature] <= node.threshold;
        let mut rows = std::mem::take(&mut reach[number]);
        rows.sort_unstable_by_key(|row| places[feature][*row]);
        let (on_true, on_false): (Vec<usize>, Vec<usize>) = rows.into_iter().partition(goes);
        each(number, [&on_true, &on_false]);
        reach[node.true_child as usize] = on_true;
        reach[node.false_child as usize] = on_false;
    }
}

/// For each feature, where the listing has each row.
fn places(fit: &Fit) -> Vec<Vec<usize>> {
    let turned = |listing: &[u32]| {
        let mut places = vec![0; fit.rows];
        for (place, row) in listing.iter().enumerate() {
            places[*row as usize] = place;
        }
        places
    };
    fit.listings.chunks(fit.rows).map(turned).collect()
}
