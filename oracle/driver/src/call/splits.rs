//! What a fit with cuts at measured values shows, by its answer: only a split has a threshold, and only the rows that its tree keeps can
//! decide it.

use crate::call::calls::Fit;
use crate::call::outcome;
use std::collections::BTreeSet;

/// Each tree with each feature by which it is split, and whether it is split there at a zero.
fn splits(fit: &Fit, answer: &[u64]) -> BTreeSet<(usize, usize, bool)> {
    let told = if fit.forest { 4 } else { 10 };
    let rooms = outcome::written(&answer[told..]);
    let entry = |room: usize, node: usize| rooms[room].get(node).copied().unwrap_or(0);
    let starts: &[u64] = if fit.forest { rooms[8] } else { &[0] };
    let true_children = rooms[4].iter().enumerate();
    let nodes = true_children.filter(|(_, child)| **child != 0);
    nodes
        .map(|(node, _)| {
            let tree = starts.partition_point(|start| *start <= node as u64) - 1;
            let threshold = f64::from_bits(entry(2, node));
            (tree, entry(1, node) as usize, threshold == 0.0)
        })
        .collect()
}

/// The values of a feature in the rows that a tree keeps, in the order of the listing.
fn column(fit: &Fit, tree: usize, feature: usize) -> Vec<f64> {
    let listing = &fit.listings[feature * fit.rows..(feature + 1) * fit.rows];
    let rows = listing.iter().map(|row| *row as usize);
    let kept = rows.filter(|row| fit.kept(tree, *row));
    kept.map(|row| fit.x[row * fit.features + feature])
        .collect()
}

fn ties(column: &[f64]) -> bool {
    column.windows(2).any(|pair| pair[0] == pair[1])
}

fn both_zeros(column: &[f64]) -> bool {
    let has = |zero: f64| {
        let mut bits = column.iter().map(|value| value.to_bits());
        bits.any(|value| value == zero.to_bits())
    };
    has(-0.0) && has(0.0)
}

/// Of an accepted fit with cuts at measured values: whether it has a split; whether a tree is split by a feature of which it keeps two
/// equal values; by one of which it keeps a -0 and a +0; and whether the threshold is then one of these.
pub fn shown(fit: &Fit, answer: &[u64]) -> [bool; 4] {
    let mut shown = [false; 4];
    for (tree, feature, zero) in splits(fit, answer) {
        let column = column(fit, tree, feature);
        let both = both_zeros(&column);
        shown[0] = true;
        shown[1] |= ties(&column);
        shown[2] |= both;
        shown[3] |= both && zero;
    }
    shown
}
