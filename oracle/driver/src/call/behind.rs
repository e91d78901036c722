//! What a fit shows about the two columns that smartcore does not have: by its answer, or by its rooms if it is refused for them.

use crate::call::calls::Fit;
use crate::call::outcome::{self, FILL_FLOAT};

/// For the tally.
pub const SHOWN: [&str; 8] = [
    "with a weight of 0",
    "with a weight of -0",
    "with an infinite mass",
    "with a tree that keeps nothing",
    "with a count above 65,535",
    "with a split whose mass is not the sum of its children's",
    "refused for the room of the counts alone",
    "for that of the masses alone",
];

/// Which of `SHOWN` a fit shows that is answered, or refused for a room.
pub fn shown(fit: &Fit, answer: &[u64]) -> [bool; SHOWN.len()] {
    let mut shown = [false; SHOWN.len()];
    match answer[0] {
        0 => shown[..6].copy_from_slice(&answered(fit, answer)),
        _ => shown[6..].copy_from_slice(&refused(fit)),
    }
    shown
}

fn answered(fit: &Fit, answer: &[u64]) -> [bool; 6] {
    let told = if fit.forest { 4 } else { 10 };
    let rooms = outcome::written(&answer[told..]);
    let [children, counts, masses] = [rooms[4], rooms[6], rooms[7]];
    let starts: &[u64] = if fit.forest { rooms[8] } else { &[0] };
    let weight = |zero: f64| {
        let mut weights = fit.weights.iter().map(|weight| weight.to_bits());
        weights.any(|weight| weight == zero.to_bits())
    };
    let keeps_nothing = |tree: usize| !(0..fit.rows).any(|row| fit.kept(tree, row));
    // a mass of 9 at the end of its room cannot be told from an entry that was not touched
    let mass = |node: usize| masses.get(node).map_or(FILL_FLOAT, |m| f64::from_bits(*m));
    let splits = children.iter().enumerate().filter(|(_, child)| **child > 0);
    let mut sums = splits.map(|(node, child)| {
        let tree = starts.partition_point(|start| *start <= node as u64) - 1;
        let child = (starts[tree] + child) as usize;
        (mass(node), mass(child) + mass(child + 1))
    });
    [
        weight(0.0),
        weight(-0.0),
        masses.contains(&f64::INFINITY.to_bits()),
        (0..fit.trees).any(keeps_nothing),
        counts.iter().any(|count| *count > 65_535),
        sums.any(|(whole, sum)| whole != sum),
    ]
}

/// Whether the counts' column, or the masses', is the only one of the eight that is too short.
fn refused(fit: &Fit) -> [bool; 2] {
    let asked: usize = (0..fit.trees).map(|tree| fit.asked(tree)).sum();
    let columns = fit.rooms.nodes.iter().enumerate();
    let short: Vec<usize> = columns
        .filter(|(_, length)| **length < asked)
        .map(|(column, _)| column)
        .collect();
    [short == [6], short == [7]]
}
