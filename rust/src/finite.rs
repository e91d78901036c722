//! Results that are not finite are refused instead of returned. The library computes them by its rules, as smartcore does: sums and
//! squares of numbers that are too large become infinite or NaN, and look like any other result to whoever does not check.

use crate::columns::Nodes;
use crate::counts::Counts;
use crate::fault::Fault;
use crate::refusal::{Cause, Refusal};

fn refused<T>(fault: Fault) -> Result<T, Refusal> {
    Err(Refusal::new(Cause::NotFinite, fault))
}

/// Returns the numbers, a result for each row or feature, if they are all finite.
pub(crate) fn all(result: &'static str, numbers: Vec<f64>) -> Result<Vec<f64>, Refusal> {
    let bad = numbers.iter().position(|number| !number.is_finite());
    unless(bad, result, numbers)
}

/// The same for out-of-bag means, where a row that is in every bag, and no other, has a NaN.
pub(crate) fn out_of_bag(means: Vec<f64>, counts: &Counts) -> Result<Vec<f64>, Refusal> {
    let kept = |row: usize| (0..counts.shape().0).all(|tree| counts.of_tree(tree)[row] > 0);
    let bad = |row: &usize| match means[*row] {
        mean if mean.is_nan() => !kept(*row),
        mean => mean.is_infinite(),
    };
    let bad = (0..means.len()).find(bad);
    unless(bad, "out-of-bag mean of row", means)
}

fn unless(
    bad: Option<usize>,
    result: &'static str,
    numbers: Vec<f64>,
) -> Result<Vec<f64>, Refusal> {
    match bad {
        None => Ok(numbers),
        Some(at) => {
            let value = numbers[at];
            refused(Fault::Result { result, at, value })
        }
    }
}

/// Checks an out-of-bag error. The target of a row without a mean has no part in it.
pub(crate) fn error(error: f64, targets: &[f64], means: &[f64]) -> Result<(), Refusal> {
    if error.is_finite() {
        return Ok(());
    }
    let bad = |row: &usize| !targets[*row].is_finite() && !means[*row].is_nan();
    let bad = (0..targets.len()).find(bad);
    refused(bad.map_or(Fault::Error(error), |row| {
        let value = targets[row];
        Fault::Target { row, value }
    }))
}

/// Checks a tree's scores before they are divided by their sum: if that is infinite, every importance comes out as 0.
pub(crate) fn scores(tree: usize, scores: impl Iterator<Item = f64>) -> Result<(), Refusal> {
    let sum: f64 = scores.sum();
    match sum.is_finite() {
        true => Ok(()),
        false => refused(Fault::Scores { tree, sum }),
    }
}

/// Checks the masses of a tree's leaves, the nodes without a true child.
pub(crate) fn leaves(tree: usize, true_child: &[u32], mass: &[f64]) -> Result<(), Refusal> {
    let bad = |node: &usize| true_child[*node] == 0 && !mass[*node].is_finite();
    match (0..mass.len()).find(bad) {
        None => Ok(()),
        Some(node) => refused(Fault::Entry {
            entry: "mass",
            tree,
            node,
            value: mass[node],
        }),
    }
}

/// Checks a grown forest: cuts are compared by scores, so if these are not finite the cuts mean nothing, even where predictions are
/// finite. Scores divide by the product of three masses, which must be in range too. `masses` are those of all rows, a tree each.
///
/// With weights a score may still be 0 / 0, in nodes whose rows weigh almost nothing beside the others.
pub(crate) fn grown(
    nodes: &Nodes,
    starts: &[u32],
    masses: impl Iterator<Item = f64>,
    weighed: bool,
) -> Result<(), Refusal> {
    let bad = |(_, mass): &(usize, f64)| {
        let product = mass * mass * mass;
        !product.is_finite() || (product == 0.0 && *mass > 0.0)
    };
    if let Some((tree, mass)) = masses.enumerate().find(bad) {
        return refused(Fault::Mass { tree, mass });
    }
    let good = |score: f64| score.is_finite() || (weighed && score.is_nan());
    let bad = |at: &usize| !(nodes.value[*at].is_finite() && good(nodes.score[*at]));
    let Some(at) = (0..nodes.len()).find(bad) else {
        return Ok(());
    };
    let (entry, value) = match nodes.value[at] {
        value if value.is_finite() => ("score", nodes.score[at]),
        value => ("value", value),
    };
    let before = starts.partition_point(|start| *start as usize <= at);
    let tree = before.saturating_sub(1);
    let start = starts.get(tree).map_or(0, |start| *start as usize);
    refused(Fault::Entry {
        entry,
        tree,
        node: at - start,
        value,
    })
}
