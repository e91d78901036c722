//! Readers: they read tables and write only their results.

use crate::checks::{features_in_range, first_failed, rows_in_range, trees_in_range};
use crate::rooms::Table;
use crate::tables::{Kind, forest_good, node_at, tree_good, tree_part};

/// What a tree's importances are divided by.
#[derive(Clone, Copy, Debug)]
pub enum Divisor {
    TheirSum,
    RootMass(f64),
}

/// The value of the leaf that a row reaches. Children come after their parent, so a path in a valid tree has no more steps
/// than there are nodes.
fn leaf_value(table: &Table, values: &[f64]) -> f64 {
    let mut number = 0;
    for _ in 0..table.room() {
        let here = node_at(table, number);
        match here.kind {
            Kind::Leaf => return here.value,
            // a NaN is not at most anything, so it goes to the false child
            Kind::Split(cut) if values[cut.feature as usize] <= cut.threshold => {
                number = cut.true_child as usize;
            }
            Kind::Split(cut) => number = cut.false_child as usize,
        }
    }
    unreachable!("a table that was not good")
}

fn row_values(x: &[f64], features: usize, row: usize) -> &[f64] {
    &x[row * features..(row + 1) * features]
}

/// One tree's predictions: refusals 1, 2, 6, 8.
pub fn predictions(rows: usize, features: usize, x: &[f64], table: &Table, out: &mut [f64]) -> u32 {
    let refusal = first_failed(&[
        (1, &|| rows_in_range(rows) && features_in_range(features)),
        (2, &|| x.len() == rows * features),
        (6, &|| out.len() == rows),
        (8, &|| tree_good(table, features)),
    ]);
    if refusal == 0 {
        for (row, result) in out.iter_mut().enumerate() {
            *result = leaf_value(table, row_values(x, features, row));
        }
    }
    refusal
}

/// The values added up from +0 in the order of the trees, divided by their number.
fn mean(values: impl Iterator<Item = f64>) -> f64 {
    let (mut sum, mut trees) = (0.0, 0.0);
    for value in values {
        sum += value;
        trees += 1.0;
    }
    sum / trees
}

/// A forest's means: refusals 1, 2, 6, 8.
pub fn forest_means(
    rows: usize,
    features: usize,
    trees: usize,
    x: &[f64],
    table: &Table,
    starts: &[u32],
    out: &mut [f64],
) -> u32 {
    let refusal = first_failed(&[
        (1, &|| {
            rows_in_range(rows) && features_in_range(features) && trees_in_range(trees)
        }),
        (2, &|| x.len() == rows * features),
        (6, &|| out.len() == rows && starts.len() > trees),
        (8, &|| forest_good(table, starts, trees, features)),
    ]);
    if refusal == 0 {
        for (row, result) in out.iter_mut().enumerate() {
            let values = row_values(x, features, row);
            *result = mean((0..trees).map(|t| leaf_value(&tree_part(table, starts, t), values)));
        }
    }
    refusal
}

/// Out-of-bag means, from the trees where the row's count is 0: refusals 1, 9, 10, 2, 6, 8.
#[allow(clippy::too_many_arguments)]
pub fn out_of_bag_means(
    rows: usize,
    features: usize,
    trees: usize,
    x: &[f64],
    counts: &[u32],
    table: &Table,
    starts: &[u32],
    out: &mut [f64],
) -> u32 {
    let refusal = first_failed(&[
        (1, &|| {
            rows_in_range(rows) && features_in_range(features) && trees_in_range(trees)
        }),
        (9, &|| !counts.is_empty()),
        (10, &|| counts.len() == trees * rows),
        (2, &|| x.len() == rows * features),
        (6, &|| out.len() == rows && starts.len() > trees),
        (8, &|| forest_good(table, starts, trees, features)),
    ]);
    if refusal == 0 {
        for (row, result) in out.iter_mut().enumerate() {
            let values = row_values(x, features, row);
            let left_out = (0..trees).filter(|t| counts[t * rows + row] == 0);
            *result = mean(left_out.map(|t| leaf_value(&tree_part(table, starts, t), values)));
        }
    }
    refusal
}

/// The scores of a tree's splits, added by feature in node order.
fn score_sums(features: usize, table: &Table) -> Vec<f64> {
    let mut sums = vec![0.0; features];
    for number in 0..table.room() {
        if let Kind::Split(cut) = node_at(table, number).kind {
            sums[cut.feature as usize] += cut.score;
        }
    }
    sums
}

fn divide_if_above_zero(list: &mut [f64], by: f64) {
    if by > 0.0 {
        for entry in list {
            *entry /= by;
        }
    }
}

fn normalise(list: &mut [f64]) {
    let sum = list.iter().fold(0.0, |sum, entry| sum + entry);
    divide_if_above_zero(list, sum);
}

/// A tree's importances: refusals 1, 6, 8.
pub fn tree_importances(features: usize, divisor: Divisor, table: &Table, out: &mut [f64]) -> u32 {
    let refusal = first_failed(&[
        (1, &|| features_in_range(features)),
        (6, &|| out.len() == features),
        (8, &|| tree_good(table, features)),
    ]);
    if refusal == 0 {
        out.copy_from_slice(&score_sums(features, table));
        match divisor {
            Divisor::TheirSum => normalise(out),
            Divisor::RootMass(mass) => divide_if_above_zero(out, mass),
        }
    }
    refusal
}

/// A forest's importances: refusals 1, 6, 8.
pub fn forest_importances(
    features: usize,
    trees: usize,
    table: &Table,
    starts: &[u32],
    out: &mut [f64],
) -> u32 {
    let refusal = first_failed(&[
        (1, &|| features_in_range(features) && trees_in_range(trees)),
        (6, &|| out.len() == features && starts.len() > trees),
        (8, &|| forest_good(table, starts, trees, features)),
    ]);
    if refusal == 0 {
        out.fill(0.0);
        for tree in 0..trees {
            let mut sums = score_sums(features, &tree_part(table, starts, tree));
            normalise(&mut sums);
            for (entry, sum) in out.iter_mut().zip(sums) {
                *entry += sum;
            }
        }
        for entry in out.iter_mut() {
            *entry /= trees as f64;
        }
        normalise(out);
    }
    refusal
}

/// The out-of-bag error: the refusal, the error, and over how many rows it is; with a refusal the last two are 0. Refusals 1, 2, 18.
/// A row that no tree left out has a NaN mean: it adds nothing and is not counted. Any other row is, whatever its target.
pub fn out_of_bag_error(rows: usize, targets: &[f64], means: &[f64]) -> (u32, f64, u32) {
    let refusal = first_failed(&[
        (1, &|| rows_in_range(rows)),
        (2, &|| targets.len() == rows && means.len() == rows),
        (18, &|| means.iter().any(|mean| !mean.is_nan())),
    ]);
    if refusal != 0 {
        return (refusal, 0.0, 0);
    }
    let (mut sum, mut counted) = (0.0, 0);
    for (target, mean) in targets.iter().zip(means) {
        if !mean.is_nan() {
            let off = target - mean;
            sum += off * off;
            counted += 1;
        }
    }
    (0, sum / f64::from(counted), counted)
}
