//! Calls of the readers and checks, on valid tables of any kind.

use crate::call::calls::{READERS, Read, Reader, Table};
use crate::make::chance::Chance;
use crate::make::fit as make_fit;
use crate::make::floats;

pub fn read(chance: &mut Chance) -> Read {
    let reader = chance.pick(&READERS);
    let mut read = Read {
        reader,
        ..Read::default()
    };
    // the library walks six rows at a time: none, one or two groups, and what is left
    let rows = chance.within(1, 14);
    match reader {
        Reader::OutOfBagError => error(chance, &mut read, rows),
        Reader::CheckListings => {
            read = check(chance, [rows, 3]);
            not_finite(chance, &mut read);
        }
        Reader::Node => {
            over_table(chance, &mut read, rows);
            read.node = node(chance, read.table.room());
        }
        _ => over_table(chance, &mut read, rows),
    }
    read
}

/// The number of a node in the tree, or of one that it does not have: just past its end, or far beyond it.
fn node(chance: &mut Chance, nodes: usize) -> usize {
    match chance.below(6) {
        0 => nodes + chance.below(2),
        // the low 32 bits of 1 << 32 are the number of a node
        1 => chance.pick(&[usize::MAX, 1 << 32, u32::MAX as usize]),
        2 => nodes - 1,
        _ => chance.below(nodes),
    }
}

/// Valid listings of finite values, in up to so many columns.
pub fn check(chance: &mut Chance, [rows, most]: [usize; 2]) -> Read {
    let features = chance.within(1, most);
    let x = floats::finite(chance, rows * features);
    Read {
        reader: Reader::CheckListings,
        rows,
        features,
        listings: make_fit::listings(chance, rows, features, &x),
        x,
        ..Read::default()
    }
}

/// Only the listing check accepts infinite values, here in the place of high and low ones, whose order they keep, and NaN, which is neither
/// below nor above anything.
pub fn not_finite(chance: &mut Chance, read: &mut Read) {
    if chance.one_in(4) {
        let far = read.x.iter_mut().filter(|value| value.abs() > 1.0);
        far.for_each(|value| *value *= f64::INFINITY);
    }
    if chance.one_in(4) {
        let at = chance.below(read.x.len());
        read.x[at] = floats::nan(chance);
    }
}

/// Targets and means. In one of four errors any target may be NaN or infinite, and in another one of four only those of rows without a
/// mean, where they must not matter.
fn error(chance: &mut Chance, read: &mut Read, rows: usize) {
    read.rows = rows;
    read.targets = floats::finite(chance, rows);
    read.means = floats::finite(chance, rows);
    if chance.one_in(4) {
        let at = chance.below(rows);
        read.means[at] = chance.pick(&[f64::INFINITY, f64::NEG_INFINITY]);
    }
    let any = floats::anything(chance, rows);
    let [with, without] = chance.pick(&[[true; 2], [false, true], [false; 2], [false; 2]]);
    for (row, has) in with_mean(chance, rows).into_iter().enumerate() {
        if if has { with } else { without } {
            read.targets[row] = any[row];
        }
        if !has {
            read.means[row] = floats::nan(chance);
        }
    }
}

/// Which rows have a mean: those that a small forest leaves out, or all, all but one, one, none, or a few.
fn with_mean(chance: &mut Chance, rows: usize) -> Vec<bool> {
    let one = chance.below(rows);
    match chance.below(10) {
        0..=4 => left_out(chance, rows),
        5 => vec![true; rows],
        6 => (0..rows).map(|row| row != one).collect(),
        7 => (0..rows).map(|row| row == one).collect(),
        8 => vec![false; rows],
        _ => (0..rows).map(|_| chance.one_in(4)).collect(),
    }
}

/// The rows that a forest of one to three trees leaves out at least once. For each tree as many rows are drawn as there are, with
/// repetitions, so that a row is left out in at most 37 of 100 trees, and a single row never is.
fn left_out(chance: &mut Chance, rows: usize) -> Vec<bool> {
    let mut out = vec![false; rows];
    for _ in 0..chance.within(1, 3) {
        let bag: Vec<usize> = (0..rows).map(|_| chance.below(rows)).collect();
        for (row, out) in out.iter_mut().enumerate() {
            *out |= !bag.contains(&row);
        }
    }
    out
}

fn over_table(chance: &mut Chance, read: &mut Read, rows: usize) {
    let features = match read.reader {
        Reader::CheckTree | Reader::CheckForest | Reader::Node => chance.pick(&[1, 2, 3, 1_024]),
        _ => chance.within(1, 3),
    };
    let takes_x = matches!(
        read.reader,
        Reader::Predictions | Reader::ForestMeans | Reader::OutOfBagMeans
    );
    read.features = features;
    if takes_x {
        read.rows = rows;
        read.x = floats::anything(chance, rows * features);
        read.out = rows;
    }
    if is_forest(read.reader) {
        forest(chance, read);
    } else {
        let (nodes, longer) = (chance.within(1, 9), chance.pick(&[0, 0, 2]));
        read.table = tree(chance, nodes, features, longer);
    }
    if read.reader == Reader::OutOfBagMeans {
        let count = |chance: &mut Chance| chance.pick(&[0, 0, 1, 2, 65_536, u32::MAX]);
        read.counts = (0..read.trees * rows).map(|_| count(chance)).collect();
    }
    if matches!(
        read.reader,
        Reader::NormalisedImportances | Reader::ImportancesByMass | Reader::ForestImportances
    ) {
        read.out = features;
    }
    if read.reader == Reader::ImportancesByMass {
        read.root_mass = floats::anything(chance, 1)[0];
    }
}

/// Trees one after another; there may be further entries and starts after the last.
pub fn forest(chance: &mut Chance, read: &mut Read) {
    read.trees = chance.within(1, 4);
    read.starts.push(0);
    for _ in 0..read.trees {
        let nodes = chance.within(1, 7);
        let tree = tree(chance, nodes, read.features, 0);
        join(&mut read.table, tree);
        read.starts.push(read.table.value.len() as u32);
    }
    let more = chance.pick(&[0, 0, 2]);
    let beyond = tree(chance, more, read.features, 2);
    join(&mut read.table, beyond);
    read.starts.extend(chance.pick(&[&[][..], &[0], &[9, 9]]));
}

pub fn is_forest(reader: Reader) -> bool {
    matches!(
        reader,
        Reader::ForestMeans
            | Reader::OutOfBagMeans
            | Reader::ForestImportances
            | Reader::CheckForest
            | Reader::ModelSize
            | Reader::WriteModel
    )
}

pub fn join(table: &mut Table, next: Table) {
    table.value.extend(next.value);
    table.feature.extend(next.feature);
    table.threshold.extend(next.threshold);
    table.score.extend(next.score);
    table.true_child.extend(next.true_child);
    table.false_child.extend(next.false_child);
}

/// A valid tree: the true child of a split is any later node except the last, so children may be shared and nodes
/// unreachable; the other entries of a leaf are arbitrary. Columns may have up to `longer` further entries.
pub fn tree(chance: &mut Chance, nodes: usize, features: usize, longer: usize) -> Table {
    let mut table = Table {
        value: floats::anything(chance, nodes),
        threshold: floats::anything(chance, nodes),
        score: floats::anything(chance, nodes),
        ..Table::default()
    };
    // half of the time scores as a fit gives them, not below 0
    if chance.one_in(2) {
        table.score = floats::finite(chance, nodes)
            .iter()
            .map(|s| s.abs())
            .collect();
    }
    for number in 0..nodes {
        let splits = number + 2 < nodes && !chance.one_in(4);
        let on_true = match splits {
            true => chance.within(number + 1, nodes - 2) as u32,
            false => 0,
        };
        let feature = match splits {
            true => chance.below(features).max(chance.below(features)) as u32,
            false => chance.pick(&[0, 1, u32::MAX]),
        };
        table.feature.push(feature);
        table.true_child.push(on_true);
        table.false_child.push(if splits { on_true + 1 } else { 0 });
    }
    // two columns are not extended, so that the shortest one is the tree
    if longer > 0 && chance.one_in(2) {
        table
            .value
            .resize(nodes + chance.below(longer + 1), f64::NAN);
        table.feature.resize(nodes + chance.below(longer + 1), 7);
        table.score.resize(nodes + longer, -1.0);
        table.false_child.resize(nodes + longer, 3);
    }
    table
}
