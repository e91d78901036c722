//! Readers and checks at the limits of rows, features, trees and nodes.

use crate::call::calls::{Read, Reader, Table};
use crate::judge::case::Case;
use crate::make::chance::Chance;
use crate::make::floats;
use crate::make::read as make_read;
use crate::make::read::is_forest;

const ROWS: usize = 65_535;
const FEATURES: usize = 1_024;
const TREES: usize = 1_024;
/// The largest tree that a fit can grow.
const NODES: usize = 2 * ROWS - 1;

pub fn each(chance: &mut Chance, mut hold: impl FnMut(Case)) {
    use Reader::*;
    for reader in [Predictions, ForestMeans, OutOfBagMeans] {
        over(chance, reader, [ROWS, 2, 2], 99, &mut hold);
        over(chance, reader, [2, FEATURES, 2], 99, &mut hold);
    }
    for reader in [ForestMeans, OutOfBagMeans, ForestImportances, CheckForest] {
        over(chance, reader, [3, 2, TREES], 5, &mut hold);
    }
    for reader in [Predictions, NormalisedImportances, ImportancesByMass] {
        over(chance, reader, [3, FEATURES, 1], NODES, &mut hold);
    }
    over(
        chance,
        ForestImportances,
        [3, FEATURES, TREES],
        5,
        &mut hold,
    );
    over(chance, CheckForest, [3, FEATURES, 3], NODES, &mut hold);
    for reader in [CheckTree, Node] {
        over(chance, reader, [3, FEATURES, 1], NODES, &mut hold);
    }
    errors(chance, &mut hold);
    hold(chain());
}

/// A call on a valid table, and on one whose last node is wrong: a leaf with one child.
fn over(
    chance: &mut Chance,
    reader: Reader,
    [rows, features, trees]: [usize; 3],
    nodes: usize,
    hold: &mut impl FnMut(Case),
) {
    let mut read = Read {
        reader,
        features,
        ..Read::default()
    };
    let in_table = if is_forest(reader) { trees } else { 1 };
    for tree in 0..in_table {
        read.starts.push((tree * nodes) as u32);
        make_read::join(&mut read.table, make_read::tree(chance, nodes, features, 0));
    }
    match is_forest(reader) {
        true => {
            read.trees = trees;
            read.starts.push((trees * nodes) as u32);
        }
        false => read.starts.clear(),
    }
    match reader {
        Reader::Predictions | Reader::ForestMeans | Reader::OutOfBagMeans => {
            read.rows = rows;
            read.x = floats::anything(chance, rows * features);
            read.out = rows;
        }
        Reader::CheckTree | Reader::CheckForest => (),
        Reader::Node => read.node = nodes - 1,
        _ => (read.root_mass, read.out) = (3.0, features),
    }
    if reader == Reader::OutOfBagMeans {
        read.counts = (0..trees * rows).map(|_| chance.below(2) as u32).collect();
    }
    hold(Case::read(read.clone(), 0));
    if let Some(child) = read.table.false_child.last_mut() {
        *child = 1;
    }
    hold(Case::read(read, 8));
}

/// Every node except the last two is split into the two after it, so the path along the true children is the longest possible.
fn chain() -> Case {
    let splits = NODES as u32 - 2;
    let child = |more: u32| (0..splits).map(move |n| n + more).chain([0, 0]).collect();
    let read = Read {
        reader: Reader::Predictions,
        rows: 3,
        features: 1,
        x: vec![0.0, 1.0, f64::NAN],
        table: Table {
            value: (0..NODES).map(|n| n as f64).collect(),
            feature: vec![0; NODES],
            threshold: vec![0.5; NODES],
            score: vec![1.0; NODES],
            true_child: child(1),
            false_child: child(2),
        },
        out: 3,
        ..Read::default()
    };
    Case::read(read, 0)
}

/// The most rows, with a mean for all of them, all but one, every second, one alone, or none; and with no mean and a length that
/// is off by one, or a row too many.
fn errors(chance: &mut Chance, hold: &mut impl FnMut(Case)) {
    let units = |chance: &mut Chance| (0..ROWS).map(|_| chance.unit()).collect();
    let mut read = Read {
        reader: Reader::OutOfBagError,
        rows: ROWS,
        targets: units(chance),
        means: units(chance),
        ..Read::default()
    };
    let with_mean: [fn(usize) -> bool; 7] = [
        |_| true,
        |row| row != ROWS / 2,
        |row| row != ROWS - 1,
        |row| row % 2 == 0,
        |row| row == 0,
        |row| row == ROWS / 2,
        |row| row == ROWS - 1,
    ];
    for has in with_mean {
        let mut some = read.clone();
        for (row, mean) in some.means.iter_mut().enumerate() {
            if !has(row) {
                *mean = floats::nan(chance);
            }
        }
        hold(Case::read(some, 0));
    }
    read.means.fill_with(|| floats::nan(chance));
    hold(Case::read(read.clone(), 18));
    read.means.push(f64::NAN);
    hold(Case::read(read.clone(), 2));
    read.targets.push(0.5);
    hold(Case::read(read.clone(), 2));
    read.rows += 1;
    hold(Case::read(read, 1));
}
