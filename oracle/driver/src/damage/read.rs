//! Damaged copies of valid reader calls, each with the refusal that it should give.

use crate::call::calls::{Read, Reader};
use crate::call::fault::Fault;
use crate::damage::listing;
use crate::judge::fields;
use crate::make::chance::Chance;
use crate::make::floats;
use crate::make::read::is_forest;

/// Stands for a room that is too short for a file, which is also refused by 6, but later than too few starts.
const FILE_ROOM: u32 = 60;

/// The refusals that a call can give, in the order of its checks. 11 stands for all three of a listing.
fn order(reader: Reader) -> &'static [u32] {
    match reader {
        Reader::Predictions | Reader::ForestMeans => &[1, 2, 6, 8],
        Reader::OutOfBagMeans => &[1, 9, 10, 2, 6, 8],
        Reader::NormalisedImportances | Reader::ImportancesByMass | Reader::ForestImportances => {
            &[1, 6, 8]
        }
        Reader::OutOfBagError => &[1, 2, 18],
        Reader::CheckListings => &[1, 2, 11],
        Reader::CheckTree | Reader::Node => &[1, 8],
        Reader::CheckForest | Reader::ModelSize => &[1, 6, 8],
        Reader::WriteModel => &[1, 6, 8, FILE_ROOM],
    }
}

/// Damages a call in one to three ways, starting with the last check; the fault that the first check finds is expected.
pub fn damage(chance: &mut Chance, read: &mut Read) -> Fault {
    let order = order(read.reader);
    let mut checks: Vec<usize> = (0..chance.within(1, 3))
        .map(|_| chance.below(order.len()))
        .collect();
    // each check once: a second damage of one kind could undo the first
    checks.sort_unstable_by(|a, b| b.cmp(a));
    checks.dedup();
    let mut fault = Fault::default();
    for check in checks {
        let next = one(chance, read, order[check]);
        if !next.none() {
            fault = next;
        }
    }
    fault
}

/// Damage for one check, which may not be possible.
fn one(chance: &mut Chance, read: &mut Read, number: u32) -> Fault {
    let done = match number {
        1 => sizes(chance, read),
        2 => lengths(chance, read),
        11 => {
            let shape = [read.rows, read.features];
            return listing::damage(chance, shape, &read.x, &mut read.listings);
        }
        6 => rooms(chance, read),
        8 => table(chance, read),
        18 => no_mean(chance, read),
        FILE_ROOM => {
            let size = fields::bytes(&fields::of(read)).len();
            let short = chance.below(size);
            read.out = chance.pick(&[size - 1, short, 0]);
            return Fault::from(6);
        }
        9 => {
            read.counts.clear();
            true
        }
        _ => other_counts(chance, read),
    };
    Fault::from(if done { number } else { 0 })
}

fn other_counts(chance: &mut Chance, read: &mut Read) -> bool {
    match chance.below(4) {
        0 => read.rows = 65_535,
        1 => read.trees = 1_024,
        _ => wrong_length(chance, &mut read.counts, true),
    }
    true
}

fn wrong_length<T: Clone + Default>(chance: &mut Chance, list: &mut Vec<T>, not_empty: bool) {
    match chance.below(3) {
        0 if !not_empty => list.clear(),
        1 if !not_empty || list.len() > 1 => drop(list.pop()),
        _ => list.push(list.last().cloned().unwrap_or_default()),
    }
}

fn sizes(chance: &mut Chance, read: &mut Read) -> bool {
    let rows = !matches!(
        read.reader,
        Reader::NormalisedImportances
            | Reader::ImportancesByMass
            | Reader::ForestImportances
            | Reader::CheckTree
            | Reader::CheckForest
            | Reader::Node
            | Reader::ModelSize
            | Reader::WriteModel
    );
    match chance.below(3) {
        0 if rows => read.rows = chance.pick(&[0, 65_536, usize::MAX]),
        1 if read.reader != Reader::OutOfBagError => {
            read.features = chance.pick(&[0, 1_025, usize::MAX]);
        }
        2 if is_forest(read.reader) => read.trees = chance.pick(&[0, 1_025, usize::MAX]),
        _ => return false,
    }
    true
}

fn lengths(chance: &mut Chance, read: &mut Read) -> bool {
    let second = chance.one_in(2);
    if chance.one_in(4) {
        // the largest sizes, which the lists do not have
        match read.reader {
            Reader::OutOfBagMeans => read.features = 1_024,
            Reader::OutOfBagError => read.rows = 65_535,
            _ if second => read.features = 1_024,
            _ => read.rows = 65_535,
        }
        return true;
    }
    match read.reader {
        Reader::OutOfBagError if second => wrong_length(chance, &mut read.targets, false),
        Reader::OutOfBagError => wrong_length(chance, &mut read.means, false),
        Reader::CheckListings if second => wrong_length(chance, &mut read.listings, false),
        _ => wrong_length(chance, &mut read.x, false),
    }
    true
}

/// Trees that leave no row out; NaN targets, which are no fault, must not change that.
fn no_mean(chance: &mut Chance, read: &mut Read) -> bool {
    for mean in read.means.iter_mut() {
        *mean = floats::nan(chance);
    }
    if chance.one_in(4) {
        read.targets = floats::anything(chance, read.rows);
    }
    true
}

fn rooms(chance: &mut Chance, read: &mut Read) -> bool {
    let has_result = !matches!(
        read.reader,
        Reader::CheckForest | Reader::ModelSize | Reader::WriteModel
    );
    if is_forest(read.reader) && chance.one_in(4) && read.reader != Reader::OutOfBagMeans {
        // the largest number of trees, for which there are too few starts
        read.trees = 1_024;
    } else if is_forest(read.reader) && (chance.one_in(2) || !has_result) {
        let short = chance.pick(&[read.trees, read.trees, 0]);
        read.starts.truncate(short);
    } else {
        read.out = chance.pick(&[read.out + 1, read.out - 1, 0]);
    }
    true
}

/// A damaged table: starts that do not increase from 0 to an end within the columns, or a node with wrong children or a wrong feature.
fn table(chance: &mut Chance, read: &mut Read) -> bool {
    if is_forest(read.reader) && chance.one_in(2) {
        return starts(chance, read);
    }
    if !is_forest(read.reader) && chance.one_in(6) {
        let t = &mut read.table;
        match chance.below(3) {
            0 => t.value.clear(),
            1 => t.score.clear(),
            _ => t.false_child.clear(),
        }
        return true;
    }
    let (from, to) = match is_forest(read.reader) {
        true => {
            let tree = chance.below(read.trees);
            (read.starts[tree] as usize, read.starts[tree + 1] as usize)
        }
        false => (0, read.table.room()),
    };
    let node = chance.below(to - from);
    node_wrong(chance, read, from, node, (to - from) as u32);
    true
}

fn starts(chance: &mut Chance, read: &mut Read) -> bool {
    let trees = read.trees;
    let room = read.table.room() as u32;
    match chance.below(5) {
        0 => read.starts[0] = 1,
        // a start above the next one
        4 if trees > 1 => {
            let tree = chance.within(1, trees - 1);
            read.starts[tree] = read.starts[tree + 1] + 1;
        }
        1 => {
            let tree = chance.below(trees);
            read.starts[tree + 1] = read.starts[tree];
        }
        2 => read.starts[trees] = chance.pick(&[room + 1, u32::MAX]),
        _ => {
            let column = &mut read.table.score;
            column.truncate(read.starts[trees] as usize - 1);
        }
    }
    true
}

fn node_wrong(chance: &mut Chance, read: &mut Read, from: usize, node: usize, nodes: u32) {
    let own = node as u32;
    let features = read.features as u32;
    let (on_true, on_false, feature) = match chance.below(9) {
        // only the feature is wrong, where there is room for children
        0 | 1 if own + 2 < nodes => (own + 1, own + 2, chance.pick(&[features, u32::MAX])),
        2 => (own, own + 1, 0),
        3 if own > 0 => (own - 1, own, 0),
        4 if own + 3 < nodes => (own + 1, own + 3, 0),
        5 => (nodes - 1, nodes, 0),
        6 => (0, 1, 0),
        7 => (chance.within(1, 3) as u32, 0, 0),
        _ => (u32::MAX, 0, 0),
    };
    // a true child of 0 with a false child of 0 would be a leaf
    let (on_true, on_false) = match (on_true, on_false) {
        (0, 0) => (0, 1),
        both => both,
    };
    read.table.true_child[from + node] = on_true;
    read.table.false_child[from + node] = on_false;
    read.table.feature[from + node] = feature;
}
