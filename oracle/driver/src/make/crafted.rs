//! Cases made by hand for one clause each, which small random inputs do not reach.

use crate::call::calls::{Fit, Read, Reader, Table};
use crate::judge::case::Case;
use crate::make::chance::Chance;
use crate::make::fit as make_fit;

fn finished(mut fit: Fit) -> Case {
    make_fit::rooms(&mut Chance::new(0), &mut fit);
    Case::fit(fit, 0)
}

pub fn cases() -> Vec<Case> {
    let mut cases = vec![
        finished(below_zero()),
        finished(minus_zero_drawn()),
        finished(one_row(0)),
        finished(one_row(1)),
        finished(nothing_kept()),
        falling_starts(),
    ];
    for features in [3, 4, 8, 9] {
        cases.extend(default_tried(features));
    }
    cases.extend(own_parts());
    cases.extend(orders());
    cases.extend(errors());
    cases.extend(errors_refused());
    cases.extend(nodes_read());
    cases
}

/// Added up by row number the masses are 1e16, in the order of the first column 1e16 + 2, so the false side has -2.
/// The test makes its proxy 0, as that of the second column is, so the first cut is kept.
pub fn below_zero() -> Fit {
    Fit {
        rows: 4,
        features: 2,
        trees: 1,
        limit: Some(2),
        least_leaf: 1,
        least_split: 2,
        tried: Some(2),
        x: vec![0.0, 0.0, 0.0, 0.0, 0.0, 1.0, 1.0, 1.0],
        y: vec![1.0, 0.0, 0.0, 0.0],
        weights: vec![1e16, 1.0, 1.0, 1.0],
        counts: vec![1; 4],
        listings: vec![1, 2, 0, 3, 1, 0, 2, 3],
        words: vec![0, 1],
        ..Fit::default()
    }
}

/// A threshold of -0 is accepted where the lowest value is +0, and is stored unchanged.
fn minus_zero_drawn() -> Fit {
    Fit {
        rows: 2,
        features: 1,
        trees: 1,
        least_leaf: 1,
        least_split: 2,
        tried: Some(1),
        random: true,
        x: vec![0.0, 1.0],
        y: vec![0.0, 1.0],
        counts: vec![1; 2],
        listings: vec![0, 1],
        words: vec![0; 3],
        thresholds: vec![-0.0, f64::NAN],
        ..Fit::default()
    }
}

/// A single row is searched too, if it reaches the least split, and uses words but no threshold.
fn one_row(least_split: u32) -> Fit {
    Fit {
        x: vec![0.0],
        y: vec![-0.0],
        rows: 1,
        counts: vec![1],
        listings: vec![0],
        words: vec![0],
        thresholds: Vec::new(),
        least_split,
        ..minus_zero_drawn()
    }
}

/// Even no rows at all reach a least split of 0, but they are not searched: no words are required.
fn nothing_kept() -> Fit {
    Fit {
        least_split: 0,
        counts: vec![0; 2],
        words: Vec::new(),
        thresholds: Vec::new(),
        ..minus_zero_drawn()
    }
}

/// The first tree would be valid and the last start is within the columns: only that the starts decrease is wrong.
fn falling_starts() -> Case {
    let read = Read {
        reader: Reader::ForestMeans,
        trees: 2,
        starts: vec![0, 2, 1],
        ..leaves()
    };
    Case::read(read, 8)
}

/// Only one feature can be cut: the last of those tried by default, or the first that is not tried.
pub fn default_tried(features: usize) -> Vec<Case> {
    let root = (1..=32).filter(|n| n * n <= features).count();
    let case = |place: usize| {
        let mut x = vec![0.0; 2 * features];
        x[features + place] = 1.0;
        finished(Fit {
            forest: true,
            rows: 2,
            features,
            trees: 1,
            least_leaf: 1,
            least_split: 2,
            x,
            y: vec![0.0, 1.0],
            counts: vec![1; 2],
            listings: [0, 1].repeat(features),
            words: (0..features as u32).collect(),
            word_starts: vec![0, features as u64],
            threshold_starts: vec![0, 0],
            ..Fit::default()
        })
    };
    vec![case(root - 1), case(root.min(features - 1))]
}

/// Two trees whose parts of the tapes are longer than they use, or are one word or threshold too short although the
/// next tree's part has more; and finally cut tables that decrease.
fn own_parts() -> Vec<Case> {
    let parts = |words: u64, thresholds: u64, refusal: u32| {
        let mut fit = Fit {
            forest: true,
            trees: 2,
            tried: None,
            counts: vec![1; 4],
            limit: Some(2),
            words: vec![0; 4],
            thresholds: vec![0.5, 0.25, 0.75],
            word_starts: vec![0, words, 4],
            threshold_starts: vec![0, thresholds, 3],
            ..minus_zero_drawn()
        };
        make_fit::rooms(&mut Chance::new(0), &mut fit);
        Case::fit(fit, refusal)
    };
    vec![
        parts(3, 2, 0),
        parts(0, 1, 0),
        parts(1, 0, 0),
        parts(1, 3, 0),
        parts(4, 1, 0),
        parts(5, 1, 2),
        parts(1, 4, 2),
    ]
}

/// 0.1 + 0.2 + 0.3 is not 0.3 + 0.2 + 0.1: sums of leaf values, scores and squares in their order.
const THREE: [f64; 3] = [0.1, 0.2, 0.3];

/// Three trees of one leaf each.
fn leaves() -> Read {
    Read {
        rows: 1,
        features: 1,
        trees: 3,
        x: vec![0.0],
        counts: vec![0; 3],
        table: Table {
            value: THREE.to_vec(),
            feature: vec![0; 3],
            threshold: vec![0.0; 3],
            score: vec![0.0; 3],
            true_child: vec![0; 3],
            false_child: vec![0; 3],
        },
        starts: vec![0, 1, 2, 3],
        out: 1,
        ..Read::default()
    }
}

fn orders() -> Vec<Case> {
    let error = error_of([1.0, 0.0, 1.0], |_| ());
    let by = |reader: Reader, read: &Read| Read {
        reader,
        ..read.clone()
    };
    let three = splits([0, 1, 2], 3);
    let one = splits([0; 3], 1);
    [
        by(Reader::ForestMeans, &leaves()),
        by(Reader::OutOfBagMeans, &leaves()),
        error,
        by(Reader::NormalisedImportances, &three),
        by(Reader::ImportancesByMass, &three),
        by(Reader::ForestImportances, &three),
        by(Reader::NormalisedImportances, &one),
        by(Reader::ImportancesByMass, &one),
    ]
    .into_iter()
    .map(|read| Case::read(read, 0))
    .collect()
}

/// Seven nodes, of which the first three are split by these features.
fn splits(by: [u32; 3], features: usize) -> Read {
    let mut table = Table {
        value: vec![0.0; 7],
        threshold: vec![0.0; 7],
        score: THREE.to_vec(),
        feature: by.to_vec(),
        true_child: vec![1, 3, 5],
        false_child: vec![2, 4, 6],
    };
    table.score.resize(7, 9.5);
    for column in [
        &mut table.feature,
        &mut table.true_child,
        &mut table.false_child,
    ] {
        column.resize(7, 0);
    }
    Read {
        features,
        trees: 1,
        table,
        starts: vec![0, 7],
        root_mass: 3.0,
        out: features,
        ..Read::default()
    }
}

/// An error over three rows.
fn error_of(means: [f64; 3], change: impl Fn(&mut Read)) -> Read {
    let mut read = Read {
        reader: Reader::OutOfBagError,
        rows: 3,
        targets: THREE.to_vec(),
        means: means.to_vec(),
        ..Read::default()
    };
    change(&mut read);
    read
}

/// Rows with and without a mean, and targets and means that are not finite.
fn errors() -> Vec<Case> {
    let (no, high) = (f64::NAN, f64::INFINITY);
    let case = |means: [f64; 3], targets: [f64; 3]| {
        let targets = |read: &mut Read| read.targets = targets.to_vec();
        Case::read(error_of(means, targets), 0)
    };
    vec![
        // two rows have a mean, and one, in each place
        case([no, 1.0, 0.5], THREE),
        case([1.0, no, 0.5], THREE),
        case([1.0, 0.0, no], THREE),
        case([1.0, no, no], THREE),
        case([no, 1.0, no], THREE),
        case([no, no, 1.0], THREE),
        // the target of a row without a mean is not used
        case([1.0, no, 0.5], [0.1, no, 0.3]),
        case([1.0, no, 0.5], [0.1, high, 0.3]),
        // a row with a mean is counted whatever its target is, even if it is the only one
        case([1.0, no, 0.5], [no, 0.2, 0.3]),
        case([1.0, no, 0.5], [0.1, 0.2, -high]),
        case([no, 1.0, no], [0.1, no, 0.3]),
        // an infinite mean is a mean, and infinite less infinite is NaN
        case([high, no, 0.5], THREE),
        case([no, -high, no], THREE),
        case([no, high, 1.0], [0.1, high, 0.3]),
        // each mean is its target
        case([0.1, no, 0.3], THREE),
    ]
}

/// No row has a mean: alone, and together with the faults that are found before it.
fn errors_refused() -> Vec<Case> {
    let case = |refusal: u32, change: fn(&mut Read)| {
        let read = error_of([f64::NAN; 3], change);
        Case::read(read, refusal)
    };
    let one = |read: &mut Read| {
        (read.rows, read.targets) = (1, vec![0.1]);
        read.means.truncate(1);
    };
    vec![
        case(18, |_| ()),
        case(18, |read| read.targets.fill(f64::NAN)),
        case(18, one),
        case(2, |read| read.rows = 2),
        case(2, |read| read.targets.push(0.4)),
        case(2, |read| read.targets.truncate(2)),
        case(2, |read| read.means.push(f64::NAN)),
        case(2, |read| read.means.truncate(2)),
        case(2, |read| read.means.clear()),
        // the only mean is past the last row
        case(2, |read| read.means.push(1.0)),
        // of no rows none has a mean
        case(1, |read| read.rows = 0),
        case(1, no_rows),
        case(1, |read| read.rows = 65_536),
        // the low 32 bits are the number of rows
        case(1, |read| read.rows = (1 << 32) + 3),
        case(1, |read| (read.rows, read.means[0]) = ((1 << 32) + 3, 1.0)),
    ]
}

fn no_rows(read: &mut Read) {
    read.rows = 0;
    read.targets.clear();
    read.means.clear();
}

/// A node read out of a root and its two leaves; the leaves have entries that must not be returned.
fn node_of(change: impl Fn(&mut Read)) -> Read {
    let mut read = Read {
        reader: Reader::Node,
        features: 2,
        table: Table {
            value: THREE.to_vec(),
            feature: vec![1, 1, 7],
            threshold: vec![-0.0, 1.5, 2.5],
            score: vec![4.0, 5.0, 6.0],
            true_child: vec![1, 0, 0],
            false_child: vec![2, 0, 0],
        },
        ..Read::default()
    };
    change(&mut read);
    read
}

/// Each node, and numbers that no node has; features at and past their limits; faults in another node than the one
/// that is read, or together with a number that no node has.
fn nodes_read() -> Vec<Case> {
    let case = |refusal: u32, change: fn(&mut Read)| Case::read(node_of(change), refusal);
    vec![
        case(0, |_| ()),
        case(0, |read| read.node = 1),
        case(0, |read| read.node = 2),
        case(0, |read| read.node = 3),
        case(0, |read| read.node = 1 << 32),
        case(0, |read| read.node = usize::MAX),
        case(0, |read| read.features = 1_024),
        case(1, |read| read.features = 0),
        case(1, |read| read.features = 1_025),
        case(1, |read| (read.features, read.node) = (1_025, 3)),
        // the feature is past the last, in the node that is read and in another
        case(8, |read| read.features = 1),
        case(8, |read| (read.features, read.node) = (1, 2)),
        case(8, |read| (read.features, read.node) = (1, 3)),
        case(8, |read| read.table.true_child[2] = 1),
        case(8, |read| (read.table.true_child[2], read.node) = (1, 3)),
        // the shortest column decides: a child is cut off, everything is, or four columns continue after the last node
        case(8, |read| read.table.score.truncate(2)),
        case(8, |read| read.table.value.clear()),
        case(0, |read| {
            read.table.value.push(0.5);
            read.table.feature.push(1);
            read.table.true_child.push(0);
            read.table.false_child.push(0);
            read.node = 3;
        }),
    ]
}
