//! The expected answer: that of the copy if smartcore has one, with other thresholds if they are to be measured values, and with the two
//! columns that smartcore does not have; otherwise the refusal for the fault in the input, with every room unchanged.

use crate::call::calls::{Call, File, Fit, Read, Reader};
use crate::call::fault::Fault;
use crate::call::outcome::{FILL, FILL_FLOAT, Outcome, Room, bits};
use crate::judge::behind;
use crate::judge::copied::{data, params, tree_counts};
use crate::judge::fields;
use crate::judge::measured;
use copy::harness::{self, Grown, NodeRecord, Readable, Tape};

/// Without a fault a draw may still be bad, or every mean NaN.
pub fn expect(call: &Call, fault: Fault) -> Outcome {
    match call {
        Call::Fit(fit) => expect_fit(fit, fault),
        Call::Read(read) => expect_read(read, fault),
        Call::File(file) => expect_file(file, fault),
    }
}

/// Which judge an answer comes from: 1 for smartcore, 2 for the rules.
pub fn judge(call: &Call, fault: Fault, answer: &[u64]) -> u64 {
    let has = |read: &Read| {
        !matches!(
            read.reader,
            Reader::OutOfBagError
                | Reader::CheckListings
                | Reader::CheckTree
                | Reader::CheckForest
                | Reader::Node
                | Reader::ModelSize
                | Reader::WriteModel
        )
    };
    match call {
        Call::Fit(_) if fault.none() && !measures(call, answer) => 1,
        Call::Read(read) if fault.none() && has(read) => 1,
        _ => 2,
    }
}

/// Whether the answer has measured thresholds, which are not smartcore's. Even then, smartcore decides which draw is bad.
pub fn measures(call: &Call, answer: &[u64]) -> bool {
    matches!(call, Call::Fit(fit) if fit.measured() && answer[0] == 0)
}

fn part<T: Clone>(tape: &[T], cuts: &[u64], tree: usize) -> Vec<T> {
    match cuts {
        [] => tape.to_vec(),
        cuts => tape[cuts[tree] as usize..cuts[tree + 1] as usize].to_vec(),
    }
}

/// A tree's part of the tapes.
pub fn tape(fit: &Fit, tree: usize) -> Tape {
    Tape {
        words: part(&fit.words, &fit.word_starts, tree),
        thresholds: part(&fit.thresholds, &fit.threshold_starts, tree),
    }
}

/// One tree of an accepted fit, grown by the copy from its part of the tapes.
pub fn grow(fit: &Fit, tree: usize) -> Result<Grown, usize> {
    let tape = Some(tape(fit, tree));
    harness::grow(&data(fit), tree_counts(fit, tree), &params(fit), tape, 0)
}

/// Whether a tree of an accepted fit has a split.
pub fn splits(fit: &Fit, tree: usize) -> bool {
    grow(fit, tree).is_ok_and(|grown| grown.nodes().len() > 1)
}

/// The six columns of nodes that smartcore has.
pub fn columns(nodes: &[NodeRecord]) -> [Vec<u64>; 6] {
    let of = |field: fn(&NodeRecord) -> u64| nodes.iter().map(field).collect();
    [
        of(|n| bits(n.value)),
        of(|n| u64::from(n.feature)),
        of(|n| bits(n.threshold)),
        of(|n| bits(n.score)),
        of(|n| u64::from(n.true_child)),
        of(|n| u64::from(n.false_child)),
    ]
}

/// What is reported about a tree.
fn numbers(grown: &Grown, nodes: &[NodeRecord]) -> [u64; 6] {
    [
        nodes.len() as u64,
        u64::from(grown.depth()),
        bits(grown.root_mass()),
        grown.searches as u64,
        grown.words_used as u64,
        grown.thresholds_used as u64,
    ]
}

/// The columns of nodes in their order, with the two that only a fit has, and those of the reports.
const NODE_FLOATS: [bool; 8] = [true, false, true, true, false, false, false, true];
const REPORT_FLOATS: [bool; 6] = [false, false, true, false, false, false];

/// The entries of a room before the call.
fn untouched(length: usize, float: bool) -> Room {
    let fill = if float { FILL_FLOAT.to_bits() } else { FILL };
    Room {
        fill,
        entries: vec![fill; length],
    }
}

/// All rooms of a fit as they are before the call: nodes, starts and reports, work.
fn rooms_before(fit: &Fit) -> Vec<Room> {
    let mut rooms: Vec<Room> = (0..8)
        .map(|i| untouched(fit.rooms.nodes[i], NODE_FLOATS[i]))
        .collect();
    if fit.forest {
        rooms.push(untouched(fit.rooms.starts, false));
        rooms.extend((0..6).map(|i| untouched(fit.rooms.reports[i], REPORT_FLOATS[i])));
    }
    let [columns, scratch, flags, waiting] = fit.rooms.work;
    rooms.extend([untouched(columns, false), untouched(scratch, false)]);
    rooms.push(Room {
        fill: 1,
        entries: vec![1; flags],
    });
    rooms.push(untouched(waiting, false));
    rooms
}

fn put(room: &mut Room, entries: &[u64]) {
    room.entries[..entries.len()].copy_from_slice(entries);
}

fn expect_fit(fit: &Fit, fault: Fault) -> Outcome {
    let mut rooms = rooms_before(fit);
    let mut told = fault.told().to_vec();
    told.resize(if fit.forest { 4 } else { 10 }, 0);
    if !fault.none() {
        return Outcome { told, rooms };
    }
    let mut trees = Vec::new();
    for tree in 0..fit.trees {
        match grow(fit, tree) {
            Ok(grown) => trees.push(grown),
            Err(search) => {
                told[..3].copy_from_slice(&[7, tree as u64, search as u64]);
                rooms.iter_mut().for_each(|room| room.entries.fill(0));
                return Outcome { told, rooms };
            }
        }
    }
    answered(fit, &trees, &mut told, &mut rooms);
    Outcome { told, rooms }
}

/// The counts and the masses of all nodes, tree after tree.
pub fn behind_all(fit: &Fit, trees: &[Grown]) -> [Vec<u64>; 2] {
    let mut all = [Vec::new(), Vec::new()];
    for (tree, grown) in trees.iter().enumerate() {
        for (column, entries) in all.iter_mut().zip(behind::columns(fit, tree, grown)) {
            column.extend(entries);
        }
    }
    all
}

fn answered(fit: &Fit, trees: &[Grown], told: &mut [u64], rooms: &mut [Room]) {
    let mut tables: Vec<Vec<NodeRecord>> = trees.iter().map(Grown::nodes).collect();
    if fit.measured() {
        for (tree, nodes) in tables.iter_mut().enumerate() {
            measured::thresholds(fit, tree, nodes);
        }
    }
    for (room, column) in rooms.iter_mut().zip(columns(&tables.concat())) {
        put(room, &column);
    }
    for (room, column) in rooms[6..].iter_mut().zip(behind_all(fit, trees)) {
        put(room, &column);
    }
    let reports: Vec<[u64; 6]> = trees
        .iter()
        .zip(&tables)
        .map(|(grown, nodes)| numbers(grown, nodes))
        .collect();
    if fit.forest {
        let mut starts = vec![0];
        for nodes in &tables {
            starts.push(starts[starts.len() - 1] + nodes.len() as u64);
        }
        put(&mut rooms[8], &starts);
        for column in 0..6 {
            let entries: Vec<u64> = reports.iter().map(|report| report[column]).collect();
            put(&mut rooms[9 + column], &entries);
        }
    } else {
        told[4..].copy_from_slice(&reports[0]);
    }
    let work = rooms.len() - 4;
    for room in &mut rooms[work..] {
        room.entries.fill(0);
    }
}

fn records(read: &Read, from: usize, to: usize) -> Vec<NodeRecord> {
    let t = &read.table;
    (from..to)
        .map(|i| NodeRecord {
            value: t.value[i],
            feature: t.feature[i],
            threshold: t.threshold[i],
            score: t.score[i],
            true_child: t.true_child[i],
            false_child: t.false_child[i],
        })
        .collect()
}

/// The trees of a valid table for the copy's readers.
fn readable(read: &Read, forest: bool) -> Readable {
    let bounds: Vec<(usize, usize)> = match forest {
        true => (0..read.trees)
            .map(|t| (read.starts[t] as usize, read.starts[t + 1] as usize))
            .collect(),
        false => vec![(0, read.table.room())],
    };
    let tables: Vec<Vec<NodeRecord>> = bounds
        .iter()
        .map(|(from, to)| records(read, *from, *to))
        .collect();
    let tables: Vec<&[NodeRecord]> = tables.iter().map(Vec::as_slice).collect();
    Readable::from_tables(&tables, read.features, read.root_mass)
}

fn expect_read(read: &Read, fault: Fault) -> Outcome {
    let mut told = vec![u64::from(fault.number())];
    let mut rooms = Vec::new();
    match read.reader {
        Reader::OutOfBagError => told = expect_error(read, fault).to_vec(),
        Reader::Node => told.extend(expect_node(read, fault)),
        Reader::CheckListings => told = fault.told().to_vec(),
        Reader::CheckTree | Reader::CheckForest => (),
        Reader::ModelSize | Reader::WriteModel => return expect_written(read, fault),
        _ => {
            let mut room = untouched(read.out, true);
            if fault.none() {
                put(&mut room, &Room::floats(&results(read)).entries);
            }
            rooms.push(room);
        }
    }
    Outcome { told, rooms }
}

/// The copy's results for a valid table.
fn results(read: &Read) -> Vec<f64> {
    let (rows, x) = (read.rows, &read.x);
    match read.reader {
        Reader::Predictions => readable(read, false).predictions(rows, x),
        Reader::ForestMeans => readable(read, true).means(rows, x),
        Reader::OutOfBagMeans => readable(read, true).means_oob(rows, x, &read.counts),
        Reader::NormalisedImportances => readable(read, false).tree_importances(true),
        Reader::ImportancesByMass => readable(read, false).tree_importances(false),
        Reader::ForestImportances => readable(read, true).forest_importances(),
        other => unreachable!("the Rust has no {other:?}"),
    }
}

/// smartcore does not compute this error, so the driver does: the refusal, the error, and over how many rows it is. Whether a forest
/// left any row out is seen only in its means, so 18 is found here even if no fault was put into the input.
fn expect_error(read: &Read, fault: Fault) -> [u64; 3] {
    if !fault.none() {
        return [u64::from(fault.number()), 0, 0];
    }
    let mut left_out: Vec<usize> = (0..read.rows).collect();
    left_out.retain(|row| !read.means[*row].is_nan());
    let rows = left_out.len();
    if rows == 0 {
        return [18, 0, 0];
    }
    let mut sum = 0.0f64;
    for row in left_out {
        sum += (read.targets[row] - read.means[row]).powi(2);
    }
    [0, bits(sum / rows as f64), rows as u64]
}

/// What follows the refusal: whether the node exists, and its entries; for a leaf only the value.
fn expect_node(read: &Read, fault: Fault) -> [u64; 7] {
    if !fault.none() || read.node >= read.table.room() {
        return [0; 7];
    }
    let column = columns(&records(read, read.node, read.node + 1));
    let [value, feature, threshold, score, on_true, on_false] = column.map(|c| c[0]);
    match on_true | on_false {
        0 => [1, value, 0, 0, 0, 0, 0],
        _ => [1, value, feature, threshold, score, on_true, on_false],
    }
}

/// The number of bytes and, if they are to be written, the room with them.
fn expect_written(read: &Read, fault: Fault) -> Outcome {
    let bytes = match fault.none() {
        true => fields::bytes(&fields::of(read)),
        false => Vec::new(),
    };
    let mut rooms = Vec::new();
    if read.reader == Reader::WriteModel {
        let mut room = untouched(read.out, false);
        put(&mut room, &Room::bytes(&bytes).entries);
        rooms.push(room);
    }
    Outcome {
        told: vec![u64::from(fault.number()), bytes.len() as u64],
        rooms,
    }
}

/// The refusal with its place, the features, trees and nodes, and the rooms with the model.
fn expect_file(file: &File, fault: Fault) -> Outcome {
    let [number, _, place, _] = fault.told();
    let mut told = vec![number, place, 0, 0, 0];
    let mut rooms: Vec<Room> = (0..6)
        .map(|i| untouched(file.nodes[i], NODE_FLOATS[i]))
        .collect();
    rooms.push(untouched(file.starts, false));
    if fault.none() {
        let model = fields::model(&file.bytes);
        let nodes = model.columns[0].len();
        let trees = model.starts.len() - 1;
        told[2..].copy_from_slice(&[model.features, trees as u64, nodes as u64]);
        let columns = model.columns.iter().chain([&model.starts]);
        rooms.iter_mut().zip(columns).for_each(|(r, c)| put(r, c));
    }
    Outcome { told, rooms }
}
