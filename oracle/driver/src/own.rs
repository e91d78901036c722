//! Compares smartcore's own `fit`, with its bags, sorting and draws, with a fit that gets the same draws from tapes. This checks
//! that the harness calls `fit_weak_learner` as smartcore itself does.

use crate::call::calls::{Call, Fit, Read, Reader, Table};
use crate::call::fault::Fault;
use crate::call::outcome::{Outcome, bits};
use crate::judge::copied::{data, params};
use crate::judge::expect;
use crate::judge::library::Library;
use crate::judge::run;
use crate::make::chance::Chance;
use crate::make::fit as make_fit;
use crate::make::floats;
use crate::tally::Tally;
use copy::harness::{self, NodeRecord, Tape};

pub fn hold(tally: &mut Tally, chance: &mut Chance, count: usize) {
    for _ in 0..count {
        for one in [forest, tree] {
            let (fit, same) = one(tally.library, chance);
            tally.told(same, || format!("the crate's own fit of {fit:?}"));
        }
    }
}

/// A valid fit with cuts halfway, as smartcore makes them, with its own listings, and with weights that it accepts.
fn base(chance: &mut Chance, forest: bool) -> Fit {
    let mut fit = make_fit::fit(chance, forest, make_fit::SMALL);
    fit.lower = false;
    fit.listings = harness::argsorted(fit.rows, fit.features, &fit.x);
    if !fit.weights.is_empty() {
        fit.weights = floats::weights(chance, fit.rows);
        fit.weights[0] = 1.0;
    }
    fit
}

/// The library's fit with the draws that smartcore made.
fn played(library: &dyn Library, chance: &mut Chance, fit: &mut Fit, tapes: &[Tape]) -> Outcome {
    make_fit::lay(fit, tapes);
    make_fit::rooms(chance, fit);
    run::run(library, &Call::Fit(fit.clone()))
}

/// The node columns that a fit left.
fn left_columns(left: &Outcome, nodes: usize) -> [&[u64]; 6] {
    std::array::from_fn(|room| &left.rooms[room].entries[..nodes])
}

/// Columns of numbers as a table for the readers.
fn table(columns: [&[u64]; 6]) -> Table {
    let floats = |column: usize| columns[column].iter().map(|e| f64::from_bits(*e)).collect();
    let numbers = |column: usize| columns[column].iter().map(|e| *e as u32).collect();
    Table {
        value: floats(0),
        feature: numbers(1),
        threshold: floats(2),
        score: floats(3),
        true_child: numbers(4),
        false_child: numbers(5),
    }
}

fn forest(library: &dyn Library, chance: &mut Chance) -> (Fit, bool) {
    let mut fit = base(chance, true);
    let tried = fit.tried.map(|tried| tried as usize);
    let own = harness::own_forest(&data(&fit), &params(&fit), fit.trees, tried, chance.word())
        .expect("what the crate takes");
    fit.counts = own.counts;
    let tapes: Vec<Tape> = own.trees.iter().map(|tree| tree.made.clone()).collect();
    let left = played(library, chance, &mut fit, &tapes);
    let trees: Vec<Vec<NodeRecord>> = own.trees.iter().map(|tree| tree.nodes()).collect();
    let nodes = trees.concat();
    let [counts, masses] = expect::behind_all(&fit, &own.trees);
    let six = expect::columns(&nodes).into_iter();
    let columns: Vec<Vec<u64>> = six.chain([counts, masses]).collect();
    let starts = left.rooms[8].entries[..=fit.trees].iter();
    let read = Read {
        rows: fit.rows,
        features: fit.features,
        trees: fit.trees,
        x: fit.x.clone(),
        counts: fit.counts.clone(),
        table: table(left_columns(&left, nodes.len())),
        starts: starts.map(|start| *start as u32).collect(),
        ..Read::default()
    };
    let mut rooms = left.rooms.iter().zip(&columns);
    let same = left.told == [0; 4]
        && rooms.all(|(room, column)| room.entries.starts_with(column))
        && reads(library, &read, Reader::ForestMeans, &own.means)
        && reads(library, &read, Reader::OutOfBagMeans, &own.means_oob)
        && error_told(library, &fit, &own.means_oob)
        && reads(library, &read, Reader::ForestImportances, &own.importances)
        && trees
            .iter()
            .all(|nodes| nodes_told(library, fit.features, nodes));
    (fit, same)
}

/// Whether a tree's nodes are read out as smartcore has them, and none past the last.
/// In smartcore's own leaves everything except the value is 0.
fn nodes_told(library: &dyn Library, features: usize, nodes: &[NodeRecord]) -> bool {
    let columns = expect::columns(nodes);
    let mut read = Read {
        reader: Reader::Node,
        features,
        table: table(columns.each_ref().map(Vec::as_slice)),
        ..Read::default()
    };
    (0..=nodes.len()).all(|node| {
        read.node = node;
        let there = u64::from(node < nodes.len());
        let entry = |column: &Vec<u64>| column.get(node).copied().unwrap_or(0);
        let told = [0, there].into_iter().chain(columns.iter().map(entry));
        let left = run::run(library, &Call::Read(read.clone()));
        left.told.into_iter().eq(told)
    })
}

/// Whether the error of a forest's own means is as expected: most of these forests are so small that some rows have none.
fn error_told(library: &dyn Library, fit: &Fit, means: &[f64]) -> bool {
    let error = Call::Read(Read {
        reader: Reader::OutOfBagError,
        rows: fit.rows,
        targets: fit.y.clone(),
        means: means.to_vec(),
        ..Read::default()
    });
    run::run(library, &error) == expect::expect(&error, Fault::default())
}

fn tree(library: &dyn Library, chance: &mut Chance) -> (Fit, bool) {
    let mut fit = base(chance, false);
    (fit.random, fit.tried) = (false, Some(fit.features as u32));
    fit.counts.fill(1);
    let own = harness::own_tree(&data(&fit), &params(&fit)).expect("what the crate takes");
    let left = played(library, chance, &mut fit, std::slice::from_ref(&own.made));
    let read = Read {
        rows: fit.rows,
        features: fit.features,
        x: fit.x.clone(),
        table: table(left_columns(&left, left.told[4] as usize)),
        root_mass: f64::from_bits(left.told[6]),
        ..Read::default()
    };
    let same = left.told[0] == 0
        && reads(library, &read, Reader::Predictions, &own.predictions)
        && reads(
            library,
            &read,
            Reader::NormalisedImportances,
            &own.normalised,
        )
        && reads(library, &read, Reader::ImportancesByMass, &own.by_mass);
    (fit, same)
}

/// Whether the library's reader gives these results.
fn reads(library: &dyn Library, read: &Read, reader: Reader, results: &[f64]) -> bool {
    let left = run::run(
        library,
        &Call::Read(Read {
            reader,
            out: results.len(),
            ..read.clone()
        }),
    );
    let results: Vec<u64> = results.iter().map(|f| bits(*f)).collect();
    left.told == [0] && left.rooms[0].entries == results
}
