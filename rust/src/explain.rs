//! Says where a refused input is wrong, so that a person can correct it. The library tells the place of a damaged listing, of a bad draw
//! and of a damaged model file; any other is found by plain Rust that runs after the library has refused, and decides nothing.

use crate::columns::Columns;
use crate::counts::bad_weight;
use crate::draws::Draws;
use crate::fault::Fault;
use crate::fields;
use crate::given::Given;
use crate::limits::MAX_ROWS;
use crate::matrix::DenseMatrix;
use crate::refusal::Refusal;
use crate::sizes;
use tailboardy_sys::{ModelTold, Refusal as Told};

/// The refusal of a fit of `trees` trees.
pub(crate) fn fit(told: &Told, given: &Given, trees: usize, draws: Option<&Draws>) -> Refusal {
    let (rows, features) = given.x.shape();
    let fault = match told.number {
        1 => sizes::fault(rows, features, trees),
        2 => lengths(given, trees).or_else(|| starts(trees, draws?)),
        3 => numbers(given),
        4 => count(given),
        7 => Some(Fault::Draw {
            tree: told.part as usize,
            search: told.place as usize,
        }),
        11..=13 => given.listings.told(told, rows).map(Fault::Listing),
        _ => None,
    };
    Refusal::of(told.number, fault)
}

fn lengths(given: &Given, trees: usize) -> Option<Fault> {
    let rows = given.x.shape().0;
    let weights = || match given.weights {
        [] => None,
        weights => Fault::length("weights", weights.len(), rows),
    };
    let (counted, each) = given.counts.shape();
    Fault::length("targets", given.y.len(), rows)
        .or_else(weights)
        .or_else(|| Fault::length("counts per tree", each, rows))
        .or_else(|| Fault::length("trees with counts", counted, trees))
        .or_else(|| given.listings.other_shape(given.x))
}

fn starts(trees: usize, draws: &Draws) -> Option<Fault> {
    let part = |starts: &[usize], tape: usize| {
        starts.len() == trees + 1
            && starts.first() == Some(&0)
            && starts.last() == Some(&tape)
            && starts.is_sorted()
    };
    if !part(&draws.word_starts, draws.words.len()) {
        Some(Fault::Cuts("word"))
    } else if !part(&draws.threshold_starts, draws.thresholds.len()) {
        Some(Fault::Cuts("threshold"))
    } else {
        None
    }
}

fn numbers(given: &Given) -> Option<Fault> {
    let first = |list: &[f64]| list.iter().position(|number| !number.is_finite());
    let features = given.x.shape().1;
    let value = first(given.x.values()).map(|at| Fault::Value {
        row: at / features,
        feature: at % features,
        value: given.x.values()[at],
    });
    let target = || {
        let row = first(given.y)?;
        let value = given.y[row];
        Some(Fault::Target { row, value })
    };
    value.or_else(target).or_else(|| bad_weight(given.weights))
}

/// The first count that is too large, or else the first that is not 1, which a forest with weights requires.
fn count(given: &Given) -> Option<Fault> {
    let rows = given.counts.shape().1;
    let counts = given.counts.numbers();
    let large = counts.iter().position(|count| *count > 65_535);
    let at = large.or_else(|| counts.iter().position(|count| *count != 1))?;
    Some(Fault::Count {
        tree: at / rows,
        row: at % rows,
        count: counts[at],
    })
}

/// Why a reader refused a valid table: there are no rows, or they have the wrong number of features. Too many rows are refused before,
/// or predicted in parts.
pub(crate) fn reader(x: &DenseMatrix, features: usize) -> Option<Fault> {
    sizes::fault(x.shape().0.min(MAX_ROWS), features, 1)
        .or_else(|| Fault::length("values per row", x.shape().1, features))
}

/// The refusal of a model file. What the walk finds is told only if it is what the library refused.
pub(crate) fn model(told: &ModelTold, bytes: &[u8]) -> Refusal {
    let fault = fields::fault(bytes, told.place);
    let same = fault.place == told.place && fault.breach.cause().number() == told.number;
    Refusal::of(told.number, same.then_some(Fault::Model(fault)))
}

pub(crate) fn tree(features: usize, columns: Columns) -> Option<Fault> {
    let node = bad_node(features, columns);
    let node = node.map(|node| Fault::Node { tree: 0, node });
    sizes::fault(1, features, 1).or(node)
}

pub(crate) fn forest(features: usize, starts: &[u32], columns: Columns) -> Option<Fault> {
    let sizes = sizes::fault(1, features, starts.len().saturating_sub(1));
    sizes.or_else(|| bad_start(starts, columns)).or_else(|| {
        let trees = starts.windows(2).enumerate();
        let mut bad = trees.filter_map(|(tree, ends)| {
            let nodes = columns.part(&(ends[0] as usize..ends[1] as usize));
            let node = bad_node(features, nodes)?;
            Some(Fault::Node { tree, node })
        });
        bad.next()
    })
}

/// The first position where the starts do not begin at 0, do not increase, or go past the last node.
fn bad_start(starts: &[u32], columns: Columns) -> Option<Fault> {
    let nodes = [columns.feature, columns.true_child, columns.false_child].map(<[u32]>::len);
    let reals = [columns.value, columns.threshold, columns.score].map(<[f64]>::len);
    let nodes = nodes.into_iter().chain(reals).min().unwrap_or(0);
    let bad = |place: &usize| {
        let at = starts[*place];
        let rises = match place.checked_sub(1) {
            None => at == 0,
            Some(before) => starts[before] < at,
        };
        !rises || at as usize > nodes
    };
    let place = (0..starts.len()).find(bad)?;
    Some(Fault::Starts { place })
}

/// The first node that is neither a leaf nor a valid split; node 0 if there are no nodes at all.
fn bad_node(features: usize, columns: Columns) -> Option<usize> {
    let nodes = columns.true_child.len();
    let good = |node: usize| {
        let column = |of: &[u32]| of.get(node).map(|entry| *entry as usize);
        let entries = (column(columns.true_child), column(columns.false_child));
        match entries {
            (Some(0), Some(0)) => true,
            (Some(yes), Some(no)) => {
                let feature = column(columns.feature);
                yes > node && no == yes + 1 && no < nodes && feature.is_some_and(|it| it < features)
            }
            _ => false,
        }
    };
    (0..nodes.max(1)).find(|node| !good(*node))
}
