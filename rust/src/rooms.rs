//! The fits, one call of the library each, and the rooms that it writes to.

use crate::behind::Behind;
use crate::columns::Nodes;
use crate::draws::Draws;
use crate::given::Given;
use crate::parameters::Settings;
use crate::results::Report;
use std::ops::Range;
use tailboardy_sys::{Refusal as Told, TreeTold, linked};

/// The memory that growth works in. A fit that succeeds leaves it zero, ready to be used again.
#[derive(Debug)]
pub(crate) struct Work {
    order: Vec<u32>,
    scratch: Vec<u32>,
    flags: Vec<bool>,
    wholes: Vec<[u32; 6]>,
    reals: Vec<[f64; 3]>,
}

impl Work {
    /// For data of a shape that the library accepts.
    pub(crate) fn new((rows, features): (usize, usize)) -> Self {
        Work {
            order: vec![0; rows * features],
            scratch: vec![0; rows],
            flags: vec![false; rows.max(features)],
            wholes: vec![[0; 6]; rows],
            reals: vec![[0.0; 3]; rows],
        }
    }

    /// How many bytes it takes.
    pub(crate) fn bytes((rows, features): (usize, usize)) -> usize {
        4 * rows * features + 52 * rows + rows.max(features)
    }
}

/// The trees that a fit leaves.
#[derive(Debug, Default)]
pub(crate) struct Grown {
    pub nodes: Nodes,
    pub behind: Behind,
    pub starts: Vec<u32>,
    pub reports: Vec<Report>,
}

/// The most nodes that a tree with these counts can have.
fn most_nodes(given: &Given, counts: &[u32]) -> usize {
    let kept = (0..counts.len()).filter(|row| given.keeps(counts, *row));
    (2 * kept.count()).saturating_sub(1).max(1)
}

/// Report columns as the library writes them, one entry per tree.
struct Reports {
    nodes: Vec<u32>,
    depth: Vec<u32>,
    mass: Vec<f64>,
    searches: Vec<u32>,
    words: Vec<u32>,
    thresholds: Vec<u32>,
}

impl Reports {
    fn zeros(trees: usize) -> Self {
        let column = || vec![0; trees];
        Reports {
            nodes: column(),
            depth: column(),
            mass: vec![0.0; trees],
            searches: column(),
            words: column(),
            thresholds: column(),
        }
    }

    fn told(&self) -> Vec<Report> {
        let of_tree = |tree: usize| Report {
            nodes: self.nodes[tree],
            depth: self.depth[tree],
            root_mass: self.mass[tree],
            searches: self.searches[tree],
            words_used: self.words[tree],
            thresholds_used: self.thresholds[tree],
        };
        (0..self.nodes.len()).map(of_tree).collect()
    }
}

/// Grows some of the trees that there are counts for, by one call of the library. The draws are those of these trees only.
pub(crate) fn fit_forest(
    given: &Given,
    trees: Range<usize>,
    settings: &Settings,
    draws: &Draws,
    work: &mut Work,
) -> Result<Grown, Told> {
    let (rows, features) = given.x.shape();
    let own = given.counts.of_trees(trees.clone(), rows);
    let each = own
        .chunks(rows.max(1))
        .map(|counts| most_nodes(given, counts));
    let room = each.sum();
    let (mut nodes, mut behind) = (Nodes::zeros(room), Behind::zeros(room));
    let mut starts = vec![0; trees.len() + 1];
    let mut reports = Reports::zeros(trees.len());
    let told = linked::fit_forest(
        &mut nodes.value,
        &mut nodes.feature,
        &mut nodes.threshold,
        &mut nodes.score,
        &mut nodes.true_child,
        &mut nodes.false_child,
        &mut behind.count,
        &mut behind.mass,
        &mut starts,
        &mut reports.nodes,
        &mut reports.depth,
        &mut reports.mass,
        &mut reports.searches,
        &mut reports.words,
        &mut reports.thresholds,
        &mut work.order,
        &mut work.scratch,
        &mut work.flags,
        &mut work.wholes,
        &mut work.reals,
        given.x.values(),
        given.y,
        given.weights,
        own,
        given.listings.numbers(given.x),
        &draws.words,
        &draws.thresholds,
        &draws.word_starts,
        &draws.threshold_starts,
        rows,
        features,
        trees.len(),
        settings.of_forest(),
    );
    if told.number != 0 {
        // a bad draw is told with its tree's number among those of this call
        let before = if told.number == 7 { trees.start } else { 0 };
        let part = before as u32 + told.part;
        return Err(Told { part, ..told });
    }
    let end = starts.last().map_or(0, |end| *end as usize);
    nodes.keep(end);
    behind.keep(end);
    Ok(Grown {
        nodes,
        behind,
        starts,
        reports: reports.told(),
    })
}

/// Grows one tree, from all counts and both tapes as a whole.
pub(crate) fn fit_tree(
    given: &Given,
    settings: &Settings,
    draws: &Draws,
) -> Result<(Nodes, Behind, Report), Told> {
    let shape = given.x.shape();
    let counts = match given.counts.shape() {
        (1, _) => given.counts.of_trees(0..1, shape.0),
        _ => &[],
    };
    let room = most_nodes(given, counts);
    let (mut nodes, mut behind) = (Nodes::zeros(room), Behind::zeros(room));
    let mut work = Work::new(shape);
    let told = linked::fit_tree(
        &mut nodes.value,
        &mut nodes.feature,
        &mut nodes.threshold,
        &mut nodes.score,
        &mut nodes.true_child,
        &mut nodes.false_child,
        &mut behind.count,
        &mut behind.mass,
        &mut work.order,
        &mut work.scratch,
        &mut work.flags,
        &mut work.wholes,
        &mut work.reals,
        given.x.values(),
        given.y,
        given.weights,
        counts,
        given.listings.numbers(given.x),
        &draws.words,
        &draws.thresholds,
        shape.0,
        shape.1,
        settings.of_tree(shape.1),
    );
    if told.number != 0 {
        return Err(refusal(&told));
    }
    nodes.keep(told.nodes as usize);
    behind.keep(told.nodes as usize);
    Ok((nodes, behind, report(&told)))
}

fn refusal(told: &TreeTold) -> Told {
    Told {
        number: told.number,
        part: told.part,
        place: told.place,
        row: told.row,
    }
}

fn report(told: &TreeTold) -> Report {
    Report {
        nodes: told.nodes,
        depth: told.depth,
        root_mass: told.mass,
        searches: told.searches,
        words_used: told.words,
        thresholds_used: told.thresholds,
    }
}
