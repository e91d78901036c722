//! The fit of one tree and the fit of a forest: the checks in order, growth, and what is left in each room.

use crate::calls::{Draws, ForestCall, Given, Refusal, TreeAnswer, TreeCall};
use crate::checks;
use crate::growth::{Grown, Record, Seed};
use crate::listings::listings_fault;
use crate::rooms::{Behind, Columns, ForestRooms, TreeRooms};

/// The number of nodes that a tree requires room for: max(1, 2 x kept rows - 1).
fn asked(seed: &Seed) -> usize {
    match seed.kept_rows() {
        0 => 1,
        kept => 2 * kept - 1,
    }
}

/// The checks of a fit in order: those before the listings, the listings, and the rooms.
fn first_refusal(
    before: &[(u32, &dyn Fn() -> bool)],
    given: &Given,
    rooms: &dyn Fn() -> bool,
) -> Refusal {
    let number = checks::first_failed(before);
    if number != 0 {
        return Refusal::of(number);
    }
    let fault = listings_fault(given.rows, given.features, given.x, given.listings);
    match fault.number {
        0 => Refusal::of(checks::first_failed(&[(6, rooms)])),
        _ => fault,
    }
}

/// The number of nodes that there is room for: the shortest of the eight columns decides.
fn room(nodes: &Columns, behind: &Behind) -> usize {
    nodes.room().min(behind.room())
}

fn tree_refusal(seed: &Seed, rooms: &TreeRooms) -> Refusal {
    let given = seed.given;
    first_refusal(
        &[
            (1, &|| {
                checks::rows_in_range(given.rows) && checks::features_in_range(given.features)
            }),
            (2, &|| checks::lengths_fit(given, 1)),
            (3, &|| checks::numbers_good(given)),
            (4, &|| checks::counts_small(given)),
        ],
        given,
        &|| {
            room(&rooms.nodes, &rooms.behind) >= asked(seed)
                && rooms.work.enough(given.rows, given.features)
        },
    )
}

pub fn fit_tree(call: &TreeCall, rooms: &mut TreeRooms) -> TreeAnswer {
    let seed = Seed {
        given: &call.given,
        counts: call.given.counts,
        settings: call.settings,
        tried: call.tried,
        draws: call.draws,
    };
    let refusal = tree_refusal(&seed, rooms);
    if refusal.number != 0 {
        return TreeAnswer {
            refusal,
            ..TreeAnswer::default()
        };
    }
    rooms.work.zero();
    match seed.grow() {
        Ok(grown) => {
            write_grown(&grown, &mut rooms.nodes, &mut rooms.behind, 0);
            TreeAnswer {
                numbers: grown.numbers,
                ..TreeAnswer::default()
            }
        }
        Err(bad) => {
            rooms.nodes.zero();
            rooms.behind.zero();
            TreeAnswer {
                refusal: bad_draw(0, bad.search),
                ..TreeAnswer::default()
            }
        }
    }
}

fn bad_draw(tree: usize, search: u32) -> Refusal {
    Refusal {
        number: 7,
        part: tree as u32,
        place: search,
        row: 0,
    }
}

/// Writes nodes to the columns from a position on.
pub fn write(nodes: &[Record], columns: &mut Columns, from: usize) {
    for (place, node) in nodes.iter().enumerate() {
        columns.value[from + place] = node.value;
        columns.feature[from + place] = node.feature;
        columns.threshold[from + place] = node.threshold;
        columns.score[from + place] = node.score;
        columns.true_child[from + place] = node.true_child;
        columns.false_child[from + place] = node.false_child;
    }
}

/// Writes a grown tree to all eight columns from a position on.
fn write_grown(grown: &Grown, columns: &mut Columns, behind: &mut Behind, from: usize) {
    write(&grown.nodes, columns, from);
    for (place, (count, mass)) in grown.behind.iter().enumerate() {
        behind.count[from + place] = *count as u32;
        behind.mass[from + place] = *mass;
    }
}

fn root_floor(features: usize) -> u32 {
    (0..=32)
        .rev()
        .find(|root| root * root <= features)
        .unwrap_or(0) as u32
}

/// A tree's own counts and its own part of both tapes.
fn seed_of<'a>(call: &'a ForestCall<'a>, tree: usize) -> Seed<'a> {
    let rows = call.given.rows;
    let words = call.cuts.words[tree] as usize..call.cuts.words[tree + 1] as usize;
    let thresholds = call.cuts.thresholds[tree] as usize..call.cuts.thresholds[tree + 1] as usize;
    Seed {
        given: &call.given,
        counts: &call.given.counts[tree * rows..(tree + 1) * rows],
        settings: call.settings,
        tried: call.tried.unwrap_or(root_floor(call.given.features)),
        draws: Draws {
            words: &call.draws.words[words],
            thresholds: &call.draws.thresholds[thresholds],
        },
    }
}

fn forest_refusal(call: &ForestCall, rooms: &ForestRooms) -> Refusal {
    let (given, trees) = (&call.given, call.trees);
    let (words, thresholds) = (call.draws.words.len(), call.draws.thresholds.len());
    first_refusal(
        &[
            (1, &|| {
                checks::rows_in_range(given.rows)
                    && checks::features_in_range(given.features)
                    && checks::trees_in_range(trees)
            }),
            (2, &|| {
                checks::lengths_fit(given, trees)
                    && checks::cuts_fit(&call.cuts, trees, words, thresholds)
            }),
            (3, &|| checks::numbers_good(given)),
            (4, &|| {
                checks::counts_small(given) && checks::counts_one_if_weighted(given)
            }),
        ],
        given,
        &|| {
            let asked: usize = (0..trees).map(|tree| asked(&seed_of(call, tree))).sum();
            room(&rooms.nodes, &rooms.behind) >= asked
                && rooms.starts.len() > trees
                && rooms.reports.lengths() == [trees; 6]
                && rooms.work.enough(given.rows, given.features)
        },
    )
}

pub fn fit_forest(call: &ForestCall, rooms: &mut ForestRooms) -> Refusal {
    let refusal = forest_refusal(call, rooms);
    if refusal.number != 0 {
        return refusal;
    }
    rooms.work.zero();
    let mut grown: Vec<Grown> = Vec::new();
    for tree in 0..call.trees {
        match seed_of(call, tree).grow() {
            Ok(next) => grown.push(next),
            Err(bad) => {
                rooms.nodes.zero();
                rooms.behind.zero();
                rooms.starts.fill(0);
                rooms.reports.zero();
                return bad_draw(tree, bad.search);
            }
        }
    }
    lay_out(&grown, rooms);
    Refusal::default()
}

/// Writes the trees one after another, where each starts, and what is reported about each.
fn lay_out(grown: &[Grown], rooms: &mut ForestRooms) {
    let mut start = 0;
    rooms.starts[0] = 0;
    for (tree, one) in grown.iter().enumerate() {
        write_grown(one, &mut rooms.nodes, &mut rooms.behind, start);
        start += one.nodes.len();
        rooms.starts[tree + 1] = start as u32;
        rooms.reports.nodes[tree] = one.numbers.nodes;
        rooms.reports.depth[tree] = one.numbers.depth;
        rooms.reports.root_mass[tree] = one.numbers.root_mass;
        rooms.reports.searches[tree] = one.numbers.searches;
        rooms.reports.words_used[tree] = one.numbers.words_used;
        rooms.reports.thresholds_used[tree] = one.numbers.thresholds_used;
    }
}
