//! Fits that the rules accept because of how they are made. The copy makes the draws, which are recorded as tapes.

use crate::call::calls::Fit;
use crate::judge::copied::{data, params, tree_counts};
use crate::make::chance::Chance;
use crate::make::floats;
use copy::harness::{self, Tape};

/// The largest sizes of a fit.
#[derive(Clone, Copy)]
pub struct Size {
    pub rows: usize,
    pub features: usize,
    pub trees: usize,
}

pub const SMALL: Size = Size {
    rows: 8,
    features: 3,
    trees: 4,
};

pub fn fit(chance: &mut Chance, forest: bool, size: Size) -> Fit {
    let mut fit = Fit {
        forest,
        rows: chance.within(1, size.rows),
        features: chance.within(1, size.features),
        trees: if forest {
            chance.within(1, size.trees)
        } else {
            1
        },
        random: chance.one_in(2),
        ..Fit::default()
    };
    parameters(chance, &mut fit);
    values(chance, &mut fit);
    fit.listings = listings(chance, fit.rows, fit.features, &fit.x);
    let seed = chance.word();
    // half of the fits, by a bit of what is drawn anyway
    fit.lower = seed >> 63 == 1;
    if fit.measured() {
        zeros(&mut Chance::new(seed), &mut fit);
    }
    draws(chance, &mut fit, seed);
    rooms(chance, &mut fit);
    fit
}

fn parameters(chance: &mut Chance, fit: &mut Fit) {
    let rows = fit.rows as u32;
    let large = [rows, rows + 1, 65_535, 4_294_836_225, u32::MAX];
    fit.limit = match chance.below(10) {
        0..=4 => None,
        _ => Some(chance.pick(&[0, 1, 2, 2, 3, 4, 65_535, 65_534])),
    };
    fit.least_leaf = match chance.below(12) {
        0 => chance.pick(&large),
        _ => chance.pick(&[0, 1, 1, 1, 2, 3]),
    };
    fit.least_split = match chance.below(12) {
        0 => chance.pick(&large),
        _ => chance.pick(&[0, 1, 2, 2, 2, 3, 4]),
    };
    let features = fit.features as u32;
    fit.tried = match chance.below(8) {
        0 => Some(0),
        1 => Some(features + 1),
        2 => Some(u32::MAX),
        3 if fit.forest => None,
        4 | 5 => Some(features),
        _ => Some(chance.within(1, fit.features) as u32),
    };
}

fn values(chance: &mut Chance, fit: &mut Fit) {
    let columns: Vec<Vec<f64>> = (0..fit.features)
        .map(|_| floats::finite(chance, fit.rows))
        .collect();
    fit.x = (0..fit.rows)
        .flat_map(|row| columns.iter().map(move |column| column[row]))
        .collect();
    fit.y = floats::finite(chance, fit.rows);
    let weighted = chance.one_in(3);
    if weighted {
        fit.weights = floats::weights(chance, fit.rows);
    }
    let counted = fit.trees * fit.rows;
    fit.counts = match weighted && fit.forest {
        true => vec![1; counted],
        false => (0..fit.trees)
            .flat_map(|_| counts(chance, fit.rows))
            .collect(),
    };
}

fn counts(chance: &mut Chance, rows: usize) -> Vec<u32> {
    let kind = chance.below(9);
    let one = |chance: &mut Chance| match kind {
        0 | 1 => 1,
        2 => chance.below(2) as u32,
        3 => chance.below(4) as u32,
        4 => chance.pick(&[0, 0, 1, 2, 65_535]),
        5 => chance.below(65_536) as u32,
        6 => chance.pick(&[65_535, 65_534]),
        7 => chance.pick(&[0, 0, 0, 0, 0, 1]),
        _ => 0,
    };
    let mut list: Vec<u32> = (0..rows).map(|_| one(chance)).collect();
    if kind == 8 {
        // a bag: as many draws as rows
        for _ in 0..rows {
            list[chance.below(rows)] += 1;
        }
    }
    if chance.one_in(40) {
        list.fill(0);
    }
    list
}

/// For each feature the rows in ascending order of value, with ties in any order.
pub fn listings(chance: &mut Chance, rows: usize, features: usize, x: &[f64]) -> Vec<u32> {
    let mut all = Vec::with_capacity(rows * features);
    for feature in 0..features {
        let mut listing: Vec<u32> = (0..rows as u32).collect();
        chance.shuffle(&mut listing);
        let value = |row: &u32| x[*row as usize * features + feature];
        // -0 and +0 are equal here, so they remain mixed
        listing.sort_by(|a, b| value(a).partial_cmp(&value(b)).expect("finite"));
        all.extend(listing);
    }
    all
}

/// More zeros of both signs, which only measured thresholds show: in two of three fits the middle value of each column becomes zero, and
/// every zero gets a sign of its own. The order of the values stays the same, so the listings stay valid.
pub fn zeros(chance: &mut Chance, fit: &mut Fit) {
    if !chance.one_in(3) {
        (0..fit.features).for_each(|feature| around_zero(fit, feature));
    }
    for value in fit.x.iter_mut().filter(|value| **value == 0.0) {
        *value = chance.pick(&[0.0, -0.0]);
    }
}

/// Replaces the values of a column by whole numbers in the same order, equal ones by equal ones, with 0 in the middle of the listing.
fn around_zero(fit: &mut Fit, feature: usize) {
    let (rows, features) = (fit.rows, fit.features);
    let listing = &fit.listings[feature * rows..(feature + 1) * rows];
    let at = |row: u32| row as usize * features + feature;
    let mut steps = vec![0.0; rows];
    for place in 1..rows {
        let rises = fit.x[at(listing[place - 1])] < fit.x[at(listing[place])];
        steps[place] = steps[place - 1] + if rises { 1.0 } else { 0.0 };
    }
    for (row, step) in listing.iter().zip(&steps) {
        fit.x[at(*row)] = step - steps[rows / 2];
    }
}

/// Lets the copy make the draws of each tree and joins them, sometimes with extra draws after those of a tree. Returns the depth of the
/// deepest tree.
pub fn draws(chance: &mut Chance, fit: &mut Fit, seed: u64) -> u32 {
    let mut tapes: Vec<Tape> = Vec::new();
    let mut depth = 0;
    for tree in 0..fit.trees {
        let seed = seed.wrapping_add(tree as u64);
        let counts = tree_counts(fit, tree);
        let grown = harness::grow(&data(fit), counts, &params(fit), None, seed);
        let grown = grown.expect("made draws are good");
        depth = depth.max(grown.depth());
        let mut tape = grown.made;
        if chance.one_in(4) {
            tape.words.push(chance.word() as u32);
            tape.thresholds.push(f64::NAN);
        }
        tapes.push(tape);
    }
    lay(fit, &tapes);
    depth
}

/// Both tapes and, in a forest, their cut tables.
pub fn lay(fit: &mut Fit, tapes: &[Tape]) {
    fit.words = tapes.iter().flat_map(|t| t.words.clone()).collect();
    fit.thresholds = tapes.iter().flat_map(|t| t.thresholds.clone()).collect();
    if fit.forest {
        fit.word_starts = cuts(tapes.iter().map(|t| t.words.len()));
        fit.threshold_starts = cuts(tapes.iter().map(|t| t.thresholds.len()));
    }
}

fn cuts(lengths: impl Iterator<Item = usize>) -> Vec<u64> {
    let mut table = vec![0];
    for length in lengths {
        table.push(table[table.len() - 1] + length as u64);
    }
    table
}

/// Rooms that are long enough, some of them longer than necessary.
pub fn rooms(chance: &mut Chance, fit: &mut Fit) {
    let asked: usize = (0..fit.trees).map(|tree| fit.asked(tree)).sum();
    let more = |chance: &mut Chance| chance.pick(&[0, 0, 0, 1, 3]);
    fit.rooms.nodes = std::array::from_fn(|_| asked + more(chance));
    let flags = fit.rows.max(fit.features);
    let work = [fit.rows * fit.features, fit.rows, flags, fit.rows];
    fit.rooms.work = work.map(|length| length + more(chance));
    if fit.forest {
        fit.rooms.starts = fit.trees + 1 + more(chance);
        fit.rooms.reports = [fit.trees; 6];
    }
}
