//! Small fits that always cut at a measured value: nothing in their settings stops the best splitter at the root, and their columns have so
//! few different values that most have ties and nearly half have both zeros.

use crate::call::calls::Fit;
use crate::judge::case::Case;
use crate::make::chance::Chance;
use crate::make::fit as make_fit;
use crate::make::floats;
use std::collections::HashSet;
use std::hash::{DefaultHasher, Hash, Hasher};

/// `count` cases, of which no two have the same settings and data.
pub fn each(chance: &mut Chance, count: usize, mut each: impl FnMut(Case)) {
    let mut made = HashSet::new();
    while made.len() < count {
        let fit = fit(chance);
        if made.insert(checksum(&fit)) {
            each(Case::fit(fit, 0));
        }
    }
}

/// Of everything but the draws and the rooms, which alone do not make another fit.
fn checksum(fit: &Fit) -> u64 {
    let mut hasher = DefaultHasher::new();
    (fit.forest, fit.rows, fit.limit, fit.tried).hash(&mut hasher);
    (fit.least_leaf, fit.least_split).hash(&mut hasher);
    (&fit.counts, &fit.listings).hash(&mut hasher);
    for float in [&fit.x, &fit.y, &fit.weights].into_iter().flatten() {
        float.to_bits().hash(&mut hasher);
    }
    hasher.finish()
}

/// A fit with a split in at least one tree.
pub fn fit(chance: &mut Chance) -> Fit {
    loop {
        let mut fit = settings(chance);
        values(chance, &mut fit);
        kept(chance, &mut fit);
        let seed = chance.word();
        if make_fit::draws(chance, &mut fit, seed) > 0 {
            make_fit::rooms(chance, &mut fit);
            return fit;
        }
    }
}

fn settings(chance: &mut Chance) -> Fit {
    let forest = chance.one_in(10);
    let features = chance.within(1, 3);
    let some = chance.within(1, features) as u32;
    let all = features as u32;
    Fit {
        forest,
        rows: chance.within(3, 8),
        features,
        trees: if forest { chance.within(1, 3) } else { 1 },
        limit: chance.pick(&[
            None,
            None,
            None,
            None,
            Some(2),
            Some(3),
            Some(4),
            Some(65_535),
        ]),
        least_leaf: chance.pick(&[0, 1, 1, 1, 1, 2]),
        least_split: chance.below(4) as u32,
        tried: match forest && chance.one_in(4) {
            true => None,
            false => Some(chance.pick(&[some, all, all, all + 1])),
        },
        lower: true,
        ..Fit::default()
    }
}

/// Values and targets, which in half of the fits are high where one of the features is above zero, so that the zeros decide a threshold.
fn values(chance: &mut Chance, fit: &mut Fit) {
    let (rows, features) = (fit.rows, fit.features);
    fit.x = vec![0.0; rows * features];
    for feature in 0..features {
        for (row, value) in few(chance, rows).into_iter().enumerate() {
            fit.x[row * features + feature] = value;
        }
    }
    fit.listings = make_fit::listings(chance, rows, features, &fit.x);
    make_fit::zeros(chance, fit);
    fit.y = few(chance, rows);
    if chance.one_in(2) {
        let feature = chance.below(features);
        let above = |row: usize| fit.x[row * features + feature] > 0.0;
        let high = (0..rows).map(|row| if above(row) { 9.0 } else { 0.0 });
        fit.y = high.map(|high| high + chance.below(4) as f64).collect();
    }
}

/// Mostly whole numbers, many of them equal.
fn few(chance: &mut Chance, rows: usize) -> Vec<f64> {
    if chance.one_in(4) {
        return floats::finite(chance, rows);
    }
    let span = chance.within(2, 4);
    (0..rows).map(|_| chance.below(span) as f64).collect()
}

/// Weights and counts, many of which leave rows out. A forest may have only one of the two.
fn kept(chance: &mut Chance, fit: &mut Fit) {
    let weighted = chance.one_in(4);
    if weighted {
        fit.weights = floats::weights(chance, fit.rows);
    }
    let entries = fit.trees * fit.rows;
    fit.counts = match chance.one_in(3) || (weighted && fit.forest) {
        true => vec![1; entries],
        false => (0..entries)
            .map(|_| chance.pick(&[0, 1, 1, 2, 3]))
            .collect(),
    };
}
