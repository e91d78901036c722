//! Inputs at the limits of rows, features, trees and counts.

use crate::call::calls::Fit;
use crate::judge::case::Case;
use crate::make::chance::Chance;
use crate::make::crafted;
use crate::make::fit as make_fit;

fn finished(chance: &mut Chance, mut fit: Fit) -> Fit {
    fit.listings = make_fit::listings(chance, fit.rows, fit.features, &fit.x);
    let seed = chance.word();
    make_fit::draws(chance, &mut fit, seed);
    make_fit::rooms(chance, &mut fit);
    fit
}

/// With cuts halfway, and at the lower value.
fn both(mut fit: Fit, hold: &mut impl FnMut(Case)) {
    hold(Case::fit(fit.clone(), 0));
    fit.lower = true;
    hold(Case::fit(fit, 0));
}

pub fn each(chance: &mut Chance, mut hold: impl FnMut(Case)) {
    for random in [false, true] {
        for counts in [1, 65_535] {
            both(many_rows(chance, random, counts, 2), &mut hold);
        }
    }
    // the largest sum of kept counts, and one more than that
    for least_split in [4_294_836_225, 4_294_836_226] {
        let fit = many_rows(chance, false, 65_535, least_split);
        both(fit, &mut hold);
    }
    for _ in 0..20 {
        both(many_features(chance), &mut hold);
        both(many_trees(chance), &mut hold);
        hold(chain(chance));
    }
    for features in 1..=1_024 {
        crafted::default_tried(features)
            .into_iter()
            .for_each(&mut hold);
    }
}

fn many_rows(chance: &mut Chance, random: bool, count: u32, least_split: u32) -> Fit {
    let rows = 65_535;
    let x: Vec<f64> = (0..rows).map(|_| chance.below(40_000) as f64).collect();
    let y: Vec<f64> = (0..rows).map(|_| chance.unit()).collect();
    let fit = Fit {
        rows,
        features: 1,
        trees: 1,
        limit: Some(14),
        least_leaf: 1,
        least_split,
        tried: Some(1),
        random,
        x,
        y,
        counts: vec![count; rows],
        ..Fit::default()
    };
    finished(chance, fit)
}

fn many_features(chance: &mut Chance) -> Fit {
    let (rows, features) = (chance.within(1, 4), 1_024);
    let fit = Fit {
        forest: chance.one_in(2),
        rows,
        features,
        trees: 1,
        least_leaf: 1,
        least_split: 2,
        tried: Some(chance.pick(&[0, 1, 32, 1_023, 1_024, 1_025])),
        random: chance.one_in(2),
        x: (0..rows * features)
            .map(|_| chance.below(3) as f64)
            .collect(),
        y: (0..rows).map(|_| chance.unit()).collect(),
        counts: vec![1; rows],
        ..Fit::default()
    };
    finished(chance, fit)
}

fn many_trees(chance: &mut Chance) -> Fit {
    let (rows, features, trees) = (chance.within(1, 3), chance.within(1, 2), 1_024);
    let fit = Fit {
        forest: true,
        rows,
        features,
        trees,
        least_leaf: 1,
        least_split: 2,
        random: chance.one_in(2),
        x: (0..rows * features).map(|_| chance.unit()).collect(),
        y: (0..rows).map(|_| chance.unit()).collect(),
        counts: (0..rows * trees).map(|_| chance.below(3) as u32).collect(),
        ..Fit::default()
    };
    finished(chance, fit)
}

fn chain(chance: &mut Chance) -> Case {
    let rows = chance.within(200, 600);
    let limit = chance.pick(&[None, Some(65_535), Some(300), Some(rows as u16)]);
    chain_of(chance, rows, limit)
}

/// All rows in a chain: the greatest depth that is possible.
pub fn longest(chance: &mut Chance, mut hold: impl FnMut(Case)) {
    for limit in [None, Some(65_535), Some(65_534)] {
        hold(chain_of(chance, 65_535, limit));
    }
}

/// Each split removes one row, so the tree is as deep as the number of rows allows.
fn chain_of(chance: &mut Chance, rows: usize, limit: Option<u16>) -> Case {
    let mut fit = Fit {
        rows,
        features: 1,
        trees: 1,
        limit,
        least_leaf: 1,
        least_split: 2,
        tried: Some(1),
        random: true,
        x: (0..rows).map(|row| row as f64).collect(),
        y: (0..rows).map(|row| row as f64).collect(),
        counts: vec![1; rows],
        listings: (0..rows as u32).collect(),
        words: vec![0; 2 * rows],
        thresholds: (0..rows).map(|row| row as f64).collect(),
        ..Fit::default()
    };
    make_fit::rooms(chance, &mut fit);
    Case::fit(fit, 0)
}
