//! Refusals 1 to 4 of the fits, each as a test that passes or fails.

use crate::calls::{Cuts, Given};

pub fn rows_in_range(rows: usize) -> bool {
    (1..=65_535).contains(&rows)
}

pub fn features_in_range(features: usize) -> bool {
    (1..=1_024).contains(&features)
}

pub fn trees_in_range(trees: usize) -> bool {
    (1..=1_024).contains(&trees)
}

/// The first test that fails gives its number.
pub fn first_failed(tests: &[(u32, &dyn Fn() -> bool)]) -> u32 {
    for (number, passes) in tests {
        if !passes() {
            return *number;
        }
    }
    0
}

pub fn lengths_fit(given: &Given, trees: usize) -> bool {
    given.x.len() == given.rows * given.features
        && given.y.len() == given.rows
        && (given.weights.is_empty() || given.weights.len() == given.rows)
        && given.counts.len() == trees * given.rows
        && given.listings.len() == given.features * given.rows
}

fn cut_table_fits(table: &[u64], trees: usize, tape: usize) -> bool {
    table.len() == trees + 1
        && table[0] == 0
        && table.windows(2).all(|pair| pair[0] <= pair[1])
        && table[trees] == tape as u64
}

pub fn cuts_fit(cuts: &Cuts, trees: usize, words: usize, thresholds: usize) -> bool {
    cut_table_fits(cuts.words, trees, words) && cut_table_fits(cuts.thresholds, trees, thresholds)
}

pub fn numbers_good(given: &Given) -> bool {
    given.x.iter().all(|value| value.is_finite())
        && given.y.iter().all(|target| target.is_finite())
        && given.weights.iter().all(|w| w.is_finite() && *w >= 0.0)
}

pub fn counts_small(given: &Given) -> bool {
    given.counts.iter().all(|count| *count <= 65_535)
}

pub fn counts_one_if_weighted(given: &Given) -> bool {
    given.weights.is_empty() || given.counts.iter().all(|count| *count == 1)
}
