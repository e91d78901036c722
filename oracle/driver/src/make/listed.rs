//! All listings of up to three rows and two columns, valid or not, through the check of listings and through both fits.

use crate::call::calls::{Fit, Read, Reader};
use crate::call::fault::Fault;
use crate::judge::case::Case;
use crate::judge::listings::Listings;
use crate::make::chance::Chance;
use crate::make::exhaustive::{listings, lists};
use crate::make::fit as make_fit;

/// The check of listings, with values and listings column by column.
pub fn check(columns: &[Vec<f64>], listings: Vec<u32>) -> Read {
    let (rows, features) = (columns[0].len(), columns.len());
    let row = |row: usize| columns.iter().map(move |column| column[row]);
    Read {
        reader: Reader::CheckListings,
        rows,
        features,
        x: (0..rows).flat_map(row).collect(),
        listings,
        ..Read::default()
    }
}

/// The fit of one tree over these values and listings, or of a forest of two, with enough draws.
pub fn fit(check: &Read, forest: bool) -> Fit {
    let (rows, features) = (check.rows, check.features);
    let trees = if forest { 2 } else { 1 };
    let words: Vec<u32> = (0..features as u32).collect();
    let words = words.repeat(2 * rows);
    let cuts = |length: usize| match forest {
        true => (0..=trees).map(|tree| (tree * length) as u64).collect(),
        false => Vec::new(),
    };
    let mut fit = Fit {
        forest,
        rows,
        features,
        trees,
        least_leaf: 1,
        least_split: 2,
        tried: Some(features as u32),
        x: check.x.clone(),
        y: (0..rows).map(|row| (row % 2) as f64).collect(),
        counts: vec![1; trees * rows],
        listings: check.listings.clone(),
        word_starts: cuts(words.len()),
        threshold_starts: cuts(0),
        words: words.repeat(trees),
        ..Fit::default()
    };
    make_fit::rooms(&mut Chance::new(0), &mut fit);
    fit
}

pub fn each(mut each: impl FnMut(Case)) {
    for rows in 1..=3 {
        one_column(rows, &mut each);
        two_columns(rows, &mut each);
    }
}

/// One column with every value of six, through the check, and of three, through the fits. The valid listings are known because they are
/// also made separately.
fn one_column(rows: usize, each: &mut impl FnMut(Case)) {
    let infinite = f64::INFINITY;
    let all = lists(&[0, 1, 2, 3], rows);
    for column in lists(&[-infinite, -0.0, 0.0, 1.0, infinite, f64::NAN], rows) {
        let good = listings(&column);
        for listing in &all {
            let read = check(std::slice::from_ref(&column), listing.clone());
            let fault = match good.contains(listing) {
                true => Fault::default(),
                false => Listings::from(&read).fault(),
            };
            each(Case::read(read, fault));
        }
    }
    for column in lists(&[0.0, 1.0, 2.0], rows) {
        for listing in &all {
            let read = check(std::slice::from_ref(&column), listing.clone());
            through_fits(&read, each);
        }
    }
}

/// Two columns with every value of two, through the check, and with values that rise, fall or are all equal, through the fits.
fn two_columns(rows: usize, each: &mut impl FnMut(Case)) {
    let numbers: Vec<u32> = (0..=rows as u32).collect();
    let all = lists(&numbers, 2 * rows);
    for values in lists(&[0.0, 1.0], 2 * rows) {
        let columns: Vec<Vec<f64>> = values.chunks(rows).map(<[f64]>::to_vec).collect();
        for listings in &all {
            let read = check(&columns, listings.clone());
            let fault = Listings::from(&read).fault();
            each(Case::read(read, fault));
        }
    }
    let steps = |step: f64| (0..rows).map(|row| row as f64 * step).collect();
    for columns in lists(&[1.0, -1.0, 0.0].map(steps), 2) {
        for listings in &all {
            through_fits(&check(&columns, listings.clone()), each);
        }
    }
}

fn through_fits(read: &Read, each: &mut impl FnMut(Case)) {
    let fault = Listings::from(read).fault();
    for forest in [false, true] {
        each(Case::fit(fit(read, forest), fault));
    }
}
