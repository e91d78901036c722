//! Listings of the most rows and of the most columns, and of lengths around the widths of machine words, valid and damaged. The fits are
//! given the damaged ones too.

use crate::call::calls::Read;
use crate::call::fault::Fault;
use crate::damage::listing;
use crate::damage::places;
use crate::judge::case::Case;
use crate::make::chance::Chance;
use crate::make::fit as make_fit;
use crate::make::listed;

const ROWS: usize = 65_535;
const FEATURES: usize = 1_024;

pub fn each(chance: &mut Chance, mut hold: impl FnMut(Case)) {
    at_the_end(chance, ROWS, 2, &mut hold);
    at_the_end(chance, 2, FEATURES, &mut hold);
    hold(last_lacking());
    for rows in (2..=130).chain(255..=257) {
        at_the_end(chance, rows, 3, &mut hold);
        anywhere(chance, rows, 3, &mut hold);
    }
}

fn valid(chance: &mut Chance, rows: usize, features: usize) -> Read {
    let columns: Vec<Vec<f64>> = (0..features)
        .map(|_| (0..rows).map(|_| chance.unit()).collect())
        .collect();
    let mut read = listed::check(&columns, Vec::new());
    read.listings = make_fit::listings(chance, rows, features, &read.x);
    read
}

fn given(read: &Read, fault: Fault, hold: &mut impl FnMut(Case)) {
    for forest in [false, true] {
        hold(Case::fit(listed::fit(read, forest), fault));
    }
    hold(Case::read(read.clone(), fault));
}

/// Valid listings, and ones with damage at the last place of the last column.
fn at_the_end(chance: &mut Chance, rows: usize, features: usize, hold: &mut impl FnMut(Case)) {
    let mut read = valid(chance, rows, features);
    hold(Case::read(read.clone(), 0));
    for (listings, fault) in places::at_the_end(rows, &read.listings) {
        read.listings = listings;
        given(&read, fault, hold);
    }
}

fn anywhere(chance: &mut Chance, rows: usize, features: usize, hold: &mut impl FnMut(Case)) {
    let mut read = valid(chance, rows, features);
    let shape = [rows, features];
    let fault = listing::damage(chance, shape, &read.x, &mut read.listings);
    given(&read, fault, hold);
}

/// The row that is told is the last of all: the first one is there twice, and each of the others once.
fn last_lacking() -> Case {
    let places = 0..ROWS as u32;
    let listing = places.map(|place| place.saturating_sub(1)).collect();
    let read = listed::check(&[vec![0.0; ROWS]], listing);
    Case::read(read, [12, 0, 1, ROWS as u32 - 1])
}
