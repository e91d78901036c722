//! The listings: refusals 11 to 13, with where the first fault is, and the check of the listings alone.

use crate::calls::Refusal;
use crate::checks::{features_in_range, first_failed, rows_in_range};

/// The first fault in the listing of a column. At each place three tests are made in order; only a row that passes the first has a value.
fn column_fault(column: usize, listing: &[u32], value: impl Fn(u32) -> f64) -> Option<Refusal> {
    let mut met = vec![false; listing.len()];
    for (place, row) in listing.iter().enumerate() {
        let at = *row as usize;
        // a NaN is below nothing, and nothing is below a NaN
        let falls = |before: u32| value(*row) < value(before);
        let number = first_failed(&[
            (11, &|| at < listing.len()),
            (12, &|| !met[at]),
            (13, &|| place == 0 || !falls(listing[place - 1])),
        ]);
        if number != 0 {
            return Some(Refusal {
                number,
                part: column as u32,
                place: place as u32,
                row: match number {
                    12 => lowest_lacking(listing),
                    _ => 0,
                },
            });
        }
        met[at] = true;
    }
    None
}

/// The lowest row that is nowhere in a listing, in which some row is twice.
fn lowest_lacking(listing: &[u32]) -> u32 {
    let mut there = vec![false; listing.len()];
    for row in listing {
        // a row that is too large is none of those sought
        if let Some(mark) = there.get_mut(*row as usize) {
            *mark = true;
        }
    }
    let lacking = there.iter().position(|mark| !mark);
    lacking.expect("a row is twice, so another has no place") as u32
}

/// The first fault of the first column that has one, or number 0.
pub fn listings_fault(rows: usize, features: usize, x: &[f64], listings: &[u32]) -> Refusal {
    let fault = |column: usize| {
        let listing = &listings[column * rows..(column + 1) * rows];
        column_fault(column, listing, |row| x[row as usize * features + column])
    };
    (0..features).find_map(fault).unwrap_or_default()
}

/// The listing check alone: refusals 1, 2, 11 to 13.
pub fn check_listings(rows: usize, features: usize, x: &[f64], listings: &[u32]) -> Refusal {
    let number = first_failed(&[
        (1, &|| rows_in_range(rows) && features_in_range(features)),
        (2, &|| {
            x.len() == rows * features && listings.len() == features * rows
        }),
    ]);
    match number {
        0 => listings_fault(rows, features, x, listings),
        _ => Refusal::of(number),
    }
}
