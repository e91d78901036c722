//! Damaged listings: rows that are too large, that were met before, or that are out of order.

use crate::call::fault::Fault;
use crate::judge::case::Case;
use crate::judge::listings::Listings;
use crate::make::chance::Chance;
use crate::make::listed;
use crate::make::read as make_read;

/// `count` inputs with up to 40 rows and 6 columns, a third of them for each fit and a third for the check.
pub fn each(chance: &mut Chance, count: usize, mut each: impl FnMut(Case)) {
    for place in 0..count {
        let rows = chance.within(1, 40);
        let mut read = make_read::check(chance, [rows, 6]);
        let (check, forest) = (place % 3 == 0, place % 3 == 1);
        if check {
            make_read::not_finite(chance, &mut read);
        }
        let shape = [rows, read.features];
        let fault = damage(chance, shape, &read.x, &mut read.listings);
        each(match check {
            true => Case::read(read, fault),
            false => Case::fit(listed::fit(&read, forest), fault),
        });
    }
}

/// Damages valid listings at one to three places, half of the time all in one column. Returns the fault that is told: none if there is
/// nothing to find, as when equal values change places.
pub fn damage(
    chance: &mut Chance,
    [rows, features]: [usize; 2],
    x: &[f64],
    listings: &mut [u32],
) -> Fault {
    let (column, one) = (chance.below(features), chance.one_in(2));
    for _ in 0..chance.pick(&[1, 1, 2, 3]) {
        let column = if one { column } else { chance.below(features) };
        let listing = &mut listings[column * rows..(column + 1) * rows];
        let place = chance.below(rows);
        match chance.below(3) {
            0 => listing[place] = too_large(chance, rows as u32),
            // next to itself or far away, before or after
            1 => listing[place] = listing[chance.below(rows)],
            _ if place > 0 => listing.swap(place - 1, place),
            _ => listing.swap(place, chance.below(rows)),
        }
    }
    Listings {
        rows,
        features,
        x,
        listings,
    }
    .fault()
}

/// Just past the last row or far beyond it; or one whose low bits are the number of a row.
fn too_large(chance: &mut Chance, rows: u32) -> u32 {
    let row = chance.below(rows as usize) as u32;
    chance.pick(&[
        rows,
        rows,
        rows + 1,
        65_535,
        65_536 + row,
        (1 << 31) + row,
        u32::MAX,
    ])
}
