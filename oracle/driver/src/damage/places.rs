//! Damaged listings made by hand, each with the number, the column, the place and the row that are told.

use crate::call::calls::{Fit, Read};
use crate::call::fault::Fault;
use crate::damage::faults;
use crate::judge::case::Case;
use crate::make::listed;

const KINDS: [u32; 3] = [11, 12, 13];

/// A change of an input.
type Change<T> = fn(&mut T);

/// For the list: everything through the check of listings, and listings of a single column through the fits too.
pub fn cases() -> Vec<Case> {
    let mut cases = Vec::new();
    for (x, listing, fault) in one_column() {
        let read = listed::check(&[x], listing);
        cases.extend(fits(&read, fault));
        cases.push(Case::read(read, fault));
    }
    let mut checks = not_finite();
    checks.extend(three_columns());
    checks.extend(checks_before());
    let checks = checks.into_iter();
    cases.extend(checks.map(|(read, fault)| Case::read(read, fault)));
    cases.extend(among_checks());
    cases
}

/// Damage in three columns through the fits, whose lines would be long.
pub fn wide(each: impl FnMut(Case)) {
    let all = three_columns().into_iter();
    all.flat_map(|(read, fault)| fits(&read, fault))
        .for_each(each);
}

fn fits(read: &Read, fault: Fault) -> [Case; 2] {
    [false, true].map(|forest| Case::fit(listed::fit(read, forest), fault))
}

/// Values by row, the listing and the fault. Row 0 has the lowest value, unless values are given.
fn one_column() -> Vec<(Vec<f64>, Vec<u32>, Fault)> {
    let rising = |rows: usize| (0..rows).map(|row| row as f64).collect();
    let case = |listing: &[u32], fault: [u32; 4]| {
        let x: Vec<f64> = rising(listing.len());
        (x, listing.to_vec(), Fault(fault))
    };
    let mut cases: Vec<_> = [twice(), falling(), too_large()]
        .concat()
        .into_iter()
        .map(|(listing, fault)| case(listing, fault))
        .collect();
    for (listing, fault) in TIES {
        cases.push((vec![5.0, 5.0, 7.0, 7.0], listing.to_vec(), Fault(fault)));
    }
    for listing in [[0, 1], [1, 0]] {
        cases.push((vec![0.0, -0.0], listing.to_vec(), Fault::default()));
    }
    cases
}

type Damaged = (&'static [u32], [u32; 4]);

/// A row met before, with the lowest row that the whole column lacks: it may be below or above the row met before, and it is not one that
/// has its place after the fault.
fn twice() -> Vec<Damaged> {
    vec![
        (&[0, 0], [12, 0, 1, 1]),
        (&[1, 1], [12, 0, 1, 0]),
        (&[0, 1, 1, 3], [12, 0, 2, 2]),
        (&[0, 0, 1, 2], [12, 0, 1, 3]),
        (&[1, 1, 0, 2], [12, 0, 1, 3]),
        (&[1, 1, 2, 3], [12, 0, 1, 0]),
        (&[0, 0, 2, 3], [12, 0, 1, 1]),
        (&[0, 2, 2, 3], [12, 0, 2, 1]),
        (&[0, 1, 2, 2], [12, 0, 3, 3]),
        // several rows are lacking, or several are met again
        (&[0, 0, 0, 0], [12, 0, 1, 1]),
        (&[3, 3, 3, 3], [12, 0, 1, 0]),
        (&[1, 1, 1, 0], [12, 0, 1, 2]),
        (&[2, 2, 0, 0], [12, 0, 1, 1]),
        (&[0, 1, 3, 3], [12, 0, 3, 2]),
        // its value falls as well
        (&[1, 3, 1, 2], [12, 0, 2, 0]),
        (&[0, 2, 3, 0], [12, 0, 3, 1]),
        // a value falls after it, or a row is too large, which is no row that could be lacking
        (&[0, 2, 2, 1], [12, 0, 2, 3]),
        (&[0, 0, 4, 2], [12, 0, 1, 1]),
        (&[1, 1, 0, 4], [12, 0, 1, 2]),
        (&[0, 0, 65_537, u32::MAX], [12, 0, 1, 1]),
    ]
}

/// A value below the one before, which may be above the first one.
fn falling() -> Vec<Damaged> {
    vec![
        (&[1, 0], [13, 0, 1, 0]),
        (&[3, 2, 1, 0], [13, 0, 1, 0]),
        (&[0, 2, 1, 3], [13, 0, 2, 0]),
        (&[0, 1, 3, 2], [13, 0, 3, 0]),
        // a row is met again after it, or is too large
        (&[1, 0, 2, 2], [13, 0, 1, 0]),
        (&[3, 0, 3, 1], [13, 0, 1, 0]),
        (&[0, 2, 1, 1], [13, 0, 2, 0]),
        (&[1, 0, 4, 2], [13, 0, 1, 0]),
        (&[1, 0, 4, 4], [13, 0, 1, 0]),
    ]
}

/// A row that is too large, also if it is met again; the low bits of some are the number of a row.
fn too_large() -> Vec<Damaged> {
    vec![
        (&[1], [11, 0, 0, 0]),
        (&[u32::MAX], [11, 0, 0, 0]),
        (&[4, 4, 0, 1], [11, 0, 0, 0]),
        (&[4, 0, 0, 1], [11, 0, 0, 0]),
        (&[0, 4, 4, 1], [11, 0, 1, 0]),
        (&[0, 4, 0, 1], [11, 0, 1, 0]),
        (&[1, 2, 4, 0], [11, 0, 2, 0]),
        (&[0, 1, 2, 4], [11, 0, 3, 0]),
        (&[0, 1, 2, 255], [11, 0, 3, 0]),
        (&[0, 1, 2, 259], [11, 0, 3, 0]),
        (&[0, 1, 2, 65_535], [11, 0, 3, 0]),
        (&[0, 1, 2, 65_539], [11, 0, 3, 0]),
        (&[0, 1, 65_537, 1], [11, 0, 2, 0]),
        (&[0, 1, 2, (1 << 31) + 3], [11, 0, 3, 0]),
        (&[0, 1, u32::MAX, u32::MAX], [11, 0, 2, 0]),
    ]
}

/// Two rows with one value, and two with a higher one.
const TIES: [([u32; 4], [u32; 4]); 4] = [
    ([1, 0, 3, 2], [0; 4]),
    ([1, 0, 0, 2], [12, 0, 2, 3]),
    ([2, 3, 0, 1], [13, 0, 2, 0]),
    ([1, 3, 0, 2], [13, 0, 2, 0]),
];

/// Values that only the check accepts, and the smallest falls; the rows are listed in their order. A NaN is below nothing, and nothing is
/// below a NaN.
fn not_finite() -> Vec<(Read, Fault)> {
    let (no, high, least) = (f64::NAN, f64::INFINITY, 5e-324);
    let cases: Vec<(Vec<f64>, [u32; 4])> = vec![
        (vec![2.0, no, 1.0], [0; 4]),
        (vec![high, -no, -high], [0; 4]),
        (vec![no, no], [0; 4]),
        (vec![no, 2.0, 1.0], [13, 0, 2, 0]),
        (vec![2.0, 1.0, no], [13, 0, 1, 0]),
        (vec![-high, high, high], [0; 4]),
        (vec![high, -high], [13, 0, 1, 0]),
        (vec![-1e308, -high], [13, 0, 1, 0]),
        (vec![high, 1e308], [13, 0, 1, 0]),
        (vec![least, 0.0], [13, 0, 1, 0]),
        (vec![0.0, -0.0, -least], [13, 0, 2, 0]),
        (vec![1.0, 1.0_f64.next_down()], [13, 0, 1, 0]),
    ];
    let mut checks: Vec<(Read, Fault)> = cases
        .into_iter()
        .map(|(x, fault)| {
            let listing = (0..x.len() as u32).collect();
            (listed::check(&[x], listing), Fault(fault))
        })
        .collect();
    let nans = |listing: &[u32]| listed::check(&[vec![no; 3]], listing.to_vec());
    checks.push((nans(&[2, 0, 0]), Fault([12, 0, 2, 1])));
    checks.push((nans(&[2, 3, 2]), Fault([11, 0, 1, 0])));
    checks
}

/// Five rows in three columns, no two of which have the same listing, and no values that are equal.
const LISTINGS: [[u32; 5]; 3] = [[0, 1, 2, 3, 4], [4, 2, 0, 1, 3], [3, 1, 4, 0, 2]];

/// These with damage at a place of a column, once or more. The first damage is expected to be told.
fn damaged(damage: &[(u32, usize, usize)]) -> (Read, Fault) {
    let columns = LISTINGS.map(|listing| {
        let mut values = vec![0.0; 5];
        for (place, row) in listing.iter().enumerate() {
            values[*row as usize] = place as f64;
        }
        values
    });
    let mut listings = LISTINGS;
    let (number, first, at) = damage[0];
    let mut lacking = Vec::new();
    for (number, column, place) in damage.iter().copied() {
        let listing = &mut listings[column];
        if number != 13 && column == first {
            lacking.push(listing[place]);
        }
        match number {
            11 => listing[place] = 5,
            12 => listing[place] = listing[place - 1],
            _ => listing.swap(place - 1, place),
        }
    }
    let row = lacking.into_iter().min().filter(|_| number == 12);
    (
        listed::check(&columns, listings.concat()),
        Fault([number, first as u32, at as u32, row.unwrap_or(0)]),
    )
}

/// Damage of each kind in the first, middle and last column, at the first place where it can be, in the middle and at the last; then of two
/// kinds in one column, and in two columns, where that of the later column has an earlier place.
fn three_columns() -> Vec<(Read, Fault)> {
    let mut all = Vec::new();
    for kind in KINDS {
        let first = usize::from(kind != 11);
        for column in 0..3 {
            all.extend([first, 2, 4].map(|place| damaged(&[(kind, column, place)])));
        }
        for second in KINDS {
            all.push(damaged(&[(kind, 1, 1), (second, 1, 3)]));
            let place = usize::from(second != 11);
            all.extend([0, 1].map(|column| damaged(&[(kind, column, 4), (second, 2, place)])));
        }
    }
    all
}

/// Valid listings, whose last two values differ, with damage of each kind at the last place of the last column. The row that is met again
/// is the first of that column.
pub fn at_the_end(rows: usize, listings: &[u32]) -> [(Vec<u32>, Fault); 3] {
    let (column, last) = (listings.len() / rows - 1, listings.len() - 1);
    KINDS.map(|kind| {
        let mut damaged = listings.to_vec();
        match kind {
            11 => damaged[last] = rows as u32,
            12 => damaged[last] = damaged[last + 1 - rows],
            _ => damaged.swap(last - 1, last),
        }
        let row = if kind == 12 { listings[last] } else { 0 };
        let fault = Fault([kind, column as u32, rows as u32 - 1, row]);
        (damaged, fault)
    })
}

/// Damaged listings of the check together with the faults that are found before: sizes and lengths.
fn checks_before() -> Vec<(Read, Fault)> {
    let changes: [(u32, Change<Read>); 7] = [
        (1, |read| read.rows = 0),
        (1, |read| read.rows = 65_536),
        (1, |read| read.features = 0),
        (1, |read| read.features = 1_025),
        (2, |read| read.listings.push(5)),
        (2, |read| read.listings.truncate(14)),
        (2, |read| read.x.truncate(14)),
    ];
    let case = |(number, change): (u32, Change<Read>)| {
        let (mut read, _) = damaged(&[(11, 0, 0), (12, 1, 2), (13, 2, 4)]);
        change(&mut read);
        (read, Fault::from(number))
    };
    changes.into_iter().map(case).collect()
}

/// Damaged listings of a fit together with faults that are found before them, and with others that are found later.
fn among_checks() -> Vec<Case> {
    let damages: [(Change<Fit>, [u32; 4]); 3] = [
        (|fit| fit.listings[5] = 2, [11, 2, 1, 0]),
        (|fit| fit.listings[5] = 0, [12, 2, 1, 1]),
        (|fit| fit.listings.swap(2, 3), [13, 1, 1, 0]),
    ];
    let before: [(u32, Change<Fit>); 5] = [
        (1, |fit| fit.features = 0),
        (2, |fit| fit.y.push(0.0)),
        (2, |fit| fit.listings.push(0)),
        (3, |fit| fit.x[4] = f64::NAN),
        (4, |fit| fit.counts[1] = 65_536),
    ];
    let later: [Change<Fit>; 3] = [
        |fit| fit.rooms.nodes[1] -= 1,
        |fit| fit.rooms.work[0] = 0,
        |fit| fit.words[0] = 3,
    ];
    let mut cases = Vec::new();
    for forest in [false, true] {
        for (damage, told) in damages {
            let mut fit = faults::good(forest, false);
            damage(&mut fit);
            let mut with = |change: Change<Fit>, fault: Fault| {
                let mut fit = fit.clone();
                change(&mut fit);
                cases.push(Case::fit(fit, fault));
            };
            for (number, change) in before {
                with(change, number.into());
            }
            for change in later {
                with(change, told.into());
            }
        }
    }
    cases
}
