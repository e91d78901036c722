//! A damaged listing is refused with the kind of damage, the feature, the position and the missing row: those that a plain reading of the
//! listing finds, and the same in the check and in every fit.

mod common;

use common::Maker;
use tailboardy::{
    Breach, Counts, DecisionTreeRegressor, DenseMatrix, Draws, Fault, Fitting, Given, ListingFault,
    Listings, MAX_FEATURES, MAX_ROWS, RandomForestRegressor, RandomForestRegressorParameters,
    Refusal,
};
use tailboardy_sys::linked;

/// The refusal's number, the feature, the position, and the lowest row that is missing from the feature's whole listing.
type Place = (u32, usize, usize, Option<usize>);

/// The first fault of listings that are read from front to back.
fn read(x: &DenseMatrix, columns: &[Vec<u32>]) -> Option<Place> {
    let rows = x.shape().0;
    for (feature, column) in columns.iter().enumerate() {
        let value = |row: u32| x.get((row as usize, feature)).unwrap();
        for (place, row) in column.iter().enumerate() {
            let number = if *row as usize >= rows {
                11
            } else if column[..place].contains(row) {
                12
            } else if place > 0 && value(*row) < value(column[place - 1]) {
                13
            } else {
                continue;
            };
            let missing = (0..rows).find(|row| !column.contains(&(*row as u32)));
            return Some((number, feature, place, missing));
        }
    }
    None
}

/// What a refusal says of a listing. Its kind must fit what is in the listing at that position.
fn place(refusal: &Refusal, columns: &[Vec<u32>]) -> Place {
    let Some(Fault::Listing(fault)) = refusal.fault() else {
        panic!("{refusal}");
    };
    let (feature, place) = (fault.feature, fault.place);
    let column = &columns[feature];
    assert_eq!(refusal.cause(), fault.breach.cause());
    match fault.breach {
        Breach::NoSuchRow(row) => assert_eq!(row, column[place]),
        Breach::Twice { row, before } => {
            assert_eq!((row, row), (column[place], column[before]));
            assert!(before < place);
        }
        Breach::Falls { row, after } => assert_eq!([after, row], column[place - 1..=place]),
        _ => panic!("{refusal}"),
    }
    (refusal.number(), feature, place, fault.missing)
}

/// The answers of the check and of every fit, the last of them from trees that are grown two at a time by three threads.
fn answers(x: &DenseMatrix, listings: &Listings) -> [Result<(), Refusal>; 7] {
    let rows = x.shape().0;
    let y: Vec<f64> = (0..rows).map(|row| row as f64).collect();
    let fitting = Fitting::new(x, &y).with_listings(listings);
    let parameters = RandomForestRegressorParameters::default().with_n_trees(3);
    let threads = parameters.with_n_trees(40).with_n_threads(3);
    let given = |counts: &Counts| {
        #[rustfmt::skip]
        let given = Given { x, y: &y, weights: &[], counts, listings };
        let draws = Draws::seeded(&given, parameters);
        let tree = DecisionTreeRegressor::fit_given(&given, &draws, Default::default());
        let forest = RandomForestRegressor::fit_given(&given, &draws, parameters);
        (tree.map(|_| ()), forest.map(|_| ()))
    };
    [
        listings.check(x),
        fitting.check(),
        fitting.tree(Default::default()).map(|_| ()),
        given(&Counts::ones(1, rows).unwrap()).0,
        fitting.forest(parameters).map(|_| ()),
        given(&Counts::drawn(3, rows, 0).unwrap()).1,
        fitting.forest(threads).map(|_| ()),
    ]
}

/// What all of them say, which must be the same.
fn told(x: &DenseMatrix, columns: &[Vec<u32>]) -> Option<Place> {
    let listings = Listings::from_columns(columns).unwrap();
    let [first, others @ ..] = answers(x, &listings);
    for other in others {
        assert_eq!(other, first);
    }
    first.err().map(|refusal| place(&refusal, columns))
}

/// Listings of five rows whose values rise with the row number, and the refusal, position and missing row of each.
const LISTINGS: &[([u32; 5], u32, usize, Option<usize>)] = &[
    // each kind at the first position where it can be, in the middle, and at the last
    ([5, 1, 2, 3, 4], 11, 0, Some(0)),
    ([0, 1, 7, 3, 4], 11, 2, Some(2)),
    ([0, 1, 2, 3, u32::MAX], 11, 4, Some(4)),
    ([0, 0, 2, 3, 4], 12, 1, Some(1)),
    ([0, 1, 1, 3, 4], 12, 2, Some(2)),
    ([0, 1, 2, 4, 4], 12, 4, Some(3)),
    ([1, 0, 2, 3, 4], 13, 1, None),
    ([0, 2, 1, 3, 4], 13, 2, None),
    ([0, 1, 2, 4, 3], 13, 4, None),
    // the missing row is missing from the whole listing, not only before the fault
    ([4, 4, 0, 1, 2], 12, 1, Some(3)),
    ([3, 4, 3, 1, 0], 12, 2, Some(2)),
    // at one position a row that appeared before comes before a value that falls
    ([1, 2, 1, 3, 4], 12, 2, Some(0)),
    // of two faults the one at the lower position
    ([1, 0, 2, 2, 4], 13, 1, Some(3)),
    ([0, 0, 5, 3, 4], 12, 1, Some(1)),
    ([0, 5, 0, 3, 4], 11, 1, Some(1)),
    ([2, 1, 9, 3, 4], 13, 1, Some(0)),
    ([6, 5, 5, 6, 6], 11, 0, Some(0)),
];

#[test]
fn every_kind_at_every_end() {
    let values = (0..15).map(|at| f64::from(at / 3)).collect();
    let x = DenseMatrix::new(5, 3, values, false).unwrap();
    let sound = || vec![(0..5).collect::<Vec<u32>>(); 3];
    assert_eq!(told(&x, &sound()), None);
    for (listing, number, place, missing) in LISTINGS {
        for feature in 0..3 {
            let mut columns = sound();
            columns[feature] = listing.to_vec();
            let expected = Some((*number, feature, *place, *missing));
            assert_eq!(read(&x, &columns), expected);
            assert_eq!(told(&x, &columns), expected);
            // of two features that are damaged the first
            columns[2] = vec![9; 5];
            let first = expected.filter(|_| feature < 2);
            assert_eq!(told(&x, &columns), first.or(Some((11, 2, 0, Some(0)))));
        }
    }
}

#[test]
fn messages() {
    let x = DenseMatrix::from_2d_array(&[[7.5, 1.0], [6.8, 2.0], [7.1, 3.0], [7.1, 4.0]]).unwrap();
    for (columns, message) in [
        (
            [[1, 4, 2, 0], [0, 1, 2, 3]],
            "refusal 11 (no such row): feature 0: position 1 has row 4, which does not exist, and row 3 is missing; \
             rows are counted from 0: sort the rows of this feature again, with each row exactly once",
        ),
        (
            [[1, 2, 3, 0], [0, 1, 1, 3]],
            "refusal 12 (row twice): feature 1: row 1 appears twice, at positions 1 and 2, and row 2 is missing; \
             sort the rows of this feature again, with each row exactly once",
        ),
        (
            [[1, 2, 3, 0], [0, 2, 1, 3]],
            "refusal 13 (value falls): feature 1: at position 2 the value of row 1 is lower than that of row 2 before it; \
             sort the rows of this feature again, in ascending order of value",
        ),
        (
            [[2, 1, 3, 3], [0, 2, 1, 3]],
            "refusal 13 (value falls): feature 0: at position 1 the value of row 1 is lower than that of row 2 before it, \
             and row 0 is missing; sort the rows of this feature again, in ascending order of value",
        ),
    ] {
        let listings = Listings::from_columns(&columns).unwrap();
        assert_eq!(listings.check(&x).unwrap_err().to_string(), message);
    }
}

/// Listings that are sorted, damaged in up to three positions.
fn damaged(made: &mut Maker, x: &DenseMatrix) -> Vec<Vec<u32>> {
    let (rows, features) = x.shape();
    let sorted = Listings::sorted(x);
    let columns = (0..features).map(|it| sorted.column(it).unwrap().to_vec());
    let mut columns: Vec<Vec<u32>> = columns.collect();
    for _ in 0..made.up_to(3) {
        let (feature, place) = (made.up_to(features - 1), made.up_to(rows - 1));
        match made.chance(2) {
            true => columns[feature].swap(place, rows - 1 - place),
            false => columns[feature][place] = made.up_to(rows) as u32,
        }
    }
    columns
}

#[test]
fn what_is_told_is_what_a_plain_reading_finds() {
    let (mut made, mut tally) = (Maker::new(21), [0; 4]);
    for _ in 0..1000 {
        let (rows, features) = (1 + made.up_to(6), 1 + made.up_to(2));
        let x = made.matrix(rows, features);
        let columns = damaged(&mut made, &x);
        let found = read(&x, &columns);
        assert_eq!(told(&x, &columns), found, "{x:?} {columns:?}");
        tally[found.map_or(0, |(number, ..)| number as usize - 10)] += 1;
    }
    assert!(tally.iter().all(|it| *it >= 100), "{tally:?}");
}

/// Numbers of any kind, NaN too, which only the check accepts; and each feature asked about by itself.
#[test]
fn the_check_accepts_any_number() {
    let (mut made, mut tally) = (Maker::new(22), [0; 4]);
    for _ in 0..20_000 {
        let (rows, features) = (1 + made.up_to(6), 1 + made.up_to(2));
        let values = (0..rows * features).map(|_| made.any_number()).collect();
        let x = DenseMatrix::new(rows, features, values, false).unwrap();
        let columns = damaged(&mut made, &x);
        let listings = Listings::from_columns(&columns).unwrap();
        let refusal = listings.check(&x).err();
        let found = read(&x, &columns);
        assert_eq!(refusal.as_ref().map(|it| place(it, &columns)), found);
        tally[found.map_or(0, |(number, ..)| number as usize - 10)] += 1;

        let each: Vec<Option<ListingFault>> =
            (0..features).map(|it| listings.fault(&x, it)).collect();
        let first = each.iter().flatten().next().cloned().map(Fault::Listing);
        assert_eq!(refusal.as_ref().and_then(Refusal::fault), first.as_ref());
        for (feature, fault) in each.into_iter().enumerate() {
            let values = (0..rows).map(|row| [x.get((row, feature)).unwrap()]);
            let own = DenseMatrix::from_2d_array(&values.collect::<Vec<_>>()).unwrap();
            let found = read(&own, &columns[feature..=feature]);
            let told = fault.map(|it| (it.breach.cause().number(), 0, it.place, it.missing));
            assert_eq!(told, found);
        }
    }
    assert!(tally.iter().all(|it| *it >= 1000), "{tally:?}");
}

#[test]
fn values_that_do_not_fall() {
    let nan = f64::NAN;
    for (values, falls) in [
        ([0.0, -0.0, 0.0], None),
        ([1.0, nan, 0.0], None),
        ([nan, 1.0, 0.0], Some(2)),
        ([f64::NEG_INFINITY, f64::MIN, f64::INFINITY], None),
        ([0.0, 5e-324, 0.0], Some(2)),
        ([0.0, -5e-324, 0.0], Some(1)),
    ] {
        let x = DenseMatrix::new(3, 1, values.to_vec(), false).unwrap();
        let refusal = Listings::from_columns(&[[0, 1, 2]])
            .unwrap()
            .check(&x)
            .err();
        let place = refusal.map(|it| place(&it, &[vec![0, 1, 2]]));
        assert_eq!(place, falls.map(|place| (13, 0, place, None)));
    }
}

/// The last position of the longest listing, and the last of the most features.
#[test]
fn the_largest_places() {
    let x = DenseMatrix::new(MAX_ROWS, 1, vec![0.0; MAX_ROWS], false).unwrap();
    let mut rows: Vec<u32> = (0..MAX_ROWS as u32).collect();
    let last = MAX_ROWS - 1;
    for (row, number) in [(MAX_ROWS, 11), (0, 12)] {
        rows[last] = row as u32;
        let listings = Listings::from_columns(&[&rows]).unwrap();
        let refusal = listings.check(&x).unwrap_err();
        let told = place(&refusal, &[rows.clone()]);
        assert_eq!(told, (number, 0, last, Some(last)));
        let y = vec![0.0; MAX_ROWS];
        let fit = Fitting::new(&x, &y).with_listings(&listings).check();
        assert_eq!(fit.unwrap_err(), refusal);
    }
    let x = DenseMatrix::new(2, MAX_FEATURES, vec![0.0; 2 * MAX_FEATURES], false).unwrap();
    let mut columns = vec![vec![0, 1]; MAX_FEATURES];
    columns[MAX_FEATURES - 1] = vec![1, 1];
    assert_eq!(told(&x, &columns), Some((12, MAX_FEATURES - 1, 1, Some(0))));
}

/// Every field that is not told is 0.
#[test]
fn nothing_else_is_told() {
    let told = |rows: usize, listing: &[u32]| {
        let told = linked::check_listings(rows, 2, &[1.0, 1.0, 2.0, 2.0, 3.0, 3.0], listing);
        [told.number, told.part, told.place, told.row]
    };
    assert_eq!(told(0, &[0, 1, 2, 0, 0, 2]), [1, 0, 0, 0]);
    assert_eq!(told(3, &[0, 1, 2, 0, 0]), [2, 0, 0, 0]);
    assert_eq!(told(3, &[0, 1, 2, 0, 1, 3]), [11, 1, 2, 0]);
    assert_eq!(told(3, &[0, 1, 2, 0, 0, 2]), [12, 1, 1, 1]);
    assert_eq!(told(3, &[0, 1, 2, 0, 2, 1]), [13, 1, 2, 0]);
    assert_eq!(told(3, &[0, 1, 2, 0, 1, 2]), [0, 0, 0, 0]);
}

/// A matrix without rows has none of a listing's.
#[test]
fn no_rows() {
    let x = DenseMatrix::new(0, 1, Vec::new(), false).unwrap();
    let fault = Listings::from_columns(&[[5]])
        .unwrap()
        .fault(&x, 0)
        .unwrap();
    assert_eq!(
        (fault.place, fault.breach, fault.missing),
        (0, Breach::NoSuchRow(5), None)
    );
    assert_eq!(
        Listings::from_columns(&[[0u32; 0]]).unwrap().fault(&x, 0),
        None
    );
}

/// A listing of another length is refused as that, with the place where it goes wrong.
#[test]
fn another_length() {
    let x = DenseMatrix::new(3, 1, vec![1.0, 2.0, 3.0], false).unwrap();
    let twice = |row: u32, before: usize| Breach::Twice { row, before };
    let falls = Breach::Falls { row: 0, after: 1 };
    for (listing, place, breach, missing) in [
        (&[][..], 0, Breach::Ends, Some(0)),
        (&[0, 1], 2, Breach::Ends, Some(2)),
        (&[0, 0], 1, twice(0, 0), Some(1)),
        (&[1, 0], 1, falls, Some(2)),
        (&[0, 1, 2, 0], 3, twice(0, 0), None),
        (&[0, 1, 2, 3], 3, Breach::NoSuchRow(3), None),
        (&[0, 1, 1, 2], 2, twice(1, 1), None),
        (&[0, 9, 1, 2], 1, Breach::NoSuchRow(9), None),
    ] {
        let listings = Listings::from_columns(&[listing]).unwrap();
        for answer in answers(&x, &listings) {
            let refusal = answer.unwrap_err();
            assert_eq!(refusal.number(), 2);
            let fault = ListingFault {
                feature: 0,
                place,
                breach,
                missing,
            };
            assert_eq!(refusal.fault(), Some(&Fault::Listing(fault)));
        }
    }
}

/// A refusal 2 that is not about the listings does not name them, even if they are damaged.
#[test]
fn a_tape_is_not_taken_for_a_listing() {
    let x = DenseMatrix::new(2, 1, vec![1.0, 2.0], false).unwrap();
    let counts = Counts::ones(2, 2).unwrap();
    let given = Given {
        x: &x,
        y: &[0.0; 2],
        weights: &[],
        counts: &counts,
        listings: &Listings::from_columns(&[[0, 0]]).unwrap(),
    };
    let refusal = RandomForestRegressor::fit_given(&given, &Draws::none(), Default::default());
    let refusal = refusal.unwrap_err();
    assert_eq!(refusal.number(), 2);
    assert_eq!(refusal.fault(), Some(&Fault::Cuts("word")));
}
