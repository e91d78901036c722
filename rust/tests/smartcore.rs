//! What those who come from smartcore expect: its matrix, means to iterate over, and predictions of any number of rows.

mod common;

use common::Maker;
use tailboardy::{
    Counts, DecisionTreeRegressor, DenseMatrix, Draws, Fitting, Given, Listings, MAX_ROWS,
    RandomForestRegressor, RandomForestRegressorParameters,
};

/// The same six numbers mean other rows if they are said to be column after column.
#[test]
fn a_matrix_is_read_as_it_is_said_to_be() {
    let numbers = || (1..=6).map(f64::from).collect::<Vec<_>>();
    let rows = |x: &DenseMatrix| {
        (0..x.shape().0)
            .map(|row| x.row(row).unwrap().to_vec())
            .collect::<Vec<_>>()
    };
    let by_rows = DenseMatrix::new(2, 3, numbers(), false).unwrap();
    assert_eq!(rows(&by_rows), [[1.0, 2.0, 3.0], [4.0, 5.0, 6.0]]);
    let by_columns = DenseMatrix::new(2, 3, numbers(), true).unwrap();
    assert_eq!(rows(&by_columns), [[1.0, 3.0, 5.0], [2.0, 4.0, 6.0]]);
    for lists in [rows(&by_rows), rows(&by_columns)] {
        let again = DenseMatrix::from_2d_vec(&lists).unwrap();
        assert_eq!(rows(&again), lists);
        let slices: Vec<&[f64]> = lists.iter().map(Vec::as_slice).collect();
        assert_eq!(DenseMatrix::from_2d_array(&slices).unwrap(), again);
    }
    let ragged = DenseMatrix::from_2d_vec(&[vec![1.0], vec![]]).unwrap_err();
    assert_eq!(ragged.number(), 2);
}

/// A forest of columns is the forest of the same rows.
#[test]
fn columns_give_the_forest_of_their_rows() {
    let (x, y) = Maker::new(41).plain(30, 3);
    let columns = (0..3).flat_map(|feature| (0..30).map(move |row| (row, feature)));
    let columns = columns.map(|place| x.get(place).unwrap()).collect();
    let turned = DenseMatrix::new(30, 3, columns, true).unwrap();
    assert_eq!(turned, x);
    let fit = |x: &DenseMatrix| RandomForestRegressor::fit(x, &y, Default::default()).unwrap();
    assert!(common::same(&fit(&turned), &fit(&x)));
}

/// A matrix without values may have any number of rows.
#[test]
fn a_matrix_without_values() {
    for (rows, columns) in [(usize::MAX, 0), (0, usize::MAX), (0, 0)] {
        for column_major in [true, false] {
            let x = DenseMatrix::new(rows, columns, vec![], column_major).unwrap();
            assert_eq!((x.shape(), x.values().len()), ((rows, columns), 0));
        }
    }
}

#[test]
fn means_iterate() {
    let x = DenseMatrix::from_2d_array(&[[1.0], [2.0], [3.0]]).unwrap();
    let forest = RandomForestRegressor::fit(&x, &[4.0; 3], Default::default()).unwrap();
    let means = forest.predict(&x).unwrap();
    assert_eq!((means.len(), means.iter().len()), (3, 3));
    assert_eq!(Vec::from(means.clone()), means.clone().into_vec());
    let mut sum = 0.0;
    for mean in &means {
        sum += mean;
    }
    for mean in means {
        sum += mean;
    }
    assert_eq!(sum, 24.0);
    let mut shares = forest.compute_feature_importances().unwrap().into_iter();
    assert_eq!((shares.next(), shares.next()), (Some(0.0), None));
}

/// A row that is in every bag has no mean, and is not counted.
#[test]
fn out_of_bag_means_iterate() {
    let x = DenseMatrix::from_2d_array(&[[1.0], [2.0], [3.0], [4.0]]).unwrap();
    let given = Given {
        x: &x,
        y: &[0.0, 0.0, 10.0, 10.0],
        weights: &[],
        counts: &Counts::new(1, 4, vec![2, 0, 1, 0]).unwrap(),
        listings: &Listings::sorted(&x),
    };
    let parameters = RandomForestRegressorParameters::default().with_keep_samples(true);
    let draws = Draws::seeded(&given, parameters);
    let forest = RandomForestRegressor::fit_given(&given, &draws, parameters).unwrap();
    let means = forest.predict_oob(&x).unwrap();
    assert_eq!((means.len(), means.count()), (4, 2));
    assert!(!means.is_empty());
    let expected = [None, Some(0.0), None, Some(10.0)];
    assert_eq!(means.iter().collect::<Vec<_>>(), expected);
    let mut rows = 0;
    for (row, mean) in (&means).into_iter().enumerate() {
        assert_eq!(mean, expected[row]);
        rows += 1;
    }
    assert_eq!(rows, 4);
    assert!(means.into_iter().eq(expected));
}

/// The same parameters serve every fit, and each gives the same forest.
#[test]
fn parameters_go_by_value_everywhere() {
    let (x, y) = Maker::new(42).plain(20, 2);
    let parameters = RandomForestRegressorParameters::default().with_seed(3);
    let one = RandomForestRegressor::fit(&x, &y, parameters).unwrap();
    let other = Fitting::new(&x, &y).forest(parameters).unwrap();
    let given = Given {
        x: &x,
        y: &y,
        weights: &[],
        counts: &Counts::drawn(100, 20, 3).unwrap(),
        listings: &Listings::sorted(&x),
    };
    let draws = Draws::seeded(&given, parameters);
    let third = RandomForestRegressor::fit_given(&given, &draws, parameters).unwrap();
    assert!(common::same(&one, &other) && common::same(&one, &third));
}

/// Rows beyond the most that one call takes are predicted as they are on their own, on both sides of each seam.
#[test]
fn any_number_of_rows_is_predicted() {
    let mut made = Maker::new(43);
    let (x, y) = made.plain(40, 2);
    let parameters = RandomForestRegressorParameters::default().with_n_trees(3);
    let forest = RandomForestRegressor::fit(&x, &y, parameters).unwrap();
    let tree = DecisionTreeRegressor::fit(&x, &y, Default::default()).unwrap();
    for rows in [MAX_ROWS, MAX_ROWS + 1, 2 * MAX_ROWS, 2 * MAX_ROWS + 3] {
        let many = made.plain(rows, 2).0;
        let means = forest.predict(&many).unwrap();
        let values = tree.predict(&many).unwrap();
        let each = forest.predict_trees(&many).unwrap();
        assert_eq!((means.len(), values.len(), each.len()), (rows, rows, 3));
        let (mut start, part) = (0, 10_007);
        while start < rows {
            let end = rows.min(start + part);
            let some = many.values()[2 * start..2 * end].to_vec();
            let some = DenseMatrix::new(end - start, 2, some, false).unwrap();
            assert_eq!(*forest.predict(&some).unwrap(), means[start..end]);
            assert_eq!(*tree.predict(&some).unwrap(), values[start..end]);
            for (number, tree) in forest.trees().enumerate() {
                assert_eq!(*tree.predict(&some).unwrap(), each[number][start..end]);
            }
            start = end;
        }
    }
}

/// Rows of the wrong width are refused for their width, however many there are; no rows at all are refused too.
#[test]
fn parts_are_refused_as_a_whole_would_be() {
    let (x, y) = Maker::new(44).plain(10, 2);
    let forest = RandomForestRegressor::fit(&x, &y, Default::default()).unwrap();
    let refused = |rows: usize, columns: usize, number: u32, sentence: &str| {
        let x = DenseMatrix::new(rows, columns, vec![0.0; rows * columns], false).unwrap();
        let refusal = forest.predict(&x).unwrap_err();
        assert_eq!(refusal.number(), number);
        let told = refusal.to_string();
        assert!(told.contains(sentence), "{told}");
    };
    refused(MAX_ROWS + 1, 3, 2, "values per row: 3 given, 2 required");
    refused(usize::MAX, 0, 2, "values per row: 0 given, 2 required");
    refused(0, 2, 1, "0 rows");
}
