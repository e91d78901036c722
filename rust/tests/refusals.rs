//! Every refusal has the right number, names the right place and comes with a message; and nothing panics. Those of damaged listings are
//! in listings.rs.

use tailboardy::{
    Counts, DecisionTreeRegressor, DenseMatrix, Draws, Given, Listings, MAX_FEATURES, MAX_ROWS,
    MAX_TREES, Nodes, RandomForestRegressor, RandomForestRegressorParameters, Refusal, Splitter,
};

fn parameters() -> RandomForestRegressorParameters {
    RandomForestRegressorParameters::default().with_n_trees(3)
}

fn refused<T>(answer: Result<T, Refusal>, number: u32, sentence: &str) {
    let refusal = answer.map(|_| ()).unwrap_err();
    assert_eq!(refusal.number(), number, "{refusal}");
    let told = refusal.to_string();
    assert!(told.starts_with(&format!("refusal {number} (")), "{told}");
    assert!(told.contains(sentence), "{told}");
    assert!(told.ends_with(refusal.cause().advice()));
}

#[test]
fn sizes() {
    let fit = |rows: usize, features: usize, trees: usize| {
        let x = DenseMatrix::new(rows, features, vec![0.0; rows * features], false).unwrap();
        RandomForestRegressor::fit(&x, &vec![0.0; rows], parameters().with_n_trees(trees))
    };
    refused(fit(0, 0, 1), 1, "0 rows");
    refused(
        fit(MAX_ROWS + 1, 1, 1),
        1,
        "65536 rows, but 1 to 65535 are required",
    );
    refused(fit(1, 0, 1), 1, "0 features");
    refused(fit(1, MAX_FEATURES + 1, 1), 1, "1025 features");
    refused(fit(1, 1, 0), 1, "0 trees");
    refused(fit(1, 1, MAX_TREES + 1), 1, "1025 trees");
    refused(fit(1, 1, usize::MAX), 1, "trees");
    assert!(fit(MAX_ROWS, 1, 1).is_ok());
    assert!(fit(1, MAX_FEATURES, MAX_TREES).is_ok());
    let forest = fit(3, 2, 2).unwrap();
    let many = DenseMatrix::new(MAX_ROWS + 1, 2, vec![0.0; 2 * MAX_ROWS + 2], false).unwrap();
    refused(forest.predict_oob(&many), 1, "65536 rows");
    let endless = DenseMatrix::new(usize::MAX, 0, vec![], false).unwrap();
    refused(forest.predict_oob(&endless), 1, "rows");
    refused(Listings::sorted(&endless).check(&endless), 1, "rows");
    assert_eq!(
        Listings::from_columns(&[[0]]).unwrap().fault(&endless, 0),
        None
    );
}

#[test]
fn lengths() {
    let x = DenseMatrix::from_2d_array(&[[1.0, 2.0], [3.0, 4.0]]).unwrap();
    let fit = |y: &[f64], weights: &[f64], bootstrap: bool| {
        let parameters = parameters().with_bootstrap(bootstrap);
        RandomForestRegressor::fit_with_weights(&x, y, weights, parameters)
    };
    refused(fit(&[1.0], &[], true), 2, "targets: 1 given, 2 required");
    refused(
        fit(&[1.0; 2], &[1.0], true),
        2,
        "weights: 1 given, 2 required",
    );
    refused(
        fit(&[1.0; 2], &[1.0; 3], false),
        2,
        "weights: 3 given, 2 required",
    );

    let forest = fit(&[1.0; 2], &[], true).unwrap();
    let narrow = DenseMatrix::from_2d_array(&[[1.0]]).unwrap();
    refused(
        forest.predict(&narrow),
        2,
        "values per row: 1 given, 2 required",
    );
    let kept = RandomForestRegressor::fit(&x, &[1.0; 2], parameters().with_keep_samples(true));
    let means = kept.unwrap().predict_oob(&x).unwrap();
    refused(means.error(&[1.0]), 2, "targets: 1 given, 2 required");
}

#[test]
fn shapes() {
    let x = DenseMatrix::from_2d_array(&[[1.0, 2.0], [3.0, 4.0]]).unwrap();
    refused(
        DenseMatrix::from_2d_array(&[vec![1.0], vec![]]),
        2,
        "row 1 has 0 values",
    );
    refused(
        DenseMatrix::new(usize::MAX, 2, vec![], false),
        2,
        "values: 0",
    );
    refused(
        Counts::new(2, 2, vec![1; 3]),
        2,
        "counts: 3 given, 4 required",
    );
    refused(Counts::new(usize::MAX, 2, vec![]), 1, "trees");
    let ragged = Listings::from_columns(&[vec![0, 1], vec![0]]);
    refused(ragged, 2, "row numbers in a listing: 1 given, 2 required");
    let one = Listings::from_columns(&[[0, 1]]).unwrap();
    refused(one.check(&x), 2, "listings: 1 given, 2 required");
    let short = Listings::from_columns(&[[1], [0]]).unwrap();
    refused(
        short.check(&x),
        2,
        "feature 0: it ends at position 1, and row 0 is missing",
    );
}

/// Counts that are too large are refused before they are added up for a seeded tape.
#[test]
fn counts_that_would_not_add_up() {
    let x = DenseMatrix::from_2d_array(&[[1.0], [2.0]]).unwrap();
    let counts = Counts::new(1, 2, vec![u32::MAX; 2]).unwrap();
    let given = Given {
        x: &x,
        y: &[1.0, 2.0],
        weights: &[],
        counts: &counts,
        listings: &Listings::sorted(&x),
    };
    for splitter in [Splitter::Best, Splitter::Random] {
        let parameters = parameters().with_splitter(splitter);
        let draws = Draws::seeded(&given, parameters);
        let forest = RandomForestRegressor::fit_given(&given, &draws, parameters);
        refused(
            forest,
            4,
            "row 0 appears 4294967295 times in the bag of tree 0",
        );
    }
}

/// The right number of entries, but divided into other columns or trees.
#[test]
fn shapes_that_are_turned() {
    let x = DenseMatrix::new(3, 2, vec![0.0; 6], false).unwrap();
    let turned = Listings::from_columns(&[[0, 1], [2, 0], [1, 2]]).unwrap();
    refused(turned.check(&x), 2, "listings: 3 given, 2 required");
    let x = DenseMatrix::new(6, 1, vec![0.0; 6], false).unwrap();
    let listings = Listings::sorted(&x);
    let given = |counts: &Counts| {
        let given = Given {
            x: &x,
            y: &[0.0; 6],
            weights: &[],
            counts,
            listings: &listings,
        };
        let draws = Draws::seeded(&given, parameters());
        let tree = DecisionTreeRegressor::fit_given(&given, &draws, Default::default());
        let forest = RandomForestRegressor::fit_given(&given, &draws, parameters());
        (tree.map(|_| ()), forest.map(|_| ()))
    };
    let (tree, forest) = given(&Counts::ones(2, 3).unwrap());
    refused(tree, 2, "counts per tree: 3 given, 6 required");
    refused(forest, 2, "counts per tree: 3 given, 6 required");
    let (tree, forest) = given(&Counts::ones(2, 6).unwrap());
    refused(tree, 2, "trees with counts: 2 given, 1 required");
    assert!(forest.is_ok());
}

#[test]
fn lent_lengths() {
    let x = DenseMatrix::from_2d_array(&[[1.0], [2.0]]).unwrap();
    let listings = Listings::sorted(&x);
    fn given<'a>(x: &'a DenseMatrix, listings: &'a Listings, counts: &'a Counts) -> Given<'a> {
        Given {
            x,
            y: &[1.0; 2],
            weights: &[],
            counts,
            listings,
        }
    }
    let fit = |counts: &Counts, draws: &Draws| {
        RandomForestRegressor::fit_given(&given(&x, &listings, counts), draws, parameters())
    };
    let counts = Counts::ones(2, 2).unwrap();
    let mut draws = Draws::none();
    refused(
        fit(&counts, &draws),
        2,
        "the word starts do not divide their tape into one part per tree",
    );
    draws.push_tree(&[0; 3], &[]);
    draws.push_tree(&[0; 3], &[]);
    assert!(fit(&counts, &draws).is_ok());
    draws.threshold_starts = vec![0, 1, 0];
    refused(fit(&counts, &draws), 2, "the threshold starts");
    refused(
        fit(&Counts::ones(2, 3).unwrap(), &draws),
        2,
        "counts per tree: 3 given, 2 required",
    );
    let tree = DecisionTreeRegressor::fit_given(
        &given(&x, &listings, &counts),
        &draws,
        Default::default(),
    );
    refused(tree, 2, "trees with counts: 2 given, 1 required");
}

#[test]
fn numbers() {
    let fit = |value: f64, target: f64, weight: f64, bootstrap: bool| {
        let x = DenseMatrix::from_2d_array(&[[1.0, 2.0], [3.0, value]]).unwrap();
        let parameters = parameters().with_bootstrap(bootstrap);
        RandomForestRegressor::fit_with_weights(&x, &[0.0, target], &[1.0, weight], parameters)
    };
    for bootstrap in [true, false] {
        refused(
            fit(f64::NAN, 0.0, 1.0, bootstrap),
            3,
            "feature 1 of row 1 is NaN",
        );
        refused(
            fit(0.0, f64::INFINITY, 1.0, bootstrap),
            3,
            "the target of row 1 is inf",
        );
        refused(
            fit(0.0, 0.0, -1.0, bootstrap),
            3,
            "the weight of row 1 is -1",
        );
        refused(
            fit(0.0, 0.0, f64::NAN, bootstrap),
            3,
            "the weight of row 1 is NaN",
        );
        assert!(fit(0.0, 0.0, -0.0, bootstrap).is_ok());
    }
}

#[test]
fn counts_and_draws() {
    let x = DenseMatrix::from_2d_array(&[[1.0], [2.0]]).unwrap();
    let listings = Listings::sorted(&x);
    let fit = |weights: &[f64], counts: Vec<u32>, words: &[u32]| {
        let counts = Counts::new(2, 2, counts).unwrap();
        let given = Given {
            x: &x,
            y: &[0.0, 1.0],
            weights,
            counts: &counts,
            listings: &listings,
        };
        let mut draws = Draws::none();
        draws.push_tree(&[0; 3], &[]);
        draws.push_tree(words, &[]);
        RandomForestRegressor::fit_given(&given, &draws, parameters())
    };
    let large = fit(&[], vec![1, 1, 1, 65_536], &[0; 3]);
    refused(large, 4, "row 1 appears 65536 times in the bag of tree 1");
    let both = fit(&[1.0; 2], vec![1, 1, 2, 1], &[0; 3]);
    refused(both, 4, "row 0 appears 2 times in the bag of tree 1");
    refused(fit(&[], vec![1; 4], &[]), 7, "search 0 of tree 1");
    refused(fit(&[], vec![2; 4], &[0, 1]), 7, "search 1 of tree 1");
    assert!(fit(&[], vec![65_535, 1, 0, 0], &[]).is_ok());
}

#[test]
fn bags() {
    let x = DenseMatrix::from_2d_array(&[[1.0], [2.0], [3.0]]).unwrap();
    let forest = RandomForestRegressor::fit(&x, &[0.0; 3], parameters()).unwrap();
    refused(forest.predict_oob(&x), 9, "keep_samples");
    let kept = RandomForestRegressor::fit(&x, &[0.0; 3], parameters().with_keep_samples(true));
    let other = DenseMatrix::from_2d_array(&[[1.0]]).unwrap();
    refused(
        kept.unwrap().predict_oob(&other),
        10,
        "the rows that the forest was fitted on",
    );
}

#[test]
fn tables() {
    let x = DenseMatrix::from_2d_array(&[[1.0], [2.0], [3.0]]).unwrap();
    let forest = RandomForestRegressor::fit(&x, &[0.0, 1.0, 5.0], parameters()).unwrap();
    let starts = forest.starts().to_vec();
    let table = |starts: &[u32], nodes: &Nodes| {
        RandomForestRegressor::from_table(1, starts.to_vec(), nodes.clone())
    };
    assert!(table(&starts, forest.nodes()).is_ok());
    refused(table(&[], forest.nodes()), 1, "0 trees");
    refused(
        table(&[1, 2], forest.nodes()),
        8,
        "the table of starts is wrong at position 0",
    );
    refused(
        table(&[0, 0], forest.nodes()),
        8,
        "the table of starts is wrong at position 1",
    );
    refused(
        table(&[0, u32::MAX], forest.nodes()),
        8,
        "the table of starts is wrong at position 1",
    );
    refused(
        DecisionTreeRegressor::from_table(1, Nodes::default()),
        8,
        "node 0 of tree 0",
    );
    refused(
        DecisionTreeRegressor::from_table(0, Nodes::default()),
        1,
        "0 features",
    );
}

#[test]
fn a_table_that_loops() {
    let x = DenseMatrix::from_2d_array(&[[1.0], [2.0], [3.0]]).unwrap();
    let forest = RandomForestRegressor::fit(&x, &[0.0, 1.0, 5.0], parameters()).unwrap();
    let starts = forest.starts().to_vec();
    let mut loops = forest.nodes().clone();
    let at = loops
        .true_child
        .iter()
        .position(|child| *child > 0)
        .unwrap();
    let tree = starts.iter().filter(|start| **start as usize <= at).count() - 1;
    let node = at - starts[tree] as usize;
    loops.true_child[at] = node as u32;
    let sentence = format!("node {node} of tree {tree} is neither a leaf nor a valid split");
    refused(
        RandomForestRegressor::from_table(1, starts, loops),
        8,
        &sentence,
    );
}
