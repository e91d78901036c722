//! Results that are not finite are refused, and say which.

use tailboardy::{
    Cause, Counts, DecisionTreeRegressor, DecisionTreeRegressorParameters, DenseMatrix, Draws,
    Fitting, Given, Listings, Nodes, RandomForestRegressor, RandomForestRegressorParameters,
    Refusal,
};

fn refused<T>(answer: Result<T, Refusal>, sentence: &str) {
    let refusal = answer.map(|_| ()).unwrap_err();
    let told = refusal.to_string();
    assert_eq!(refusal.cause(), Cause::NotFinite, "{told}");
    let start = format!("refusal 100 (not finite): {sentence}; ");
    assert!(told.starts_with(&start), "{told}");
}

fn four() -> DenseMatrix {
    DenseMatrix::from_2d_array(&[[1.0], [2.0], [3.0], [4.0]]).unwrap()
}

/// Without bags, so that every tree has every row.
fn whole() -> RandomForestRegressorParameters {
    RandomForestRegressorParameters::default()
        .with_n_trees(2)
        .with_bootstrap(false)
}

/// What the proved call itself gives, whatever the numbers: a leaf for each bag.
fn given(y: &[f64], bags: &[[u32; 4]]) -> RandomForestRegressor {
    let x = four();
    let given = Given {
        x: &x,
        y,
        weights: &[],
        counts: &Counts::new(bags.len(), 4, bags.concat()).unwrap(),
        listings: &Listings::sorted(&x),
    };
    let parameters = whole().with_max_depth(1).with_keep_samples(true);
    RandomForestRegressor::fit_given(&given, &Draws::seeded(&given, parameters), parameters)
        .unwrap()
}

/// Leaves with these values, a tree each.
fn leaves(values: &[f64]) -> RandomForestRegressor {
    let none = || vec![0; values.len()];
    let nodes = Nodes {
        value: values.to_vec(),
        feature: none(),
        threshold: vec![0.0; values.len()],
        score: vec![0.0; values.len()],
        true_child: none(),
        false_child: none(),
    };
    RandomForestRegressor::from_table(1, (0..=values.len() as u32).collect(), nodes).unwrap()
}

#[test]
fn targets_that_are_too_large_to_add_up() {
    let (x, y) = (four(), [1e308; 4]);
    let forest = RandomForestRegressor::fit(&x, &y, whole());
    refused(forest, "the value of node 0 of tree 0 is inf");
    let tree = DecisionTreeRegressor::fit(&x, &y, Default::default());
    refused(tree, "the value of node 0 of tree 0 is inf");
    let checked = Fitting::new(&x, &y).check();
    refused(checked, "the value of node 0 of tree 0 is inf");
}

/// Every leaf is finite, but all cuts looked equally good: the first was taken, not the best.
#[test]
fn targets_that_are_too_large_to_square() {
    let (x, y) = (four(), [0.0, 1e160, 1e160, 1e160]);
    let forest = RandomForestRegressor::fit(&x, &y, whole());
    refused(forest, "the score of node 0 of tree 0 is inf");
    let far = DenseMatrix::from_2d_array(&[[1.0], [2.0]]).unwrap();
    let mut y = vec![0.0, 1e100];
    assert!(RandomForestRegressor::fit(&far, &y, whole()).is_ok());
    y[1] = 1e160;
    let tree = DecisionTreeRegressor::fit(&far, &y, Default::default());
    refused(tree, "the score of node 0 of tree 0 is inf");
}

#[test]
fn weights_that_are_too_large() {
    let (x, y) = (four(), [0.1, 0.2, 0.3, 0.4]);
    let fit = |weight: f64| {
        let weights = [weight; 4];
        let parameters = DecisionTreeRegressorParameters::default();
        DecisionTreeRegressor::fit_with_weights(&x, &y, &weights, parameters)
    };
    assert!(fit(1e30).is_ok());
    refused(fit(1e200), "the mass of all rows of tree 0 is 4e200");
    refused(fit(1e308), "the mass of all rows of tree 0 is inf");
}

/// Rows that weigh almost nothing beside others may be fitted and predicted, but there are no importances to speak of.
#[test]
fn weights_that_are_too_small() {
    let (x, y) = (four(), [1.0, 2.0, 9.0, 9.0]);
    let fit = |weights: [f64; 4]| {
        DecisionTreeRegressor::fit_with_weights(&x, &y, &weights, Default::default())
    };
    assert!(fit([1e-100; 4]).is_ok());
    refused(fit([1e-200; 4]), "the mass of all rows of tree 0 is 4e-200");
    let tree = fit([1e-120, 1e-120, 1e-30, 1e-30]).unwrap();
    assert_eq!(*tree.predict(&x).unwrap(), y);
    for normalize in [true, false] {
        let shares = tree.compute_feature_importances(normalize);
        refused(shares, "the scores of tree 0 add up to NaN");
    }
}

#[test]
fn predictions() {
    let x = four();
    let forest = given(&[1e308, 1e308, 1e308, 0.0], &[[1, 1, 1, 0]]);
    refused(forest.predict(&x), "the prediction of row 0 is inf");
    let tree = forest.tree(0).unwrap();
    refused(tree.predict(&x), "the prediction of row 0 is inf");
    refused(forest.predict_trees(&x), "the prediction of row 0 is inf");
    let sum = leaves(&[1.7e308, 1.7e308]);
    refused(sum.predict(&x), "the prediction of row 0 is inf");
    let none = leaves(&[1.0, f64::NAN]);
    refused(none.predict(&x), "the prediction of row 0 is NaN");
    assert_eq!(*leaves(&[1.0, 2.0]).predict(&x).unwrap(), [1.5; 4]);
}

/// A row that some tree left out has a mean, so a NaN there does not mean that it has none.
#[test]
fn out_of_bag_means() {
    let x = four();
    let forest = given(&[1e308, 1e308, 1e308, 0.0], &[[1, 1, 1, 0]]);
    refused(
        forest.predict_oob(&x),
        "the out-of-bag mean of row 3 is inf",
    );
    let both = given(&[1e308, -1e308, 0.0, 0.0], &[[2, 0, 0, 1], [0, 2, 0, 1]]);
    assert_eq!(both.nodes().value, [f64::INFINITY, f64::NEG_INFINITY]);
    refused(both.predict_oob(&x), "the out-of-bag mean of row 0 is -inf");
    let neither = given(&[1e308, -1e308, 0.0, 0.0], &[[2, 1, 0, 1], [1, 2, 0, 1]]);
    refused(
        neither.predict_oob(&x),
        "the out-of-bag mean of row 2 is NaN",
    );
    let good = given(&[1.0, 2.0, 3.0, 0.0], &[[1, 1, 1, 0]])
        .predict_oob(&x)
        .unwrap();
    assert!(good.iter().eq([None, None, None, Some(2.0)]));
}

#[test]
fn errors() {
    let means = given(&[1.0, 2.0, 3.0, 0.0], &[[1, 1, 1, 0]])
        .predict_oob(&four())
        .unwrap();
    let error = means.error(&[1.0, 2.0, 3.0, 6.0]).unwrap();
    assert_eq!((error.error, error.rows), (16.0, 1));
    let large = means.error(&[0.0, 0.0, 0.0, 1e200]);
    refused(large, "the out-of-bag error is inf");
    let none = [0.0, 0.0, 0.0, f64::NAN];
    refused(means.error(&none), "the target of row 3 is NaN");
    // a row without a mean has no part in it
    let other = [f64::NAN, 0.0, 0.0, 6.0];
    assert_eq!(means.error(&other).unwrap().error, 16.0);
    let both = [f64::NAN, 0.0, 0.0, 1e200];
    refused(means.error(&both), "the out-of-bag error is inf");
}

/// Scores whose sum is infinite would all be divided to 0.
#[test]
fn importances() {
    let score = |first: f64, second: f64| {
        let nodes = Nodes {
            value: vec![0.0; 5],
            feature: vec![0, 1, 0, 0, 0],
            threshold: vec![0.0; 5],
            score: vec![first, second, f64::INFINITY, 0.0, 0.0],
            true_child: vec![1, 3, 0, 0, 0],
            false_child: vec![2, 4, 0, 0, 0],
        };
        DecisionTreeRegressor::from_table(2, nodes.clone()).unwrap();
        RandomForestRegressor::from_table(2, vec![0, 5], nodes).unwrap()
    };
    let shares = score(1.0, 3.0).compute_feature_importances().unwrap();
    assert_eq!(*shares, [0.25, 0.75]);
    let forest = score(1e308, 1e308);
    let sentence = "the scores of tree 0 add up to inf";
    refused(forest.compute_feature_importances(), sentence);
    let tree = forest.tree(0).unwrap();
    refused(tree.compute_feature_importances(), sentence);
}
