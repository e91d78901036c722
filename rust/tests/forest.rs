//! Fits and readers: the rehearsal table, and what holds for every forest.

mod common;

use common::{Maker, bits, same};
use tailboardy::{
    Cause, Counts, Cuts, DecisionTreeRegressor, DecisionTreeRegressorParameters, DenseMatrix,
    Draws, Fitting, Given, Kind, Listings, RandomForestRegressor, RandomForestRegressorParameters,
    Splitter,
};

/// The input of the rehearsal table: four rows, one feature.
struct Rehearsal {
    x: DenseMatrix,
    y: Vec<f64>,
    counts: Vec<u32>,
    parameters: DecisionTreeRegressorParameters,
}

fn rehearsal() -> Rehearsal {
    Rehearsal {
        x: DenseMatrix::new(4, 1, vec![1.0, 2.0, 3.0, 4.0], false).unwrap(),
        y: vec![0.0, 0.0, 10.0, 10.0],
        counts: vec![1; 4],
        parameters: Default::default(),
    }
}

impl Rehearsal {
    fn grown(&self) -> DecisionTreeRegressor {
        let counts = Counts::new(1, 4, self.counts.clone()).unwrap();
        let given = Given {
            x: &self.x,
            y: &self.y,
            weights: &[],
            counts: &counts,
            listings: &Listings::sorted(&self.x),
        };
        let mut draws = Draws::none();
        draws.push_tree(&[0; 8], &[]);
        DecisionTreeRegressor::fit_given(&given, &draws, self.parameters).unwrap()
    }

    /// Nodes, depth, searches.
    fn figures(&self) -> [u32; 3] {
        let tree = self.grown();
        let report = tree.report().unwrap();
        assert_eq!(report.words_used, report.searches);
        [report.nodes, report.depth, report.searches]
    }
}

#[test]
fn the_rehearsal_table_comes_out() {
    let p1 = rehearsal();
    assert_eq!(p1.figures(), [7, 3, 3]);
    let tree = p1.grown();
    assert_eq!(tree.nodes().true_child, [1, 5, 3, 0, 0, 0, 0]);
    assert_eq!(tree.nodes().threshold[..3], [2.5, 1.5, 3.5]);
    assert_eq!(tree.nodes().score[..3], [100.0, 0.0, 0.0]);
    assert_eq!(tree.node(0).unwrap().value, 5.0);
    assert_eq!(tree.behind().unwrap().count, [4, 2, 2, 1, 1, 1, 1]);
    assert_eq!(&*tree.compute_feature_importances(true).unwrap(), [1.0]);
    assert_eq!(&*tree.compute_feature_importances(false).unwrap(), [25.0]);

    let with = |parameters: DecisionTreeRegressorParameters| Rehearsal {
        parameters,
        ..rehearsal()
    };
    let plain = DecisionTreeRegressorParameters::default;
    assert_eq!(with(plain().with_max_depth(2)).figures(), [3, 2, 1]);
    assert_eq!(with(plain().with_max_depth(1)).figures(), [1, 0, 0]);
    assert_eq!(with(plain().with_max_depth(0)).figures(), [1, 0, 0]);
    assert_eq!(with(plain().with_min_samples_leaf(2)).figures(), [3, 2, 3]);
    assert_eq!(with(plain().with_min_samples_leaf(3)).figures(), [1, 0, 1]);
    assert_eq!(with(plain().with_min_samples_split(5)).figures(), [1, 0, 0]);

    let mut p7 = rehearsal();
    p7.x = DenseMatrix::new(4, 1, vec![7.0; 4], false).unwrap();
    assert_eq!(p7.figures(), [1, 0, 1]);
    let mut p9 = rehearsal();
    p9.counts = vec![0; 4];
    assert_eq!(p9.figures(), [1, 0, 0]);
    assert_eq!(p9.grown().node(0).unwrap().value, 0.0);
}

#[test]
fn a_row_left_out_is_told_by_the_others() {
    let x = DenseMatrix::new(4, 1, vec![1.0, 2.0, 3.0, 4.0], false).unwrap();
    let counts = Counts::new(1, 4, vec![2, 0, 1, 1]).unwrap();
    let listings = Listings::sorted(&x);
    for target in [0.0, -1000.0] {
        let given = Given {
            x: &x,
            y: &[0.0, target, 10.0, 10.0],
            weights: &[],
            counts: &counts,
            listings: &listings,
        };
        let parameters = RandomForestRegressorParameters::default().with_keep_samples(true);
        let draws = Draws::seeded(&given, parameters);
        let forest = RandomForestRegressor::fit_given(&given, &draws, parameters).unwrap();
        assert_eq!(forest.nodes().len(), 5);
        assert_eq!(forest.nodes().threshold[0], 2.0);
        let means = forest.predict_oob(&x).unwrap();
        assert_eq!(
            means.iter().collect::<Vec<_>>(),
            [None, Some(0.0), None, None]
        );
        let error = means.error(given.y).unwrap();
        assert_eq!((error.error, error.rows), (target * target, 1));
        assert_eq!(means.count(), 1);
    }
}

#[test]
fn without_a_mean_there_is_no_error() {
    let error = |rows: usize, y: &[f64]| {
        let x = DenseMatrix::new(rows, 1, vec![1.0; rows], false).unwrap();
        let parameters = RandomForestRegressorParameters::default()
            .with_bootstrap(false)
            .with_keep_samples(true);
        let forest = RandomForestRegressor::fit(&x, &vec![1.0; rows], parameters).unwrap();
        forest.predict_oob(&x).unwrap().error(y).unwrap_err()
    };
    for (rows, why) in [
        (1, "the only row is in every tree's bag; use bootstrap, "),
        (2, "; with bootstrap, 19 trees are almost sure to leave out"),
        (
            8,
            "each of the 8 rows is in every tree's bag; with bootstrap, 16 trees",
        ),
    ] {
        let refusal = error(rows, &vec![f64::NAN; rows]);
        assert_eq!(refusal.cause(), Cause::NoMeans);
        assert!(refusal.to_string().contains(why), "{refusal}");
    }
    assert_eq!(error(8, &[1.0; 7]).number(), 2);
}

#[test]
fn a_seeded_forest_is_one_call_with_its_draws_recorded() {
    let (mut made, mut compared) = (Maker::new(1), 0);
    for _ in 0..400 {
        let (rows, features) = (1 + made.up_to(30), 1 + made.up_to(4));
        let (x, y) = (made.matrix(rows, features), made.numbers(rows));
        let parameters = made.parameters();
        let weights = match parameters.bootstrap || made.chance(2) {
            true => vec![],
            false => made.weights(rows),
        };
        let counts = match parameters.bootstrap {
            true => Counts::drawn(parameters.n_trees, rows, parameters.seed),
            false => Counts::ones(parameters.n_trees, rows),
        };
        let given = Given {
            x: &x,
            y: &y,
            weights: &weights,
            counts: &counts.unwrap(),
            listings: &Listings::sorted(&x),
        };
        let draws = Draws::seeded(&given, parameters);
        let one_call = RandomForestRegressor::fit_given(&given, &draws, parameters).unwrap();
        held_to_its_draws(&one_call, &draws, &parameters);
        let seeded = Fitting::new(&x, &y).with_weights(&weights);
        match seeded.forest(parameters) {
            Ok(seeded) => {
                assert!(same(&seeded, &one_call));
                assert_eq!(seeded.behind(), one_call.behind());
                assert_eq!(seeded.reports(), one_call.reports());
                assert_eq!(seeded.samples(), Some(given.counts));
                compared += 1;
            }
            // one of the numbers is too large
            Err(refusal) => assert_eq!(refusal.cause(), Cause::NotFinite),
        }
    }
    assert!(compared > 150, "{compared}");
}

/// There are always enough words, and the fit uses everything that was drawn while the tree grew.
fn held_to_its_draws(
    forest: &RandomForestRegressor,
    draws: &Draws,
    parameters: &RandomForestRegressorParameters,
) {
    for (tree, report) in forest.reports().iter().enumerate() {
        let words = draws.word_starts[tree + 1] - draws.word_starts[tree];
        let thresholds = draws.threshold_starts[tree + 1] - draws.threshold_starts[tree];
        assert_eq!(report.thresholds_used as usize, thresholds);
        match parameters.splitter {
            Splitter::Random => assert_eq!(report.words_used as usize, words),
            Splitter::Best => assert!(report.words_used as usize <= words),
        }
    }
}

#[test]
fn threads_and_trees_beside_it_do_not_change_a_tree() {
    let mut made = Maker::new(2);
    let (x, y) = made.plain(200, 5);
    let parameters = |trees: usize, threads: usize| {
        RandomForestRegressorParameters::default()
            .with_n_trees(trees)
            .with_seed(11)
            .with_n_threads(threads)
    };
    let one = RandomForestRegressor::fit(&x, &y, parameters(70, 1)).unwrap();
    let many = RandomForestRegressor::fit(&x, &y, parameters(70, 8)).unwrap();
    assert!(same(&one, &many));
    let few = RandomForestRegressor::fit(&x, &y, parameters(7, 2)).unwrap();
    for (tree, alone) in few.trees().enumerate() {
        let beside = one.tree(tree).unwrap().nodes();
        assert!(alone.nodes().eq(beside));
    }
    let other = RandomForestRegressor::fit(&x, &y, parameters(70, 2).with_seed(12)).unwrap();
    assert!(!same(&one, &other));
}

#[test]
fn means_are_those_of_the_trees() {
    let mut made = Maker::new(3);
    let (x, y) = made.plain(60, 3);
    let parameters = RandomForestRegressorParameters::default()
        .with_n_trees(9)
        .with_keep_samples(true);
    let forest = RandomForestRegressor::fit(&x, &y, parameters).unwrap();
    let means = forest.predict(&x).unwrap();
    let left_out = forest.predict_oob(&x).unwrap();
    let each: Vec<_> = forest
        .trees()
        .map(|tree| tree.predict(&x).unwrap())
        .collect();
    for row in 0..60 {
        let mean = each.iter().fold(0.0, |sum, tree| sum + tree[row]) / 9.0;
        assert_eq!(means[row], mean);
        let counts = forest.samples().unwrap();
        let out = each.iter().enumerate();
        let out: Vec<_> = out
            .filter(|(tree, _)| counts.of_tree(*tree)[row] == 0)
            .collect();
        let mean = out.iter().fold(0.0, |sum, (_, tree)| sum + tree[row]) / out.len() as f64;
        assert_eq!(left_out.get(row), (!out.is_empty()).then_some(mean));
    }
}

#[test]
fn nodes_read_out_are_the_columns() {
    let mut made = Maker::new(4);
    let (x, y) = made.plain(40, 3);
    let forest = RandomForestRegressor::fit(&x, &y, Default::default()).unwrap();
    for tree in forest.trees().take(5) {
        let nodes: Vec<_> = tree.nodes().collect();
        assert_eq!(nodes.len(), tree.n_nodes());
        for (number, node) in nodes.iter().enumerate() {
            let out = tree.node(number).unwrap();
            assert_eq!(out, *node);
            if let Kind::Split(split) = node.kind {
                assert_eq!(split.false_child, split.true_child + 1);
            }
        }
        assert_eq!(tree.node(nodes.len()), None);
        assert_eq!(tree.node(usize::MAX), None);
    }
}

#[test]
fn a_tree_alone_is_a_forest_of_one_that_tries_all() {
    let mut made = Maker::new(5);
    for _ in 0..50 {
        let (x, y) = (made.matrix(25, 3), made.plain(25, 1).1);
        let splitter = made.one_of(&[Splitter::Best, Splitter::Random]);
        let cuts = made.one_of(&[Cuts::Midpoint, Cuts::Measured]);
        let weights: Vec<f64> = (0..25)
            .map(|_| made.one_of(&[0.0, -0.0, 0.5, 3.0]))
            .collect();
        let alone = DecisionTreeRegressorParameters::default()
            .with_splitter(splitter)
            .with_cuts(cuts)
            .with_seed(9);
        let alone = DecisionTreeRegressor::fit_with_weights(&x, &y, &weights, alone).unwrap();
        let one = RandomForestRegressorParameters::default()
            .with_splitter(splitter)
            .with_cuts(cuts)
            .with_n_trees(1)
            .with_bootstrap(false)
            .with_m(3)
            .with_seed(9);
        let one = RandomForestRegressor::fit_with_weights(&x, &y, &weights, one).unwrap();
        assert_eq!(bits(alone.nodes()), bits(one.nodes()));
        assert_eq!(alone.behind(), one.behind());
        assert_eq!(alone.report(), one.reports().first());
        let again = DecisionTreeRegressor::from_table(3, alone.nodes().clone()).unwrap();
        let (x2, told) = (
            made.matrix(8, 3),
            |it: &DecisionTreeRegressor, x: &DenseMatrix| {
                it.predict(x)
                    .unwrap()
                    .iter()
                    .map(|mean| mean.to_bits())
                    .collect::<Vec<_>>()
            },
        );
        assert_eq!(told(&again, &x2), told(&alone, &x2));
    }
}

#[test]
fn weights_decide_bags_or_go_to_the_trees() {
    let x = DenseMatrix::from_2d_array(&[[1.0], [2.0], [3.0], [4.0]]).unwrap();
    let (y, weights) = ([1.0, 1.0, 9.0, 9.0], [0.0, 0.0, 1.0, 2.0]);
    for bootstrap in [true, false] {
        let parameters = RandomForestRegressorParameters::default().with_bootstrap(bootstrap);
        let forest = RandomForestRegressor::fit_with_weights(&x, &y, &weights, parameters).unwrap();
        assert_eq!(&*forest.predict(&x).unwrap(), [9.0; 4]);
    }
}
