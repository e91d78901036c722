//! Cuts at the midpoint and at a measured value: the same trees but for their thresholds.

mod common;

use common::{Maker, bits, same};
use tailboardy::{
    Counts, Cuts, DecisionTreeRegressor, DecisionTreeRegressorParameters, DenseMatrix, Draws,
    Fitting, Given, Kind, Listings, Node, Nodes, RandomForestRegressor,
    RandomForestRegressorParameters, Splitter,
};

fn tree(cuts: Cuts) -> DecisionTreeRegressorParameters {
    DecisionTreeRegressorParameters::default().with_cuts(cuts)
}

/// The bits of some numbers, which tell zeros of both signs apart.
fn exact(numbers: impl IntoIterator<Item = f64>) -> Vec<u64> {
    numbers.into_iter().map(f64::to_bits).collect()
}

/// The rehearsal table's first input, and a tree of each kind beside it.
#[test]
fn thresholds_are_midpoints_or_measured() {
    assert_eq!(Cuts::default(), Cuts::Midpoint);
    let x = DenseMatrix::from_2d_array(&[[1.0], [2.0], [3.0], [4.0]]).unwrap();
    let between = DenseMatrix::from_2d_array(&[[2.0], [2.1], [2.5], [2.6]]).unwrap();
    let y = [0.0, 0.0, 10.0, 10.0];
    let plain = DecisionTreeRegressor::fit(&x, &y, Default::default()).unwrap();
    for (cuts, thresholds, means) in [
        (Cuts::Midpoint, [2.5, 1.5, 3.5], [0.0, 0.0, 0.0, 10.0]),
        (Cuts::Measured, [2.0, 1.0, 3.0], [0.0, 10.0, 10.0, 10.0]),
    ] {
        let alone = DecisionTreeRegressor::fit(&x, &y, tree(cuts)).unwrap();
        let forest = RandomForestRegressorParameters::default()
            .with_cuts(cuts)
            .with_bootstrap(false);
        let forest = RandomForestRegressor::fit(&x, &y, forest).unwrap();
        assert_eq!(alone.nodes().threshold[..3], thresholds);
        assert_eq!(forest.nodes().threshold[..3], thresholds);
        assert_eq!(&*alone.predict(&x).unwrap(), y);
        assert_eq!(&*alone.predict(&between).unwrap(), means);
        assert_eq!(&*forest.predict(&between).unwrap(), means);
        let as_plain = bits(alone.nodes()) == bits(plain.nodes());
        assert_eq!(as_plain, cuts == Cuts::Midpoint);
    }
}

/// Where a midpoint cannot lie between two values, both choices are the lower.
#[test]
fn corners_of_the_midpoint_are_measured_values() {
    let next = 1.0 + f64::EPSILON;
    for [low, high] in [
        [next, next + f64::EPSILON],
        [-1.7e308, 1.7e308],
        [5e-324, 1e-323],
    ] {
        let x = DenseMatrix::from_2d_array(&[[low], [high]]).unwrap();
        for cuts in [Cuts::Midpoint, Cuts::Measured] {
            let tree = DecisionTreeRegressor::fit(&x, &[0.0, 1.0], tree(cuts)).unwrap();
            assert_eq!(tree.nodes().threshold[0], low, "{low} {high} {cuts:?}");
        }
    }
}

/// Two trees that differ in their thresholds only. Gives how many differ.
fn differ_in_thresholds(midpoint: &Nodes, measured: &Nodes) -> usize {
    let (one, other) = (bits(midpoint), bits(measured));
    assert_eq!(one.len(), other.len());
    let mut differ = 0;
    for (at, (one, other)) in one.iter().zip(other).enumerate() {
        let [value, feature, _, score, yes, no] = *one;
        let threshold = other[2];
        assert_eq!([value, feature, threshold, score, yes, no], other);
        assert!(measured.threshold[at] <= midpoint.threshold[at]);
        differ += usize::from(one[2] != threshold);
    }
    differ
}

/// Each threshold is a value of its feature in one of these rows.
fn are_measured(nodes: impl Iterator<Item = Node>, x: &DenseMatrix, rows: &[usize]) {
    for node in nodes {
        if let Kind::Split(split) = node.kind {
            let column = rows.iter().map(|row| x.get((*row, split.feature)).unwrap());
            assert!(exact(column).contains(&split.threshold.to_bits()));
        }
    }
}

/// Whatever is given, with ties and both zeros: nodes, values, scores, reports and importances are the same, each threshold is measured, and
/// the rows that a tree is grown on reach the same leaves.
#[test]
fn forests_differ_in_their_thresholds_only() {
    let (mut made, mut differ) = (Maker::new(51), 0);
    for _ in 0..400 {
        let (rows, features) = (1 + made.up_to(30), 1 + made.up_to(3));
        let (x, y) = (made.matrix(rows, features), made.numbers(rows));
        let parameters = made.parameters().with_splitter(Splitter::Best);
        let counts = made.counts(parameters.n_trees, rows);
        let given = Given {
            x: &x,
            y: &y,
            weights: &[],
            counts: &counts,
            listings: &Listings::sorted(&x),
        };
        let draws = Draws::seeded(&given, parameters);
        let [midpoint, measured] = [Cuts::Midpoint, Cuts::Measured].map(|cuts| {
            let parameters = parameters.with_cuts(cuts);
            RandomForestRegressor::fit_given(&given, &draws, parameters).unwrap()
        });
        differ += differ_in_thresholds(midpoint.nodes(), measured.nodes());
        assert_eq!(midpoint.starts(), measured.starts());
        assert_eq!(midpoint.reports(), measured.reports());
        let shares = |it: &RandomForestRegressor| it.compute_feature_importances().ok();
        assert_eq!(shares(&midpoint), shares(&measured));
        for (number, (one, other)) in midpoint.trees().zip(measured.trees()).enumerate() {
            let kept: Vec<usize> = (0..rows)
                .filter(|row| counts.of_tree(number)[*row] > 0)
                .collect();
            are_measured(other.nodes(), &x, &kept);
            // a mean that is not finite is refused for either
            if let (Ok(one), Ok(other)) = (one.predict(&x), other.predict(&x)) {
                let reached = |means: &[f64]| exact(kept.iter().map(|row| means[*row]));
                assert_eq!(reached(&one), reached(&other));
            }
        }
    }
    assert!(differ > 1000, "{differ}");
}

/// The same of a tree alone, with weights.
#[test]
fn trees_differ_in_their_thresholds_only() {
    let (mut made, mut differ) = (Maker::new(52), 0);
    for _ in 0..200 {
        let (rows, features) = (1 + made.up_to(30), 1 + made.up_to(3));
        let (x, y) = (made.matrix(rows, features), made.plain(rows, 1).1);
        let weights: Vec<f64> = (0..rows)
            .map(|_| made.one_of(&[0.0, -0.0, 0.5, 3.0]))
            .collect();
        let [midpoint, measured] = [Cuts::Midpoint, Cuts::Measured]
            .map(|cuts| DecisionTreeRegressor::fit_with_weights(&x, &y, &weights, tree(cuts)))
            .map(Result::unwrap);
        differ += differ_in_thresholds(midpoint.nodes(), measured.nodes());
        assert_eq!(midpoint.report(), measured.report());
        let shares = |it: &DecisionTreeRegressor| it.compute_feature_importances(false).unwrap();
        assert_eq!(shares(&midpoint), shares(&measured));
        let kept: Vec<usize> = (0..rows).filter(|row| weights[*row] > 0.0).collect();
        are_measured(measured.tree().nodes(), &x, &kept);
        let reached = |it: &DecisionTreeRegressor| {
            let means = it.predict(&x).unwrap();
            exact(kept.iter().map(|row| means[*row]))
        };
        assert_eq!(reached(&midpoint), reached(&measured));
    }
    assert!(differ > 500, "{differ}");
}

/// Of zeros of both signs the threshold is the first in the listing that the tree is grown on.
#[test]
fn a_zero_keeps_the_sign_of_the_first() {
    let root = |zeros: [f64; 2], listing: [u32; 3], counts: [u32; 3], cuts: Cuts| {
        let x = DenseMatrix::from_2d_array(&[[zeros[0]], [zeros[1]], [1.0]]).unwrap();
        let given = Given {
            x: &x,
            y: &[0.0, 0.0, 10.0],
            weights: &[],
            counts: &Counts::new(1, 3, counts.to_vec()).unwrap(),
            listings: &Listings::from_columns(&[listing]).unwrap(),
        };
        let mut draws = Draws::none();
        draws.push_tree(&[0; 3], &[]);
        let tree = DecisionTreeRegressor::fit_given(&given, &draws, tree(cuts)).unwrap();
        tree.nodes().threshold[0]
    };
    for (zeros, listing, counts, first) in [
        ([-0.0, 0.0], [0, 1, 2], [1, 1, 1], -0.0),
        ([-0.0, 0.0], [1, 0, 2], [1, 1, 1], 0.0),
        ([0.0, -0.0], [0, 1, 2], [1, 1, 1], 0.0),
        ([0.0, -0.0], [1, 0, 2], [1, 1, 1], -0.0),
        ([-0.0, 0.0], [0, 1, 2], [0, 1, 1], 0.0),
        ([0.0, -0.0], [0, 1, 2], [0, 1, 1], -0.0),
    ] {
        let measured = root(zeros, listing, counts, Cuts::Measured);
        assert_eq!(exact([measured]), exact([first]), "{zeros:?} {listing:?}");
        assert_eq!(root(zeros, listing, counts, Cuts::Midpoint), 0.5);
    }
    // the crate sorts rows of the same value by number
    let x = DenseMatrix::from_2d_array(&[[0.0], [-0.0], [1.0]]).unwrap();
    let fitting = Fitting::new(&x, &[0.0, 0.0, 10.0]);
    let sorted = fitting.tree(tree(Cuts::Measured)).unwrap();
    assert_eq!(exact([sorted.nodes().threshold[0]]), exact([0.0]));
}

/// The random splitter draws its thresholds whatever the choice.
#[test]
fn the_random_splitter_ignores_the_choice() {
    let mut made = Maker::new(53);
    for _ in 0..100 {
        let rows = 1 + made.up_to(30);
        let (x, y) = (made.matrix(rows, 3), made.plain(rows, 1).1);
        let parameters = made.parameters().with_splitter(Splitter::Random);
        let [midpoint, measured] = [Cuts::Midpoint, Cuts::Measured]
            .map(|cuts| RandomForestRegressor::fit(&x, &y, parameters.with_cuts(cuts)).unwrap());
        assert!(same(&midpoint, &measured));
        let [midpoint, measured] = [Cuts::Midpoint, Cuts::Measured].map(|cuts| {
            let tree = tree(cuts).with_splitter(Splitter::Random);
            DecisionTreeRegressor::fit(&x, &y, tree).unwrap()
        });
        assert_eq!(bits(midpoint.nodes()), bits(measured.nodes()));
    }
}
