//! What stands behind nodes and predictions: counts and masses by their definition, and where they are not known.

mod common;

use common::{Maker, small};
use tailboardy::{
    Behind, Cause, Counts, DecisionTreeRegressor, DecisionTreeRegressorParameters, DenseMatrix,
    Draws, Fitting, Given, Kind, Listings, Node, Nodes, RandomForestRegressor,
    RandomForestRegressorParameters, Support, Tree,
};

/// A forest and what it was fitted on.
struct Fitted {
    x: DenseMatrix,
    weights: Vec<f64>,
    counts: Counts,
    listings: Listings,
    forest: RandomForestRegressor,
}

/// With any counts, or with any weights.
fn fitted(made: &mut Maker) -> Fitted {
    let (rows, features) = (1 + made.up_to(30), 1 + made.up_to(3));
    let (x, y) = (made.matrix(rows, features), made.numbers(rows));
    let parameters = made.parameters();
    let (weights, counts) = match made.chance(2) {
        true => (
            made.weights(rows),
            Counts::ones(parameters.n_trees, rows).unwrap(),
        ),
        false => (vec![], made.counts(parameters.n_trees, rows)),
    };
    let listings = Listings::sorted(&x);
    let given = Given {
        x: &x,
        y: &y,
        weights: &weights,
        counts: &counts,
        listings: &listings,
    };
    let draws = Draws::seeded(&given, parameters);
    let forest = RandomForestRegressor::fit_given(&given, &draws, parameters).unwrap();
    Fitted {
        x,
        weights,
        counts,
        listings,
        forest,
    }
}

impl Fitted {
    /// What stands behind the nodes of one tree, from the rows: each is sent down the table, and the masses are added up in the order of the
    /// listing that the node above is split by. The root's mass is that of all rows, in their own order.
    fn by_hand(&self, number: usize, tree: &Tree) -> Behind {
        let (nodes, counts) = (
            tree.nodes().collect::<Vec<Node>>(),
            self.counts.of_tree(number),
        );
        let weight = |row: usize| self.weights.get(row).copied();
        let mass = |row: usize| f64::from(counts[row]) * weight(row).unwrap_or(1.0);
        let kept = |row: &usize| counts[*row] > 0 && weight(*row).is_none_or(|it| it > 0.0);
        let mut rows = vec![Vec::new(); nodes.len()];
        rows[0] = (0..counts.len()).filter(kept).collect();
        let mut behind = Behind {
            count: vec![0; nodes.len()],
            mass: vec![0.0; nodes.len()],
        };
        behind.mass[0] = (0..counts.len()).fold(0.0, |sum, row| sum + mass(row));
        for (number, node) in nodes.iter().enumerate() {
            let own = std::mem::take(&mut rows[number]);
            behind.count[number] = own.iter().map(|row| counts[*row]).sum();
            let Kind::Split(split) = node.kind else {
                continue;
            };
            let listing = self.listings.column(split.feature).unwrap();
            for row in listing.iter().map(|row| *row as usize) {
                if own.contains(&row) {
                    let goes = self.x.get((row, split.feature)).unwrap() <= split.threshold;
                    let child = split.false_child - usize::from(goes);
                    behind.mass[child] += mass(row);
                    rows[child].push(row);
                }
            }
        }
        behind
    }
}

/// The bits of masses.
fn bits(masses: &[f64]) -> Vec<u64> {
    masses.iter().map(|it| it.to_bits()).collect()
}

fn same(one: &Behind, other: &Behind) -> bool {
    one.count == other.count && bits(&one.mass) == bits(&other.mass)
}

#[test]
fn counts_and_masses_are_by_their_definition() {
    let mut made = Maker::new(106);
    for _ in 0..400 {
        let fitted = fitted(&mut made);
        let mut all = Behind::default();
        for (number, tree) in fitted.forest.trees().enumerate() {
            let own = fitted.by_hand(number, &tree);
            let report = fitted.forest.reports()[number];
            assert_eq!(own.mass[0].to_bits(), report.root_mass.to_bits());
            all.count.extend(own.count);
            all.mass.extend(own.mass);
        }
        let behind = fitted.forest.behind().unwrap();
        assert!(same(behind, &all), "{behind:?} {all:?}");
    }
}

/// Both sides of a split have together what it has. Without weights a mass is a count.
#[test]
fn counts_add_up() {
    let (mut made, mut splits) = (Maker::new(107), 0);
    for _ in 0..100 {
        let (x, y) = made.plain(40, 3);
        let parameters = made.parameters().with_n_trees(5);
        let forest = RandomForestRegressor::fit(&x, &y, parameters).unwrap();
        for tree in forest.trees() {
            let nodes: Vec<Node> = tree.nodes().collect();
            assert_eq!(
                nodes[0].count,
                Some(40),
                "each bag has as many as there are"
            );
            for (number, node) in nodes.iter().enumerate() {
                assert_eq!(tree.node(number), Some(*node));
                let count = node.count.unwrap();
                assert_eq!(node.mass, Some(f64::from(count)));
                assert!(number == 0 || count >= parameters.min_samples_leaf);
                if let Kind::Split(split) = node.kind {
                    let side = |child: usize| nodes[child].count.unwrap();
                    assert_eq!(side(split.true_child) + side(split.false_child), count);
                    splits += 1;
                }
            }
        }
    }
    assert!(splits > 1000, "{splits}");
}

/// A forest of several threads is put together from parts, and so is what stands behind it.
#[test]
fn threads_change_nothing_behind() {
    let (x, y) = Maker::new(108).plain(120, 3);
    let fit = |threads: usize| {
        let parameters = RandomForestRegressorParameters::default().with_n_threads(threads);
        RandomForestRegressor::fit(&x, &y, parameters).unwrap()
    };
    let (one, many) = (fit(1), fit(5));
    assert!(same(one.behind().unwrap(), many.behind().unwrap()));
    assert_eq!(one.behind().unwrap().count.len(), one.nodes().len());
    assert_eq!(one.support(&x).unwrap(), many.support(&x).unwrap());
}

/// What a forest of the same trees predicts whose values are the counts, or the masses.
#[test]
fn support_is_predicted() {
    let mut made = Maker::new(109);
    for _ in 0..300 {
        let Fitted { x, forest, .. } = fitted(&mut made);
        let (rows, features) = (1 + made.up_to(12), x.shape().1);
        let new = made.matrix(rows, features);
        let predicted = |value: Vec<f64>| {
            let nodes = Nodes {
                value,
                ..forest.nodes().clone()
            };
            let starts = forest.starts().to_vec();
            let stored = RandomForestRegressor::from_table(features, starts, nodes).unwrap();
            stored.predict_trees(&new).unwrap()
        };
        let Behind { count, mass } = forest.behind().unwrap().clone();
        let counts = predicted(count.into_iter().map(f64::from).collect());
        let masses = predicted(mass);
        let support = forest.support(&new).unwrap();
        for row in 0..rows {
            let of: Vec<f64> = counts.iter().map(|tree| tree[row]).collect();
            let told = support.counts(row).unwrap().iter().copied();
            assert_eq!(told.map(f64::from).collect::<Vec<_>>(), of);
            let of: Vec<f64> = masses.iter().map(|tree| tree[row]).collect();
            assert_eq!(bits(support.masses(row).unwrap()), bits(&of));
        }
        assert_eq!((support.len(), support.n_trees()), (rows, forest.n_trees()));
    }
}

/// Trees that are a single leaf each, with these bags of one row.
fn leaves(counts: &[u32]) -> Support {
    let x = DenseMatrix::from_2d_array(&[[1.0]]).unwrap();
    let given = Given {
        x: &x,
        y: &[5.0],
        weights: &[],
        counts: &Counts::new(counts.len(), 1, counts.to_vec()).unwrap(),
        listings: &Listings::sorted(&x),
    };
    let draws = Draws::seeded(&given, Default::default());
    let forest = RandomForestRegressor::fit_given(&given, &draws, Default::default()).unwrap();
    forest.support(&x).unwrap()
}

/// Of an even number the lower of the two in the middle.
#[test]
fn medians_by_hand() {
    for (counts, median) in [
        (&[7][..], 7),
        (&[9, 2], 2),
        (&[9, 2, 3], 3),
        (&[1, 40, 2, 30], 2),
        (&[5, 5, 1, 1, 5], 5),
        (&[0, 0, 0, 65_535], 0),
        (&[65_535, 65_535, 0], 65_535),
    ] {
        let support = leaves(counts);
        assert_eq!(support.counts(0), Some(counts));
        assert_eq!(support.median_count(0), Some(median), "{counts:?}");
        assert_eq!(support.median_count(1), None);
        assert_eq!((support.counts(1), support.masses(1)), (None, None));
        assert_eq!(support.counts(usize::MAX), None);
    }
}

/// Three bars at one height and one at another: by hand, for each tree and each prediction.
#[test]
fn a_small_rig_by_hand() {
    let x = DenseMatrix::from_2d_array(&[[6.0], [6.0], [6.0], [8.0]]).unwrap();
    let y = [1.0, 2.0, 3.0, 9.0];
    let new = DenseMatrix::from_2d_array(&[[5.0], [7.0], [7.5]]).unwrap();
    let plain = DecisionTreeRegressorParameters::default();
    let of = |weights: &[f64], parameters: DecisionTreeRegressorParameters| {
        let tree = Fitting::new(&x, &y).with_weights(weights).tree(parameters);
        let support = tree.unwrap().support(&new).unwrap();
        let row = |row: usize| {
            (
                support.counts(row).unwrap()[0],
                support.masses(row).unwrap()[0],
            )
        };
        [row(0), row(1), row(2)]
    };
    assert_eq!(of(&[], plain), [(3, 3.0), (3, 3.0), (1, 1.0)]);
    // a row that weighs nothing is not kept, and does not count
    let weights = [0.5, 0.0, 2.0, 4.0];
    assert_eq!(of(&weights, plain), [(2, 2.5), (2, 2.5), (1, 4.0)]);
    let whole = plain.with_min_samples_leaf(2);
    assert_eq!(of(&[], whole), [(4, 4.0); 3]);
    // nothing is kept
    assert_eq!(of(&[0.0; 4], plain), [(0, 0.0); 3]);
    assert_eq!(of(&[-0.0; 4], plain), [(0, 0.0); 3]);
}

/// A model file and a table do not have it, and say so instead of zero.
#[test]
fn what_was_stored_has_none() {
    let (x, y) = Maker::new(110).plain(20, 2);
    let forest = RandomForestRegressor::fit(&x, &y, Default::default()).unwrap();
    let read = RandomForestRegressor::from_model_bytes(&forest.model_bytes().unwrap()).unwrap();
    let (starts, nodes) = (forest.starts().to_vec(), forest.nodes().clone());
    let table = RandomForestRegressor::from_table(2, starts, nodes).unwrap();
    let told = "refusal 101 (no support): a table of nodes or a model file does not say how many rows are in a leaf: \
                use what was fitted, or fit again";
    for stored in [read, table, small()] {
        assert_eq!(stored.behind(), None);
        for tree in stored.trees() {
            let known = |node: Node| node.count.is_some() || node.mass.is_some();
            assert!(!tree.nodes().any(known) && !tree.node(0).is_some_and(known));
            assert_eq!(tree.support(&x).unwrap_err().cause(), Cause::NoSupport);
        }
        let refusal = stored.support(&x).unwrap_err();
        assert_eq!(
            (refusal.to_string().as_str(), refusal.fault()),
            (told, None)
        );
    }
    let tree = DecisionTreeRegressor::fit(&x, &y, Default::default()).unwrap();
    assert_eq!(tree.support(&x).unwrap().len(), 20);
    let stored = DecisionTreeRegressor::from_table(2, tree.nodes().clone()).unwrap();
    assert_eq!(
        (stored.behind(), stored.node(0).unwrap().count),
        (None, None)
    );
    assert_eq!(stored.support(&x).unwrap_err().number(), 101);
}

/// Weights whose sum is not finite: the library returns it, and the crate does not pass it on as a support.
#[test]
fn a_mass_that_is_not_finite_is_refused() {
    let x = DenseMatrix::from_2d_array(&[[1.0], [2.0], [2.0]]).unwrap();
    let given = Given {
        x: &x,
        y: &[0.0, 1.0, 1.0],
        weights: &[1.0, f64::MAX, f64::MAX],
        counts: &Counts::ones(1, 3).unwrap(),
        listings: &Listings::sorted(&x),
    };
    let parameters = RandomForestRegressorParameters::default();
    let draws = Draws::seeded(&given, parameters);
    let forest = RandomForestRegressor::fit_given(&given, &draws, parameters).unwrap();
    assert_eq!(forest.behind().unwrap().count, [3, 1, 2]);
    assert_eq!(
        forest.behind().unwrap().mass,
        [f64::INFINITY, 1.0, f64::INFINITY]
    );
    let refusal = forest.support(&x).unwrap_err();
    assert!(
        refusal
            .to_string()
            .starts_with("refusal 100 (not finite): the mass of node 2 of tree 0 is inf; "),
        "{refusal}"
    );
    let first = DenseMatrix::from_2d_array(&[[1.0]]).unwrap();
    assert_eq!(forest.support(&first).unwrap().masses(0), Some(&[1.0][..]));
}

/// More rows than a call takes.
#[test]
fn many_rows_have_support_too() {
    let (x, y) = Maker::new(111).plain(50, 1);
    let parameters = RandomForestRegressorParameters::default().with_n_trees(2);
    let forest = RandomForestRegressor::fit(&x, &y, parameters).unwrap();
    let rows = tailboardy::MAX_ROWS + 5;
    let many = DenseMatrix::new(rows, 1, vec![0.5; rows], false).unwrap();
    let support = forest.support(&many).unwrap();
    assert_eq!(support.len(), rows);
    assert_eq!(support.counts(0), support.counts(rows - 1));
    let none = DenseMatrix::new(0, 1, vec![], false).unwrap();
    assert_eq!(forest.support(&none).unwrap_err().number(), 1);
    let wide = DenseMatrix::from_2d_array(&[[1.0, 2.0]]).unwrap();
    assert_eq!(forest.support(&wide).unwrap_err().number(), 2);
}
