//! Inputs of any shape with any numbers: every call gives a result, or a refusal with a message.

mod common;

use common::Maker;
use tailboardy::{
    Counts, DecisionTreeRegressor, DecisionTreeRegressorParameters, DenseMatrix, Draws, Fitting,
    Given, Listings, Nodes, RandomForestRegressor, Refusal,
};

/// How many answers there were, then refusals by number: 1 to 13, then 18, and last the crate's own, 100 and 101.
type Tally = [usize; 17];

fn told<T>(answer: Result<T, Refusal>, tally: &mut Tally) -> Option<T> {
    match answer {
        Ok(answer) => {
            tally[0] += 1;
            Some(answer)
        }
        Err(refusal) => {
            let number = refusal.number() as usize;
            assert!(
                matches!(number, 1..=4 | 7..=13 | 18 | 100 | 101),
                "{refusal}"
            );
            let asks_a_place = !matches!(number, 9 | 10 | 101);
            assert_eq!(refusal.fault().is_some(), asks_a_place, "{refusal:?}");
            let place = match number {
                18 => 14,
                100 => 15,
                101 => 16,
                _ => number,
            };
            tally[place] += 1;
            None
        }
    }
}

/// The least number of answers, and of refusals by number.
fn held(tally: Tally, least: Tally) {
    let enough = tally.iter().zip(least).all(|(is, least)| *is >= least);
    assert!(enough, "{tally:?}");
}

impl Maker {
    /// Mostly of the right length.
    fn about(&mut self, asked: usize) -> usize {
        match self.chance(15) {
            true => self.up_to(asked + 2),
            false => asked,
        }
    }

    fn any_numbers(&mut self, length: usize) -> Vec<f64> {
        match self.chance(3) {
            true => (0..length).map(|_| self.any_number()).collect(),
            false => self.numbers(length),
        }
    }

    fn any_matrix(&mut self, rows: usize, features: usize) -> DenseMatrix {
        let (rows, features) = (self.about(rows), self.about(features));
        let values = self.any_numbers(rows * features);
        DenseMatrix::new(rows, features, values, false).unwrap()
    }

    fn any_listings(&mut self, x: &DenseMatrix) -> Listings {
        let (rows, features) = x.shape();
        let sorted = Listings::sorted(x);
        let columns: Vec<Vec<u32>> = (0..self.about(features))
            .map(|feature| {
                let mut column = sorted.column(feature).unwrap_or_default().to_vec();
                column.resize(rows, 0);
                if self.chance(10) && rows > 0 {
                    let place = self.up_to(rows - 1);
                    match self.chance(2) {
                        true => column.swap(place, rows - 1 - place),
                        false => column[place] = self.one_of(&[0, rows as u32, u32::MAX]),
                    }
                }
                column
            })
            .collect();
        Listings::from_columns(&columns).unwrap()
    }

    fn any_draws(&mut self, trees: usize, features: usize) -> Draws {
        let mut draws = Draws::none();
        for _ in 0..self.about(trees) {
            let searches = self.up_to(12);
            let words: Vec<u32> = (0..searches * features)
                .map(|at| (at % features) as u32)
                .collect();
            let thresholds = self.any_numbers(searches);
            draws.push_tree(&words, &thresholds);
        }
        if self.chance(10) {
            let at = self.up_to(draws.word_starts.len() - 1);
            draws.word_starts[at] = self.one_of(&[0, 1, usize::MAX]);
        }
        draws
    }
}

#[test]
fn seeded() {
    let (mut made, mut tally) = (Maker::new(31), [0; 17]);
    for _ in 0..4000 {
        let (rows, features) = (made.up_to(12), made.up_to(4));
        let x = made.any_matrix(rows, features);
        let y = made.about(x.shape().0);
        let y = made.any_numbers(y);
        let weighed = made.about(x.shape().0);
        let weights = match made.chance(2) {
            true => vec![],
            false => made.weights(weighed),
        };
        let mut parameters = made.parameters();
        parameters.n_trees = made.about(parameters.n_trees);
        parameters.keep_samples = made.chance(2);
        let listings = made.any_listings(&x);
        let mut fitting = Fitting::new(&x, &y).with_weights(&weights);
        if made.chance(2) {
            fitting = fitting.with_listings(&listings);
        }
        told(fitting.check(), &mut tally);
        let tree = DecisionTreeRegressorParameters::default()
            .with_splitter(parameters.splitter)
            .with_cuts(parameters.cuts);
        told(fitting.tree(tree), &mut tally);
        if let Some(forest) = told(fitting.forest(parameters), &mut tally) {
            read(&mut made, &forest, &x, &y, &mut tally);
        }
    }
    let least = [
        5000, 500, 500, 500, 0, 0, 0, 0, 0, 100, 10, 100, 20, 100, 10, 500, 0,
    ];
    held(tally, least);
    assert_eq!(tally[7], 0, "a seed's draws are good");
    assert_eq!(tally[16], 0, "what was fitted has support");
}

fn read(
    made: &mut Maker,
    forest: &RandomForestRegressor,
    x: &DenseMatrix,
    y: &[f64],
    tally: &mut Tally,
) {
    let (rows, features) = x.shape();
    let other = made.any_matrix(rows, features);
    told(forest.predict(&other), tally);
    let support = told(forest.support(&other), tally);
    assert!(support.is_none_or(|it| it.median_count(0).is_some()));
    if let Some(means) = told(forest.predict_oob(&other), tally) {
        told(means.error(y), tally);
    }
    let shares = told(forest.compute_feature_importances(), tally);
    assert!(shares.is_none_or(|it| it.len() == features));
    for tree in forest.trees() {
        told(tree.predict(&other), tally);
        let shares = told(tree.compute_feature_importances(), tally);
        assert!(shares.is_none_or(|it| it.len() == features));
    }
}

#[test]
fn shapes_that_no_memory_holds() {
    let endless = [(usize::MAX, 0), (0, usize::MAX), (0, 1 << 32)];
    for (rows, features) in endless {
        let x = DenseMatrix::new(rows, features, vec![], false).unwrap();
        let (counts, listings) = (Counts::ones(1, 1).unwrap(), Listings::sorted(&x));
        #[rustfmt::skip]
        let given = Given { x: &x, y: &[], weights: &[], counts: &counts, listings: &listings };
        let draws = Draws::seeded(&given, Default::default());
        let mut tally = [0; 17];
        told(
            RandomForestRegressor::fit_given(&given, &draws, Default::default()),
            &mut tally,
        );
        told(Fitting::new(&x, &[]).forest(Default::default()), &mut tally);
        told(Fitting::new(&x, &[]).tree(Default::default()), &mut tally);
        told(listings.check(&x), &mut tally);
        assert_eq!(tally[1], 4);
    }
}

#[test]
fn lent() {
    let (mut made, mut tally) = (Maker::new(32), [0; 17]);
    for _ in 0..4000 {
        let (rows, features) = (1 + made.up_to(6), 1 + made.up_to(2));
        let x = made.any_matrix(rows, features);
        let y = made.about(rows);
        let y = made.any_numbers(y);
        let (trees, counted) = (1 + made.up_to(2), 1 + made.about(rows - 1));
        let counts = match made.chance(3) {
            true => Counts::ones(trees, counted).unwrap(),
            false => made.counts(trees, counted),
        };
        let weights = match made.chance(4) {
            true => made.weights(rows),
            false => vec![],
        };
        let listings = made.any_listings(&x);
        #[rustfmt::skip]
        let given = Given { x: &x, y: &y, weights: &weights, counts: &counts, listings: &listings };
        let parameters = made.parameters();
        let draws = match made.chance(2) {
            true => made.any_draws(trees, features),
            false => Draws::seeded(&given, parameters),
        };
        let forest = RandomForestRegressor::fit_given(&given, &draws, parameters);
        told(forest, &mut tally);
        let tree = DecisionTreeRegressor::fit_given(&given, &draws, Default::default());
        told(tree, &mut tally);
    }
    let least = [
        500, 50, 500, 500, 50, 0, 0, 300, 0, 0, 0, 100, 20, 100, 0, 0, 0,
    ];
    held(tally, least);
}

#[test]
fn tables() {
    let (mut made, mut tally) = (Maker::new(33), [0; 17]);
    for _ in 0..4000 {
        let (x, y) = (made.matrix(8, 2), made.numbers(8));
        let parameters = made.parameters().with_n_trees(2);
        let Some(forest) = told(RandomForestRegressor::fit(&x, &y, parameters), &mut tally) else {
            continue;
        };
        let (mut starts, mut nodes) = (forest.starts().to_vec(), forest.nodes().clone());
        for _ in 0..made.up_to(2) {
            damage(&mut made, &mut starts, &mut nodes);
        }
        let features = made.about(2);
        let again = RandomForestRegressor::from_table(features, starts, nodes.clone());
        if let Some(again) = told(again, &mut tally) {
            told(again.predict(&x), &mut tally);
            told(again.support(&x), &mut tally);
            let shares = told(again.compute_feature_importances(), &mut tally);
            assert!(shares.is_none_or(|it| it.iter().sum::<f64>() < 1.5));
        }
        if let Some(tree) = told(
            DecisionTreeRegressor::from_table(features, nodes),
            &mut tally,
        ) {
            told(tree.predict(&x), &mut tally);
            told(tree.support(&x), &mut tally);
        }
    }
    let least = [
        3000, 10, 10, 0, 0, 0, 0, 0, 1000, 0, 0, 0, 0, 0, 0, 100, 1000,
    ];
    held(tally, least);
}

fn damage(made: &mut Maker, starts: &mut Vec<u32>, nodes: &mut Nodes) {
    let any = [0, 1, 2, 3, 1000, u32::MAX - 1, u32::MAX];
    match made.up_to(4) {
        0 => {
            let at = made.up_to(starts.len() - 1);
            starts[at] = made.one_of(&any);
        }
        1 => drop(starts.pop()),
        2 => drop(nodes.score.pop()),
        _ => {
            let column = match made.up_to(2) {
                0 => &mut nodes.feature,
                1 => &mut nodes.true_child,
                _ => &mut nodes.false_child,
            };
            let at = made.up_to(column.len() - 1);
            column[at] = made.one_of(&any);
        }
    }
}
