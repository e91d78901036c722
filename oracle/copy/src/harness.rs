//! tailboardy: the harness. It passes the input to the published code, sets up the tapes, and returns the results.

use crate::ensemble::base_forest::{self, BaseForestParameters, window as forest_window};
use crate::linalg::basic::lent::Matrix;
use crate::tree::base_tree::{BaseTree, BaseTreeParameters, Splitter, window as tree_window};
use crate::tree::criterion::MSECriterion;
use crate::tree::decision_tree_regressor::{
    DecisionTreeRegressor, DecisionTreeRegressorParameters,
};
pub use rand::tape::Tape;
use rand::tape::{self, Told};

/// A node as in the rules: the feature, threshold and score of a leaf are 0.
#[derive(Clone, Copy, Debug, Default)]
pub struct NodeRecord {
    pub value: f64,
    pub feature: u32,
    pub threshold: f64,
    pub score: f64,
    pub true_child: u32,
    pub false_child: u32,
}

/// What both fits are given apart from counts and draws. An empty slice means no weights.
#[derive(Clone, Copy)]
pub struct Data<'a> {
    pub rows: usize,
    pub features: usize,
    pub x: &'a [f64],
    pub y: &'a [f64],
    pub weights: &'a [f64],
    pub listings: &'a [u32],
}

#[derive(Clone, Copy)]
pub struct Params {
    pub limit: Option<u16>,
    pub least_leaf: u32,
    pub least_split: u32,
    pub tried: usize,
    pub random: bool,
}

impl Params {
    fn splitter(&self) -> Splitter {
        match self.random {
            true => Splitter::Random,
            false => Splitter::Best,
        }
    }

    pub(crate) fn of_tree(&self, seed: u64) -> BaseTreeParameters {
        BaseTreeParameters {
            max_depth: self.limit,
            min_samples_leaf: self.least_leaf as usize,
            min_samples_split: self.least_split as usize,
            seed: Some(seed),
            splitter: self.splitter(),
        }
    }
}

/// A tree that the published code grew, and the numbers that go with it.
pub struct Grown {
    tree: tree_window::Tree,
    pub searches: usize,
    pub words_used: usize,
    pub thresholds_used: usize,
    /// The draws, if they were made and not taken from a tape.
    pub made: Tape,
}

impl Grown {
    pub(crate) fn new(tree: tree_window::Tree, told: Told) -> Self {
        assert!(
            tree_window::leaves_bare(&tree),
            "a leaf that holds a cut: the table could not tell it"
        );
        Grown {
            tree,
            searches: told.searches,
            words_used: told.words_used,
            thresholds_used: told.thresholds_used,
            made: told.made,
        }
    }
    pub fn nodes(&self) -> Vec<NodeRecord> {
        tree_window::nodes(&self.tree)
    }
    pub fn depth(&self) -> u32 {
        tree_window::depth(&self.tree)
    }
    pub fn root_mass(&self) -> f64 {
        tree_window::root_mass(&self.tree)
    }
}

/// The listings as the published code takes them.
pub(crate) fn order(data: &Data) -> Vec<Vec<usize>> {
    data.listings.chunks(data.rows).map(wide).collect()
}

pub(crate) fn wide(numbers: &[u32]) -> Vec<usize> {
    numbers.iter().map(|&number| number as usize).collect()
}

/// Grows one tree. Without a tape the draws are made from `seed`. If a draw is bad, its search is returned as the error.
pub fn grow(
    data: &Data,
    counts: &[u32],
    params: &Params,
    tape: Option<Tape>,
    seed: u64,
) -> Result<Grown, usize> {
    let x = Matrix::new(data.rows, data.features, data.x);
    tape::clear();
    if let Some(tape) = tape {
        tape::lay(tape);
    }
    let tree = BaseTree::fit_weak_learner(
        &x,
        &data.y.to_vec(),
        (!data.weights.is_empty()).then_some(data.weights),
        wide(counts),
        params.tried,
        &order(data),
        &MSECriterion,
        params.of_tree(seed),
    );
    let told = tape::told().remove(0);
    match told.bad_draw {
        Some(search) => Err(search),
        None => Ok(Grown::new(tree.expect("rows fit a u32"), told)),
    }
}

/// Trees as tables, for the readers. `root_mass` is for importances that are not normalised.
pub struct Readable {
    trees: Vec<tree_window::Tree>,
    features: usize,
}

impl Readable {
    pub fn from_tables(tables: &[&[NodeRecord]], features: usize, root_mass: f64) -> Self {
        let trees = tables.iter();
        Readable {
            trees: trees
                .map(|t| tree_window::from_table(t, root_mass))
                .collect(),
            features,
        }
    }

    /// The value of a row in the first tree: what the regressor's `predict` does for each row.
    pub fn predictions(&self, rows: usize, x: &[f64]) -> Vec<f64> {
        let x = Matrix::new(rows, self.features, x);
        (0..rows)
            .map(|row| *self.trees[0].leaf_output_for_row(&x, row))
            .collect()
    }

    pub fn tree_importances(&self, normalised: bool) -> Vec<f64> {
        let mut importances = vec![f64::NAN; self.features];
        self.trees[0].compute_feature_importances(normalised, &mut importances);
        importances
    }

    fn forest(self, in_bag: Option<Vec<Vec<bool>>>) -> forest_window::Forest {
        forest_window::from_trees(self.trees, self.features, in_bag)
    }

    pub fn means(self, rows: usize, x: &[f64]) -> Vec<f64> {
        let x = Matrix::new(rows, self.features, x);
        base_forest::predict_mean(&self.forest(None), &x).expect("a mean for each row")
    }

    pub fn means_oob(self, rows: usize, x: &[f64], counts: &[u32]) -> Vec<f64> {
        let x = Matrix::new(rows, self.features, x);
        let in_bag = counts.chunks(rows);
        let in_bag = in_bag.map(|tree| tree.iter().map(|&count| count != 0).collect());
        let forest = self.forest(Some(in_bag.collect()));
        base_forest::predict_mean_oob(&forest, &x).expect("samples are kept")
    }

    pub fn forest_importances(self) -> Vec<f64> {
        self.forest(None)
            .compute_feature_importances()
            .expect("a forest that stands")
    }
}

/// The listings that smartcore's own sort gives.
pub fn argsorted(rows: usize, features: usize, x: &[f64]) -> Vec<u32> {
    let x = Matrix::new(rows, features, x);
    (0..features)
        .flat_map(|feature| x.argsort_column(feature))
        .map(|row| row as u32)
        .collect()
}

/// A forest by smartcore's own `fit`, with bags and draws made from `seed` and recorded.
pub struct OwnFit {
    pub trees: Vec<Grown>,
    pub counts: Vec<u32>,
    pub means: Vec<f64>,
    pub means_oob: Vec<f64>,
    pub importances: Vec<f64>,
}

/// Counts of the rows drawn, with as many draws per tree as there are rows; with weights, each row once.
fn bag_counts(data: &Data, trees: usize, bag: &[usize]) -> Vec<u32> {
    let mut counts = vec![u32::from(!data.weights.is_empty()); trees * data.rows];
    for (draw, row) in bag.iter().enumerate() {
        counts[draw / data.rows * data.rows + row] += 1;
    }
    counts
}

/// If `tried` is `None`, smartcore's default is used; with weights there is no bag, because the trees use the weights themselves.
pub fn own_forest(
    data: &Data,
    params: &Params,
    trees: usize,
    tried: Option<usize>,
    seed: u64,
) -> Result<OwnFit, String> {
    let x = Matrix::new(data.rows, data.features, data.x);
    let parameters = BaseForestParameters {
        max_depth: params.limit,
        min_samples_leaf: params.least_leaf as usize,
        min_samples_split: params.least_split as usize,
        n_trees: trees,
        m: tried,
        keep_samples: true,
        seed,
        bootstrap: data.weights.is_empty(),
        splitter: params.splitter(),
    };
    let weights = (!data.weights.is_empty()).then_some(data.weights);
    let y = data.y.to_vec();
    tape::clear();
    let forest = forest_window::Forest::fit(&x, &y, weights, &MSECriterion, parameters);
    let forest = match forest {
        Ok(forest) => forest,
        Err(failed) => return Err(failed.to_string()),
    };
    // the sources of the trees are dropped one by one, and that of the forest last
    let mut told = tape::told();
    let bag = told.pop().expect("the forest's own source").bag;
    let counts = bag_counts(data, trees, &bag);
    Ok(OwnFit {
        means: base_forest::predict_mean(&forest, &x).expect("a mean for each row"),
        means_oob: base_forest::predict_mean_oob(&forest, &x).expect("samples are kept"),
        importances: forest.compute_feature_importances().expect("it stands"),
        trees: forest_window::into_trees(forest)
            .into_iter()
            .zip(told)
            .map(|(tree, told)| Grown::new(tree, told))
            .collect(),
        counts,
    })
}

/// The result of the regressor's own `fit` or `fit_with_weights`, and the draws that were made for it.
pub struct OwnTree {
    pub predictions: Vec<f64>,
    pub normalised: Vec<f64>,
    pub by_mass: Vec<f64>,
    pub made: Tape,
}

pub fn own_tree(data: &Data, params: &Params) -> Result<OwnTree, String> {
    let x = Matrix::new(data.rows, data.features, data.x);
    let parameters = DecisionTreeRegressorParameters {
        max_depth: params.limit,
        min_samples_leaf: params.least_leaf as usize,
        min_samples_split: params.least_split as usize,
        seed: None,
    };
    let y = data.y.to_vec();
    tape::clear();
    let tree = match data.weights {
        [] => DecisionTreeRegressor::fit(&x, &y, parameters),
        weights => DecisionTreeRegressor::fit_with_weights(&x, &y, weights, parameters),
    };
    let tree = tree.map_err(|failed| failed.to_string())?;
    Ok(OwnTree {
        predictions: tree.predict(&x).expect("it stands"),
        normalised: tree.compute_feature_importances(true).expect("it stands"),
        by_mass: tree.compute_feature_importances(false).expect("it stands"),
        made: tape::told().remove(0).made,
    })
}
