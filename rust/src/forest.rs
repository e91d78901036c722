//! Forests.

use crate::behind::Behind;
use crate::columns::{Nodes, over};
use crate::counts::Counts;
use crate::draws::Draws;
use crate::given::Given;
use crate::matrix::DenseMatrix;
use crate::nodes::{Tree, check_forest};
use crate::parameters::RandomForestRegressorParameters;
use crate::refusal::Refusal;
use crate::results::{Importances, Means, OutOfBagMeans, Report};
use crate::rooms::{self, Grown, Work};
use crate::{explain, finite, parts, sizes};

/// A fitted forest.
///
/// ```
/// use tailboardy::{DenseMatrix, RandomForestRegressor, RandomForestRegressorParameters};
///
/// // trim height and truss offset of eight fixtures, and the pan correction that each was given
/// let x = DenseMatrix::from_2d_array(&[
///     [7.5, -3.0], [7.5, -1.0], [7.4, 1.0], [7.4, 3.0],
///     [6.2, -3.0], [6.2, -1.0], [6.1, 1.0], [6.1, 3.0],
/// ])?;
/// let y = [-21.5, -7.5, 7.5, 22.0, -26.0, -9.0, 9.5, 26.0];
///
/// let parameters = RandomForestRegressorParameters::default().with_keep_samples(true);
/// let forest = RandomForestRegressor::fit(&x, &y, parameters)?;
/// assert_eq!((forest.n_trees(), forest.n_features()), (100, 2));
///
/// // the next house
/// let new = DenseMatrix::from_2d_array(&[[7.0, -2.0], [7.0, 2.0]])?;
/// let pan = forest.predict(&new)?;
/// assert!(pan[0] < -5.0 && pan[1] > 5.0);
///
/// // how far off the trees are on fixtures that they did not see, which were in none of their bags, and which feature matters most
/// assert_eq!(forest.samples().map(|bags| bags.shape()), Some((100, 8)));
/// let error = forest.predict_oob(&x)?.error(&y)?;
/// assert!(error.error.sqrt() < 15.0 && error.rows == 8);
/// assert_eq!(forest.compute_feature_importances()?.ranked()[0].0, 1);
/// # Ok::<(), tailboardy::Refusal>(())
/// ```
#[derive(Debug, Clone)]
pub struct RandomForestRegressor {
    features: usize,
    starts: Vec<u32>,
    nodes: Nodes,
    behind: Option<Behind>,
    reports: Vec<Report>,
    counts: Option<Counts>,
}

impl RandomForestRegressor {
    /// A direct call of the proved library: fits a forest from the given counts, listings and draws, with as many trees as there are
    /// counts for. The number of trees, seed, threads and bootstrap of the parameters are ignored.
    ///
    /// ```
    /// use tailboardy::{Counts, DenseMatrix, Draws, Given, Listings, RandomForestRegressor};
    ///
    /// let x = DenseMatrix::from_2d_array(&[[1.0], [2.0], [3.0], [4.0]])?;
    /// let y = [0.0, 0.0, 10.0, 10.0];
    /// let (counts, listings) = (Counts::ones(1, 4)?, Listings::sorted(&x));
    /// let mut draws = Draws::none();
    /// draws.push_tree(&[0, 0, 0], &[]);
    /// let given = Given { x: &x, y: &y, weights: &[], counts: &counts, listings: &listings };
    /// let forest = RandomForestRegressor::fit_given(&given, &draws, Default::default())?;
    /// assert_eq!(forest.nodes().threshold, [2.5, 1.5, 3.5, 0.0, 0.0, 0.0, 0.0]);
    /// assert_eq!(forest.reports()[0].searches, 3);
    ///
    /// // one order is missing
    /// draws = Draws::none();
    /// draws.push_tree(&[0, 0], &[]);
    /// let refusal = RandomForestRegressor::fit_given(&given, &draws, Default::default()).unwrap_err();
    /// assert_eq!(refusal.number(), 7);
    /// # Ok::<(), tailboardy::Refusal>(())
    /// ```
    ///
    /// # Errors
    ///
    /// The library's refusals 1 to 4, 7 and 11 to 13, and no other: whatever is grown is returned, even if a value or a score in it is
    /// not finite.
    pub fn fit_given(
        given: &Given,
        draws: &Draws,
        parameters: RandomForestRegressorParameters,
    ) -> Result<Self, Refusal> {
        let (rows, features) = given.x.shape();
        let trees = given.counts.shape().0;
        sizes::check(rows, features, trees)?;
        let mut work = Work::new((rows, features));
        let settings = parameters.settings();
        let grown = rooms::fit_forest(given, 0..trees, &settings, draws, &mut work)
            .map_err(|it| explain::fit(&it, given, trees, Some(draws)))?;
        let kept = parameters.keep_samples.then(|| given.counts.clone());
        Ok(RandomForestRegressor::grown(features, grown, kept))
    }

    pub(crate) fn grown(features: usize, grown: Grown, counts: Option<Counts>) -> Self {
        RandomForestRegressor {
            features,
            starts: grown.starts,
            nodes: grown.nodes,
            behind: Some(grown.behind),
            reports: grown.reports,
            counts,
        }
    }

    /// From a table that is known to be valid.
    pub(crate) fn stored(features: usize, starts: Vec<u32>, nodes: Nodes) -> Self {
        RandomForestRegressor {
            features,
            starts,
            nodes,
            behind: None,
            reports: Vec::new(),
            counts: None,
        }
    }

    /// Makes a forest from a stored table: where each tree starts and the last one ends, and the nodes. The proved library checks the
    /// table and refuses a damaged one (8). The forest has no reports and no counts, and nothing [`behind`](Self::behind) its nodes.
    ///
    /// ```
    /// # use tailboardy::{DenseMatrix, RandomForestRegressor};
    /// # let x = DenseMatrix::from_2d_array(&[[1.0], [2.0], [3.0], [4.0]])?;
    /// # let forest = RandomForestRegressor::fit(&x, &[0.0, 0.0, 10.0, 10.0], Default::default())?;
    /// let (starts, nodes) = (forest.starts().to_vec(), forest.nodes().clone());
    /// let again = RandomForestRegressor::from_table(1, starts, nodes)?;
    /// assert_eq!(again.predict(&x)?, forest.predict(&x)?);
    ///
    /// let mut damaged = forest.nodes().clone();
    /// damaged.true_child[0] = 0;
    /// let refusal = RandomForestRegressor::from_table(1, forest.starts().to_vec(), damaged).unwrap_err();
    /// assert_eq!(refusal.number(), 8);
    /// # Ok::<(), tailboardy::Refusal>(())
    /// ```
    ///
    /// # Errors
    ///
    /// Refusal 1 if the number of features or trees is out of range, and 8 if the table is damaged.
    pub fn from_table(
        features: usize,
        starts: Vec<u32>,
        mut nodes: Nodes,
    ) -> Result<Self, Refusal> {
        check_forest(features, &starts, nodes.columns())?;
        nodes.keep(starts.last().map_or(0, |end| *end as usize));
        Ok(RandomForestRegressor::stored(features, starts, nodes))
    }

    /// The mean of the trees' predictions for each row, as smartcore's `predict_mean`. There may be any number of rows: the library takes
    /// [`MAX_ROWS`](crate::MAX_ROWS) at a time, so more are predicted by several calls.
    ///
    /// ```
    /// use tailboardy::{DenseMatrix, MAX_ROWS, RandomForestRegressor};
    ///
    /// let x = DenseMatrix::from_2d_array(&[[1.0], [2.0], [3.0], [4.0]])?;
    /// let forest = RandomForestRegressor::fit(&x, &[0.0, 0.0, 10.0, 10.0], Default::default())?;
    /// let rows = MAX_ROWS + 1;
    /// let many = DenseMatrix::new(rows, 1, vec![1.0; rows], false)?;
    /// assert_eq!(forest.predict(&many)?.len(), rows);
    ///
    /// let wide = DenseMatrix::from_2d_array(&[[1.0, 2.0]])?;
    /// assert_eq!(forest.predict(&wide).unwrap_err().number(), 2);
    /// # Ok::<(), tailboardy::Refusal>(())
    /// ```
    ///
    /// # Errors
    ///
    /// Refusal 1 if there are no rows, 2 if they do not have [`n_features`](Self::n_features) values each, and 100 if a mean is not
    /// finite.
    pub fn predict(&self, x: &DenseMatrix) -> Result<Means, Refusal> {
        let (features, trees) = (self.features, self.n_trees());
        let columns = self.nodes.columns();
        parts::predict(
            x,
            features,
            |rows, values, out| over!(forest_means(rows, features, trees, values, &self.starts; columns; out)),
        )
    }

    /// The predictions of each tree, one after another, which tell how far the trees agree. For many trees and rows this takes a lot of
    /// memory; [`trees`](Self::trees) gives the trees one by one.
    ///
    /// ```
    /// # use tailboardy::{DenseMatrix, RandomForestRegressor};
    /// # let x = DenseMatrix::from_2d_array(&[[1.0], [2.0], [3.0], [4.0]])?;
    /// # let forest = RandomForestRegressor::fit(&x, &[0.0, 0.0, 10.0, 10.0], Default::default())?;
    /// let each = forest.predict_trees(&x)?;
    /// let mut of_row: Vec<f64> = each.iter().map(|tree| tree[2]).collect();
    /// of_row.sort_by(f64::total_cmp);
    /// assert_eq!((of_row[0], of_row[99]), (0.0, 10.0));
    /// # Ok::<(), tailboardy::Refusal>(())
    /// ```
    ///
    /// # Errors
    ///
    /// As [`predict`](Self::predict).
    pub fn predict_trees(&self, x: &DenseMatrix) -> Result<Vec<Means>, Refusal> {
        self.trees().map(|tree| tree.predict(x)).collect()
    }

    /// For each row that the forest was fitted on, the mean over the trees that left it out, as smartcore's `predict_mean_oob`. It
    /// requires `keep_samples` and the same rows as the fit; different rows of the same number cannot be detected.
    ///
    /// ```
    /// use tailboardy::{DenseMatrix, RandomForestRegressor, RandomForestRegressorParameters};
    ///
    /// let x = DenseMatrix::from_2d_array(&[[1.0], [2.0], [3.0], [4.0]])?;
    /// let y = [0.0, 0.0, 10.0, 10.0];
    /// let parameters = RandomForestRegressorParameters::default().with_keep_samples(true);
    /// let means = RandomForestRegressor::fit(&x, &y, parameters)?.predict_oob(&x)?;
    /// assert!(means.get(0) < means.get(3));
    ///
    /// let not_kept = RandomForestRegressor::fit(&x, &y, Default::default())?;
    /// assert_eq!(not_kept.predict_oob(&x).unwrap_err().number(), 9);
    /// # Ok::<(), tailboardy::Refusal>(())
    /// ```
    ///
    /// # Errors
    ///
    /// Refusal 1 if the number of rows is out of range, 9 without `keep_samples`, 10 if there are not as many rows as in the fit, 2 if they
    /// do not have [`n_features`](Self::n_features) values each, and 100 if a mean is not finite.
    pub fn predict_oob(&self, x: &DenseMatrix) -> Result<OutOfBagMeans, Refusal> {
        let (rows, trees) = (x.shape().0, self.n_trees());
        let mut out = sizes::room(rows, self.features, trees)?;
        let counts = self.counts.as_ref().map_or(&[][..], Counts::numbers);
        let columns = self.nodes.columns();
        let number = over!(out_of_bag_means(
            rows, self.features, trees, x.values(), counts, &self.starts; columns; &mut out
        ));
        match (number, &self.counts) {
            (0, Some(counts)) => finite::out_of_bag(out, counts).map(OutOfBagMeans),
            (9 | 10, _) => Err(Refusal::of(number, None)),
            _ => Err(Refusal::of(number, explain::reader(x, self.features))),
        }
    }

    /// How important each feature is: the mean of the trees' importances. They add up to 1, or to 0 if no tree has a split.
    ///
    /// ```
    /// use tailboardy::{DenseMatrix, RandomForestRegressor};
    ///
    /// // the second feature is the same everywhere
    /// let x = DenseMatrix::from_2d_array(&[[1.0, 7.0], [2.0, 7.0], [3.0, 7.0]])?;
    /// let forest = RandomForestRegressor::fit(&x, &[5.0, 6.0, 7.0], Default::default())?;
    /// assert_eq!(&*forest.compute_feature_importances()?, [1.0, 0.0]);
    /// # Ok::<(), tailboardy::Refusal>(())
    /// ```
    ///
    /// # Errors
    ///
    /// Refusal 100 if the scores of a tree, or their sum, are not finite.
    pub fn compute_feature_importances(&self) -> Result<Importances, Refusal> {
        for (number, tree) in self.trees().enumerate() {
            finite::scores(number, tree.scores())?;
        }
        let mut out = vec![0.0; self.features];
        let columns = self.nodes.columns();
        let number = over!(forest_importances(
            self.features, self.n_trees(), &self.starts; columns; &mut out
        ));
        match number {
            0 => finite::all("importance of feature", out).map(Importances),
            number => Err(Refusal::of(number, None)),
        }
    }

    /// The number of trees.
    #[must_use]
    pub fn n_trees(&self) -> usize {
        self.starts.len().saturating_sub(1)
    }

    /// The number of features that rows must have.
    #[must_use]
    pub fn n_features(&self) -> usize {
        self.features
    }

    /// One tree.
    #[must_use]
    pub fn tree(&self, tree: usize) -> Option<Tree<'_>> {
        let (start, end) = (self.starts.get(tree)?, self.starts.get(tree + 1)?);
        let part = *start as usize..*end as usize;
        Some(Tree {
            features: self.features,
            columns: self.nodes.columns().part(&part),
            behind: self.behind.as_ref().map(|it| it.part(&part)),
        })
    }

    /// All trees.
    pub fn trees(&self) -> impl Iterator<Item = Tree<'_>> {
        (0..self.n_trees()).filter_map(|tree| self.tree(tree))
    }

    /// What the fit reported about each tree; empty for a forest made from a table or a model file.
    #[must_use]
    pub fn reports(&self) -> &[Report] {
        &self.reports
    }

    /// All trees' nodes.
    #[must_use]
    pub fn nodes(&self) -> &Nodes {
        &self.nodes
    }

    /// How many rows stand behind each node, and how much they weigh; `None` for a forest made from a table or a model file.
    ///
    /// ```
    /// # use tailboardy::{DenseMatrix, RandomForestRegressor};
    /// # let x = DenseMatrix::from_2d_array(&[[1.0], [2.0], [3.0], [4.0]])?;
    /// # let forest = RandomForestRegressor::fit(&x, &[0.0, 0.0, 10.0, 10.0], Default::default())?;
    /// // every bag has as many rows as there are, some of them more than once
    /// let behind = forest.behind().unwrap();
    /// let roots = &forest.starts()[..forest.n_trees()];
    /// assert!(roots.iter().all(|root| behind.count[*root as usize] == 4));
    /// # Ok::<(), tailboardy::Refusal>(())
    /// ```
    #[must_use]
    pub fn behind(&self) -> Option<&Behind> {
        self.behind.as_ref()
    }

    /// Where each tree starts among the nodes, and where the last one ends.
    #[must_use]
    pub fn starts(&self) -> &[u32] {
        &self.starts
    }

    /// How many times each row was in each tree's bag, if that was kept.
    #[must_use]
    pub fn samples(&self) -> Option<&Counts> {
        self.counts.as_ref()
    }
}
