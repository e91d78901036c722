//! Fits from a seed.

use crate::counts::Counts;
use crate::draws::{Draws, Source};
use crate::fault::Fault;
use crate::forest::RandomForestRegressor;
use crate::given::Given;
use crate::grow::{self, Watch};
use crate::listings::Listings;
use crate::matrix::DenseMatrix;
use crate::parameters::{DecisionTreeRegressorParameters, RandomForestRegressorParameters};
use crate::refusal::{Cause, Refusal};
use crate::tree::DecisionTreeRegressor;
use crate::{finite, sizes};
use std::borrow::Cow;

/// A fit from a seed with more options than [`RandomForestRegressor::fit`]: your own listings, weights, and a function that is told
/// about progress.
///
/// ```
/// use std::sync::atomic::{AtomicUsize, Ordering};
/// use tailboardy::{DenseMatrix, Fitting, Listings};
///
/// let x = DenseMatrix::from_2d_array(&[[7.5], [6.8], [7.1], [7.3]])?;
/// let y = [3.0, 1.0, 2.0, 2.5];
/// let listings = Listings::from_columns(&[[1, 2, 3, 0]])?;
/// let stand = AtomicUsize::new(0);
/// let watch = |trees: usize, _all: usize| { stand.fetch_max(trees, Ordering::Relaxed); };
///
/// let fitting = Fitting::new(&x, &y)
///     .with_weights(&[1.0, 1.0, 2.0, 1.0])
///     .with_listings(&listings)
///     .with_watch(&watch);
/// fitting.check()?;
/// let forest = fitting.forest(Default::default())?;
/// assert_eq!(forest.n_trees(), 100);
/// assert_eq!(stand.into_inner(), 100);
/// # Ok::<(), tailboardy::Refusal>(())
/// ```
#[derive(Clone)]
#[must_use]
pub struct Fitting<'a> {
    x: &'a DenseMatrix,
    y: &'a [f64],
    weights: &'a [f64],
    listings: Option<&'a Listings>,
    watch: Watch<'a>,
}

impl<'a> Fitting<'a> {
    /// A fit on feature values and targets.
    pub fn new(x: &'a DenseMatrix, y: &'a [f64]) -> Self {
        Fitting {
            x,
            y,
            weights: &[],
            listings: None,
            watch: &|_, _| (),
        }
    }

    /// Adds weights, one per row; an empty slice means no weights.
    pub fn with_weights(mut self, weights: &'a [f64]) -> Self {
        self.weights = weights;
        self
    }

    /// Uses these listings instead of sorting the rows.
    pub fn with_listings(mut self, listings: &'a Listings) -> Self {
        self.listings = Some(listings);
        self
    }

    /// Adds a function that is called from time to time with the number of trees grown so far and the number of all trees. It is called
    /// from several threads.
    pub fn with_watch(mut self, watch: &'a (dyn Fn(usize, usize) + Sync)) -> Self {
        self.watch = watch;
        self
    }

    /// Checks that the data and listings can be used. The proved library makes all the checks of a fit and then grows only a root.
    ///
    /// ```
    /// use tailboardy::{DenseMatrix, Fitting, Listings};
    ///
    /// let x = DenseMatrix::from_2d_array(&[[7.5], [6.8], [7.1]])?;
    /// let damaged = Listings::from_columns(&[[1, 2, 2]])?;
    /// let y = [3.0, 1.0, 2.0];
    /// assert!(Fitting::new(&x, &y).check().is_ok());
    /// let refusal = Fitting::new(&x, &y).with_listings(&damaged).check().unwrap_err();
    /// assert_eq!(refusal.number(), 12);
    /// # Ok::<(), tailboardy::Refusal>(())
    /// ```
    ///
    /// # Errors
    ///
    /// As [`tree`](Self::tree).
    pub fn check(&self) -> Result<(), Refusal> {
        let root = DecisionTreeRegressorParameters::default().with_max_depth(1);
        self.tree(root).map(|_| ())
    }

    /// Fits a forest from a seed; see [`RandomForestRegressor::fit`].
    ///
    /// ```
    /// use tailboardy::{DenseMatrix, Fitting, RandomForestRegressorParameters};
    ///
    /// let x = DenseMatrix::from_2d_array(&[[7.5], [6.8], [7.1]])?;
    /// let parameters = RandomForestRegressorParameters::default().with_n_trees(5);
    /// let forest = Fitting::new(&x, &[3.0, 1.0, 2.0]).forest(parameters)?;
    /// assert_eq!(forest.n_trees(), 5);
    /// # Ok::<(), tailboardy::Refusal>(())
    /// ```
    ///
    /// # Errors
    ///
    /// As [`RandomForestRegressor::fit`], and refusal 2 for listings of another shape, and 11, 12 or 13 for damaged ones.
    pub fn forest(
        &self,
        parameters: RandomForestRegressorParameters,
    ) -> Result<RandomForestRegressor, Refusal> {
        let (rows, features) = self.x.shape();
        sizes::check(rows, features, parameters.n_trees)?;
        let counts = self.counts(&parameters)?;
        let listings = self.listings();
        let given = Given {
            x: self.x,
            y: self.y,
            weights: if parameters.bootstrap {
                &[]
            } else {
                self.weights
            },
            counts: &counts,
            listings: &listings,
        };
        let grown = grow::grow(&given, &parameters, self.watch)?;
        let weighed = !given.weights.is_empty();
        let masses = grown.reports.iter().map(|report| report.root_mass);
        finite::grown(&grown.nodes, &grown.starts, masses, weighed)?;
        let kept = parameters.keep_samples.then_some(counts);
        Ok(RandomForestRegressor::grown(features, grown, kept))
    }

    /// Fits one tree on all rows; see [`DecisionTreeRegressor::fit`].
    ///
    /// ```
    /// use tailboardy::{DenseMatrix, Fitting};
    ///
    /// let x = DenseMatrix::from_2d_array(&[[7.5], [6.8], [7.1]])?;
    /// let tree = Fitting::new(&x, &[3.0, 1.0, 2.0]).tree(Default::default())?;
    /// assert_eq!(&*tree.predict(&x)?, [3.0, 1.0, 2.0]);
    /// # Ok::<(), tailboardy::Refusal>(())
    /// ```
    ///
    /// # Errors
    ///
    /// As [`DecisionTreeRegressor::fit`], and refusal 2 for listings of another shape, and 11, 12 or 13 for damaged ones.
    pub fn tree(
        &self,
        parameters: DecisionTreeRegressorParameters,
    ) -> Result<DecisionTreeRegressor, Refusal> {
        let (rows, features) = self.x.shape();
        sizes::check(rows, features, 1)?;
        let counts = Counts::ones(1, rows)?;
        let listings = self.listings();
        let given = Given {
            x: self.x,
            y: self.y,
            weights: self.weights,
            counts: &counts,
            listings: &listings,
        };
        let mut draws = Draws::none();
        let settings = parameters.settings(features);
        Source::new(&given, settings, parameters.seed).draw(0, &mut draws);
        let tree = DecisionTreeRegressor::fit_given(&given, &draws, parameters)?;
        let weighed = !given.weights.is_empty();
        let mass = tree.report().map(|report| report.root_mass);
        finite::grown(tree.nodes(), &[0], mass.into_iter(), weighed)?;
        Ok(tree)
    }

    fn listings(&self) -> Cow<'a, Listings> {
        match self.listings {
            Some(own) => Cow::Borrowed(own),
            None => Cow::Owned(Listings::sorted(self.x)),
        }
    }

    /// How many times each row is in each bag. The number of weights is checked here, because the bags are drawn by them.
    fn counts(&self, parameters: &RandomForestRegressorParameters) -> Result<Counts, Refusal> {
        let (trees, rows) = (parameters.n_trees, self.x.shape().0);
        let (is, asked) = (self.weights.len(), rows);
        match (parameters.bootstrap, self.weights) {
            (false, _) => Counts::ones(trees, rows),
            (true, []) => Counts::drawn(trees, rows, parameters.seed),
            (true, weights) if is == asked => {
                Counts::drawn_by_weight(trees, weights, parameters.seed)
            }
            (true, _) => Err(Refusal::new(
                Cause::Lengths,
                Fault::Length {
                    list: "weights",
                    is,
                    asked,
                },
            )),
        }
    }
}

impl RandomForestRegressor {
    /// Fits a forest: sorts the listings and draws bags, orders and thresholds from the seed in plain Rust, and grows the trees with
    /// the proved library. [`Fitting`] has more options; [`fit_given`](Self::fit_given) uses no seed at all.
    ///
    /// ```
    /// use tailboardy::{DenseMatrix, RandomForestRegressor, RandomForestRegressorParameters};
    ///
    /// let x = DenseMatrix::from_2d_array(&[[7.5], [6.8], [7.1]])?;
    /// let parameters = RandomForestRegressorParameters::default().with_seed(7);
    /// let forest = RandomForestRegressor::fit(&x, &[3.0, 1.0, 2.0], parameters)?;
    /// assert_eq!(forest.n_trees(), 100);
    ///
    /// // every number is finite, but not their sum
    /// let refusal = RandomForestRegressor::fit(&x, &[1.7e308; 3], parameters).unwrap_err();
    /// assert_eq!(refusal.number(), 100);
    /// # Ok::<(), tailboardy::Refusal>(())
    /// ```
    ///
    /// # Errors
    ///
    /// Refusal 1 if the number of rows, features or trees is out of range, 2 if there is not one target or weight per row, 3 if a number is
    /// not finite or a weight is below 0, and 100 if sums or squares of the numbers are not finite.
    pub fn fit(
        x: &DenseMatrix,
        y: &[f64],
        parameters: RandomForestRegressorParameters,
    ) -> Result<Self, Refusal> {
        Fitting::new(x, y).forest(parameters)
    }

    /// Fits a forest with weights. As in smartcore, they decide how often a row is drawn into the bags or, without bags (`bootstrap`
    /// false), are used by the trees themselves. An empty slice means a fit without weights. If all weights are 0, every tree is a
    /// single leaf with value 0.
    ///
    /// ```
    /// use tailboardy::{DenseMatrix, RandomForestRegressor};
    ///
    /// let x = DenseMatrix::from_2d_array(&[[7.5], [6.8], [7.1]])?;
    /// let (y, weights) = ([3.0, 1.0, 2.0], [1.0, 0.0, 0.0]);
    /// let forest = RandomForestRegressor::fit_with_weights(&x, &y, &weights, Default::default())?;
    /// assert_eq!(&*forest.predict(&x)?, [3.0; 3]);
    /// # Ok::<(), tailboardy::Refusal>(())
    /// ```
    ///
    /// # Errors
    ///
    /// As [`fit`](Self::fit).
    pub fn fit_with_weights(
        x: &DenseMatrix,
        y: &[f64],
        weights: &[f64],
        parameters: RandomForestRegressorParameters,
    ) -> Result<Self, Refusal> {
        Fitting::new(x, y).with_weights(weights).forest(parameters)
    }
}

impl DecisionTreeRegressor {
    /// Fits a tree on all rows: sorts the listings and draws from the seed in plain Rust, and grows the tree with the proved library.
    ///
    /// ```
    /// use tailboardy::{DecisionTreeRegressor, DecisionTreeRegressorParameters, DenseMatrix};
    ///
    /// let x = DenseMatrix::from_2d_array(&[[7.5], [6.8], [7.1]])?;
    /// let parameters = DecisionTreeRegressorParameters::default().with_max_depth(2);
    /// let tree = DecisionTreeRegressor::fit(&x, &[3.0, 1.0, 1.0], parameters)?;
    /// assert_eq!(&*tree.predict(&x)?, [3.0, 1.0, 1.0]);
    /// # Ok::<(), tailboardy::Refusal>(())
    /// ```
    ///
    /// # Errors
    ///
    /// Refusal 1 if the number of rows, features or trees is out of range, 2 if there is not one target or weight per row, 3 if a number is
    /// not finite or a weight is below 0, and 100 if sums or squares of the numbers are not finite.
    pub fn fit(
        x: &DenseMatrix,
        y: &[f64],
        parameters: DecisionTreeRegressorParameters,
    ) -> Result<Self, Refusal> {
        Fitting::new(x, y).tree(parameters)
    }

    /// The same with weights, one per row.
    ///
    /// ```
    /// use tailboardy::{DecisionTreeRegressor, DenseMatrix};
    ///
    /// let x = DenseMatrix::from_2d_array(&[[7.5], [7.5]])?;
    /// let tree = DecisionTreeRegressor::fit_with_weights(&x, &[0.0, 4.0], &[1.0, 3.0], Default::default())?;
    /// assert_eq!(&*tree.predict(&x)?, [3.0; 2]);
    /// # Ok::<(), tailboardy::Refusal>(())
    /// ```
    ///
    /// # Errors
    ///
    /// As [`fit`](Self::fit).
    pub fn fit_with_weights(
        x: &DenseMatrix,
        y: &[f64],
        weights: &[f64],
        parameters: DecisionTreeRegressorParameters,
    ) -> Result<Self, Refusal> {
        Fitting::new(x, y).with_weights(weights).tree(parameters)
    }
}
