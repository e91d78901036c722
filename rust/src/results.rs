//! Results of fits and readers.

use crate::fault::Fault;
use crate::finite;
use crate::refusal::Refusal;
use std::iter::{Copied, Map};
use std::ops::Deref;
use std::{slice, vec};
use tailboardy_sys::linked;

/// What a fit reports about one tree.
///
/// ```
/// use tailboardy::{DecisionTreeRegressor, DenseMatrix};
///
/// let x = DenseMatrix::from_2d_array(&[[1.0], [2.0], [3.0], [4.0]])?;
/// let tree = DecisionTreeRegressor::fit(&x, &[0.0, 0.0, 10.0, 10.0], Default::default())?;
/// let report = tree.report().unwrap();
/// assert_eq!((report.nodes, report.depth, report.root_mass), (7, 3, 4.0));
/// # Ok::<(), tailboardy::Refusal>(())
/// ```
#[derive(Debug, Clone, Copy, PartialEq)]
pub struct Report {
    /// The number of nodes.
    pub nodes: u32,
    /// The deepest level of any child, where the root is at level 1; 0 if there is no split.
    pub depth: u32,
    /// The mass of all rows: the sum of their counts, each multiplied by its weight if there are weights.
    pub root_mass: f64,
    /// The number of searches.
    pub searches: u32,
    /// The number of words of its tape that were used: features times searches.
    pub words_used: u32,
    /// The number of thresholds of its tape that were used.
    pub thresholds_used: u32,
}

/// A mean for each row, in the order of the rows. It reads like a slice, iterates over its numbers, and
/// [`into_vec`](Means::into_vec) returns them. They are all finite.
///
/// ```
/// use tailboardy::{DecisionTreeRegressor, DenseMatrix};
///
/// let x = DenseMatrix::from_2d_array(&[[1.0], [2.0], [3.0]])?;
/// let tree = DecisionTreeRegressor::fit(&x, &[5.0, 6.0, 7.0], Default::default())?;
/// let means = tree.predict(&x)?;
/// assert_eq!((means.len(), means[1]), (3, 6.0));
/// assert_eq!(means.iter().sum::<f64>(), 18.0);
/// for (row, mean) in (&means).into_iter().enumerate() {
///     println!("row {row}: {mean:.1}");
/// }
/// let halves: Vec<f64> = means.iter().map(|mean| mean / 2.0).collect();
/// assert_eq!(halves, [2.5, 3.0, 3.5]);
/// let numbers: Vec<f64> = means.into_vec();
/// assert_eq!(numbers, [5.0, 6.0, 7.0]);
/// # Ok::<(), tailboardy::Refusal>(())
/// ```
#[derive(Debug, Clone, PartialEq)]
pub struct Means(pub(crate) Vec<f64>);

/// How important each feature is: its share of what all splits gain. It reads like a slice with one entry per feature, and iterates
/// over its numbers. They are all finite.
///
/// ```
/// use tailboardy::{DenseMatrix, RandomForestRegressor};
///
/// // the second feature is the same everywhere
/// let x = DenseMatrix::from_2d_array(&[[1.0, 7.0], [2.0, 7.0], [3.0, 7.0]])?;
/// let forest = RandomForestRegressor::fit(&x, &[5.0, 6.0, 7.0], Default::default())?;
/// let importances = forest.compute_feature_importances()?;
/// assert_eq!(&*importances, [1.0, 0.0]);
/// assert_eq!(importances.ranked(), [(0, 1.0), (1, 0.0)]);
/// # Ok::<(), tailboardy::Refusal>(())
/// ```
#[derive(Debug, Clone, PartialEq)]
pub struct Importances(pub(crate) Vec<f64>);

macro_rules! list {
    ($($name:ident)*) => {$(
        impl $name {
            /// The numbers themselves.
            #[must_use]
            pub fn into_vec(self) -> Vec<f64> {
                self.0
            }
        }

        impl Deref for $name {
            type Target = [f64];
            fn deref(&self) -> &[f64] {
                &self.0
            }
        }

        impl AsRef<[f64]> for $name {
            fn as_ref(&self) -> &[f64] {
                &self.0
            }
        }

        impl From<$name> for Vec<f64> {
            fn from(of: $name) -> Self {
                of.0
            }
        }

        impl IntoIterator for $name {
            type Item = f64;
            type IntoIter = vec::IntoIter<f64>;
            fn into_iter(self) -> Self::IntoIter {
                self.0.into_iter()
            }
        }

        impl<'a> IntoIterator for &'a $name {
            type Item = &'a f64;
            type IntoIter = slice::Iter<'a, f64>;
            fn into_iter(self) -> Self::IntoIter {
                self.0.iter()
            }
        }
    )*};
}
list!(Means Importances);

impl Importances {
    /// Features with their importances, the most important first.
    #[must_use]
    pub fn ranked(&self) -> Vec<(usize, f64)> {
        let mut ranked: Vec<(usize, f64)> = self.iter().copied().enumerate().collect();
        ranked.sort_by(|a, b| b.1.total_cmp(&a.1));
        ranked
    }
}

/// For each row the mean over the trees that left it out, or `None` if it is in every tree's bag. All means are finite.
///
/// ```
/// use tailboardy::{DenseMatrix, RandomForestRegressor, RandomForestRegressorParameters};
///
/// let x = DenseMatrix::from_2d_array(&[[1.0], [2.0], [3.0], [4.0]])?;
/// let y = [0.0, 0.0, 10.0, 10.0];
/// let parameters = RandomForestRegressorParameters::default()
///     .with_n_trees(3)
///     .with_keep_samples(true);
/// let means = RandomForestRegressor::fit(&x, &y, parameters)?.predict_oob(&x)?;
/// assert_eq!(means.len(), 4);
/// assert!(!means.is_empty() && means.as_slice().len() == 4);
/// assert_eq!(means.count(), means.iter().flatten().count());
/// for (row, mean) in means.into_iter().enumerate() {
///     match mean {
///         Some(mean) => println!("row {row}: {mean:.1}"),
///         None => println!("row {row} is in every bag"),
///     }
/// }
/// # Ok::<(), tailboardy::Refusal>(())
/// ```
#[derive(Debug, Clone)]
pub struct OutOfBagMeans(pub(crate) Vec<f64>);

impl OutOfBagMeans {
    /// A row's mean, if some tree left it out.
    #[must_use]
    pub fn get(&self, row: usize) -> Option<f64> {
        self.0.get(row).copied().and_then(mean)
    }

    /// The means of all rows, in order.
    pub fn iter(&self) -> <&Self as IntoIterator>::IntoIter {
        self.into_iter()
    }

    /// The number of all rows, with and without a mean.
    #[must_use]
    pub fn len(&self) -> usize {
        self.0.len()
    }

    /// Whether there are no rows.
    #[must_use]
    pub fn is_empty(&self) -> bool {
        self.0.is_empty()
    }

    /// The numbers themselves, with NaN for a row that has no mean.
    #[must_use]
    pub fn as_slice(&self) -> &[f64] {
        &self.0
    }

    /// The number of rows that have a mean.
    #[must_use]
    pub fn count(&self) -> usize {
        self.iter().flatten().count()
    }

    /// The number of trees with which, if bags are drawn with equal chances, each of these rows is almost sure to have a mean: in at most
    /// one forest of a hundred some row has none. `None` for fewer than two rows, since a single one is in every bag.
    ///
    /// ```
    /// use tailboardy::{DenseMatrix, RandomForestRegressor, RandomForestRegressorParameters};
    ///
    /// let x = DenseMatrix::new(80, 1, (0..80).map(f64::from).collect(), false)?;
    /// let parameters = RandomForestRegressorParameters::default()
    ///     .with_n_trees(20)
    ///     .with_keep_samples(true);
    /// let means = RandomForestRegressor::fit(&x, &[1.0; 80], parameters)?.predict_oob(&x)?;
    /// assert_eq!((means.enough_trees(), means.count()), (Some(20), 80));
    /// # Ok::<(), tailboardy::Refusal>(())
    /// ```
    #[must_use]
    pub fn enough_trees(&self) -> Option<usize> {
        let rows = u16::try_from(self.0.len()).map(f64::from);
        let rows = rows.ok().filter(|rows| *rows >= 2.0)?;
        let left_out = (1.0 - 1.0 / rows).powf(rows);
        // the chance that some row has no mean is at most the sum of their chances
        let trees = (0.01 / rows).ln() / (1.0 - left_out).ln();
        Some(trees.ceil() as usize)
    }

    /// The out-of-bag error, computed by the proved library: the sum of the squared differences between target and mean, divided by the
    /// number of rows that have a mean. A row without one adds nothing and is not counted.
    ///
    /// ```
    /// use tailboardy::{DenseMatrix, RandomForestRegressor, RandomForestRegressorParameters};
    ///
    /// let x = DenseMatrix::from_2d_array(&[[1.0], [2.0], [3.0], [4.0]])?;
    /// let y = [0.0, 0.0, 10.0, 10.0];
    /// let parameters = RandomForestRegressorParameters::default().with_keep_samples(true);
    /// let means = RandomForestRegressor::fit(&x, &y, parameters)?.predict_oob(&x)?;
    /// let error = means.error(&y)?;
    /// assert!(error.error < 50.0 && error.rows == means.count());
    /// assert_eq!(means.error(&y[1..]).unwrap_err().number(), 2);
    ///
    /// let all = RandomForestRegressor::fit(&x, &y, parameters.with_bootstrap(false))?.predict_oob(&x)?;
    /// assert_eq!(
    ///     all.error(&y).unwrap_err().to_string(),
    ///     "refusal 18 (no means): each of the 4 rows is in every tree's bag; with bootstrap, 16 trees are almost sure to leave out \
    ///      each of them; use bootstrap, two rows or more, and enough trees"
    /// );
    /// # Ok::<(), tailboardy::Refusal>(())
    /// ```
    ///
    /// # Errors
    ///
    /// Refusal 2 if there is not one target per row, 18 if no row has a mean, and 100 if the error is not finite: the target of a row that
    /// has a mean is not, or a square is too large.
    pub fn error(&self, y: &[f64]) -> Result<OutOfBagError, Refusal> {
        let rows = self.0.len();
        let told = linked::out_of_bag_error(rows, y, &self.0);
        let fault = match told.number {
            0 => {
                finite::error(told.error, y, &self.0)?;
                return Ok(OutOfBagError {
                    error: told.error,
                    rows: told.rows as usize,
                });
            }
            18 => Fault::InEveryBag {
                rows,
                trees: self.enough_trees(),
            },
            _ => Fault::Length {
                list: "targets",
                is: y.len(),
                asked: rows,
            },
        };
        Err(Refusal::of(told.number, Some(fault)))
    }
}

/// The out-of-bag error of a forest, and how many rows it is over.
///
/// ```
/// use tailboardy::{DenseMatrix, RandomForestRegressor, RandomForestRegressorParameters};
///
/// let x = DenseMatrix::from_2d_array(&[[1.0], [2.0], [3.0], [4.0], [5.0], [6.0]])?;
/// let y = [0.0, 0.0, 0.0, 10.0, 10.0, 10.0];
/// let parameters = RandomForestRegressorParameters::default()
///     .with_n_trees(3)
///     .with_keep_samples(true);
/// let means = RandomForestRegressor::fit(&x, &y, parameters)?.predict_oob(&x)?;
/// let told = means.error(&y)?;
/// println!("{} over {} of {} rows", told.error, told.rows, means.len());
/// assert_eq!(told.rows, means.count());
/// if 10 * told.rows < 9 * means.len() {
///     println!("too few trees to tell");
/// }
/// # Ok::<(), tailboardy::Refusal>(())
/// ```
#[derive(Debug, Clone, Copy, PartialEq)]
pub struct OutOfBagError {
    /// The mean of the squared differences between target and out-of-bag mean.
    pub error: f64,
    /// The number of rows that have an out-of-bag mean. The error says nothing of the others.
    pub rows: usize,
}

/// The library has a NaN for a row without a mean.
fn mean(number: f64) -> Option<f64> {
    (!number.is_nan()).then_some(number)
}

impl IntoIterator for OutOfBagMeans {
    type Item = Option<f64>;
    type IntoIter = Map<vec::IntoIter<f64>, fn(f64) -> Option<f64>>;
    fn into_iter(self) -> Self::IntoIter {
        self.0.into_iter().map(mean)
    }
}

impl<'a> IntoIterator for &'a OutOfBagMeans {
    type Item = Option<f64>;
    type IntoIter = Map<Copied<slice::Iter<'a, f64>>, fn(f64) -> Option<f64>>;
    fn into_iter(self) -> Self::IntoIter {
        self.0.iter().copied().map(mean)
    }
}
