//! How many rows stand behind predictions.

use crate::behind::{Backing, Behind};
use crate::columns::Columns;
use crate::finite;
use crate::forest::RandomForestRegressor;
use crate::matrix::DenseMatrix;
use crate::nodes::Tree;
use crate::refusal::{Cause, Refusal};
use crate::tree::DecisionTreeRegressor;

/// How many rows of the fit stand behind each prediction: for each row that is predicted, and for each tree, the count and the mass of the
/// leaf that it comes to. All masses are finite.
///
/// ```
/// use tailboardy::{DenseMatrix, RandomForestRegressor, RandomForestRegressorParameters};
///
/// // three fixtures at the left end of the truss, and one at the right
/// let x = DenseMatrix::from_2d_array(&[[-3.0], [-3.0], [-3.0], [3.0]])?;
/// let parameters = RandomForestRegressorParameters::default()
///     .with_n_trees(5)
///     .with_bootstrap(false);
/// let forest = RandomForestRegressor::fit(&x, &[-22.0, -21.0, -23.0, 22.0], parameters)?;
///
/// let new = DenseMatrix::from_2d_array(&[[-2.5], [2.5]])?;
/// let support = forest.support(&new)?;
/// assert!(!support.is_empty() && support.len() == 2 && support.n_trees() == 5);
/// assert_eq!(support.counts(0), Some(&[3; 5][..]));
/// assert_eq!(support.masses(0), Some(&[3.0; 5][..]));
/// for (row, mean) in forest.predict(&new)?.iter().enumerate() {
///     match support.median_count(row) {
///         Some(rows) if rows < 3 => println!("{mean:.1}, which rests on {rows} only"),
///         _ => println!("{mean:.1}"),
///     }
/// }
/// assert_eq!((support.median_count(0), support.median_count(1)), (Some(3), Some(1)));
/// # Ok::<(), tailboardy::Refusal>(())
/// ```
#[derive(Debug, Clone, PartialEq)]
pub struct Support {
    trees: usize,
    /// A row after another, with an entry for each tree.
    counts: Vec<u32>,
    masses: Vec<f64>,
}

impl Support {
    /// The number of rows that are predicted.
    #[must_use]
    pub fn len(&self) -> usize {
        self.counts.len() / self.trees.max(1)
    }

    /// Whether there are no rows.
    #[must_use]
    pub fn is_empty(&self) -> bool {
        self.counts.is_empty()
    }

    /// The number of trees.
    #[must_use]
    pub fn n_trees(&self) -> usize {
        self.trees
    }

    /// For each tree, how many rows of the fit are in the leaf that a row comes to, each counted as often as it is in the tree's bag. `None`
    /// if there is no such row.
    #[must_use]
    pub fn counts(&self, row: usize) -> Option<&[u32]> {
        self.counts.chunks(self.trees.max(1)).nth(row)
    }

    /// The mass of these rows for each tree: what the tree's prediction was divided by.
    #[must_use]
    pub fn masses(&self, row: usize) -> Option<&[f64]> {
        self.masses.chunks(self.trees.max(1)).nth(row)
    }

    /// The count in the middle, if a row's counts are sorted. Of the two in the middle of an even number it is the lower one, so that some
    /// tree has this count, and at least half of the trees have no more.
    ///
    /// ```
    /// use tailboardy::{Counts, DenseMatrix, Draws, Given, Listings, RandomForestRegressor};
    ///
    /// // four trees, each a single leaf, whose bags have 1, 2, 6 and 3 rows
    /// let x = DenseMatrix::from_2d_array(&[[1.0], [1.0]])?;
    /// let given = Given {
    ///     x: &x,
    ///     y: &[5.0, 7.0],
    ///     weights: &[],
    ///     counts: &Counts::new(4, 2, vec![1, 0, 1, 1, 4, 2, 0, 3])?,
    ///     listings: &Listings::sorted(&x),
    /// };
    /// let draws = Draws::seeded(&given, Default::default());
    /// let forest = RandomForestRegressor::fit_given(&given, &draws, Default::default())?;
    /// let support = forest.support(&x)?;
    /// assert_eq!(support.counts(0), Some(&[1, 2, 6, 3][..]));
    /// assert_eq!(support.median_count(0), Some(2));
    /// # Ok::<(), tailboardy::Refusal>(())
    /// ```
    #[must_use]
    pub fn median_count(&self, row: usize) -> Option<u32> {
        let mut sorted = self.counts(row)?.to_vec();
        sorted.sort_unstable();
        sorted.get((sorted.len() - 1) / 2).copied()
    }

    /// What the trees have, of which there are so many.
    fn of<'a>(
        all: impl Iterator<Item = Tree<'a>>,
        trees: usize,
        x: &DenseMatrix,
    ) -> Result<Self, Refusal> {
        let mut support = Support {
            trees,
            counts: Vec::new(),
            masses: Vec::new(),
        };
        for (number, tree) in all.enumerate() {
            let behind = tree.behind.ok_or(Refusal::bare(Cause::NoSupport))?;
            support.put(number, &behind_of(number, &tree, behind, x)?);
        }
        Ok(support)
    }

    /// Adds the counts and masses that a tree has for the rows.
    fn put(&mut self, tree: usize, behind: &Behind) {
        let rows = behind.count.len();
        self.counts.resize(self.trees * rows, 0);
        self.masses.resize(self.trees * rows, 0.0);
        for row in 0..rows {
            self.counts[row * self.trees + tree] = behind.count[row];
            self.masses[row * self.trees + tree] = behind.mass[row];
        }
    }
}

/// Count and mass of the leaf that each row comes to: what the proved library predicts with the counts, or the masses, of the nodes in the
/// place of their values.
fn behind_of(
    number: usize,
    tree: &Tree,
    behind: Backing,
    x: &DenseMatrix,
) -> Result<Behind, Refusal> {
    let predicted = |value: &[f64]| {
        let columns = Columns {
            value,
            ..tree.columns
        };
        Tree { columns, ..*tree }.predict(x)
    };
    // a number of 32 bits is the same as a float
    let counts: Vec<f64> = behind.count.iter().copied().map(f64::from).collect();
    let count = predicted(&counts)?.iter().map(|it| *it as u32).collect();
    let mass = match predicted(behind.mass) {
        Err(refusal) if refusal.cause() == Cause::NotFinite => {
            finite::leaves(number, tree.columns.true_child, behind.mass)?;
            Err(refusal)
        }
        other => other,
    };
    let mass = mass?.to_vec();
    Ok(Behind { count, mass })
}

impl Tree<'_> {
    /// How many rows of the fit are in the leaf that each row comes to; see [`RandomForestRegressor::support`].
    ///
    /// ```
    /// # use tailboardy::{DenseMatrix, RandomForestRegressor};
    /// # let x = DenseMatrix::from_2d_array(&[[1.0], [2.0], [3.0], [4.0]])?;
    /// # let forest = RandomForestRegressor::fit(&x, &[0.0, 0.0, 10.0, 10.0], Default::default())?;
    /// let all = forest.support(&x)?;
    /// let first = forest.tree(0).unwrap().support(&x)?;
    /// assert_eq!(first.counts(2), all.counts(2).map(|counts| &counts[..1]));
    /// # Ok::<(), tailboardy::Refusal>(())
    /// ```
    ///
    /// # Errors
    ///
    /// As [`RandomForestRegressor::support`].
    pub fn support(&self, x: &DenseMatrix) -> Result<Support, Refusal> {
        Support::of([*self].into_iter(), 1, x)
    }
}

impl RandomForestRegressor {
    /// How many rows of the fit stand behind each prediction: for each tree those in the leaf that the row comes to, and their mass. They
    /// are what the proved library predicts with the counts, or the masses, [`behind`](Self::behind) the nodes in the place of their
    /// values. The result takes twelve bytes for each row and tree.
    ///
    /// ```
    /// use tailboardy::{Cause, DenseMatrix, RandomForestRegressor};
    ///
    /// let x = DenseMatrix::from_2d_array(&[[1.0], [2.0], [3.0], [4.0]])?;
    /// let forest = RandomForestRegressor::fit(&x, &[0.0, 0.0, 10.0, 10.0], Default::default())?;
    /// assert_eq!(forest.support(&x)?.len(), 4);
    ///
    /// // a model file does not say how many rows are in a leaf
    /// let read = RandomForestRegressor::from_model_bytes(&forest.model_bytes()?)?;
    /// assert_eq!(read.support(&x).unwrap_err().cause(), Cause::NoSupport);
    /// # Ok::<(), tailboardy::Refusal>(())
    /// ```
    ///
    /// # Errors
    ///
    /// Refusal 101 if the forest was made from a table or read from a model file, 1 if there are no rows, 2 if they do not have
    /// [`n_features`](Self::n_features) values each, and 100 if a mass is not finite.
    pub fn support(&self, x: &DenseMatrix) -> Result<Support, Refusal> {
        Support::of(self.trees(), self.n_trees(), x)
    }
}

impl DecisionTreeRegressor {
    /// How many rows of the fit are in the leaf that each row comes to; see [`RandomForestRegressor::support`].
    ///
    /// ```
    /// use tailboardy::{DecisionTreeRegressor, DecisionTreeRegressorParameters, DenseMatrix};
    ///
    /// let x = DenseMatrix::from_2d_array(&[[1.0], [2.0], [3.0], [4.0]])?;
    /// let parameters = DecisionTreeRegressorParameters::default().with_min_samples_leaf(2);
    /// let tree = DecisionTreeRegressor::fit(&x, &[0.0, 0.0, 10.0, 10.0], parameters)?;
    /// assert_eq!(tree.support(&x)?.median_count(0), Some(2));
    /// # Ok::<(), tailboardy::Refusal>(())
    /// ```
    ///
    /// # Errors
    ///
    /// As [`RandomForestRegressor::support`].
    pub fn support(&self, x: &DenseMatrix) -> Result<Support, Refusal> {
        self.tree().support(x)
    }
}
