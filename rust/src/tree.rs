//! Trees fitted alone.

use crate::behind::Behind;
use crate::columns::Nodes;
use crate::draws::Draws;
use crate::explain;
use crate::given::Given;
use crate::matrix::DenseMatrix;
use crate::nodes::{Node, Tree, check_tree};
use crate::parameters::DecisionTreeRegressorParameters;
use crate::refusal::Refusal;
use crate::results::{Importances, Means, Report};
use crate::{rooms, sizes};

/// A tree fitted on all rows.
///
/// ```
/// use tailboardy::{DecisionTreeRegressor, DecisionTreeRegressorParameters, DenseMatrix, Kind};
///
/// // the second feature is constant, so only the first can be split
/// let x = DenseMatrix::from_2d_array(&[[0.0, 7.0], [1.0, 7.0], [2.0, 7.0], [3.0, 7.0]])?;
/// let y = [1.0, 2.0, 5.0, 6.0];
/// let parameters = DecisionTreeRegressorParameters::default().with_max_depth(2);
/// let tree = DecisionTreeRegressor::fit(&x, &y, parameters)?;
///
/// assert_eq!(&*tree.predict(&x)?, [1.5, 1.5, 5.5, 5.5]);
/// assert_eq!(&*tree.compute_feature_importances(false)?, [4.0, 0.0]);
/// assert_eq!(&*tree.compute_feature_importances(true)?, [1.0, 0.0]);
/// let Kind::Split(root) = tree.node(0).unwrap().kind else { panic!("a leaf") };
/// assert_eq!((root.feature, root.threshold), (0, 1.5));
/// # Ok::<(), tailboardy::Refusal>(())
/// ```
#[derive(Debug, Clone)]
pub struct DecisionTreeRegressor {
    features: usize,
    nodes: Nodes,
    behind: Option<Behind>,
    report: Option<Report>,
}

impl DecisionTreeRegressor {
    /// A direct call of the proved library: fits a tree from the given counts, which must be those of one tree, listings and draws. Both
    /// tapes belong to this tree as a whole. The seed of the parameters is ignored.
    ///
    /// ```
    /// use tailboardy::{Counts, DecisionTreeRegressor, DenseMatrix, Draws, Given, Listings};
    ///
    /// let x = DenseMatrix::from_2d_array(&[[1.0], [2.0], [3.0], [4.0]])?;
    /// let (counts, listings) = (Counts::new(1, 4, vec![2, 0, 1, 1])?, Listings::sorted(&x));
    /// let mut draws = Draws::none();
    /// draws.push_tree(&[0, 0, 0], &[]);
    /// let y = [0.0, 0.0, 10.0, 10.0];
    /// let given = Given { x: &x, y: &y, weights: &[], counts: &counts, listings: &listings };
    /// let tree = DecisionTreeRegressor::fit_given(&given, &draws, Default::default())?;
    /// assert_eq!(tree.nodes().threshold[0], 2.0);
    /// # Ok::<(), tailboardy::Refusal>(())
    /// ```
    ///
    /// # Errors
    ///
    /// The library's refusals 1 to 4, 7 and 11 to 13, and no other: whatever is grown is returned, even if a value or a score in it is
    /// not finite.
    pub fn fit_given(
        given: &Given,
        draws: &Draws,
        parameters: DecisionTreeRegressorParameters,
    ) -> Result<Self, Refusal> {
        let (rows, features) = given.x.shape();
        sizes::check(rows, features, 1)?;
        let (nodes, behind, report) = rooms::fit_tree(given, &parameters.settings(features), draws)
            .map_err(|it| explain::fit(&it, given, 1, None))?;
        Ok(DecisionTreeRegressor {
            features,
            nodes,
            behind: Some(behind),
            report: Some(report),
        })
    }

    /// Makes a tree from stored nodes, which the proved library checks. It has no report, and nothing [`behind`](Self::behind) its nodes.
    ///
    /// ```
    /// # use tailboardy::{DecisionTreeRegressor, DenseMatrix};
    /// # let x = DenseMatrix::from_2d_array(&[[1.0], [2.0], [3.0], [4.0]])?;
    /// # let tree = DecisionTreeRegressor::fit(&x, &[0.0, 0.0, 10.0, 10.0], Default::default())?;
    /// let again = DecisionTreeRegressor::from_table(1, tree.nodes().clone())?;
    /// assert_eq!(again.predict(&x)?, tree.predict(&x)?);
    /// # Ok::<(), tailboardy::Refusal>(())
    /// ```
    ///
    /// # Errors
    ///
    /// Refusal 1 if the number of features is out of range, and 8 if the table is damaged.
    pub fn from_table(features: usize, mut nodes: Nodes) -> Result<Self, Refusal> {
        nodes.keep(nodes.len());
        check_tree(features, nodes.columns())?;
        Ok(DecisionTreeRegressor {
            features,
            nodes,
            behind: None,
            report: None,
        })
    }

    /// A view of the tree.
    #[must_use]
    pub fn tree(&self) -> Tree<'_> {
        Tree {
            features: self.features,
            columns: self.nodes.columns(),
            behind: self
                .behind
                .as_ref()
                .map(|it| it.part(&(0..self.nodes.len()))),
        }
    }

    /// The value of the leaf that each row reaches, for any number of rows.
    ///
    /// ```
    /// use tailboardy::{DecisionTreeRegressor, DenseMatrix};
    ///
    /// let x = DenseMatrix::from_2d_array(&[[1.0], [2.0]])?;
    /// let tree = DecisionTreeRegressor::fit(&x, &[5.0, 7.0], Default::default())?;
    /// let new = DenseMatrix::from_2d_array(&[[1.5], [1.6], [f64::NAN]])?;
    /// assert_eq!(&*tree.predict(&new)?, [5.0, 7.0, 7.0]);
    /// # Ok::<(), tailboardy::Refusal>(())
    /// ```
    ///
    /// # Errors
    ///
    /// Refusal 1 if there are no rows, 2 if they do not have as many values as the tree has features, and 100 if a value is not finite.
    pub fn predict(&self, x: &DenseMatrix) -> Result<Means, Refusal> {
        self.tree().predict(x)
    }

    /// How important each feature is: the scores of the splits added up by feature, and divided by their total (`normalize` true) or by
    /// the mass of all rows. For a tree made from a table that mass is not known, so the scores are not divided.
    ///
    /// ```
    /// use tailboardy::{DecisionTreeRegressor, DenseMatrix};
    ///
    /// let x = DenseMatrix::from_2d_array(&[[1.0, 7.0], [2.0, 7.0], [3.0, 7.0], [4.0, 7.0]])?;
    /// let tree = DecisionTreeRegressor::fit(&x, &[0.0, 0.0, 10.0, 10.0], Default::default())?;
    /// assert_eq!(&*tree.compute_feature_importances(true)?, [1.0, 0.0]);
    /// assert_eq!(&*tree.compute_feature_importances(false)?, [25.0, 0.0]);
    /// # Ok::<(), tailboardy::Refusal>(())
    /// ```
    ///
    /// # Errors
    ///
    /// Refusal 100 if the scores, or their sum, are not finite.
    pub fn compute_feature_importances(&self, normalize: bool) -> Result<Importances, Refusal> {
        let mass = self.report.map_or(0.0, |report| report.root_mass);
        self.tree().importances(!normalize, mass)
    }

    /// The node with this number, if there is one; see [`Tree::node`].
    #[must_use]
    pub fn node(&self, number: usize) -> Option<Node> {
        self.tree().node(number)
    }

    /// What the fit reported; `None` for a tree made from a table.
    #[must_use]
    pub fn report(&self) -> Option<&Report> {
        self.report.as_ref()
    }

    /// The nodes.
    #[must_use]
    pub fn nodes(&self) -> &Nodes {
        &self.nodes
    }

    /// How many rows stand behind each node, and how much they weigh; `None` for a tree made from a table.
    #[must_use]
    pub fn behind(&self) -> Option<&Behind> {
        self.behind.as_ref()
    }
}
