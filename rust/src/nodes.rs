//! Trees and their nodes, read out one by one.

use crate::behind::Backing;
use crate::columns::{Columns, over};
use crate::matrix::DenseMatrix;
use crate::refusal::Refusal;
use crate::results::{Importances, Means};
use crate::{explain, finite, parts};

/// A single node.
///
/// ```
/// use tailboardy::{DecisionTreeRegressor, DenseMatrix, Kind, Node};
///
/// let x = DenseMatrix::from_2d_array(&[[1.0], [2.0]])?;
/// let tree = DecisionTreeRegressor::fit(&x, &[5.0, 7.0], Default::default())?;
/// let leaf = Node { value: 5.0, kind: Kind::Leaf, count: Some(1), mass: Some(1.0) };
/// assert_eq!(tree.node(1), Some(leaf));
///
/// // a table of nodes does not say how many rows are in them
/// let stored = DecisionTreeRegressor::from_table(1, tree.nodes().clone())?;
/// assert_eq!(stored.node(1), Some(Node { count: None, mass: None, ..leaf }));
/// # Ok::<(), tailboardy::Refusal>(())
/// ```
#[derive(Debug, Clone, Copy, PartialEq)]
pub struct Node {
    /// The mean of the targets in the node.
    pub value: f64,
    /// A leaf, or a split and how it is made.
    pub kind: Kind,
    /// The number of rows in the node, each counted as often as it is in the tree's bag. `None` if the tree was made from a table or read
    /// from a model file, which do not have it.
    pub count: Option<u32>,
    /// The mass of these rows, which the value was divided by; see [`Behind::mass`](crate::Behind::mass). `None` in the same cases.
    pub mass: Option<f64>,
}

/// What a node is.
///
/// ```
/// use tailboardy::{Kind, Tree};
///
/// fn depth(tree: &Tree, node: usize) -> usize {
///     match tree.node(node).map(|node| node.kind) {
///         Some(Kind::Split(split)) => {
///             1 + depth(tree, split.true_child).max(depth(tree, split.false_child))
///         }
///         Some(Kind::Leaf) | None => 0,
///     }
/// }
/// # use tailboardy::{DecisionTreeRegressor, DenseMatrix};
/// # let x = DenseMatrix::from_2d_array(&[[1.0], [2.0]])?;
/// # let tree = DecisionTreeRegressor::fit(&x, &[5.0, 7.0], Default::default())?;
/// assert_eq!(depth(&tree.tree(), 0), 1);
/// # Ok::<(), tailboardy::Refusal>(())
/// ```
#[derive(Debug, Clone, Copy, PartialEq)]
pub enum Kind {
    /// Rows stop here.
    Leaf,
    /// Rows go on to one of two children.
    Split(Split),
}

/// How a node is split.
///
/// ```
/// use tailboardy::{DecisionTreeRegressor, DenseMatrix, Kind, Split};
///
/// let x = DenseMatrix::from_2d_array(&[[1.0], [2.0]])?;
/// let tree = DecisionTreeRegressor::fit(&x, &[5.0, 7.0], Default::default())?;
/// let split = Split { feature: 0, threshold: 1.5, score: 2.0, true_child: 1, false_child: 2 };
/// assert_eq!(tree.node(0).unwrap().kind, Kind::Split(split));
/// # Ok::<(), tailboardy::Refusal>(())
/// ```
#[derive(Debug, Clone, Copy, PartialEq)]
pub struct Split {
    /// The feature that is compared.
    pub feature: usize,
    /// What it is compared with.
    pub threshold: f64,
    /// How much the split gains.
    pub score: f64,
    /// The child for values at or below the threshold.
    pub true_child: usize,
    /// The child for all others.
    pub false_child: usize,
}

/// A view of one tree of a forest, or of a tree fitted alone. Its table is valid, since a fit leaves no other and any other was
/// refused.
///
/// ```
/// use tailboardy::{DenseMatrix, Kind, RandomForestRegressor};
///
/// let x = DenseMatrix::from_2d_array(&[[1.0], [2.0], [3.0], [4.0]])?;
/// let forest = RandomForestRegressor::fit(&x, &[0.0, 0.0, 10.0, 10.0], Default::default())?;
/// for tree in forest.trees() {
///     let leaves = tree.nodes().filter(|node| node.kind == Kind::Leaf).count();
///     assert_eq!(tree.n_nodes(), 2 * leaves - 1);
/// }
/// # Ok::<(), tailboardy::Refusal>(())
/// ```
#[derive(Debug, Clone, Copy)]
pub struct Tree<'a> {
    pub(crate) features: usize,
    pub(crate) columns: Columns<'a>,
    /// `None` if it was not fitted here.
    pub(crate) behind: Option<Backing<'a>>,
}

impl<'a> Tree<'a> {
    /// The number of nodes; there is always a root.
    #[must_use]
    pub fn n_nodes(&self) -> usize {
        self.columns.value.len()
    }

    /// The node with this number, if there is one, read by the proved library, except its count and mass, which are read directly from
    /// their columns. The library checks the whole table each time; [`nodes`](Tree::nodes) is the faster way to read all of them.
    #[must_use]
    pub fn node(&self, number: usize) -> Option<Node> {
        let told = over!(read_node(self.features; self.columns; number));
        (told.number == 0 && told.there).then(|| {
            let fork = Split {
                feature: told.feature as usize,
                threshold: told.threshold,
                score: told.score,
                true_child: told.true_child as usize,
                false_child: told.false_child as usize,
            };
            Node::new(told.value, fork, self.behind, number)
        })
    }

    /// All nodes in order of their numbers, read directly from the columns.
    pub fn nodes(&self) -> impl Iterator<Item = Node> + use<'a> {
        let (columns, behind) = (self.columns, self.behind);
        let value = columns.value.iter();
        let feature = value.zip(columns.feature);
        let threshold = feature.zip(columns.threshold);
        let score = threshold.zip(columns.score);
        let children = score.zip(columns.true_child).zip(columns.false_child);
        children.enumerate().map(
            move |(number, (((((value, feature), threshold), score), true_child), false_child))| {
                let fork = Split {
                    feature: *feature as usize,
                    threshold: *threshold,
                    score: *score,
                    true_child: *true_child as usize,
                    false_child: *false_child as usize,
                };
                Node::new(*value, fork, behind, number)
            },
        )
    }

    /// The scores of its splits.
    pub(crate) fn scores(&self) -> impl Iterator<Item = f64> + use<'a> {
        self.nodes().filter_map(|node| match node.kind {
            Kind::Leaf => None,
            Kind::Split(split) => Some(split.score),
        })
    }

    /// This tree's prediction for each row, for any number of rows.
    ///
    /// ```
    /// # use tailboardy::{DenseMatrix, RandomForestRegressor};
    /// # let x = DenseMatrix::from_2d_array(&[[1.0], [2.0], [3.0], [4.0]])?;
    /// # let forest = RandomForestRegressor::fit(&x, &[0.0, 0.0, 10.0, 10.0], Default::default())?;
    /// let first = forest.tree(0).unwrap();
    /// assert!(first.predict(&x)?.iter().all(|value| [0.0, 10.0].contains(value)));
    /// # Ok::<(), tailboardy::Refusal>(())
    /// ```
    ///
    /// # Errors
    ///
    /// Refusal 1 if there are no rows, 2 if they do not have as many values as the tree has features, and 100 if a value is not finite.
    pub fn predict(&self, x: &DenseMatrix) -> Result<Means, Refusal> {
        let features = self.features;
        parts::predict(
            x,
            features,
            |rows, values, out| over!(predict_tree(rows, features, values; self.columns; out)),
        )
    }

    /// This tree's importances: the scores of its splits by feature, divided by their sum.
    ///
    /// ```
    /// # use tailboardy::{DenseMatrix, RandomForestRegressor};
    /// # let x = DenseMatrix::from_2d_array(&[[1.0], [2.0], [3.0], [4.0]])?;
    /// # let forest = RandomForestRegressor::fit(&x, &[0.0, 0.0, 10.0, 10.0], Default::default())?;
    /// let first = forest.tree(0).unwrap();
    /// assert_eq!(&*first.compute_feature_importances()?, [1.0]);
    /// # Ok::<(), tailboardy::Refusal>(())
    /// ```
    ///
    /// # Errors
    ///
    /// Refusal 100 if the scores, or their sum, are not finite.
    pub fn compute_feature_importances(&self) -> Result<Importances, Refusal> {
        self.importances(false, 0.0)
    }

    pub(crate) fn importances(&self, by_mass: bool, mass: f64) -> Result<Importances, Refusal> {
        finite::scores(0, self.scores())?;
        let features = self.features;
        let mut out = vec![0.0; features];
        match over!(tree_importances(features, by_mass, mass; self.columns; &mut out)) {
            0 => finite::all("importance of feature", out).map(Importances),
            number => Err(Refusal::of(number, None)),
        }
    }
}

impl Node {
    fn new(value: f64, fork: Split, behind: Option<Backing>, number: usize) -> Self {
        let kind = match (fork.true_child, fork.false_child) {
            (0, 0) => Kind::Leaf,
            _ => Kind::Split(fork),
        };
        Node {
            value,
            kind,
            count: behind.and_then(|it| it.count.get(number).copied()),
            mass: behind.and_then(|it| it.mass.get(number).copied()),
        }
    }
}

/// Checks with the proved library that the columns are a valid tree.
pub(crate) fn check_tree(features: usize, columns: Columns) -> Result<(), Refusal> {
    match over!(check_tree(features; columns;)) {
        0 => Ok(()),
        number => Err(Refusal::of(number, explain::tree(features, columns))),
    }
}

/// Checks with the proved library that the starts and columns are a valid forest.
pub(crate) fn check_forest(
    features: usize,
    starts: &[u32],
    columns: Columns,
) -> Result<(), Refusal> {
    let trees = starts.len().saturating_sub(1);
    match over!(check_forest(features, trees, starts; columns;)) {
        0 => Ok(()),
        number => Err(Refusal::of(
            number,
            explain::forest(features, starts, columns),
        )),
    }
}
