//! What is wrong with an input, and where.

use crate::limits::{MAX_FEATURES, MAX_ROWS, MAX_TREES};
use crate::misread::ModelFault;
use std::fmt;

/// What is wrong, and where. Rows, features, trees, nodes and positions are counted from 0.
///
/// ```
/// use tailboardy::{DenseMatrix, Fault, RandomForestRegressor};
///
/// let x = DenseMatrix::from_2d_array(&[[1.0], [2.0]])?;
/// let y = [0.0, f64::INFINITY];
/// let refusal = RandomForestRegressor::fit(&x, &y, Default::default()).unwrap_err();
/// assert_eq!(refusal.fault(), Some(&Fault::Target { row: 1, value: f64::INFINITY }));
/// # Ok::<(), tailboardy::Refusal>(())
/// ```
#[derive(Debug, Clone, PartialEq)]
#[non_exhaustive]
#[allow(missing_docs)]
pub enum Fault {
    /// The number of rows.
    Rows(usize),
    /// The number of features.
    Features(usize),
    /// The number of trees.
    Trees(usize),
    /// The name of a list, the length that it has and the length that is required.
    Length {
        list: &'static str,
        is: usize,
        asked: usize,
    },
    /// A row of a matrix that does not have as many values as the first.
    Ragged { row: usize, is: usize, asked: usize },
    /// The name of a cut table that does not start at 0, decreases, or does not end where its tape ends.
    Cuts(&'static str),
    /// A feature value that is not finite.
    Value {
        row: usize,
        feature: usize,
        value: f64,
    },
    /// A target that is not finite.
    Target { row: usize, value: f64 },
    /// A weight that is not finite, or is below 0.
    Weight { row: usize, value: f64 },
    /// How many times a row is in a tree's bag.
    Count { tree: usize, row: usize, count: u32 },
    /// The first position where a listing is wrong, as the proved library tells it.
    Listing(ListingFault),
    /// The tree and search whose draw is missing or out of range, as the proved library tells them.
    Draw { tree: usize, search: usize },
    /// The first field of a model file that cannot be read, at the place that the proved library tells.
    Model(ModelFault),
    /// The first position where a table of starts is wrong.
    Starts { place: usize },
    /// The first node that is neither a leaf nor a valid split.
    Node { tree: usize, node: usize },
    /// The name of a result that each row or feature has, and the first that is not finite.
    Result {
        result: &'static str,
        at: usize,
        value: f64,
    },
    /// No row has an out-of-bag mean, because all of them are in every bag; and
    /// [how many trees are enough](crate::OutOfBagMeans::enough_trees) for all to have one.
    InEveryBag { rows: usize, trees: Option<usize> },
    /// An out-of-bag error that is not finite.
    Error(f64),
    /// The sum of a tree's scores, which is not finite.
    Scores { tree: usize, sum: f64 },
    /// The mass of all rows of a tree, which is so large or so small that scores cannot be computed from it.
    Mass { tree: usize, mass: f64 },
    /// The name of an entry of a grown node that is not finite.
    Entry {
        entry: &'static str,
        tree: usize,
        node: usize,
        value: f64,
    },
}

/// The first position where a feature's listing is wrong. If the listing is as long as the matrix has rows, feature and position come from
/// the proved library, and so does the missing row if a row appears twice.
///
/// ```
/// use tailboardy::{Cause, DenseMatrix, Fault, Listings};
///
/// let x = DenseMatrix::from_2d_array(&[[7.5, 0.0], [6.8, 1.0], [7.1, 2.0]])?;
/// let refusal = Listings::from_columns(&[[1, 2, 0], [0, 2, 2]])?.check(&x).unwrap_err();
/// assert_eq!(refusal.cause(), Cause::RowTwice);
/// let Some(Fault::Listing(fault)) = refusal.fault() else { panic!("{refusal}") };
/// assert_eq!((fault.feature, fault.place, fault.missing), (1, 2, Some(1)));
/// # Ok::<(), tailboardy::Refusal>(())
/// ```
#[derive(Debug, Clone, PartialEq, Eq)]
pub struct ListingFault {
    /// The feature.
    pub feature: usize,
    /// The position in its listing.
    pub place: usize,
    /// What is wrong there.
    pub breach: Breach,
    /// The lowest row that is missing from the whole listing.
    pub missing: Option<usize>,
}

/// What is wrong with a listing. At each position the variants are tried in this order.
///
/// ```
/// use tailboardy::{Breach, Cause, DenseMatrix, Listings};
///
/// let x = DenseMatrix::from_2d_array(&[[7.5], [6.8], [7.1]])?;
/// let fault = Listings::from_columns(&[[2, 1, 0]])?.fault(&x, 0).unwrap();
/// assert_eq!(fault.breach, Breach::Falls { row: 1, after: 2 });
/// assert_eq!(fault.breach.cause(), Cause::ValueFalls);
/// # Ok::<(), tailboardy::Refusal>(())
/// ```
#[derive(Debug, Clone, Copy, PartialEq, Eq)]
#[non_exhaustive]
pub enum Breach {
    /// 11: there is no row with this number.
    NoSuchRow(u32),
    /// 12: the row already appeared at an earlier position.
    Twice {
        /// The row.
        row: u32,
        /// The earlier position.
        before: usize,
    },
    /// 13: the row's value is lower than that of the row before it.
    Falls {
        /// The row.
        row: u32,
        /// The row before it.
        after: u32,
    },
    /// 2: the listing ends before every row has appeared.
    Ends,
}

impl Fault {
    /// A list that is not as long as required, if it is not.
    pub(crate) fn length(list: &'static str, is: usize, asked: usize) -> Option<Self> {
        (is != asked).then_some(Fault::Length { list, is, asked })
    }
}

impl fmt::Display for Fault {
    fn fmt(&self, f: &mut fmt::Formatter<'_>) -> fmt::Result {
        match self {
            Fault::Rows(is) => write!(f, "{is} rows, but 1 to {MAX_ROWS} are required"),
            Fault::Features(is) => write!(f, "{is} features, but 1 to {MAX_FEATURES} are required"),
            Fault::Trees(is) => write!(f, "{is} trees, but 1 to {MAX_TREES} are required"),
            Fault::Length { list, is, asked } => write!(f, "{list}: {is} given, {asked} required"),
            Fault::Ragged { row, is, asked } => {
                write!(
                    f,
                    "row {row} has {is} values, but the first row has {asked}"
                )
            }
            Fault::Cuts(tape) => write!(
                f,
                "the {tape} starts do not divide their tape into one part per tree"
            ),
            Fault::Value {
                row,
                feature,
                value,
            } => write!(f, "feature {feature} of row {row} is {value}"),
            Fault::Target { row, value } => write!(f, "the target of row {row} is {value}"),
            Fault::Weight { row, value } => write!(f, "the weight of row {row} is {value}"),
            Fault::Count { tree, row, count } => {
                write!(
                    f,
                    "row {row} appears {count} times in the bag of tree {tree}"
                )
            }
            Fault::Listing(fault) => fault.fmt(f),
            Fault::Model(fault) => fault.fmt(f),
            Fault::Draw { tree, search } => {
                write!(
                    f,
                    "the draw for search {search} of tree {tree} is missing or out of range"
                )
            }
            Fault::Starts { place } => {
                write!(f, "the table of starts is wrong at position {place}")
            }
            Fault::Node { tree, node } => write!(
                f,
                "node {node} of tree {tree} is neither a leaf nor a valid split"
            ),
            Fault::Result { result, at, value } => write!(f, "the {result} {at} is {value}"),
            Fault::InEveryBag { rows, trees } => match trees {
                None => f.write_str("the only row is in every tree's bag"),
                Some(trees) => write!(
                    f,
                    "each of the {rows} rows is in every tree's bag; with bootstrap, {trees} trees are almost sure to leave out each of them"
                ),
            },
            Fault::Error(value) => write!(f, "the out-of-bag error is {value}"),
            Fault::Scores { tree, sum } => write!(f, "the scores of tree {tree} add up to {sum}"),
            Fault::Mass { tree, mass } => {
                write!(f, "the mass of all rows of tree {tree} is {mass:e}")
            }
            Fault::Entry {
                entry,
                tree,
                node,
                value,
            } => write!(f, "the {entry} of node {node} of tree {tree} is {value}"),
        }
    }
}

impl fmt::Display for ListingFault {
    fn fmt(&self, f: &mut fmt::Formatter<'_>) -> fmt::Result {
        let place = self.place;
        write!(f, "feature {}: ", self.feature)?;
        match self.breach {
            Breach::NoSuchRow(row) => {
                write!(f, "position {place} has row {row}, which does not exist")?
            }
            Breach::Twice { row, before } => {
                write!(
                    f,
                    "row {row} appears twice, at positions {before} and {place}"
                )?;
            }
            Breach::Falls { row, after } => {
                write!(
                    f,
                    "at position {place} the value of row {row} is lower than that of row {after} before it"
                )?;
            }
            Breach::Ends => write!(f, "it ends at position {place}")?,
        }
        match self.missing {
            Some(row) => write!(f, ", and row {row} is missing"),
            None => Ok(()),
        }
    }
}
