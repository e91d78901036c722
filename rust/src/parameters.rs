//! Parameters of trees and forests.

use tailboardy_sys::{ForestSettings, TreeSettings};

/// How a search chooses the cut of a feature.
///
/// ```
/// use tailboardy::{RandomForestRegressorParameters, Splitter};
///
/// // extra trees
/// let parameters = RandomForestRegressorParameters::default()
///     .with_splitter(Splitter::Random)
///     .with_bootstrap(false);
/// assert_eq!(parameters.splitter, Splitter::Random);
/// ```
#[derive(Debug, Clone, Copy, PartialEq, Eq, Default)]
pub enum Splitter {
    /// A single threshold, drawn at random between the lowest and the highest value.
    Random,
    /// The best of all possible cuts; [`Cuts`] says where they lie.
    #[default]
    Best,
}

/// Where the best splitter cuts between two neighbouring values of a feature. [`Splitter::Random`] draws its thresholds, and ignores
/// this.
///
/// The rows that a tree is grown on go the same way for either choice, so the tree is the same but for its thresholds: the same nodes,
/// values, scores and importances. Any other row goes the other way if its value is above the lower of the two and not above their
/// midpoint. So predictions of new rows may differ, and out-of-bag means with their error too.
///
/// ```
/// use tailboardy::{Cuts, DecisionTreeRegressor, DecisionTreeRegressorParameters, DenseMatrix};
///
/// // trim heights at which a bar hung
/// let x = DenseMatrix::from_2d_array(&[[5.5], [6.5], [7.5]])?;
/// let y = [1.0, 1.0, 4.0];
/// let midpoint = DecisionTreeRegressorParameters::default().with_max_depth(2);
/// let measured = midpoint.with_cuts(Cuts::Measured);
/// let midpoint = DecisionTreeRegressor::fit(&x, &y, midpoint)?;
/// let measured = DecisionTreeRegressor::fit(&x, &y, measured)?;
/// assert_eq!(midpoint.nodes().threshold[0], 7.0);
/// assert_eq!(measured.nodes().threshold[0], 6.5);
///
/// assert_eq!(midpoint.predict(&x)?, measured.predict(&x)?);
/// let between = DenseMatrix::from_2d_array(&[[6.6], [7.0], [7.1]])?;
/// assert_eq!(&*midpoint.predict(&between)?, [1.0, 1.0, 4.0]);
/// assert_eq!(&*measured.predict(&between)?, [4.0, 4.0, 4.0]);
/// # Ok::<(), tailboardy::Refusal>(())
/// ```
#[derive(Debug, Clone, Copy, PartialEq, Eq, Default)]
pub enum Cuts {
    /// At their midpoint, as in smartcore. If that rounds up to the higher value, or the difference of the two overflows: at the lower.
    #[default]
    Midpoint,
    /// At the lower of the two, so that each threshold is a value that was measured. Of rows with the same value it is that of the
    /// first in the listing, which shows if they are zeros of both signs.
    Measured,
}

/// The parameters of a forest. The names are smartcore's where they mean the same; see docs/SMARTCORE.md. Every fit takes them by
/// value, as in smartcore; they are `Copy`, so the same parameters serve several fits.
///
/// ```
/// use tailboardy::RandomForestRegressorParameters;
///
/// let parameters = RandomForestRegressorParameters::default()
///     .with_n_trees(200)
///     .with_min_samples_leaf(3)
///     .with_keep_samples(true)
///     .with_seed(7);
/// assert_eq!(parameters.n_trees, 200);
/// assert_eq!(parameters.m, None);
/// ```
#[derive(Debug, Clone, Copy, PartialEq, Eq)]
#[must_use]
pub struct RandomForestRegressorParameters {
    /// The number of trees. Default: 100.
    pub n_trees: usize,
    /// How many features each search tries. Default: the square root of the number of features, rounded down.
    pub m: Option<u32>,
    /// The maximum depth, where the root has depth 1. Default: no limit.
    pub max_depth: Option<u16>,
    /// The minimum number of rows of the bag in a leaf. Default: 1.
    pub min_samples_leaf: u32,
    /// The minimum number of rows of the bag that a node must have to be split. Default: 2.
    pub min_samples_split: u32,
    /// Whether each tree is grown on its own bag of rows, drawn with replacement; otherwise every tree uses each row once. Default: true.
    pub bootstrap: bool,
    /// Whether the forest records which rows each tree left out, which out-of-bag means require. Default: false.
    pub keep_samples: bool,
    /// How cuts are chosen. Default: the best.
    pub splitter: Splitter,
    /// Where the best splitter cuts between two values. Default: at their midpoint.
    pub cuts: Cuts,
    /// The seed from which bags, orders and thresholds are drawn. Default: 0.
    pub seed: u64,
    /// How many threads grow trees. It affects only the time taken, not the forest. Default: as many as the machine can run at once.
    pub n_threads: Option<usize>,
}

impl Default for RandomForestRegressorParameters {
    fn default() -> Self {
        RandomForestRegressorParameters {
            n_trees: 100,
            m: None,
            max_depth: None,
            min_samples_leaf: 1,
            min_samples_split: 2,
            bootstrap: true,
            keep_samples: false,
            splitter: Splitter::Best,
            cuts: Cuts::Midpoint,
            seed: 0,
            n_threads: None,
        }
    }
}

/// The parameters of a single tree.
///
/// ```
/// use tailboardy::DecisionTreeRegressorParameters;
///
/// let parameters = DecisionTreeRegressorParameters::default()
///     .with_max_depth(4)
///     .with_min_samples_split(10);
/// assert_eq!(parameters.max_depth, Some(4));
/// ```
#[derive(Debug, Clone, Copy, PartialEq, Eq)]
#[must_use]
pub struct DecisionTreeRegressorParameters {
    /// How many features each search tries. Default: all.
    pub m: Option<u32>,
    /// The maximum depth, where the root has depth 1. Default: no limit.
    pub max_depth: Option<u16>,
    /// The minimum number of rows in a leaf. Default: 1.
    pub min_samples_leaf: u32,
    /// The minimum number of rows that a node must have to be split. Default: 2.
    pub min_samples_split: u32,
    /// How cuts are chosen. Default: the best.
    pub splitter: Splitter,
    /// Where the best splitter cuts between two values. Default: at their midpoint.
    pub cuts: Cuts,
    /// The seed from which orders and thresholds are drawn. The order matters only between cuts that are equally good. Default: 0.
    pub seed: u64,
}

impl Default for DecisionTreeRegressorParameters {
    fn default() -> Self {
        DecisionTreeRegressorParameters {
            m: None,
            max_depth: None,
            min_samples_leaf: 1,
            min_samples_split: 2,
            splitter: Splitter::Best,
            cuts: Cuts::Midpoint,
            seed: 0,
        }
    }
}

/// Makes a setter for each field, in the style of smartcore.
macro_rules! setters {
    ($($field:ident as $with:ident: $type:ty => $held:expr;)*) => {$(
        #[doc = concat!("Sets [`", stringify!($field), "`](Self::", stringify!($field), ").")]
        pub fn $with(mut self, $field: $type) -> Self {
            self.$field = $held;
            self
        }
    )*};
}

impl RandomForestRegressorParameters {
    setters! {
        n_trees as with_n_trees: usize => n_trees;
        m as with_m: u32 => Some(m);
        max_depth as with_max_depth: u16 => Some(max_depth);
        min_samples_leaf as with_min_samples_leaf: u32 => min_samples_leaf;
        min_samples_split as with_min_samples_split: u32 => min_samples_split;
        bootstrap as with_bootstrap: bool => bootstrap;
        keep_samples as with_keep_samples: bool => keep_samples;
        splitter as with_splitter: Splitter => splitter;
        cuts as with_cuts: Cuts => cuts;
        seed as with_seed: u64 => seed;
        n_threads as with_n_threads: usize => Some(n_threads);
    }

    pub(crate) fn settings(&self) -> Settings {
        Settings {
            max_depth: self.max_depth,
            leaf: self.min_samples_leaf,
            split: self.min_samples_split,
            tried: self.m,
            random: self.splitter == Splitter::Random,
            lower: self.cuts == Cuts::Measured,
        }
    }
}

impl DecisionTreeRegressorParameters {
    setters! {
        m as with_m: u32 => Some(m);
        max_depth as with_max_depth: u16 => Some(max_depth);
        min_samples_leaf as with_min_samples_leaf: u32 => min_samples_leaf;
        min_samples_split as with_min_samples_split: u32 => min_samples_split;
        splitter as with_splitter: Splitter => splitter;
        cuts as with_cuts: Cuts => cuts;
        seed as with_seed: u64 => seed;
    }

    /// The settings of a tree, which tries all features by default.
    pub(crate) fn settings(&self, features: usize) -> Settings {
        let all = u32::try_from(features).unwrap_or(u32::MAX);
        Settings {
            max_depth: self.max_depth,
            leaf: self.min_samples_leaf,
            split: self.min_samples_split,
            tried: Some(self.m.unwrap_or(all)),
            random: self.splitter == Splitter::Random,
            lower: self.cuts == Cuts::Measured,
        }
    }
}

/// What a fit needs to know of either kind of parameters, named as in the rules.
#[derive(Debug, Clone, Copy)]
pub(crate) struct Settings {
    pub max_depth: Option<u16>,
    pub leaf: u32,
    pub split: u32,
    /// `None` for the square root of the number of features, rounded down.
    pub tried: Option<u32>,
    pub random: bool,
    pub lower: bool,
}

impl Settings {
    pub(crate) fn of_forest(&self) -> ForestSettings {
        ForestSettings {
            limited: self.max_depth.is_some(),
            limit: self.max_depth.unwrap_or(0),
            leaf: self.leaf,
            split: self.split,
            said: self.tried.is_some(),
            tried: self.tried.unwrap_or(0),
            random: self.random,
            lower: self.lower,
        }
    }

    pub(crate) fn of_tree(&self, features: usize) -> TreeSettings {
        TreeSettings {
            limited: self.max_depth.is_some(),
            limit: self.max_depth.unwrap_or(0),
            leaf: self.leaf,
            split: self.split,
            tried: self.tried(features),
            random: self.random,
            lower: self.lower,
        }
    }

    /// How many features each search tries.
    pub(crate) fn tried(&self, features: usize) -> u32 {
        let root = || u32::try_from(features.isqrt()).unwrap_or(u32::MAX);
        self.tried.unwrap_or_else(root)
    }

    /// The depth limit; no limit counts as the largest one.
    pub(crate) fn limit(&self) -> u32 {
        self.max_depth.unwrap_or(u16::MAX).into()
    }
}
