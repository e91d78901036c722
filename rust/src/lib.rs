//! A regression forest that can be trusted with a show: the forest of smartcore 0.7.0, bit for bit, in a library that is proved to
//! follow its rules (docs/RULES.md). This crate makes it available in safe Rust.
//!
//! A lighting firm that clones touring rigs fits a forest on the trim height, truss offset and mounting angle of fixtures that are
//! already focused, and predicts the pan correction of each fixture in the next house:
//!
//! ```
//! use tailboardy::{DenseMatrix, RandomForestRegressor, RandomForestRegressorParameters};
//!
//! let focused = DenseMatrix::from_2d_array(&[
//!     [7.50, -3.0, 2.0],
//!     [7.50, 3.0, 1.0],
//!     [6.20, -3.0, 0.0],
//!     [6.20, 3.0, 4.0],
//! ])?;
//! let pan = [-22.0, 22.0, -26.0, 25.5];
//! let forest = RandomForestRegressor::fit(
//!     &focused,
//!     &pan,
//!     RandomForestRegressorParameters::default().with_seed(7),
//! )?;
//! let corrections = forest.predict(&DenseMatrix::from_2d_array(&[[7.0, -3.0, 1.0]])?)?;
//! assert!(corrections[0] < 0.0);
//! # Ok::<(), tailboardy::Refusal>(())
//! ```
//!
//! # What is proved, and what is not
//!
//! The proved library grows every tree, with the count and the mass of each node, computes every prediction, mean, out-of-bag mean, error
//! and importance, and turns forests into the bytes of model files and back. It also decides whether sizes, numbers, counts, listings,
//! draws, tables and model files are valid, and refuses those that are not with a number ([`Cause`]). It terminates on every input.
//!
//! The following is plain Rust in this crate, tested but not proved:
//!
//! - sorting listings ([`Listings::sorted`]); a wrong listing would be refused;
//! - drawing bags, orders and thresholds from a seed ([`Counts::drawn`], [`Draws::seeded`], [`SplitMix64`]); a draw that is out of
//!   range would be refused, and every other draw is as good as the next;
//! - growing a forest a few trees at a time on several threads, and joining these trees into one forest
//!   ([`RandomForestRegressor::fit_given`] is a single call of the library, and gives the same forest bit for bit);
//! - predicting more than [`MAX_ROWS`] rows in parts, and joining these;
//! - having the library predict with counts, or masses, in the place of values, and the median of these counts ([`Support`]);
//! - refusing results that are not finite ([`Cause::NotFinite`]), which the library returns as smartcore does;
//! - finding the place of what was refused ([`Fault`]), except that of a damaged listing, of a bad draw and of a damaged model file,
//!   which the library tells;
//! - the list of calls through which the library is linked, in `tailboardy-sys`, the only place with `unsafe`.
//!
//! Nothing here panics, whatever the input. Running out of memory ends the program, as it does everywhere in Rust.
//!
//! Names follow smartcore's where they mean the same; docs/SMARTCORE.md is for those who come from there.

#![forbid(unsafe_code)]

mod behind;
mod columns;
mod counts;
mod draws;
mod explain;
mod fault;
mod fields;
mod finite;
mod fitting;
mod forest;
mod given;
mod grow;
mod limits;
mod listings;
mod matrix;
mod misread;
mod model;
mod nodes;
mod parameters;
mod parts;
mod refusal;
mod results;
mod rooms;
mod scout;
mod seed;
mod sizes;
mod support;
mod tree;

pub use behind::Behind;
pub use columns::Nodes;
pub use counts::Counts;
pub use draws::Draws;
pub use fault::{Breach, Fault, ListingFault};
pub use fitting::Fitting;
pub use forest::RandomForestRegressor;
pub use given::Given;
pub use limits::{MAX_FEATURES, MAX_ROWS, MAX_TREES};
pub use listings::Listings;
pub use matrix::DenseMatrix;
pub use misread::{Field, Misread, ModelFault};
pub use model::ModelError;
pub use nodes::{Kind, Node, Split, Tree};
pub use parameters::{
    Cuts, DecisionTreeRegressorParameters, RandomForestRegressorParameters, Splitter,
};
pub use refusal::{Cause, Refusal};
pub use results::{Importances, Means, OutOfBagError, OutOfBagMeans, Report};
pub use seed::SplitMix64;
pub use support::Support;
pub use tree::DecisionTreeRegressor;

/// The page for those who come from smartcore. Its examples run as tests too.
#[cfg(doctest)]
#[doc = include_str!("../../docs/SMARTCORE.md")]
struct ComingFromSmartcore;
