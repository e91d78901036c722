//! Inputs at the limits of rows, features, trees, counts and nodes.

pub mod file;
pub mod fit;
pub mod listings;
pub mod read;
