//! The largest sizes that a call accepts.

/// The most rows that a call accepts.
pub const MAX_ROWS: usize = 65_535;
/// The most features that a call accepts.
pub const MAX_FEATURES: usize = 1_024;
/// The most trees that a forest can have.
pub const MAX_TREES: usize = 1_024;
