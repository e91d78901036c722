//! The public calls with everything that they are given, their form as numbers, and what a call leaves.

pub mod behind;
pub mod calls;
pub mod fault;
pub mod outcome;
pub mod splits;
pub mod wire;
