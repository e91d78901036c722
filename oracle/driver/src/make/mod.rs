//! Inputs that the rules accept, and inputs made by hand.

pub mod behind;
pub mod chance;
pub mod crafted;
pub mod exhaustive;
pub mod file;
pub mod fit;
pub mod floats;
pub mod golden;
pub mod listed;
pub mod lower;
pub mod read;
pub mod rehearsal;
pub mod splitting;
