//! Inputs with faults, each with the refusal that it should give.

pub mod faults;
pub mod file;
pub mod fit;
pub mod listing;
pub mod misread;
pub mod places;
pub mod read;
