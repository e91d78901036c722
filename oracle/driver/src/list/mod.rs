//! Makes the fixed list: edits of the judges, and the choice of cases that detect them.

pub mod mutants;
pub mod pick;
