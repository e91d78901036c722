//! The driver: makes inputs, runs both judges on them and compares the answers.

mod behind;
pub mod call;
pub mod compare;
mod damage;
mod differences;
mod files;
pub mod judge;
mod left_out;
mod limits;
pub mod list;
pub mod make;
mod own;
pub mod tally;
