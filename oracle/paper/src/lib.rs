//! The second judge: every public call as a plain program that follows the rules (docs/RULES.md).
//! It shares no code with the copy of smartcore, and works in memory of its own: of the rooms for work it only uses the lengths,
//! and it leaves in them what the rules say.
//!
//! A call returns the number of a refusal, or 0. The fits, the listing check and the reading of a file also return what that refusal tells.

mod calls;
mod checks;
mod fits;
mod growth;
mod listings;
mod model;
mod readers;
mod rooms;
mod tables;
mod totals;

pub use calls::{
    CutAt, Cuts, Draws, ForestCall, Given, ModelAnswer, Numbers, Refusal, Settings, Splitter,
    TreeAnswer, TreeCall,
};
pub use fits::{fit_forest, fit_tree};
pub use listings::check_listings;
pub use model::{model_size, read_model, write_model};
pub use readers::{
    Divisor, forest_importances, forest_means, out_of_bag_error, out_of_bag_means, predictions,
    tree_importances,
};
pub use rooms::{
    Behind, Columns, ForestRooms, ModelRooms, Reports, Table, TreeRooms, Waiting, Work,
};
pub use tables::{Cut, Kind, Node, NodeRead, check_forest, check_tree, read_node};
