//! Libraries of the public calls over slices: one is the second judge, another the proved library.

use crate::call::outcome::bits;
use paper::{
    Divisor, ForestCall, ForestRooms, Kind, ModelAnswer, ModelRooms, NodeRead, Refusal, Table,
    TreeAnswer, TreeCall, TreeRooms,
};

/// All public calls.
pub trait Library {
    fn fit_tree(&self, call: &TreeCall, rooms: &mut TreeRooms) -> TreeAnswer;
    fn fit_forest(&self, call: &ForestCall, rooms: &mut ForestRooms) -> Refusal;
    fn predictions(
        &self,
        rows: usize,
        features: usize,
        x: &[f64],
        t: &Table,
        out: &mut [f64],
    ) -> u32;
    fn forest_means(
        &self,
        shape: [usize; 3],
        x: &[f64],
        t: &Table,
        starts: &[u32],
        out: &mut [f64],
    ) -> u32;
    fn out_of_bag_means(
        &self,
        shape: [usize; 3],
        x: &[f64],
        counts: &[u32],
        t: &Table,
        starts: &[u32],
        out: &mut [f64],
    ) -> u32;
    fn tree_importances(&self, features: usize, by: Divisor, t: &Table, out: &mut [f64]) -> u32;
    fn forest_importances(
        &self,
        features: usize,
        trees: usize,
        t: &Table,
        starts: &[u32],
        out: &mut [f64],
    ) -> u32;
    /// The refusal, the error, and over how many rows it is.
    fn out_of_bag_error(&self, rows: usize, targets: &[f64], means: &[f64]) -> (u32, f64, u32);
    fn check_listings(&self, rows: usize, features: usize, x: &[f64], listings: &[u32]) -> Refusal;
    fn check_tree(&self, features: usize, t: &Table) -> u32;
    fn check_forest(&self, features: usize, trees: usize, t: &Table, starts: &[u32]) -> u32;
    /// The refusal, 1 if the node exists, then its value, feature, threshold, score, true child and false child.
    fn read_node(&self, features: usize, t: &Table, number: usize) -> [u64; 8];
    /// The refusal, and how many bytes the file has.
    fn model_size(&self, features: usize, trees: usize, t: &Table, starts: &[u32]) -> (u32, usize);
    /// The same, once the file is written.
    fn write_model(
        &self,
        features: usize,
        trees: usize,
        t: &Table,
        starts: &[u32],
        out: &mut [u8],
    ) -> (u32, usize);
    fn read_model(&self, file: &[u8], rooms: &mut ModelRooms) -> ModelAnswer;
}

/// The second judge.
pub struct Paper;

impl Library for Paper {
    fn fit_tree(&self, call: &TreeCall, rooms: &mut TreeRooms) -> TreeAnswer {
        paper::fit_tree(call, rooms)
    }
    fn fit_forest(&self, call: &ForestCall, rooms: &mut ForestRooms) -> Refusal {
        paper::fit_forest(call, rooms)
    }
    fn predictions(
        &self,
        rows: usize,
        features: usize,
        x: &[f64],
        t: &Table,
        out: &mut [f64],
    ) -> u32 {
        paper::predictions(rows, features, x, t, out)
    }
    fn forest_means(
        &self,
        [rows, features, trees]: [usize; 3],
        x: &[f64],
        t: &Table,
        starts: &[u32],
        out: &mut [f64],
    ) -> u32 {
        paper::forest_means(rows, features, trees, x, t, starts, out)
    }
    fn out_of_bag_means(
        &self,
        [rows, features, trees]: [usize; 3],
        x: &[f64],
        counts: &[u32],
        t: &Table,
        starts: &[u32],
        out: &mut [f64],
    ) -> u32 {
        paper::out_of_bag_means(rows, features, trees, x, counts, t, starts, out)
    }
    fn tree_importances(&self, features: usize, by: Divisor, t: &Table, out: &mut [f64]) -> u32 {
        paper::tree_importances(features, by, t, out)
    }
    fn forest_importances(
        &self,
        features: usize,
        trees: usize,
        t: &Table,
        starts: &[u32],
        out: &mut [f64],
    ) -> u32 {
        paper::forest_importances(features, trees, t, starts, out)
    }
    fn out_of_bag_error(&self, rows: usize, targets: &[f64], means: &[f64]) -> (u32, f64, u32) {
        paper::out_of_bag_error(rows, targets, means)
    }
    fn check_listings(&self, rows: usize, features: usize, x: &[f64], listings: &[u32]) -> Refusal {
        paper::check_listings(rows, features, x, listings)
    }
    fn check_tree(&self, features: usize, t: &Table) -> u32 {
        paper::check_tree(features, t)
    }
    fn check_forest(&self, features: usize, trees: usize, t: &Table, starts: &[u32]) -> u32 {
        paper::check_forest(features, trees, t, starts)
    }
    fn read_node(&self, features: usize, t: &Table, number: usize) -> [u64; 8] {
        node_told(paper::read_node(features, t, number))
    }
    fn model_size(&self, features: usize, trees: usize, t: &Table, starts: &[u32]) -> (u32, usize) {
        paper::model_size(features, trees, t, starts)
    }
    fn write_model(
        &self,
        features: usize,
        trees: usize,
        t: &Table,
        starts: &[u32],
        out: &mut [u8],
    ) -> (u32, usize) {
        paper::write_model(features, trees, t, starts, out)
    }
    fn read_model(&self, file: &[u8], rooms: &mut ModelRooms) -> ModelAnswer {
        paper::read_model(file, rooms)
    }
}

/// The entries that a leaf does not have are 0, and so are all six if there is no node.
fn node_told(read: NodeRead) -> [u64; 8] {
    let mut told = [0; 8];
    match read {
        NodeRead::Refused(refusal) => told[0] = u64::from(refusal),
        NodeRead::Missing => (),
        NodeRead::Read(node) => {
            told[1..3].copy_from_slice(&[1, bits(node.value)]);
            if let Kind::Split(cut) = node.kind {
                let [on_true, on_false] = [cut.true_child, cut.false_child].map(u64::from);
                let [threshold, score] = [cut.threshold, cut.score].map(bits);
                let rest = [u64::from(cut.feature), threshold, score, on_true, on_false];
                told[3..].copy_from_slice(&rest);
            }
        }
    }
    told
}
