//! tailboardy: access to what `base_tree.rs` keeps private. It reads and builds, but makes no decisions.

use super::{BaseTree, Node};
use crate::harness::NodeRecord;
use crate::linalg::basic::lent::Matrix;
use std::marker::PhantomData;

pub type Tree = BaseTree<f64, f64, Matrix, Vec<f64>, f64>;

pub fn nodes(tree: &Tree) -> Vec<NodeRecord> {
    tree.nodes
        .iter()
        .map(|node| NodeRecord {
            value: node.output,
            feature: node.split_feature as u32,
            threshold: node.split_value.unwrap_or(0.0),
            score: node.split_score.unwrap_or(0.0),
            true_child: node.true_child.unwrap_or(0) as u32,
            false_child: node.false_child.unwrap_or(0) as u32,
        })
        .collect()
}

/// Whether a node without children still has a feature, a threshold or a score.
pub fn leaves_bare(tree: &Tree) -> bool {
    let bare = |n: &Node<f64>| {
        n.split_feature == 0
            && n.split_value.is_none()
            && n.split_score.is_none()
            && n.false_child.is_none()
    };
    tree.nodes.iter().all(|n| n.true_child.is_some() || bare(n))
}

pub fn depth(tree: &Tree) -> u32 {
    u32::from(tree.depth)
}

pub fn root_mass(tree: &Tree) -> f64 {
    tree.root_mass
}

/// A tree made from its table, for the readers: a node whose children are both 0 is a leaf.
pub fn from_table(table: &[NodeRecord], root_mass: f64) -> Tree {
    let node = |n: &NodeRecord| {
        let leaf = n.true_child == 0 && n.false_child == 0;
        Node {
            output: n.value,
            split_feature: if leaf { 0 } else { n.feature as usize },
            split_value: (!leaf).then_some(n.threshold),
            split_score: (!leaf).then_some(n.score),
            true_child: (!leaf).then_some(n.true_child as usize),
            false_child: (!leaf).then_some(n.false_child as usize),
        }
    };
    BaseTree {
        nodes: table.iter().map(node).collect(),
        parameters: None,
        depth: 0,
        root_mass,
        _phantom_tx: PhantomData,
        _phantom_ty: PhantomData,
        _phantom_x: PhantomData,
        _phantom_y: PhantomData,
    }
}
