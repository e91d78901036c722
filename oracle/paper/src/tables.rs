//! Tables of trees: which are valid, and reading out a node.

use crate::checks::{features_in_range, first_failed, trees_in_range};
use crate::rooms::Table;

/// A node read out.
#[derive(Clone, Copy, Debug)]
pub struct Node {
    pub value: f64,
    pub kind: Kind,
}

#[derive(Clone, Copy, Debug)]
pub enum Kind {
    Leaf,
    Split(Cut),
}

#[derive(Clone, Copy, Debug)]
pub struct Cut {
    pub feature: u32,
    pub threshold: f64,
    pub score: f64,
    pub true_child: u32,
    pub false_child: u32,
}

/// The result of reading a node. A valid tree may not have it, which is not a refusal.
#[derive(Clone, Copy, Debug)]
pub enum NodeRead {
    Refused(u32),
    Missing,
    Read(Node),
}

/// A node from its six entries: if both children are 0 it is a leaf, whose other entries are ignored.
pub fn node_at(table: &Table, number: usize) -> Node {
    let cut = Cut {
        feature: table.feature[number],
        threshold: table.threshold[number],
        score: table.score[number],
        true_child: table.true_child[number],
        false_child: table.false_child[number],
    };
    let kind = match (cut.true_child, cut.false_child) {
        (0, 0) => Kind::Leaf,
        _ => Kind::Split(cut),
    };
    Node {
        value: table.value[number],
        kind,
    }
}

fn node_good(table: &Table, number: usize, nodes: usize, features: usize) -> bool {
    let Kind::Split(cut) = node_at(table, number).kind else {
        return true;
    };
    // u64, so that the number after the largest u32 is not 0
    let (on_true, on_false) = (u64::from(cut.true_child), u64::from(cut.false_child));
    on_true > number as u64
        && on_false == on_true + 1
        && on_false < nodes as u64
        && (cut.feature as usize) < features
}

/// The tree is made of all entries of the columns.
pub fn tree_good(table: &Table, features: usize) -> bool {
    let nodes = table.room();
    nodes > 0 && (0..nodes).all(|number| node_good(table, number, nodes, features))
}

/// The part of a forest's columns that is one tree.
pub fn tree_part<'a>(table: &Table<'a>, starts: &[u32], tree: usize) -> Table<'a> {
    table.part(starts[tree] as usize, starts[tree + 1] as usize)
}

pub fn forest_good(table: &Table, starts: &[u32], trees: usize, features: usize) -> bool {
    let starts = &starts[..trees + 1];
    starts[0] == 0
        && starts.windows(2).all(|pair| pair[0] < pair[1])
        && starts[trees] as usize <= table.room()
        && (0..trees).all(|tree| tree_good(&tree_part(table, starts, tree), features))
}

/// The table check of one tree: refusals 1, 8.
pub fn check_tree(features: usize, table: &Table) -> u32 {
    first_failed(&[
        (1, &|| features_in_range(features)),
        (8, &|| tree_good(table, features)),
    ])
}

/// The table check of a forest: refusals 1, 6, 8.
pub fn check_forest(features: usize, trees: usize, table: &Table, starts: &[u32]) -> u32 {
    first_failed(&[
        (1, &|| features_in_range(features) && trees_in_range(trees)),
        (6, &|| starts.len() > trees),
        (8, &|| forest_good(table, starts, trees, features)),
    ])
}

/// The node of a tree with this number; refused as in the check of the table: refusals 1, 8.
pub fn read_node(features: usize, table: &Table, number: usize) -> NodeRead {
    match check_tree(features, table) {
        0 if number < table.room() => NodeRead::Read(node_at(table, number)),
        0 => NodeRead::Missing,
        refusal => NodeRead::Refused(refusal),
    }
}
