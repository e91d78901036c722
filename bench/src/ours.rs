//! The proved library's side: rooms, the fit and the means, with the linked calls.

use crate::input::Input;
use copy::harness::Grown;
use tailboardy_sys::ForestSettings;
use tailboardy_sys::linked;

/// All rooms that a fit writes to.
pub struct Rooms {
    value: Vec<f64>,
    feature: Vec<u32>,
    threshold: Vec<f64>,
    score: Vec<f64>,
    true_child: Vec<u32>,
    false_child: Vec<u32>,
    node_count: Vec<u32>,
    node_mass: Vec<f64>,
    starts: Vec<u32>,
    nodes: Vec<u32>,
    depth: Vec<u32>,
    mass: Vec<f64>,
    searches: Vec<u32>,
    words_used: Vec<u32>,
    thresholds_used: Vec<u32>,
    order: Vec<u32>,
    scratch: Vec<u32>,
    flags: Vec<bool>,
    wholes: Vec<[u32; 6]>,
    reals: Vec<[f64; 3]>,
}

impl Rooms {
    /// Of the required lengths: a tree has at most one node fewer than twice its kept rows.
    pub fn new(input: &Input) -> Self {
        let (rows, features, trees) = (input.size.rows, input.size.features, input.size.trees);
        let kept = input.counts.iter().filter(|count| **count > 0).count();
        let places = 2 * kept - trees;
        Rooms {
            value: vec![0.0; places],
            feature: vec![0; places],
            threshold: vec![0.0; places],
            score: vec![0.0; places],
            true_child: vec![0; places],
            false_child: vec![0; places],
            node_count: vec![0; places],
            node_mass: vec![0.0; places],
            starts: vec![0; trees + 1],
            nodes: vec![0; trees],
            depth: vec![0; trees],
            mass: vec![0.0; trees],
            searches: vec![0; trees],
            words_used: vec![0; trees],
            thresholds_used: vec![0; trees],
            order: vec![0; rows * features],
            scratch: vec![0; rows],
            flags: vec![false; rows.max(features)],
            wholes: vec![[0; 6]; rows],
            reals: vec![[0.0; 3]; rows],
        }
    }

    /// Returns 0, or the number of a refusal.
    pub fn fit(&mut self, input: &Input) -> u32 {
        let params = input.size.params();
        let settings = ForestSettings {
            limited: params.limit.is_some(),
            limit: params.limit.unwrap_or(0),
            leaf: params.least_leaf,
            split: params.least_split,
            said: false,
            tried: 0,
            random: params.random,
            lower: false,
        };
        let told = linked::fit_forest(
            &mut self.value,
            &mut self.feature,
            &mut self.threshold,
            &mut self.score,
            &mut self.true_child,
            &mut self.false_child,
            &mut self.node_count,
            &mut self.node_mass,
            &mut self.starts,
            &mut self.nodes,
            &mut self.depth,
            &mut self.mass,
            &mut self.searches,
            &mut self.words_used,
            &mut self.thresholds_used,
            &mut self.order,
            &mut self.scratch,
            &mut self.flags,
            &mut self.wholes,
            &mut self.reals,
            &input.x,
            &input.y,
            &[],
            &input.counts,
            &input.listings,
            &input.words,
            &[],
            &input.word_starts,
            &input.threshold_starts,
            input.size.rows,
            input.size.features,
            input.size.trees,
            settings,
        );
        told.number
    }

    pub fn means(&self, input: &Input, out: &mut [f64]) -> u32 {
        linked::forest_means(
            input.size.rows,
            input.size.features,
            input.size.trees,
            &input.fresh,
            &self.starts,
            &self.value,
            &self.feature,
            &self.threshold,
            &self.score,
            &self.true_child,
            &self.false_child,
            out,
        )
    }

    /// Whether these are the trees that smartcore grew, with their reports, bit for bit. Of the two columns that it does not have, the first
    /// mass of each tree is its root mass.
    pub fn same(&self, trees: &[Grown]) -> bool {
        let all = trees.len() == self.nodes.len();
        all && trees
            .iter()
            .enumerate()
            .all(|(t, tree)| self.same_tree(t, tree))
    }

    fn same_tree(&self, t: usize, tree: &Grown) -> bool {
        let (start, nodes) = (self.starts[t] as usize, tree.nodes());
        let reports = self.starts[t + 1] as usize == start + nodes.len()
            && self.nodes[t] as usize == nodes.len()
            && self.depth[t] == tree.depth()
            && self.mass[t].to_bits() == tree.root_mass().to_bits()
            && self.node_mass[start].to_bits() == tree.root_mass().to_bits()
            && self.searches[t] as usize == tree.searches
            && self.words_used[t] as usize == tree.words_used
            && self.thresholds_used[t] as usize == tree.thresholds_used;
        let mut places = nodes.iter().zip(start..);
        reports
            && places.all(|(node, at)| {
                self.value[at].to_bits() == node.value.to_bits()
                    && self.feature[at] == node.feature
                    && self.threshold[at].to_bits() == node.threshold.to_bits()
                    && self.score[at].to_bits() == node.score.to_bits()
                    && self.true_child[at] == node.true_child
                    && self.false_child[at] == node.false_child
            })
    }
}
