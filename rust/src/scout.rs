//! Thresholds for the random splitter, from a seed.
//!
//! A threshold must lie within the values of its node, and which nodes there are depends on earlier thresholds. So the tape cannot be
//! drawn in advance: this code grows the tree once in plain Rust, only to learn the ranges, and records what it draws. The proved fit
//! then grows the tree from that tape. It checks every draw again, so a mistake here would lead to a refusal (7) or to another tape,
//! but never to another rule. Once the proved library draws from seeds itself, this file can go.

use crate::given::Given;
use crate::parameters::Settings;
use crate::seed::TreeDraws;

/// The tape being drawn, and the tree that it is drawn for: each feature's kept rows in the order of its listing, grouped by node.
pub(crate) struct Scout<'a> {
    given: &'a Given<'a>,
    settings: Settings,
    counts: &'a [u32],
    draws: TreeDraws,
    words: &'a mut Vec<u32>,
    thresholds: &'a mut Vec<f64>,
    kept: usize,
    columns: Vec<u32>,
    side: Vec<bool>,
    aside: Vec<u32>,
}

#[derive(Clone, Copy, Default)]
struct Totals {
    sum: f64,
    mass: f64,
}

/// A node: its part of every column, and what is known about it.
#[derive(Clone, Copy)]
struct Node {
    start: usize,
    end: usize,
    level: u32,
    count: u32,
    totals: Totals,
}

#[derive(Clone, Copy)]
struct Cut {
    feature: usize,
    threshold: f64,
    proxy: f64,
}

impl Totals {
    fn plus(self, target: f64, mass: f64) -> Self {
        Totals {
            sum: self.sum + target * mass,
            mass: self.mass + mass,
        }
    }

    fn less(self, part: Self) -> Self {
        Totals {
            sum: self.sum - part.sum,
            mass: self.mass - part.mass,
        }
    }

    fn proxy(self, other: Self) -> f64 {
        if self.mass <= 0.0 || other.mass <= 0.0 {
            return 0.0;
        }
        let d = self.sum * other.mass - other.sum * self.mass;
        d * d / (self.mass * other.mass)
    }
}

/// Draws one tree's orders and thresholds onto the tapes. The data has passed the checks of a fit.
pub(crate) fn draw(
    given: &Given,
    tree: usize,
    settings: Settings,
    draws: TreeDraws,
    words: &mut Vec<u32>,
    thresholds: &mut Vec<f64>,
) {
    let counts = given.counts.of_tree(tree);
    let kept = |row: &&u32| given.keeps(counts, **row as usize);
    let columns: Vec<u32> = given
        .listings
        .numbers(given.x)
        .iter()
        .filter(kept)
        .copied()
        .collect();
    let (rows, features) = given.x.shape();
    let mut scout = Scout {
        given,
        settings,
        counts,
        draws,
        words,
        thresholds,
        kept: columns.len() / features,
        columns,
        side: vec![false; rows],
        aside: Vec::with_capacity(rows),
    };
    scout.grow();
}

impl Scout<'_> {
    fn grow(&mut self) {
        let mut waiting = Vec::new();
        self.join(self.root(), &mut waiting);
        while let Some((node, cut)) = waiting.pop() {
            let (yes, no) = self.split(node, cut);
            if self.searched(&yes) || self.searched(&no) {
                self.partition(&node);
            }
            self.join(yes, &mut waiting);
            self.join(no, &mut waiting);
        }
    }

    fn root(&self) -> Node {
        let masses = (0..self.counts.len()).map(|row| self.mass(row));
        let totals = masses.zip(self.given.y);
        let none = Totals::default();
        Node {
            start: 0,
            end: self.kept,
            level: 1,
            count: self.count(&self.columns[..self.kept]),
            totals: totals.fold(none, |sum, (mass, target)| sum.plus(*target, mass)),
        }
    }

    fn mass(&self, row: usize) -> f64 {
        let count = f64::from(self.counts[row]);
        self.given.weights.get(row).map_or(count, |it| count * it)
    }

    fn count(&self, rows: &[u32]) -> u32 {
        rows.iter().map(|row| self.counts[*row as usize]).sum()
    }

    fn total(&self, rows: &[u32]) -> Totals {
        rows.iter().fold(Totals::default(), |sum, row| {
            let row = *row as usize;
            sum.plus(self.given.y[row], self.mass(row))
        })
    }

    fn value(&self, row: u32, feature: usize) -> f64 {
        let features = self.given.x.shape().1;
        self.given.x.values()[row as usize * features + feature]
    }

    fn column(&self, node: &Node, feature: usize) -> &[u32] {
        let from = feature * self.kept;
        &self.columns[from + node.start..from + node.end]
    }

    fn searched(&self, node: &Node) -> bool {
        node.level < self.settings.limit()
            && node.start < node.end
            && node.count >= self.settings.split
    }

    /// Searches a node, if it is to be searched, and lets it wait to be split if a cut is found.
    fn join(&mut self, node: Node, waiting: &mut Vec<(Node, Cut)>) {
        if self.searched(&node) {
            let found = self.search(&node);
            waiting.extend(found.map(|cut| (node, cut)));
        }
    }

    fn search(&mut self, node: &Node) -> Option<Cut> {
        let features = self.given.x.shape().1;
        let tried = (self.settings.tried(features) as usize).min(features);
        let at = self.words.len();
        self.words.extend_from_slice(self.draws.order());
        let mut held: Option<Cut> = None;
        for word in at..at + tried {
            let feature = self.words[word] as usize;
            let better = |cut: &Cut| held.is_none_or(|it| cut.proxy > it.proxy);
            held = self.try_one(node, feature).filter(better).or(held);
        }
        held
    }

    /// Tries one threshold for a feature, if its values differ.
    fn try_one(&mut self, node: &Node, feature: usize) -> Option<Cut> {
        let column = self.column(node, feature);
        let low = self.value(*column.first()?, feature);
        let high = self.value(*column.last()?, feature);
        if low >= high {
            return None;
        }
        let threshold = self.draws.threshold(low, high);
        self.thresholds.push(threshold);
        let yes = self.true_side(node, feature, threshold);
        let count = self.count(yes);
        let least = self.settings.leaf;
        if count < least || node.count - count < least {
            return None;
        }
        let totals = self.total(yes);
        Some(Cut {
            feature,
            threshold,
            proxy: totals.proxy(node.totals.less(totals)),
        })
    }

    /// The rows at the front of a column whose value is at or below the threshold.
    fn true_side(&self, node: &Node, feature: usize, threshold: f64) -> &[u32] {
        let column = self.column(node, feature);
        let end = column.partition_point(|row| self.value(*row, feature) <= threshold);
        &column[..end]
    }

    /// The children of a split; also records which side each row goes to.
    fn split(&mut self, node: Node, cut: Cut) -> (Node, Node) {
        let middle = node.start + self.true_side(&node, cut.feature, cut.threshold).len();
        let child = |start: usize, end: usize| {
            let from = cut.feature * self.kept;
            let rows = &self.columns[from + start..from + end];
            Node {
                start,
                end,
                level: node.level + 1,
                count: self.count(rows),
                totals: self.total(rows),
            }
        };
        let children = (child(node.start, middle), child(middle, node.end));
        let from = cut.feature * self.kept;
        for place in node.start..node.end {
            self.side[self.columns[from + place] as usize] = place < middle;
        }
        children
    }

    /// Moves the rows of the true side to the front of every column, keeping the order on both sides.
    fn partition(&mut self, node: &Node) {
        for column in self.columns.chunks_exact_mut(self.kept) {
            let rows = &mut column[node.start..node.end];
            self.aside.clear();
            let mut front = 0;
            for place in 0..rows.len() {
                let row = rows[place];
                if self.side[row as usize] {
                    rows[front] = row;
                    front += 1;
                } else {
                    self.aside.push(row);
                }
            }
            rows[front..].copy_from_slice(&self.aside);
        }
    }
}
