//! Inputs for the tests, made from a seed.

#![allow(dead_code)]

use tailboardy::{
    Counts, Cuts, DenseMatrix, Nodes, RandomForestRegressor, RandomForestRegressorParameters,
    SplitMix64, Splitter,
};

/// A maker of inputs.
pub struct Maker(pub SplitMix64);

impl Maker {
    pub fn new(seed: u64) -> Self {
        Maker(SplitMix64::new(seed))
    }

    /// From 0 to `most`.
    pub fn up_to(&mut self, most: usize) -> usize {
        self.0.up_to(most as u64) as usize
    }

    pub fn one_of<T: Copy>(&mut self, of: &[T]) -> T {
        of[self.up_to(of.len() - 1)]
    }

    pub fn chance(&mut self, of: usize) -> bool {
        self.up_to(of - 1) == 0
    }

    /// Mostly few different numbers, so that there are ties; some large and small ones, and both zeros.
    pub fn number(&mut self) -> f64 {
        match self.up_to(9) {
            0 => self.one_of(&[
                0.0,
                -0.0,
                1e300,
                -1e300,
                5e-324,
                -5e-324,
                f64::MAX,
                f64::MIN,
            ]),
            1 => self.0.unit(),
            _ => self.up_to(6) as f64 - 3.0,
        }
    }

    pub fn any_number(&mut self) -> f64 {
        match self.chance(12) {
            true => self.one_of(&[f64::NAN, f64::INFINITY, f64::NEG_INFINITY]),
            false => self.number(),
        }
    }

    pub fn numbers(&mut self, length: usize) -> Vec<f64> {
        (0..length).map(|_| self.number()).collect()
    }

    pub fn matrix(&mut self, rows: usize, features: usize) -> DenseMatrix {
        let values = self.numbers(rows * features);
        DenseMatrix::new(rows, features, values, false).expect("as many values")
    }

    /// Numbers from 0 to 1, and as many targets as rows.
    pub fn plain(&mut self, rows: usize, features: usize) -> (DenseMatrix, Vec<f64>) {
        let values = (0..rows * features).map(|_| self.0.unit()).collect();
        let x = DenseMatrix::new(rows, features, values, false).expect("as many values");
        (x, (0..rows).map(|_| self.0.unit()).collect())
    }

    pub fn weights(&mut self, rows: usize) -> Vec<f64> {
        (0..rows)
            .map(|_| self.one_of(&[0.0, -0.0, 0.5, 1.0, 3.0, 1e-300, 1e300]))
            .collect()
    }

    pub fn counts(&mut self, trees: usize, rows: usize) -> Counts {
        let numbers = (0..trees * rows).map(|_| self.up_to(3) as u32).collect();
        Counts::new(trees, rows, numbers).expect("as many counts")
    }

    /// Parameters of a forest, with every number at its limits now and then.
    pub fn parameters(&mut self) -> RandomForestRegressorParameters {
        let depths = [
            None,
            None,
            None,
            Some(0),
            Some(1),
            Some(2),
            Some(3),
            Some(u16::MAX),
        ];
        RandomForestRegressorParameters {
            n_trees: 1 + self.up_to(5),
            m: self.one_of(&[None, None, Some(0), Some(1), Some(2), Some(u32::MAX)]),
            max_depth: self.one_of(&depths),
            min_samples_leaf: self.one_of(&[0, 1, 1, 2, 3, u32::MAX]),
            min_samples_split: self.one_of(&[0, 1, 2, 2, 5, u32::MAX]),
            bootstrap: !self.chance(4),
            keep_samples: true,
            splitter: self.one_of(&[Splitter::Best, Splitter::Random]),
            cuts: self.one_of(&[Cuts::Midpoint, Cuts::Measured]),
            seed: self.0.word(),
            n_threads: self.one_of(&[None, Some(0), Some(1), Some(3)]),
        }
    }
}

/// The bits of nodes, with all NaNs the same.
pub fn bits(nodes: &Nodes) -> Vec<[u64; 6]> {
    let real = |number: f64| {
        if number.is_nan() {
            u64::MAX
        } else {
            number.to_bits()
        }
    };
    (0..nodes.len())
        .map(|at| {
            let [feature, yes, no] = [
                nodes.feature[at],
                nodes.true_child[at],
                nodes.false_child[at],
            ]
            .map(u64::from);
            let [value, threshold, score] =
                [nodes.value[at], nodes.threshold[at], nodes.score[at]].map(real);
            [value, feature, threshold, score, yes, no]
        })
        .collect()
}

pub fn same(one: &RandomForestRegressor, other: &RandomForestRegressor) -> bool {
    one.starts() == other.starts() && bits(one.nodes()) == bits(other.nodes())
}

/// Two features; a tree with one split, and a tree that is a leaf.
pub fn small() -> RandomForestRegressor {
    let nodes = Nodes {
        value: vec![6.0, 5.0, 7.0, f64::NAN],
        feature: vec![1, 0, 0, 0],
        threshold: vec![1.5, 0.0, 0.0, 0.0],
        score: vec![2.0, 0.0, 0.0, 0.0],
        true_child: vec![1, 0, 0, 0],
        false_child: vec![2, 0, 0, 0],
    };
    RandomForestRegressor::from_table(2, vec![0, 3, 4], nodes).unwrap()
}
