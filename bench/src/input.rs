//! What both sides are given: values, targets, listings, bags, and the draws that smartcore makes for them.

use copy::harness::{Data, Params, Tape, argsorted};
use copy::ready::Ready;
use driver::make::chance::Chance;

/// What is measured.
#[derive(Clone, Copy)]
pub struct Size {
    pub rows: usize,
    pub features: usize,
    pub trees: usize,
    pub values: Values,
}

/// What the values of the features are like.
#[derive(Clone, Copy)]
pub enum Values {
    /// Each row has a new one.
    Different,
    /// Each feature has this many different ones.
    Few(usize),
    /// Every feature has the rows in the same order, and splits put the last tenth of a node's rows on the false side: in every
    /// column the first nine tenths stay where they are.
    Alike,
}

pub struct Input {
    pub size: Size,
    pub x: Vec<f64>,
    pub y: Vec<f64>,
    pub counts: Vec<u32>,
    pub listings: Vec<u32>,
    /// Rows of the same kind that no tree has seen, for predictions.
    pub fresh: Vec<f64>,
    pub tapes: Vec<Tape>,
    pub words: Vec<u32>,
    pub word_starts: Vec<usize>,
    pub threshold_starts: Vec<usize>,
}

/// Seeds of the inputs and of the draws; any numbers would do.
const SEED: u64 = 1;

/// As many cuts at nine tenths one within another as 10,000 rows allow.
const LEVELS: usize = 88;

impl Size {
    /// smartcore's defaults, including its default number of features tried.
    pub fn params(&self) -> Params {
        Params {
            limit: None,
            least_leaf: 1,
            least_split: 2,
            tried: self.features.isqrt(),
            random: false,
        }
    }

    fn row(&self, chance: &mut Chance) -> Vec<f64> {
        let features = 0..self.features;
        match self.values {
            Values::Different => features.map(|_| chance.unit()).collect(),
            Values::Few(n) => features
                .map(|_| chance.below(n) as f64 / n as f64)
                .collect(),
            Values::Alike => {
                let height = chance.unit();
                features.map(|j| height + j as f64).collect()
            }
        }
    }

    fn table(&self, chance: &mut Chance) -> Vec<f64> {
        (0..self.rows).flat_map(|_| self.row(chance)).collect()
    }

    fn targets(&self, chance: &mut Chance, x: &[f64]) -> Vec<f64> {
        let rows = x.chunks(self.features);
        match self.values {
            Values::Alike => rows.map(|row| tenths(row[0])).collect(),
            _ => rows.map(|row| waves(row) + 0.2 * chance.unit()).collect(),
        }
    }

    /// For each tree as many draws with replacement as there are rows.
    fn bags(&self, chance: &mut Chance) -> Vec<u32> {
        let mut counts = vec![0; self.trees * self.rows];
        for bag in counts.chunks_mut(self.rows) {
            for _ in 0..self.rows {
                bag[chance.below(self.rows)] += 1;
            }
        }
        counts
    }
}

/// Waves over the first features: with noise, trees grow until each leaf has one row or equal rows.
fn waves(row: &[f64]) -> f64 {
    row.iter().take(4).map(|v| (6.0 * v).sin()).sum()
}

/// The last tenth of the heights from 0 to 1 stands out from the others, and the same holds within either part, less and less.
fn tenths(mut height: f64) -> f64 {
    let mut target = 0.0;
    let mut more = 1.0;
    for _ in 0..LEVELS {
        if height < 0.9 {
            height /= 0.9;
        } else {
            height = (height - 0.9) * 10.0;
            target += more;
        }
        more *= 0.3;
    }
    target
}

impl Input {
    pub fn new(size: Size) -> Self {
        let mut chance = Chance::new(SEED);
        let x = size.table(&mut chance);
        let mut input = Input {
            size,
            y: size.targets(&mut chance, &x),
            counts: size.bags(&mut chance),
            listings: argsorted(size.rows, size.features, &x),
            fresh: size.table(&mut chance),
            x,
            tapes: Vec::new(),
            words: Vec::new(),
            word_starts: vec![0],
            threshold_starts: vec![0; size.trees + 1],
        };
        let forest = input.ready().fit(&size.params(), SEED);
        for tree in forest.into_trees() {
            input.words.extend(&tree.made.words);
            input.word_starts.push(input.words.len());
            input.tapes.push(tree.made);
        }
        input
    }

    pub fn ready(&self) -> Ready {
        let data = Data {
            rows: self.size.rows,
            features: self.size.features,
            x: &self.x,
            y: &self.y,
            weights: &[],
            listings: &self.listings,
        };
        Ready::new(&data, &self.counts)
    }
}
