//! The public calls with everything that they are given, and the lengths of their rooms.

/// A fit of one tree, or of a forest. One tree has no cut tables, starts or report columns.
#[derive(Clone, Debug, Default)]
pub struct Fit {
    pub forest: bool,
    pub rows: usize,
    pub features: usize,
    pub trees: usize,
    pub limit: Option<u16>,
    pub least_leaf: u32,
    pub least_split: u32,
    /// `None` only in a forest.
    pub tried: Option<u32>,
    pub random: bool,
    /// Whether the best splitter cuts at the lower of two neighbouring values, and not halfway between them.
    pub lower: bool,
    pub x: Vec<f64>,
    pub y: Vec<f64>,
    pub weights: Vec<f64>,
    pub counts: Vec<u32>,
    pub listings: Vec<u32>,
    pub words: Vec<u32>,
    pub thresholds: Vec<f64>,
    pub word_starts: Vec<u64>,
    pub threshold_starts: Vec<u64>,
    pub rooms: Lengths,
}

#[derive(Clone, Copy, Debug, Default)]
pub struct Lengths {
    /// value, feature, threshold, score, true child, false child, count, mass
    pub nodes: [usize; 8],
    pub starts: usize,
    /// nodes, depth, root mass, searches, words used, thresholds used
    pub reports: [usize; 6],
    /// columns, scratch, flags, waiting list
    pub work: [usize; 4],
}

impl Fit {
    /// Whether its thresholds are measured values, as smartcore's are not. The random splitter ignores the choice.
    pub fn measured(&self) -> bool {
        self.lower && !self.random
    }

    pub fn kept(&self, tree: usize, row: usize) -> bool {
        let weight = self.weights.get(row).copied().unwrap_or(1.0);
        self.counts[tree * self.rows + row] > 0 && weight > 0.0
    }

    /// The number of nodes that a tree requires room for.
    pub fn asked(&self, tree: usize) -> usize {
        let kept = (0..self.rows).filter(|&row| self.kept(tree, row)).count();
        (2 * kept).max(2) - 1
    }
}

/// Node columns given to a reader.
#[derive(Clone, Debug, Default)]
pub struct Table {
    pub value: Vec<f64>,
    pub feature: Vec<u32>,
    pub threshold: Vec<f64>,
    pub score: Vec<f64>,
    pub true_child: Vec<u32>,
    pub false_child: Vec<u32>,
}

impl Table {
    /// The number of nodes, which is the length of the shortest column.
    pub fn room(&self) -> usize {
        let floats = self.value.len().min(self.threshold.len());
        let numbers = self.feature.len().min(self.true_child.len());
        floats
            .min(numbers)
            .min(self.score.len())
            .min(self.false_child.len())
    }
}

#[derive(Clone, Copy, Debug, Default, PartialEq)]
pub enum Reader {
    #[default]
    Predictions,
    ForestMeans,
    OutOfBagMeans,
    NormalisedImportances,
    ImportancesByMass,
    ForestImportances,
    OutOfBagError,
    CheckListings,
    CheckTree,
    CheckForest,
    Node,
    ModelSize,
    WriteModel,
}

/// Those that the fixed list has.
pub const READERS: [Reader; 11] = [
    Reader::Predictions,
    Reader::ForestMeans,
    Reader::OutOfBagMeans,
    Reader::NormalisedImportances,
    Reader::ImportancesByMass,
    Reader::ForestImportances,
    Reader::OutOfBagError,
    Reader::CheckListings,
    Reader::CheckTree,
    Reader::CheckForest,
    Reader::Node,
];

/// A reader or a check. Whatever it does not use is empty.
#[derive(Clone, Debug, Default)]
pub struct Read {
    pub reader: Reader,
    pub rows: usize,
    pub features: usize,
    pub trees: usize,
    pub x: Vec<f64>,
    pub counts: Vec<u32>,
    pub listings: Vec<u32>,
    pub table: Table,
    pub starts: Vec<u32>,
    pub root_mass: f64,
    pub targets: Vec<f64>,
    pub means: Vec<f64>,
    /// The number of the node to be read out.
    pub node: usize,
    /// The length of the result room.
    pub out: usize,
}

/// The bytes of a model's file, and the lengths of the rooms that the model is to be put into.
#[derive(Clone, Debug, Default)]
pub struct File {
    pub bytes: Vec<u8>,
    /// value, feature, threshold, score, true child, false child
    pub nodes: [usize; 6],
    pub starts: usize,
}

#[derive(Clone, Debug)]
pub enum Call {
    Fit(Fit),
    Read(Read),
    File(File),
}
