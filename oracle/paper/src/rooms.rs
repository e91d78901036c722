//! The rooms that a call writes to, and the node columns that it reads.

/// Room for nodes: six columns. The shortest decides how many nodes there is room for; in a fit the two of `Behind` count as well.
pub struct Columns<'a> {
    pub value: &'a mut [f64],
    pub feature: &'a mut [u32],
    pub threshold: &'a mut [f64],
    pub score: &'a mut [f64],
    pub true_child: &'a mut [u32],
    pub false_child: &'a mut [u32],
}

/// Room for what stands behind the nodes of a fit: two more columns, the kept counts in each node and its mass.
pub struct Behind<'a> {
    pub count: &'a mut [u32],
    pub mass: &'a mut [f64],
}

/// The report columns of a forest, one entry per tree.
pub struct Reports<'a> {
    pub nodes: &'a mut [u32],
    pub depth: &'a mut [u32],
    pub root_mass: &'a mut [f64],
    pub searches: &'a mut [u32],
    pub words_used: &'a mut [u32],
    pub thresholds_used: &'a mut [u32],
}

/// An entry of the waiting list. Its fields cannot be seen from outside; only the length of the list matters.
#[derive(Clone, Copy, Debug, Default, PartialEq)]
#[repr(C)]
pub struct Waiting {
    pub node: u32,
    pub start: u32,
    pub end: u32,
    pub level: u32,
    pub sum: f64,
    pub mass: f64,
}

pub struct Work<'a> {
    pub columns: &'a mut [u32],
    pub scratch: &'a mut [u32],
    pub flags: &'a mut [bool],
    pub waiting: &'a mut [Waiting],
}

pub struct TreeRooms<'a> {
    pub nodes: Columns<'a>,
    pub behind: Behind<'a>,
    pub work: Work<'a>,
}

pub struct ForestRooms<'a> {
    pub nodes: Columns<'a>,
    pub behind: Behind<'a>,
    pub starts: &'a mut [u32],
    pub reports: Reports<'a>,
    pub work: Work<'a>,
}

/// Where a forest is put that is read from a file.
pub struct ModelRooms<'a> {
    pub nodes: Columns<'a>,
    pub starts: &'a mut [u32],
}

/// Node columns as a reader is given them.
#[derive(Clone, Copy)]
pub struct Table<'a> {
    pub value: &'a [f64],
    pub feature: &'a [u32],
    pub threshold: &'a [f64],
    pub score: &'a [f64],
    pub true_child: &'a [u32],
    pub false_child: &'a [u32],
}

/// The shortest of six columns.
fn shortest(floats: [usize; 3], numbers: [usize; 3]) -> usize {
    let lengths = [floats, numbers].concat();
    lengths.into_iter().min().unwrap_or(0)
}

impl Columns<'_> {
    pub(crate) fn room(&self) -> usize {
        shortest(
            [self.value.len(), self.threshold.len(), self.score.len()],
            [
                self.feature.len(),
                self.true_child.len(),
                self.false_child.len(),
            ],
        )
    }

    pub(crate) fn zero(&mut self) {
        self.value.fill(0.0);
        self.feature.fill(0);
        self.threshold.fill(0.0);
        self.score.fill(0.0);
        self.true_child.fill(0);
        self.false_child.fill(0);
    }
}

impl Behind<'_> {
    pub(crate) fn room(&self) -> usize {
        self.count.len().min(self.mass.len())
    }

    pub(crate) fn zero(&mut self) {
        self.count.fill(0);
        self.mass.fill(0.0);
    }
}

impl Reports<'_> {
    pub(crate) fn lengths(&self) -> [usize; 6] {
        [
            self.nodes.len(),
            self.depth.len(),
            self.root_mass.len(),
            self.searches.len(),
            self.words_used.len(),
            self.thresholds_used.len(),
        ]
    }

    pub(crate) fn zero(&mut self) {
        self.nodes.fill(0);
        self.depth.fill(0);
        self.root_mass.fill(0.0);
        self.searches.fill(0);
        self.words_used.fill(0);
        self.thresholds_used.fill(0);
    }
}

impl Work<'_> {
    pub(crate) fn enough(&self, rows: usize, features: usize) -> bool {
        self.columns.len() >= features * rows
            && self.scratch.len() >= rows
            && self.flags.len() >= rows.max(features)
            && self.waiting.len() >= rows
    }

    pub(crate) fn zero(&mut self) {
        self.columns.fill(0);
        self.scratch.fill(0);
        self.flags.fill(false);
        self.waiting.fill(Waiting::default());
    }
}

impl<'a> Table<'a> {
    pub(crate) fn room(&self) -> usize {
        shortest(
            [self.value.len(), self.threshold.len(), self.score.len()],
            [
                self.feature.len(),
                self.true_child.len(),
                self.false_child.len(),
            ],
        )
    }

    /// The entries from one position to another, in every column.
    pub(crate) fn part(&self, from: usize, to: usize) -> Table<'a> {
        Table {
            value: &self.value[from..to],
            feature: &self.feature[from..to],
            threshold: &self.threshold[from..to],
            score: &self.score[from..to],
            true_child: &self.true_child[from..to],
            false_child: &self.false_child[from..to],
        }
    }
}
