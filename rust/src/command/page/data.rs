//! What a page shows, as plain data.

use crate::support::ENOUGH;
use tailboardy::OutOfBagError;

/// Everything that a page shows. All numbers are finite, but what is computed from them need not be.
#[derive(Debug)]
pub struct Page {
    /// The column that was predicted, and the unit of its cells, or nothing.
    pub target: String,
    pub unit: String,
    pub old: Source,
    pub new: Source,
    pub forest: Forest,
    pub measurements: Vec<Measurement>,
    /// The measurements that place the fixtures in the picture of the rig: across, and up if there are two.
    pub across: usize,
    pub up: Option<usize>,
    pub fixtures: Vec<Fixture>,
    pub focused: Vec<Focused>,
    /// What else the reader should know about the tables, a line each.
    pub notes: Vec<String>,
}

/// A show: the file that it was read from, and the number of its fixtures.
#[derive(Debug)]
pub struct Source {
    pub file: String,
    pub fixtures: usize,
}

/// The forest, and the mean square of what it misses fixtures of the old show by.
#[derive(Debug)]
pub struct Forest {
    pub trees: usize,
    pub nodes: usize,
    pub seed: u64,
    /// `None` if no fixture has an out-of-bag mean.
    pub error: Option<OutOfBagError>,
}

/// A feature, how much it weighs in the forest, and its range in the old show.
#[derive(Debug)]
pub struct Measurement {
    pub name: String,
    /// The unit that its cells have, or nothing.
    pub unit: String,
    pub importance: f64,
    pub low: f64,
    pub high: f64,
    /// The unit that the values of the new show seem to have, and that of the old show's, if many lie outside and this would explain it.
    pub units: Option<(&'static str, &'static str)>,
}

/// A fixture of the new show.
#[derive(Debug)]
pub struct Fixture {
    pub name: String,
    /// Its values of the measurements across and up.
    pub at: [f64; 2],
    pub correction: f64,
    /// A tenth of the trees predict at most this,
    pub low: f64,
    /// and a tenth at least this.
    pub high: f64,
    /// How many fixtures of the old show stand behind the correction: the median of the trees.
    pub support: u32,
    pub outside: Vec<Outside>,
}

/// A measurement of a fixture that lies outside the old show's range.
#[derive(Debug)]
pub struct Outside {
    pub measurement: usize,
    pub value: f64,
}

/// A fixture of the old show: the correction that it was given, and the mean over the trees that left it out, if there are any.
#[derive(Debug)]
pub struct Focused {
    pub name: String,
    pub correction: f64,
    pub mean: Option<f64>,
}

impl Page {
    /// The fixtures that lie outside the old show's range.
    pub fn outside(&self) -> impl Iterator<Item = &Fixture> {
        self.fixtures.iter().filter(|it| !it.outside.is_empty())
    }

    /// The fixtures whose correction rests on few fixtures of the old show.
    pub fn thin(&self) -> impl Iterator<Item = &Fixture> {
        self.fixtures.iter().filter(|it| it.thin())
    }

    /// How far a value lies beyond the old show's range.
    pub fn beyond(&self, outside: &Outside) -> f64 {
        let range = &self.measurements[outside.measurement];
        (outside.value - range.high).max(range.low - outside.value)
    }
}

impl Fixture {
    /// How far the trees lie apart.
    pub fn spread(&self) -> f64 {
        self.high - self.low
    }

    /// Whether its correction rests on few fixtures of the old show.
    pub fn thin(&self) -> bool {
        self.support < ENOUGH
    }
}
