//! What the fits are given, and what they return.

#[derive(Clone, Copy, Debug, PartialEq)]
pub enum Splitter {
    Best,
    Random,
}

/// Where the best splitter cuts between a value and the next one above it: halfway, or at the lower of the two, which was measured.
#[derive(Clone, Copy, Debug, PartialEq)]
pub enum CutAt {
    Midpoint,
    Lower,
}

#[derive(Clone, Copy, Debug)]
pub struct Settings {
    /// The maximum depth; `None` counts as 65,535.
    pub limit: Option<u16>,
    pub least_leaf: u32,
    pub least_split: u32,
    pub splitter: Splitter,
    /// Ignored by the random splitter, whose thresholds are drawn.
    pub cut_at: CutAt,
}

/// What both fits are given: feature values row by row, counts tree by tree, listings feature by feature.
#[derive(Clone, Copy)]
pub struct Given<'a> {
    pub rows: usize,
    pub features: usize,
    pub x: &'a [f64],
    pub y: &'a [f64],
    /// One per row, or empty for none.
    pub weights: &'a [f64],
    pub counts: &'a [u32],
    pub listings: &'a [u32],
}

#[derive(Clone, Copy)]
pub struct Draws<'a> {
    pub words: &'a [u32],
    pub thresholds: &'a [f64],
}

/// Where each tree's part of the two tapes begins, and where the last one ends.
#[derive(Clone, Copy)]
pub struct Cuts<'a> {
    pub words: &'a [u64],
    pub thresholds: &'a [u64],
}

pub struct TreeCall<'a> {
    pub given: Given<'a>,
    pub settings: Settings,
    pub tried: u32,
    pub draws: Draws<'a>,
}

pub struct ForestCall<'a> {
    pub given: Given<'a>,
    pub trees: usize,
    pub settings: Settings,
    /// `None` for the square root of the number of features, rounded down.
    pub tried: Option<u32>,
    pub draws: Draws<'a>,
    pub cuts: Cuts<'a>,
}

/// What a fit reports about a tree.
#[derive(Clone, Copy, Debug, Default)]
pub struct Numbers {
    pub nodes: u32,
    pub depth: u32,
    pub root_mass: f64,
    pub searches: u32,
    pub words_used: u32,
    pub thresholds_used: u32,
}

/// What a refusal tells; the number is 0 if there is none. Whatever is not told is 0.
#[derive(Clone, Copy, Debug, Default, PartialEq)]
pub struct Refusal {
    pub number: u32,
    /// With 11, 12 and 13 the column whose listing has the fault; with 7 the tree.
    pub part: u32,
    /// With 11, 12 and 13 the place in the listing; with 7 the search within the tree.
    pub place: u32,
    /// With 12 the lowest row that the whole column lacks.
    pub row: u32,
}

impl Refusal {
    /// One that tells its number only.
    pub(crate) fn of(number: u32) -> Self {
        Refusal {
            number,
            ..Refusal::default()
        }
    }
}

/// What the reading of a file tells: 0, or the number of a refusal and the byte at which what is refused begins; and of a file that was
/// read, how large its forest is.
#[derive(Clone, Copy, Debug, Default)]
pub struct ModelAnswer {
    pub number: u32,
    pub place: usize,
    pub features: u32,
    pub trees: u32,
    pub nodes: u32,
}

#[derive(Clone, Copy, Debug, Default)]
pub struct TreeAnswer {
    pub refusal: Refusal,
    pub numbers: Numbers,
}
