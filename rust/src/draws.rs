//! Draws: the orders of features and the thresholds that growth uses, tree after tree.

use crate::given::Given;
use crate::parameters::{RandomForestRegressorParameters, Settings};
use crate::scout;
use crate::seed::TreeDraws;

/// The recorded draws of a fit: two tapes, of which each tree has its own part.
///
/// Every search in a tree takes as many `words` as there are features, which are a permutation of the features, and tries the first
/// of them. With the random splitter it also takes one threshold for each feature tried whose values differ in the node: at least the
/// lowest of these values and below the highest. A draw that is missing or out of range is refusal 7; draws left over are ignored.
///
/// [`seeded`](Draws::seeded) makes draws from a seed, in plain Rust, outside the proved core.
///
/// ```
/// use tailboardy::Draws;
///
/// let mut draws = Draws::none();
/// draws.push_tree(&[0, 1, 1, 0], &[]);
/// draws.push_tree(&[1, 0], &[]);
/// assert_eq!(draws.word_starts, [0, 4, 6]);
/// ```
#[derive(Debug, Clone, PartialEq)]
pub struct Draws {
    /// Orders of the features, search after search.
    pub words: Vec<u32>,
    /// Thresholds, in the order in which they are used.
    pub thresholds: Vec<f64>,
    /// Where each tree's part of the words begins, and where the last part ends: trees + 1 positions.
    pub word_starts: Vec<usize>,
    /// The same for the thresholds.
    pub threshold_starts: Vec<usize>,
}

impl Default for Draws {
    fn default() -> Self {
        Draws::none()
    }
}

impl Draws {
    /// Draws of no tree yet.
    #[must_use]
    pub fn none() -> Self {
        Draws {
            words: Vec::new(),
            thresholds: Vec::new(),
            word_starts: vec![0],
            threshold_starts: vec![0],
        }
    }

    /// Adds the draws of one more tree.
    pub fn push_tree(&mut self, words: &[u32], thresholds: &[f64]) {
        self.words.extend_from_slice(words);
        self.thresholds.extend_from_slice(thresholds);
        self.cut();
    }

    /// All draws of a seeded forest. A fit that is [given](crate::RandomForestRegressor::fit_given) these draws is the same as the fit
    /// from that seed. For a forest of many trees this takes a lot of memory; the seeded fit makes the draws of a few trees at a time.
    #[must_use]
    pub fn seeded(given: &Given, parameters: RandomForestRegressorParameters) -> Self {
        let source = Source::new(given, parameters.settings(), parameters.seed);
        let mut draws = Draws::none();
        for tree in 0..given.counts.shape().0 {
            source.draw(tree, &mut draws);
        }
        draws
    }

    fn cut(&mut self) {
        self.word_starts.push(self.words.len());
        self.threshold_starts.push(self.thresholds.len());
    }
}

/// Where the draws of a seeded fit come from. A proved fit from seeds will replace this.
pub(crate) struct Source<'a> {
    given: &'a Given<'a>,
    settings: Settings,
    seed: u64,
    fits: bool,
}

impl<'a> Source<'a> {
    pub(crate) fn new(given: &'a Given<'a>, settings: Settings, seed: u64) -> Self {
        Source {
            given,
            settings,
            seed,
            fits: given.fits(),
        }
    }

    /// How many words are drawn for a tree.
    pub(crate) fn words(&self, tree: usize) -> usize {
        let counts = self.given.counts.of_tree(tree);
        let kept = |row: &usize| self.given.keeps(counts, *row);
        let (rows, total) = (0..counts.len())
            .filter(kept)
            .fold((0, 0), |(rows, total), row| {
                (rows + 1, total + u64::from(counts[row]))
            });
        match self.fits {
            true => self.given.x.shape().1 * most_searches(rows, total, &self.settings),
            false => 0,
        }
    }

    /// Adds one tree's draws. The best splitter uses no thresholds, so its orders are drawn in advance, for as many searches as there
    /// can be. The random splitter's draws depend on how the tree grows.
    pub(crate) fn draw(&self, tree: usize, draws: &mut Draws) {
        if self.fits {
            let own = TreeDraws::new(self.seed, tree, self.given.x.shape().1);
            match self.settings.random {
                true => self.follow(tree, own, draws),
                false => self.ahead(tree, own, draws),
            }
        }
        draws.cut();
    }

    fn follow(&self, tree: usize, own: TreeDraws, draws: &mut Draws) {
        let (words, thresholds) = (&mut draws.words, &mut draws.thresholds);
        scout::draw(self.given, tree, self.settings, own, words, thresholds);
    }

    fn ahead(&self, tree: usize, mut own: TreeDraws, draws: &mut Draws) {
        let more = self.words(tree);
        let end = draws.words.len() + more;
        draws.words.reserve(more);
        while draws.words.len() < end {
            draws.words.extend_from_slice(own.order());
        }
    }
}

/// An upper bound on the searches of a tree. Its leaves divide the kept rows and their counts among them, each with at least the least
/// leaf, and there is one split fewer than there are leaves; every node that is split is searched, and so are the leaves that reach
/// the least split. Also, each level above the depth limit has at most twice as many nodes as the level before.
pub(crate) fn most_searches(kept: usize, total: u64, settings: &Settings) -> usize {
    if kept == 0 {
        return 0;
    }
    let shares = |each: u32| usize::try_from(total / u64::from(each.max(1))).unwrap_or(usize::MAX);
    let leaves = kept.min(shares(settings.leaf)).max(1);
    let by_rows = leaves - 1 + leaves.min(shares(settings.split));
    let levels = settings.limit().saturating_sub(1).min(32);
    by_rows.min((1usize << levels) - 1)
}
