//! The growth of one tree. Each node has its own columns, so nothing is moved in place.

use crate::calls::{Draws, Given, Numbers, Settings, Splitter};
use crate::totals::{Totals, proxy, score, threshold};

/// A node as it is written; in a leaf the feature, threshold, score and children are 0.
#[derive(Clone, Copy, Debug, Default)]
pub struct Record {
    pub value: f64,
    pub feature: u32,
    pub threshold: f64,
    pub score: f64,
    pub true_child: u32,
    pub false_child: u32,
}

pub struct Grown {
    pub nodes: Vec<Record>,
    /// The kept counts in each node, and its mass.
    pub behind: Vec<(u64, f64)>,
    pub numbers: Numbers,
}

/// The search of a draw that is missing or out of range.
pub struct BadDraw {
    pub search: u32,
}

/// A tree's input: its own counts and its own part of the tapes.
pub struct Seed<'a> {
    pub given: &'a Given<'a>,
    pub counts: &'a [u32],
    pub settings: Settings,
    pub tried: u32,
    pub draws: Draws<'a>,
}

/// The best candidate of a search so far.
#[derive(Clone, Copy)]
struct Held {
    feature: usize,
    threshold: f64,
    proxy: f64,
}

/// A node that may be searched: its rows, once for each feature, in that listing's order.
struct Stand {
    number: usize,
    level: u32,
    count: u64,
    totals: Totals,
    columns: Vec<Vec<u32>>,
}

struct Growth<'a> {
    seed: &'a Seed<'a>,
    nodes: Vec<Record>,
    behind: Vec<(u64, f64)>,
    waiting: Vec<(Stand, Held)>,
    depth: u32,
    searches: u32,
    words_used: usize,
    thresholds_used: usize,
}

impl Seed<'_> {
    fn limit(&self) -> u32 {
        u32::from(self.settings.limit.unwrap_or(65_535))
    }

    pub fn kept(&self, row: usize) -> bool {
        let weights = self.given.weights;
        self.counts[row] > 0 && (weights.is_empty() || weights[row] > 0.0)
    }

    pub fn kept_rows(&self) -> usize {
        (0..self.given.rows).filter(|row| self.kept(*row)).count()
    }

    fn mass(&self, row: usize) -> f64 {
        let count = f64::from(self.counts[row]);
        match self.given.weights {
            [] => count,
            weights => count * weights[row],
        }
    }

    fn count(&self, row: u32) -> u64 {
        u64::from(self.counts[row as usize])
    }

    fn value(&self, row: u32, feature: usize) -> f64 {
        self.given.x[row as usize * self.given.features + feature]
    }

    fn add(&self, totals: Totals, row: usize) -> Totals {
        totals.with(self.given.y[row], self.mass(row))
    }

    fn add_all(&self, rows: &[u32]) -> Totals {
        rows.iter()
            .fold(Totals::none(), |t, row| self.add(t, *row as usize))
    }

    fn count_all(&self, rows: &[u32]) -> u64 {
        rows.iter().map(|row| self.count(*row)).sum()
    }

    fn root(&self) -> Stand {
        let all = 0..self.given.rows;
        let totals = all.fold(Totals::none(), |t, row| self.add(t, row));
        let kept = |listing: &[u32]| {
            let kept = listing.iter().filter(|row| self.kept(**row as usize));
            kept.copied().collect::<Vec<u32>>()
        };
        let columns: Vec<_> = self
            .given
            .listings
            .chunks(self.given.rows)
            .map(kept)
            .collect();
        Stand {
            number: 0,
            level: 1,
            count: self.count_all(&columns[0]),
            totals,
            columns,
        }
    }

    pub fn grow(&self) -> Result<Grown, BadDraw> {
        let root = self.root();
        let root_mass = root.totals.mass;
        let mut growth = Growth {
            seed: self,
            nodes: Vec::new(),
            behind: Vec::new(),
            waiting: Vec::new(),
            depth: 0,
            searches: 0,
            words_used: 0,
            thresholds_used: 0,
        };
        growth.add_leaf(root.totals, root.count);
        if !root.columns[0].is_empty() {
            growth.search_if_allowed(root)?;
        }
        while let Some((stand, held)) = growth.waiting.pop() {
            growth.split(stand, held)?;
        }
        let numbers = Numbers {
            nodes: growth.nodes.len() as u32,
            depth: growth.depth,
            root_mass,
            searches: growth.searches,
            words_used: growth.words_used as u32,
            thresholds_used: growth.thresholds_used as u32,
        };
        Ok(Grown {
            nodes: growth.nodes,
            behind: growth.behind,
            numbers,
        })
    }
}

fn each_once(words: &[u32]) -> bool {
    let mut sorted = words.to_vec();
    sorted.sort_unstable();
    sorted.iter().enumerate().all(|(i, w)| i == *w as usize)
}

impl<'a> Growth<'a> {
    fn bad(&self) -> BadDraw {
        BadDraw {
            search: self.searches - 1,
        }
    }

    fn allowed(&self, stand: &Stand) -> bool {
        let settings = &self.seed.settings;
        stand.level < self.seed.limit() && stand.count >= u64::from(settings.least_split)
    }

    fn search_if_allowed(&mut self, stand: Stand) -> Result<(), BadDraw> {
        if !self.allowed(&stand) {
            return Ok(());
        }
        if let Some(held) = self.search(&stand)? {
            self.waiting.push((stand, held));
        }
        Ok(())
    }

    fn search(&mut self, stand: &Stand) -> Result<Option<Held>, BadDraw> {
        self.searches += 1;
        let words = self.take_words()?;
        let tried = words.len().min(self.seed.tried as usize);
        let mut held = None;
        for word in &words[..tried] {
            match self.seed.settings.splitter {
                Splitter::Best => self.try_best(stand, *word as usize, &mut held),
                Splitter::Random => self.try_random(stand, *word as usize, &mut held)?,
            }
        }
        Ok(held)
    }

    fn take_words(&mut self) -> Result<&'a [u32], BadDraw> {
        let tape = self.seed.draws.words;
        let until = self.words_used + self.seed.given.features;
        if until > tape.len() || !each_once(&tape[self.words_used..until]) {
            return Err(self.bad());
        }
        let words = &tape[self.words_used..until];
        self.words_used = until;
        Ok(words)
    }

    fn take_threshold(&mut self, lowest: f64, highest: f64) -> Result<f64, BadDraw> {
        match self.seed.draws.thresholds.get(self.thresholds_used) {
            Some(t) if lowest <= *t && *t < highest => {
                self.thresholds_used += 1;
                Ok(*t)
            }
            _ => Err(self.bad()),
        }
    }

    fn try_best(&self, stand: &Stand, feature: usize, held: &mut Option<Held>) {
        let column = &stand.columns[feature];
        let mut before = self.seed.value(column[0], feature);
        let mut on_true = Totals::none();
        let mut count = 0;
        for row in column {
            let value = self.seed.value(*row, feature);
            if value != before {
                // the first of its run of equals: of zeros with both signs, it is the first one's sign that a cut takes over
                let cut = || threshold(self.seed.settings.cut_at, before, value);
                self.judge(stand, feature, count, on_true, cut, held);
                before = value;
            }
            on_true = self.seed.add(on_true, *row as usize);
            count += self.seed.count(*row);
        }
    }

    fn try_random(
        &mut self,
        stand: &Stand,
        feature: usize,
        held: &mut Option<Held>,
    ) -> Result<(), BadDraw> {
        let column = &stand.columns[feature];
        let lowest = self.seed.value(column[0], feature);
        let highest = self.seed.value(column[column.len() - 1], feature);
        if lowest < highest {
            let drawn = self.take_threshold(lowest, highest)?;
            let goes = |row: &&u32| self.seed.value(**row, feature) <= drawn;
            let rows: Vec<u32> = column.iter().filter(goes).copied().collect();
            let count = self.seed.count_all(&rows);
            let on_true = self.seed.add_all(&rows);
            self.judge(stand, feature, count, on_true, || drawn, held);
        }
        Ok(())
    }

    /// The first candidate is taken, a later one only if its proxy is greater.
    fn judge(
        &self,
        stand: &Stand,
        feature: usize,
        count: u64,
        on_true: Totals,
        cut: impl Fn() -> f64,
        held: &mut Option<Held>,
    ) {
        let least_leaf = u64::from(self.seed.settings.least_leaf);
        if count < least_leaf || stand.count - count < least_leaf {
            return;
        }
        let proxy = proxy(on_true, stand.totals.less(on_true));
        if held.is_none_or(|best| proxy > best.proxy) {
            *held = Some(Held {
                feature,
                threshold: cut(),
                proxy,
            });
        }
    }

    fn split(&mut self, stand: Stand, held: Held) -> Result<(), BadDraw> {
        let goes = |row: &u32| self.seed.value(*row, held.feature) <= held.threshold;
        let (mut to_true, mut to_false) = (Vec::new(), Vec::new());
        for column in &stand.columns {
            let (yes, no): (Vec<u32>, Vec<u32>) = column.iter().partition(|row| goes(row));
            to_true.push(yes);
            to_false.push(no);
        }
        let whole = self.seed.add_all(&stand.columns[held.feature]);
        let true_child = self.child(stand.level + 1, held.feature, to_true);
        let false_child = self.child(stand.level + 1, held.feature, to_false);
        let node = &mut self.nodes[stand.number];
        node.feature = held.feature as u32;
        node.threshold = held.threshold;
        node.score = score(whole, true_child.totals, false_child.totals);
        node.true_child = true_child.number as u32;
        node.false_child = false_child.number as u32;
        self.search_if_allowed(true_child)?;
        self.search_if_allowed(false_child)
    }

    /// A new node is a leaf. The mass behind it is the one that its value is divided by, or would be; a split changes neither.
    fn add_leaf(&mut self, totals: Totals, count: u64) -> usize {
        self.nodes.push(Record {
            value: totals.value(),
            ..Record::default()
        });
        self.behind.push((count, totals.mass));
        self.nodes.len() - 1
    }

    /// The next node, with totals added up in the order of the split column.
    fn child(&mut self, level: u32, feature: usize, columns: Vec<Vec<u32>>) -> Stand {
        let totals = self.seed.add_all(&columns[feature]);
        let count = self.seed.count_all(&columns[feature]);
        self.depth = self.depth.max(level);
        Stand {
            number: self.add_leaf(totals, count),
            level,
            count,
            totals,
            columns,
        }
    }
}
