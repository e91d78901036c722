//! Grows a seeded forest in groups of trees, on several threads. A group is small enough to keep its tapes small.
//!
//! Each group is grown by one call of the proved library, and the groups are then joined here, in plain Rust. It is proved that a tree
//! of a forest depends only on its own counts and draws, whatever other trees there are (`its-trees` and `some-at-a-time` in the crate
//! `demands`). The tests compare the joined forest with that of a single call, bit for bit.

use crate::draws::{Draws, Source};
use crate::explain;
use crate::given::Given;
use crate::parameters::{RandomForestRegressorParameters, Settings};
use crate::refusal::Refusal;
use crate::rooms::{self, Grown, Work};
use std::ops::Range;
use std::sync::OnceLock;
use std::sync::atomic::{AtomicUsize, Ordering};
use std::thread;
use tailboardy_sys::Refusal as Told;

/// A function that is told how many trees have been grown, and of how many.
pub(crate) type Watch<'a> = &'a (dyn Fn(usize, usize) + Sync);

/// The least number of groups of a forest with at least as many trees, for threads to share and for progress to be reported.
const PARTS: usize = 32;
/// The most words of tape that a group of several trees may use.
const TAPE: usize = 4 << 20;
/// The most bytes that several threads together may work in.
const MEMORY: usize = 1 << 30;

/// Grows the trees that there are counts for. The sizes have been checked by the library.
pub(crate) fn grow(
    given: &Given,
    parameters: &RandomForestRegressorParameters,
    watch: Watch,
) -> Result<Grown, Refusal> {
    let settings = parameters.settings();
    let source = Source::new(given, settings, parameters.seed);
    let trees = given.counts.shape().0;
    let (groups, words) = plan(&source, trees);
    let threads = threads(parameters.n_threads, given.x.shape(), words).min(groups.len());
    let field = Field {
        given,
        settings,
        source,
        watch,
        next: AtomicUsize::new(0),
        done: AtomicUsize::new(0),
        grown: groups.iter().map(|_| OnceLock::new()).collect(),
        groups,
    };
    thread::scope(|scope| {
        for _ in 1..threads {
            // if a thread cannot be started, the others do the work
            let _ = thread::Builder::new().spawn_scoped(scope, || field.work());
        }
        field.work();
    });
    let grown: Result<Vec<Grown>, Told> = field
        .grown
        .into_iter()
        .filter_map(OnceLock::into_inner)
        .collect();
    let grown = grown.map_err(|it| explain::fit(&it, given, trees, None))?;
    Ok(join(grown))
}

/// Divides the trees into groups; also returns how many words of tape the largest group has.
fn plan(source: &Source, trees: usize) -> (Vec<Range<usize>>, usize) {
    let most = trees / PARTS + 1;
    let mut groups: Vec<Range<usize>> = Vec::new();
    let (mut words, mut largest) = (0, 0);
    for tree in 0..trees {
        let own = source.words(tree);
        match groups.last_mut() {
            Some(group) if group.len() < most && words + own <= TAPE => {
                group.end += 1;
                words += own;
            }
            _ => {
                groups.push(tree..tree + 1);
                words = own;
            }
        }
        largest = words.max(largest);
    }
    (groups, largest)
}

fn threads(said: Option<usize>, shape: (usize, usize), words: usize) -> usize {
    let machine = || thread::available_parallelism().map_or(1, usize::from);
    let each = Work::bytes(shape) + 4 * words;
    said.unwrap_or_else(machine)
        .clamp(1, (MEMORY / each).max(1))
}

/// What all threads share.
struct Field<'a> {
    given: &'a Given<'a>,
    settings: Settings,
    source: Source<'a>,
    watch: Watch<'a>,
    groups: Vec<Range<usize>>,
    next: AtomicUsize,
    done: AtomicUsize,
    grown: Vec<OnceLock<Result<Grown, Told>>>,
}

impl Field<'_> {
    /// Grows the next group that no thread has taken, until there is none left.
    fn work(&self) {
        let mut work = Work::new(self.given.x.shape());
        loop {
            let group = self.next.fetch_add(1, Ordering::Relaxed);
            let (Some(trees), Some(slot)) = (self.groups.get(group), self.grown.get(group)) else {
                return;
            };
            let answer = self.group(trees.clone(), &mut work);
            // each group is taken once, so the slot is empty
            let _ = slot.set(answer);
            let done = self.done.fetch_add(trees.len(), Ordering::Relaxed) + trees.len();
            (self.watch)(done, self.given.counts.shape().0);
        }
    }

    fn group(&self, trees: Range<usize>, work: &mut Work) -> Result<Grown, Told> {
        let mut draws = Draws::none();
        for tree in trees.clone() {
            self.source.draw(tree, &mut draws);
        }
        rooms::fit_forest(self.given, trees, &self.settings, &draws, work)
    }
}

/// Joins the groups in order, freeing each one once it is joined.
fn join(groups: Vec<Grown>) -> Grown {
    let mut whole = Grown {
        starts: vec![0],
        ..Grown::default()
    };
    let all = groups.iter().map(|it| it.nodes.len()).sum();
    whole.nodes.reserve(all);
    whole.behind.reserve(all);
    for group in groups {
        let base = whole.nodes.len() as u32;
        let starts = group.starts.iter().skip(1);
        whole.starts.extend(starts.map(|start| base + start));
        whole.nodes.extend(&group.nodes);
        whole.behind.extend(&group.behind);
        whole.reports.extend_from_slice(&group.reports);
    }
    whole
}
