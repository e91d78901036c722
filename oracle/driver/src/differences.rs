//! Checks what docs/DIFFERENCES.md says about its smallest inputs, with the copy and with a library.

use crate::call::calls::{Call, Fit};
use crate::judge::copied::{data, params};
use crate::judge::expect;
use crate::judge::library::Library;
use crate::judge::run;
use crate::make::chance::Chance;
use crate::make::fit as make_fit;
use crate::tally::Tally;
use copy::harness::{self, Grown, Readable};

/// One feature, which is tried, rows in the order of the listing, and enough draws.
fn rows(x: &[f64], y: &[f64]) -> Fit {
    let rows = x.len();
    Fit {
        rows,
        features: 1,
        trees: 1,
        least_leaf: 1,
        least_split: 2,
        tried: Some(1),
        x: x.to_vec(),
        y: y.to_vec(),
        counts: vec![1; rows],
        listings: (0..rows as u32).collect(),
        words: vec![0; 2 * rows],
        ..Fit::default()
    }
}

/// What the library returns.
fn told(library: &dyn Library, fit: &Fit) -> Vec<u64> {
    let mut fit = fit.clone();
    make_fit::rooms(&mut Chance::new(0), &mut fit);
    run::run(library, &Call::Fit(fit)).told
}

/// The library's answer: the number of the refusal and that of the nodes.
fn ours(library: &dyn Library, fit: &Fit) -> (u64, u64) {
    let told = told(library, fit);
    (told[0], told[4])
}

fn copy(fit: &Fit) -> Grown {
    expect::grow(fit, 0).expect("draws are enough")
}

fn panics<T>(judge: impl Fn() -> T) -> bool {
    std::panic::set_hook(Box::new(|_| ()));
    let ended = std::panic::catch_unwind(std::panic::AssertUnwindSafe(judge));
    drop(std::panic::take_hook());
    ended.is_err()
}

fn listings(library: &dyn Library) -> Vec<(&'static str, bool)> {
    let refused = |fit: &Fit, fault: [u64; 4]| told(library, fit).starts_with(&fault);
    let mut tenth = rows(&[1.0, 2.0, 3.0, 4.0], &[0.0, 0.0, 10.0, 10.0]);
    tenth.listings = vec![0, 1, 1, 3];
    let grown = copy(&tenth);
    let as_said = grown.nodes().len() == 5 && grown.nodes()[0].threshold == 3.0;
    let mut twice = rows(&[1.0, 2.0], &[0.0, 1.0]);
    twice.listings = vec![0, 0];
    let mut falls = twice.clone();
    falls.listings = vec![1, 0];
    let mut outside = rows(&[1.0], &[0.0]);
    outside.listings = vec![1];
    vec![
        ("P10's listing", as_said && refused(&tenth, [12, 0, 2, 2])),
        (
            "a row twice",
            copy(&twice).nodes().len() == 1 && refused(&twice, [12, 0, 1, 1]),
        ),
        (
            "a value that falls",
            copy(&falls).nodes().len() == 1 && refused(&falls, [13, 0, 1, 0]),
        ),
        (
            "a row that is not there",
            panics(|| copy(&outside)) && refused(&outside, [11, 0, 0, 0]),
        ),
    ]
}

fn weights(library: &dyn Library) -> Vec<(&'static str, bool)> {
    let paper = |fit: &Fit| ours(library, fit);
    let weighted = |weight: f64| {
        let mut fit = rows(&[1.0], &[3.0]);
        fit.weights = vec![weight];
        fit
    };
    let none = weighted(0.0);
    let own_forest = harness::own_forest(&data(&none), &params(&none), 1, None, 0);
    let leaf = copy(&none).nodes();
    vec![
        (
            "all weights 0",
            harness::own_tree(&data(&none), &params(&none)).is_err()
                && own_forest.is_err()
                && leaf.len() == 1
                && leaf[0].value == 0.0
                && paper(&none) == (0, 1),
        ),
        (
            "a weight below 0",
            copy(&weighted(-1.0)).root_mass() == -1.0 && paper(&weighted(-1.0)) == (3, 0),
        ),
        (
            "a weight of NaN",
            copy(&weighted(f64::NAN)).root_mass().is_nan() && paper(&weighted(f64::NAN)) == (3, 0),
        ),
    ]
}

fn numbers(library: &dyn Library) -> Vec<(&'static str, bool)> {
    let paper = |fit: &Fit| ours(library, fit);
    let ends = rows(&[f64::NEG_INFINITY, f64::INFINITY], &[0.0, 1.0]);
    let target = rows(&[1.0], &[f64::INFINITY]);
    let mut nan = rows(&[f64::NAN], &[5.0]);
    (nan.least_leaf, nan.least_split, nan.limit) = (0, 1, Some(2));
    let nan_nodes = copy(&nan).nodes();
    let mut endless = nan.clone();
    (endless.limit, endless.words) = (None, vec![0; 65_535]);
    vec![
        (
            "infinite values",
            copy(&ends).nodes()[0].threshold == f64::NEG_INFINITY && paper(&ends) == (3, 0),
        ),
        (
            "an infinite target",
            copy(&target).nodes()[0].value == f64::INFINITY && paper(&target) == (3, 0),
        ),
        (
            "a value of NaN",
            nan_nodes.len() == 3 && nan_nodes[0].threshold.is_nan() && paper(&nan) == (3, 0),
        ),
        (
            "a value of NaN and no limit",
            copy(&endless).depth() == 65_535 && paper(&endless) == (3, 0),
        ),
    ]
}

fn sizes(library: &dyn Library) -> Vec<(&'static str, bool)> {
    let paper = |fit: &Fit| ours(library, fit);
    let mut count = rows(&[1.0], &[1.0]);
    count.counts = vec![65_536];
    let mut wide = rows(&[-1.7e308, 1.7e308], &[0.0, 1.0]);
    (wide.random, wide.thresholds) = (true, vec![0.0]);
    let no_trees = Readable::from_tables(&[], 1, 0.0).means(1, &[0.0]);
    vec![
        (
            "a count of 65,536",
            copy(&count).root_mass() == 65_536.0 && paper(&count) == (4, 0),
        ),
        (
            "a range of infinite width",
            copy(&wide).nodes()[0].threshold == 0.0 && paper(&wide) == (0, 3),
        ),
        ("a forest of no trees", no_trees[0].is_nan()),
    ]
}

pub fn hold(tally: &mut Tally) {
    let library = tally.library;
    let all = [
        listings(library),
        weights(library),
        numbers(library),
        sizes(library),
    ];
    for (what, as_said) in all.concat() {
        tally.told(as_said, || format!("docs/DIFFERENCES.md: {what}"));
    }
}
