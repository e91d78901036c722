//! One fault at a time: each length off by one, each room too short by one, each kind of bad number.

use crate::call::calls::Fit;
use crate::call::fault::Fault;
use crate::judge::case::Case;
use crate::make::chance::Chance;
use crate::make::fit as make_fit;

/// A valid forest of two trees with two rows and three features, in rooms that are just long enough, or only its first tree.
pub fn good(forest: bool, weighted: bool) -> Fit {
    let trees = if forest { 2 } else { 1 };
    let mut fit = Fit {
        forest,
        rows: 2,
        features: 3,
        trees,
        least_leaf: 1,
        least_split: 2,
        tried: Some(1),
        x: vec![0.0, 1.0, 0.0, 1.0, 0.0, 0.0],
        y: vec![0.0, 1.0],
        weights: if weighted { vec![1.0; 2] } else { Vec::new() },
        counts: vec![1; 2 * trees],
        listings: vec![0, 1, 1, 0, 0, 1],
        words: [0, 1, 2].repeat(3 * trees),
        ..Fit::default()
    };
    if forest {
        (fit.word_starts, fit.threshold_starts) = (vec![0, 9, 18], vec![0; 3]);
    }
    make_fit::rooms(&mut Chance::new(0), &mut fit);
    let asked = 3 * trees;
    fit.rooms.nodes = [asked; 8];
    fit.rooms.work = [6, 2, 3, 2];
    if forest {
        fit.rooms.starts = trees + 1;
    }
    fit
}

/// Collects changed copies of valid fits.
struct Faults(Vec<Case>);

impl Faults {
    fn add(&mut self, base: &Fit, fault: impl Into<Fault>, change: impl FnOnce(&mut Fit)) {
        let mut fit = base.clone();
        change(&mut fit);
        self.0.push(Case::fit(fit, fault));
    }
}

pub fn cases() -> Vec<Case> {
    let mut faults = Faults(Vec::new());
    for (forest, weighted) in [(false, false), (true, false), (true, true)] {
        faults.add(&good(forest, weighted), 0, |_| ());
    }
    lengths(&mut faults);
    numbers(&mut faults);
    rooms(&mut faults);
    lower(&mut faults);
    faults.0
}

fn off<T: Clone>(list: &mut Vec<T>, longer: bool) {
    match longer {
        true => list.push(list[list.len() - 1].clone()),
        false => drop(list.pop()),
    }
}

fn lengths(faults: &mut Faults) {
    for forest in [false, true] {
        let base = good(forest, true);
        for longer in [false, true] {
            faults.add(&base, 2, |fit| off(&mut fit.x, longer));
            faults.add(&base, 2, |fit| off(&mut fit.y, longer));
            faults.add(&base, 2, |fit| off(&mut fit.weights, longer));
            faults.add(&base, 2, |fit| off(&mut fit.counts, longer));
            faults.add(&base, 2, |fit| off(&mut fit.listings, longer));
        }
    }
    let base = good(true, false);
    for longer in [false, true] {
        faults.add(&base, 2, |fit| off(&mut fit.word_starts, longer));
        faults.add(&base, 2, |fit| off(&mut fit.threshold_starts, longer));
        // the last cut is no longer the length of the tape
        faults.add(&base, 2, |fit| off(&mut fit.words, longer));
    }
    faults.add(&base, 2, |fit| fit.thresholds.push(0.0));
    faults.add(&base, 2, |fit| fit.word_starts[0] = 1);
}

fn numbers(faults: &mut Faults) {
    let base = good(false, true);
    for bad in [f64::NAN, f64::INFINITY, f64::NEG_INFINITY] {
        faults.add(&base, 3, |fit| fit.x[5] = bad);
        faults.add(&base, 3, |fit| fit.y[1] = bad);
        faults.add(&base, 3, |fit| fit.weights[1] = bad);
    }
    faults.add(&base, 3, |fit| fit.weights[1] = -5e-324);
    // both zeros are valid weights, and leave their row out
    faults.add(&base, 0, |fit| fit.weights[1] = 0.0);
    faults.add(&base, 0, |fit| fit.weights[1] = -0.0);
    faults.add(&base, 0, |fit| fit.counts[1] = 65_535);
    faults.add(&base, 4, |fit| fit.counts[1] = 65_536);
    for count in [0, 2] {
        faults.add(&good(true, true), 4, |fit| fit.counts[3] = count);
        faults.add(&good(false, true), 0, |fit| fit.counts[1] = count);
    }
    faults.add(&base, [12, 2, 1, 1], |fit| fit.listings[5] = 0);
    faults.add(&base, [11, 2, 1, 0], |fit| fit.listings[5] = 2);
    faults.add(&base, [13, 1, 1, 0], |fit| fit.listings.swap(2, 3));
    // equal values may be in either order
    faults.add(&base, 0, |fit| fit.listings.swap(4, 5));
}

fn rooms(faults: &mut Faults) {
    for forest in [false, true] {
        let base = good(forest, false);
        for column in 0..8 {
            faults.add(&base, 6, |fit| fit.rooms.nodes[column] -= 1);
            faults.add(&base, 0, |fit| fit.rooms.nodes[column] += 1);
        }
        for part in 0..4 {
            faults.add(&base, 6, |fit| fit.rooms.work[part] -= 1);
            faults.add(&base, 0, |fit| fit.rooms.work[part] += 1);
        }
    }
    let base = good(true, false);
    faults.add(&base, 6, |fit| fit.rooms.starts -= 1);
    faults.add(&base, 0, |fit| fit.rooms.starts += 1);
    for column in 0..6 {
        faults.add(&base, 6, |fit| fit.rooms.reports[column] -= 1);
        faults.add(&base, 6, |fit| fit.rooms.reports[column] += 1);
    }
}

/// The choice of the threshold brings no refusal and takes none away.
fn lower(faults: &mut Faults) {
    for forest in [false, true] {
        let base = Fit {
            lower: true,
            ..good(forest, true)
        };
        faults.add(&base, 0, |_| ());
        faults.add(&base, 1, |fit| fit.features = 0);
        faults.add(&base, 2, |fit| off(&mut fit.y, true));
        faults.add(&base, 3, |fit| fit.x[5] = f64::NAN);
        faults.add(&base, 4, |fit| fit.counts[1] = 65_536);
        faults.add(&base, [13, 1, 1, 0], |fit| fit.listings.swap(2, 3));
        faults.add(&base, 6, |fit| fit.rooms.nodes[2] -= 1);
    }
}
