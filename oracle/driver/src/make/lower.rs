//! Cases made by hand for cuts at the lower of two neighbouring values: of zeros with both signs the first of the node decides.

use crate::call::calls::Fit;
use crate::judge::case::Case;
use crate::make::chance::Chance;
use crate::make::fit as make_fit;
use crate::make::rehearsal;

/// One feature, which is tried, rows in the order of the listing, and enough draws.
fn column(x: &[f64], y: &[f64]) -> Fit {
    let rows = x.len();
    Fit {
        rows,
        features: 1,
        trees: 1,
        least_leaf: 1,
        least_split: 2,
        tried: Some(1),
        lower: true,
        x: x.to_vec(),
        y: y.to_vec(),
        counts: vec![1; rows],
        listings: (0..rows as u32).collect(),
        words: vec![0; 2 * rows],
        ..Fit::default()
    }
}

/// A forest of the same data, with these counts, in which each tree has the words of the one tree.
pub fn forest(fit: Fit, counts: Vec<u32>) -> Fit {
    let trees = counts.len() / fit.rows;
    let cuts = |length: usize| (0..=trees).map(|tree| (tree * length) as u64).collect();
    Fit {
        forest: true,
        trees,
        counts,
        words: fit.words.repeat(trees),
        thresholds: fit.thresholds.repeat(trees),
        word_starts: cuts(fit.words.len()),
        threshold_starts: cuts(fit.thresholds.len()),
        ..fit
    }
}

fn with(mut fit: Fit, change: impl Fn(&mut Fit)) -> Fit {
    change(&mut fit);
    fit
}

pub fn cases() -> Vec<Case> {
    let mut fits = Vec::new();
    // a run of both zeros in either order
    for zeros in [[-0.0, 0.0], [0.0, -0.0]] {
        fits.extend(runs(zeros));
        fits.extend(first_left_out(zeros));
    }
    fits.extend(numbers());
    fits.extend(settings());
    fits.extend(bad_draws());
    fits.into_iter()
        .map(|mut fit| {
            make_fit::rooms(&mut Chance::new(0), &mut fit);
            Case::fit(fit, 0)
        })
        .collect()
}

fn runs([first, next]: [f64; 2]) -> Vec<Fit> {
    let root = column(&[first, next, 1.0], &[0.0, 0.0, 1.0]);
    let halfway = with(root.clone(), |fit| fit.lower = false);
    let turned = with(root.clone(), |fit| fit.listings = vec![1, 0, 2]);
    let after_lower = column(&[-1.0, first, next, 1.0], &[0.0, 0.0, 0.0, 10.0]);
    let in_child = column(&[first, next, 1.0, 2.0], &[0.0, 0.0, 1.0, 10.0]);
    // the place before the zeros leaves too few rows on its true side, but the one after them does not
    let skipped = Fit {
        least_leaf: 2,
        ..column(&[-1.0, first, next, 1.0, 1.0], &[0.0, 0.0, 0.0, 9.0, 9.0])
    };
    // the root is split by the second feature, so that the first zero of the first one is not in the true child
    let parted = Fit {
        features: 2,
        tried: Some(2),
        x: vec![first, 9.0, next, 0.0, 1.0, 0.0],
        y: vec![10.0, 0.0, 1.0],
        listings: vec![0, 1, 2, 1, 2, 0],
        words: [0, 1].repeat(3),
        ..column(&[0.0; 3], &[0.0; 3])
    };
    vec![
        root,
        halfway,
        turned,
        after_lower,
        in_child,
        skipped,
        parted,
    ]
}

/// The first zero in the listing is left out, so that the first one that is kept has the other sign.
fn first_left_out([first, next]: [f64; 2]) -> Vec<Fit> {
    let root = column(&[first, next, 1.0], &[0.0, 0.0, 1.0]);
    let child = column(&[first, next, 1.0, 2.0], &[0.0, 0.0, 1.0, 10.0]);
    let weightless = |fit: &Fit, zero: f64| {
        let mut weights = vec![1.0; fit.rows];
        weights[0] = zero;
        Fit {
            weights,
            ..fit.clone()
        }
    };
    vec![
        with(root.clone(), |fit| fit.counts[0] = 0),
        with(child.clone(), |fit| fit.counts[0] = 0),
        weightless(&root, 0.0),
        weightless(&child, -0.0),
        // the first tree leaves it out, and the second keeps it
        forest(root.clone(), vec![0, 1, 1, 1, 1, 1]),
        forest(weightless(&root, 0.0), vec![1; 6]),
    ]
}

/// P1 and P8, neighbouring values, values infinitely far apart, and subnormals.
fn numbers() -> Vec<Fit> {
    let lower = |x: [f64; 4]| rehearsal::with(|fit| (fit.lower, fit.x) = (true, x.to_vec()));
    let eighth = rehearsal::with(|fit| (fit.lower, fit.counts) = (true, vec![2, 0, 1, 1]));
    let [one_up, two_up] = [1.0, 2.0].map(|steps| 1.0 + steps * f64::EPSILON);
    vec![
        lower([1.0, 2.0, 3.0, 4.0]),
        eighth,
        lower([one_up, one_up, two_up, two_up]),
        lower([-1.7e308, -1.7e308, 1.7e308, 1.7e308]),
        lower([-5e-324, -0.0, 5e-324, 1e-323]),
        forest(lower([1.0, 2.0, 3.0, 4.0]), vec![1, 1, 1, 1, 2, 0, 1, 1]),
    ]
}

/// The random splitter does not heed the choice: its thresholds are neither measured nor halfway. And settings that are all 0 apart
/// from the choice.
fn settings() -> Vec<Fit> {
    let drawn = Fit {
        random: true,
        thresholds: vec![-0.0, -0.75],
        ..column(&[-1.0, 0.0, 1.0], &[0.0, 0.0, 1.0])
    };
    let halfway = with(drawn.clone(), |fit| fit.lower = false);
    let nothing = Fit {
        least_leaf: 0,
        least_split: 0,
        tried: Some(0),
        ..column(&[-0.0, 0.0, 1.0], &[0.0, 0.0, 1.0])
    };
    let zero = with(nothing.clone(), |fit| fit.lower = false);
    let tries = with(nothing.clone(), |fit| fit.tried = Some(1));
    vec![
        forest(drawn.clone(), vec![1; 6]),
        drawn,
        halfway,
        nothing,
        zero,
        tries,
    ]
}

/// A bad word in the third search, of one tree and of the second of two; too few words; and a threshold that is the highest value.
fn bad_draws() -> Vec<Fit> {
    let first = rehearsal::with(|fit| fit.lower = true);
    let mut second = forest(first.clone(), vec![1; 8]);
    second.words[6] = 1;
    let high = Fit {
        random: true,
        thresholds: vec![0.0, 0.0],
        ..column(&[-1.0, 0.0, 1.0], &[0.0, 0.0, 1.0])
    };
    vec![
        with(first.clone(), |fit| fit.words[2] = 1),
        second,
        with(first, |fit| fit.words.truncate(2)),
        high,
    ]
}
