//! Fits made by hand for the counts and masses behind their nodes.

use crate::call::calls::Fit;
use crate::judge::case::Case;
use crate::make::chance::Chance;
use crate::make::crafted;
use crate::make::fit as make_fit;
use crate::make::lower::forest;
use crate::make::rehearsal;

/// A fit, and the count and the mass of each of its nodes.
type Known = (Fit, Vec<(u32, f64)>);

pub fn cases() -> Vec<Case> {
    let fits = known().into_iter().map(|(fit, _)| fit);
    let fits = fits.chain(bad_draws());
    fits.map(|fit| Case::fit(fit, 0)).collect()
}

/// The first word of the last tree is no feature. All eight columns, each longer than the one before, are zeroed to their ends.
fn bad_draws() -> [Fit; 2] {
    let one = with_weights([1; 4], &[]);
    let two = forest(one.clone(), vec![1; 8]);
    [one, two].map(|mut fit| {
        make_fit::rooms(&mut Chance::new(0), &mut fit);
        fit.rooms.nodes = std::array::from_fn(|column| 7 * fit.trees + column);
        let word = fit.words.len() - 7;
        fit.words[word] = 1;
        fit
    })
}

pub fn known() -> Vec<Known> {
    let mut all = counted();
    all.extend(weighted());
    all.extend(orders());
    all.extend(infinite());
    all.extend(forests());
    for (fit, _) in &mut all {
        make_fit::rooms(&mut Chance::new(0), fit);
    }
    all
}

/// A node for each count, with the same mass, as it is without weights.
fn plain(counts: &[u32]) -> Vec<(u32, f64)> {
    let node = |count: &u32| (*count, f64::from(*count));
    counts.iter().map(node).collect()
}

/// The counts of the nodes of P1.
const FIRST: [u32; 7] = [4, 2, 2, 1, 1, 1, 1];

/// P1, the same with its cuts drawn, and with other counts.
fn counted() -> Vec<Known> {
    let counts = |counts: [u32; 4]| with_weights(counts, &[]);
    let drawn = Fit {
        random: true,
        thresholds: vec![2.5, 1.5, 3.5],
        ..counts([1; 4])
    };
    vec![
        (counts([1; 4]), plain(&FIRST)),
        (drawn, plain(&FIRST)),
        (counts([2, 0, 1, 1]), plain(&[4, 2, 2, 1, 1])),
        (counts([3, 5, 7, 11]), plain(&[26, 8, 18, 7, 11, 3, 5])),
        (
            counts([65_535; 4]),
            plain(&FIRST.map(|count| 65_535 * count)),
        ),
        (counts([0; 4]), plain(&[0])),
        (counts([0, 8, 0, 0]), plain(&[8])),
    ]
}

/// The rows of P1 with these counts and weights, and a word for the search of each node.
fn with_weights(counts: [u32; 4], weights: &[f64]) -> Fit {
    rehearsal::with(|fit| {
        (fit.counts, fit.weights) = (counts.to_vec(), weights.to_vec());
        fit.words = vec![0; 7];
    })
}

/// The count of a row that is left out by its weight does not count; of rows that are all left out the mass is +0.
fn weighted() -> Vec<Known> {
    let some = with_weights([5, 2, 7, 3], &[-0.0, 1.0, 0.0, 2.0]);
    let halves = with_weights([1, 2, 3, 4], &[0.5, 0.25, 0.5, 0.0]);
    let none = vec![(0, 0.0)];
    vec![
        (some, vec![(5, 8.0), (2, 2.0), (3, 6.0)]),
        (
            halves,
            vec![(6, 2.5), (3, 1.0), (3, 1.5), (1, 0.5), (2, 0.5)],
        ),
        (with_weights([1; 4], &[-0.0; 4]), none.clone()),
        (with_weights([1; 4], &[0.0; 4]), none.clone()),
        (with_weights([0; 4], &[f64::MAX; 4]), none),
    ]
}

/// 1e16 + 1 is 1e16, so it matters in which order masses are added: by number in the root, and along the split column in a child, not along
/// another one; and no mass is one less another.
fn orders() -> Vec<Known> {
    let behind = vec![(4, 1e16), (3, 1e16 + 2.0), (1, 1.0)];
    let second = Fit {
        x: vec![0.0, 0.0, 0.0, 0.0, 0.0, 0.0, 0.0, 1.0],
        listings: vec![0, 1, 2, 3, 1, 2, 0, 3],
        ..crafted::below_zero()
    };
    vec![(crafted::below_zero(), behind.clone()), (second, behind)]
}

/// The masses of two rows are infinite together but not alone; then a single row's mass is, and its value is a NaN.
fn infinite() -> Vec<Known> {
    let (most, high) = (f64::MAX, f64::INFINITY);
    let together = with_weights([1; 4], &[most, most, 1.0, 0.0]);
    let mut alone = with_weights([65_535, 1, 1, 1], &[most, 1.0, 0.0, -0.0]);
    alone.y[0] = 1.0;
    vec![
        (
            together,
            vec![(3, high), (1, most), (2, most), (1, most), (1, 1.0)],
        ),
        (alone, vec![(65_536, high), (65_535, high), (1, 1.0)]),
    ]
}

/// The trees one after another, each with its own counts.
fn forests() -> Vec<Known> {
    let bags = [[2, 0, 1, 1], [0; 4], [1; 4]].concat();
    let trees = [vec![4, 2, 2, 1, 1], vec![0], FIRST.to_vec()].concat();
    let weights = with_weights([1; 4], &[-0.0, 1.0, 0.0, 2.0]);
    let tree = [(2, 3.0), (1, 1.0), (1, 2.0)];
    vec![
        (forest(with_weights([1; 4], &[]), bags), plain(&trees)),
        (forest(weights, vec![1; 8]), tree.repeat(2)),
    ]
}
