//! A tree must not depend on the rows that it leaves out: the fit is made again with other targets and values in these rows, and the
//! tree must be the same. The rows that it keeps stay in their order in every listing, and its draws stay the same.

use crate::call::calls::{Call, Fit};
use crate::call::outcome::Outcome;
use crate::judge::expect;
use crate::judge::run;
use crate::make::chance::Chance;
use crate::make::fit as make_fit;
use crate::make::floats;
use crate::make::splitting;
use crate::tally::Tally;
use copy::harness::Tape;

/// `count` pairs of fits in each choice of the threshold.
pub fn hold(tally: &mut Tally, chance: &mut Chance, count: usize) {
    for lower in [false, true] {
        for _ in 0..count {
            let (fit, tree) = made(chance, lower);
            let split = expect::splits(&fit, tree);
            let other = changed(chance, &fit, tree);
            let [one, two] = [&fit, &other].map(|fit| {
                let left = run::run(tally.library, &Call::Fit(fit.clone()));
                part(fit, &left, tree)
            });
            let same = one.is_some() && one == two;
            tally.paired(same, split, lower, || {
                format!("tree {tree} of {fit:?}\n  and of {other:?}")
            });
        }
    }
}

fn left_out(fit: &Fit, tree: usize) -> Vec<usize> {
    let rows = 0..fit.rows;
    rows.filter(|row| !fit.kept(tree, *row)).collect()
}

/// A valid fit, and one of its trees that keeps some rows and leaves others out. It is made again, up to four times, if the tree has no
/// split, because then it shows little.
fn made(chance: &mut Chance, lower: bool) -> (Fit, usize) {
    let mut again = 0;
    loop {
        let fit = match lower {
            true => measured(chance),
            false => any(chance),
        };
        let tree = chance.below(fit.trees);
        let out = left_out(&fit, tree).len();
        if out == 0 || out == fit.rows {
            continue;
        }
        if again == 4 || expect::splits(&fit, tree) {
            return (fit, tree);
        }
        again += 1;
    }
}

/// Any valid fit with cuts halfway.
fn any(chance: &mut Chance) -> Fit {
    let forest = chance.one_in(3);
    let mut fit = make_fit::fit(chance, forest, make_fit::SMALL);
    fit.lower = false;
    fit
}

/// One with cuts at measured values, which the random splitter would ignore; half of the time with few different values and both zeros.
fn measured(chance: &mut Chance) -> Fit {
    if chance.one_in(2) {
        return splitting::fit(chance);
    }
    let mut fit = any(chance);
    (fit.random, fit.lower) = (false, true);
    let seed = chance.word();
    make_fit::draws(chance, &mut fit, seed);
    fit
}

/// The fit with other targets and values in the rows that the tree leaves out. Other trees may keep them, and then need other draws.
fn changed(chance: &mut Chance, fit: &Fit, tree: usize) -> Fit {
    let mut other = fit.clone();
    let out = left_out(fit, tree);
    for (row, target) in out.iter().zip(floats::finite(chance, out.len())) {
        other.y[*row] = target;
    }
    for feature in 0..fit.features {
        change_column(chance, &mut other, feature, &out);
    }
    let seed = chance.word();
    make_fit::draws(chance, &mut other, seed);
    let mut tapes: Vec<Tape> = (0..fit.trees).map(|t| expect::tape(&other, t)).collect();
    tapes[tree] = expect::tape(fit, tree);
    make_fit::lay(&mut other, &tapes);
    other
}

/// Other values of one feature, many of them equal to others or their negatives, and places for them anywhere among equals.
fn change_column(chance: &mut Chance, fit: &mut Fit, feature: usize, out: &[usize]) {
    let (rows, features) = (fit.rows, fit.features);
    let mut listing = fit.listings[feature * rows..(feature + 1) * rows].to_vec();
    listing.retain(|row| !out.contains(&(*row as usize)));
    for (row, fresh) in out.iter().zip(floats::finite(chance, out.len())) {
        let near = fit.x[chance.below(rows) * features + feature];
        let value = chance.pick(&[fresh, near, -near]);
        fit.x[row * features + feature] = value;
        let value_of = |row: &u32| fit.x[*row as usize * features + feature];
        let low = listing.partition_point(|row| value_of(row) < value);
        let high = listing.partition_point(|row| value_of(row) <= value);
        listing.insert(chance.within(low, high), *row as u32);
    }
    fit.listings[feature * rows..(feature + 1) * rows].copy_from_slice(&listing);
}

/// What a fit left of one tree, if it answered: everything if it is the only one, else its nodes and what is reported about it.
fn part(fit: &Fit, left: &Outcome, tree: usize) -> Option<Vec<u64>> {
    if left.told[0] != 0 {
        return None;
    }
    if !fit.forest {
        return Some(left.encode());
    }
    let starts = &left.rooms[8].entries;
    let nodes = starts[tree] as usize..starts[tree + 1] as usize;
    let columns = left.rooms[..8].iter();
    let columns = columns.flat_map(|room| room.entries[nodes.clone()].to_vec());
    let reports = left.rooms[9..15].iter().map(|room| room.entries[tree]);
    Some(columns.chain(reports).collect())
}
