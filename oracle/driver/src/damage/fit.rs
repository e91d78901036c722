//! Damaged copies of valid fits, each with the refusal that it should give.

use crate::call::calls::Fit;
use crate::call::fault::Fault;
use crate::damage::listing;
use crate::make::chance::Chance;

/// The refusals in the order of the checks. 11 stands for all three of a listing.
const ORDER: [u32; 6] = [1, 2, 3, 4, 11, 6];

/// Damages a valid fit in one to three ways, starting with the last check, so that no damage undoes another; the fault that the first
/// check finds is expected.
pub fn damage(chance: &mut Chance, fit: &mut Fit) -> Fault {
    let mut checks: Vec<usize> = (0..chance.within(1, 3))
        .map(|_| chance.below(ORDER.len()))
        .collect();
    // each check once: a second damage of one kind could undo the first
    checks.sort_unstable_by(|a, b| b.cmp(a));
    checks.dedup();
    let mut fault = Fault::default();
    for check in checks {
        let next = one(chance, fit, ORDER[check]);
        if !next.none() {
            fault = next;
        }
    }
    fault
}

/// Damage for one check, which may not be possible.
fn one(chance: &mut Chance, fit: &mut Fit, number: u32) -> Fault {
    let done = match number {
        1 => sizes(chance, fit),
        2 => lengths(chance, fit),
        3 => numbers_bad(chance, fit),
        4 => counts(chance, fit),
        11 => {
            let shape = [fit.rows, fit.features];
            return listing::damage(chance, shape, &fit.x, &mut fit.listings);
        }
        _ => rooms(chance, fit),
    };
    Fault::from(if done { number } else { 0 })
}

fn sizes(chance: &mut Chance, fit: &mut Fit) -> bool {
    match chance.below(if fit.forest { 3 } else { 2 }) {
        0 => fit.rows = chance.pick(&[0, 65_536, 1 << 32, usize::MAX]),
        1 => fit.features = chance.pick(&[0, 1_025, 65_536, usize::MAX]),
        _ => fit.trees = chance.pick(&[0, 1_025, usize::MAX]),
    }
    true
}

fn wrong_length<T: Clone + Default>(chance: &mut Chance, list: &mut Vec<T>) {
    match chance.below(3) {
        0 => list.clear(),
        1 => drop(list.pop()),
        _ => list.push(list.last().cloned().unwrap_or_default()),
    }
}

fn lengths(chance: &mut Chance, fit: &mut Fit) -> bool {
    match chance.below(if fit.forest { 10 } else { 6 }) {
        0 => wrong_length(chance, &mut fit.x),
        1 => wrong_length(chance, &mut fit.y),
        2 => {
            // an empty list would mean no weights
            let length = fit.rows + 1;
            fit.weights.resize(length, 1.0);
            if fit.rows > 1 && chance.one_in(2) {
                fit.weights.truncate(fit.rows - 1);
            }
        }
        3 => wrong_length(chance, &mut fit.counts),
        4 => wrong_length(chance, &mut fit.listings),
        // the largest sizes, which the lists do not have
        5 => match chance.below(if fit.forest { 3 } else { 2 }) {
            0 => fit.rows = 65_535,
            1 => fit.features = 1_024,
            _ => fit.trees = 1_024,
        },
        6 | 7 => cut_table(chance, fit, true),
        _ => cut_table(chance, fit, false),
    }
    true
}

fn cut_table(chance: &mut Chance, fit: &mut Fit, words: bool) {
    let trees = fit.trees;
    let table = match words {
        true => &mut fit.word_starts,
        false => &mut fit.threshold_starts,
    };
    match chance.below(5) {
        0 => drop(table.pop()),
        1 => table.push(table[trees]),
        2 => table[0] += 1,
        3 => table[trees] = table[trees].wrapping_add(chance.pick(&[1, u64::MAX, 1 << 40])),
        // a decrease, while the last cut is still the length of the tape; with one tree only the last cut can be wrong
        _ if trees > 1 => {
            let at = chance.within(1, trees - 1);
            table[at] = table[trees] + 1;
        }
        _ => table[trees] += 1,
    }
}

fn numbers_bad(chance: &mut Chance, fit: &mut Fit) -> bool {
    let bad = chance.pick(&[f64::NAN, f64::INFINITY, f64::NEG_INFINITY]);
    let row = chance.below(fit.rows);
    match chance.below(3) {
        0 => {
            let at = chance.below(fit.x.len());
            fit.x[at] = bad;
        }
        1 => fit.y[row] = bad,
        _ if fit.weights.is_empty() => return false,
        _ => fit.weights[row] = chance.pick(&[bad, -1.0, -5e-324, f64::MIN]),
    }
    true
}

fn counts(chance: &mut Chance, fit: &mut Fit) -> bool {
    let at = chance.below(fit.counts.len());
    fit.counts[at] = match fit.forest && !fit.weights.is_empty() && chance.one_in(2) {
        true => chance.pick(&[0, 2, 65_535]),
        false => chance.pick(&[65_536, 65_537, u32::MAX]),
    };
    true
}

fn rooms(chance: &mut Chance, fit: &mut Fit) -> bool {
    let asked: usize = (0..fit.trees).map(|tree| fit.asked(tree)).sum();
    let need = [
        fit.rows * fit.features,
        fit.rows,
        fit.rows.max(fit.features),
        fit.rows,
    ];
    match chance.below(if fit.forest { 6 } else { 3 }) {
        0 | 1 => {
            let column = chance.below(8);
            fit.rooms.nodes[column] = chance.pick(&[asked - 1, asked - 1, 0]);
        }
        2 | 3 => {
            let part = chance.below(4);
            fit.rooms.work[part] = chance.pick(&[need[part] - 1, need[part] - 1, 0]);
        }
        4 => fit.rooms.starts = chance.pick(&[fit.trees, fit.trees, 0]),
        _ => {
            let column = chance.below(6);
            fit.rooms.reports[column] = chance.pick(&[fit.trees - 1, fit.trees + 1]);
        }
    }
    true
}

/// Draws that may be bad: whether a search uses them, and which one does, is for the judges to decide.
pub fn draws(chance: &mut Chance, fit: &mut Fit) {
    match chance.below(5) {
        0 => cut_short(chance, fit),
        1 | 2 if !fit.words.is_empty() => {
            let at = chance.below(fit.words.len());
            let near = fit.words[at].wrapping_add(chance.pick(&[1, u32::MAX]));
            fit.words[at] = chance.pick(&[near, near, fit.features as u32, u32::MAX, 0]);
        }
        _ if !fit.thresholds.is_empty() => {
            let at = chance.below(fit.thresholds.len());
            let t = fit.thresholds[at];
            let value = chance.pick(&fit.x);
            let near = [t.next_up(), t.next_down(), value, value.next_down(), -t];
            let far = [f64::NAN, f64::INFINITY, f64::NEG_INFINITY, 1e308, -1e308];
            fit.thresholds[at] = chance.pick(&[near, far].concat());
        }
        _ => {}
    }
}

/// Makes one tree's part of a tape shorter.
fn cut_short(chance: &mut Chance, fit: &mut Fit) {
    let tree = chance.below(fit.trees);
    let words = chance.one_in(2);
    let (length, table) = match words {
        true => (fit.words.len(), &mut fit.word_starts),
        false => (fit.thresholds.len(), &mut fit.threshold_starts),
    };
    let part = match table.is_empty() {
        true => 0..length,
        false => table[tree] as usize..table[tree + 1] as usize,
    };
    if part.is_empty() {
        return;
    }
    let fewer = chance.within(1, part.len());
    for cut in table.iter_mut().skip(tree + 1) {
        *cut -= fewer as u64;
    }
    match words {
        true => drop(fit.words.drain(part.end - fewer..part.end)),
        false => drop(fit.thresholds.drain(part.end - fewer..part.end)),
    }
}
