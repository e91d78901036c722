//! Picks the fixed list from a pool: cases that detect each edit, and some of each kind and refusal, with and without measured thresholds.

use crate::call::calls::Call;
use crate::call::wire;
use crate::compare;
use crate::judge::case;
use std::collections::BTreeMap;

/// How many cases should detect an edit, if the pool has that many.
const FINDERS: usize = 3;
/// A kind, the refusal, and whether the answer has measured thresholds.
type Sort = (u64, usize, bool);

/// The least number of cases of a sort: the most for those that are not refused.
fn of_a_sort(sort: Sort) -> usize {
    match sort {
        (1, 0, false) => 190,
        (2, 0, false) => 60,
        (1, 0, true) => 90,
        (2, 0, true) => 30,
        (1 | 2, 7, _) => 25,
        (3..=9 | 13, 0, _) => 15,
        _ => 6,
    }
}

fn sort(listed: &case::Listed) -> Sort {
    let refusal = listed.answer[0] as usize;
    (wire::kind(&listed.case.call), refusal, listed.measures())
}

/// A tree without a split shows little.
fn bare(listed: &case::Listed) -> bool {
    matches!(&listed.case.call, Call::Fit(fit) if !fit.forest)
        && listed.answer[0] == 0
        && listed.answer[4] == 1
}

/// `found` has, for each edit, the positions in the pool of the cases that detect it.
/// The cases that are not random come first, and are all taken.
pub fn pick(pool: &[&str], found: &[Vec<usize>]) -> Vec<usize> {
    let fixed = compare::fixed().len();
    let mut taken: Vec<bool> = (0..pool.len()).map(|place| place < fixed).collect();
    loop {
        let wanted: Vec<&Vec<usize>> = found
            .iter()
            .filter(|finders| {
                let have = finders.iter().filter(|place| taken[**place]).count();
                have < FINDERS.min(finders.len())
            })
            .collect();
        let mut gain: BTreeMap<usize, usize> = BTreeMap::new();
        for finders in &wanted {
            for place in finders.iter().filter(|place| !taken[**place]) {
                *gain.entry(*place).or_default() += 1;
            }
        }
        // the most edits for the fewest characters
        let worth = |place: usize, edits: usize| edits * 100_000 / pool[place].len();
        let best = gain
            .iter()
            .max_by_key(|(place, edits)| worth(**place, **edits));
        match best {
            Some((place, _)) => taken[*place] = true,
            None => break,
        }
    }
    of_each_sort(pool, &mut taken);
    (0..pool.len()).filter(|place| taken[*place]).collect()
}

fn of_each_sort(pool: &[&str], taken: &mut [bool]) {
    let pool: Vec<case::Listed> = pool.iter().map(|line| case::parse(line)).collect();
    let mut have: BTreeMap<Sort, usize> = BTreeMap::new();
    for (place, listed) in pool.iter().enumerate() {
        *have.entry(sort(listed)).or_default() += usize::from(taken[place]);
    }
    for (place, listed) in pool.iter().enumerate() {
        let sort = sort(listed);
        let count = have.entry(sort).or_default();
        if !taken[place] && !bare(listed) && *count < of_a_sort(sort) {
            *count += 1;
            taken[place] = true;
        }
    }
}
