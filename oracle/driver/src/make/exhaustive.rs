//! All inputs of small sizes.

use crate::call::calls::{Fit, Read, Reader, Table};
use crate::judge::case::Case;
use crate::make::chance::Chance;
use crate::make::fit as make_fit;

/// Every list of `n` entries from `from`.
pub fn lists<T: Clone>(from: &[T], n: usize) -> Vec<Vec<T>> {
    (0..n).fold(vec![Vec::new()], |lists, _| {
        let longer = |list: &Vec<T>| {
            let list = list.clone();
            from.iter().map(move |entry| {
                let mut next = list.clone();
                next.push(entry.clone());
                next
            })
        };
        lists.iter().flat_map(longer).collect()
    })
}

fn permutations(n: u32) -> Vec<Vec<u32>> {
    let all: Vec<u32> = (0..n).collect();
    lists(&all, n as usize)
        .into_iter()
        .filter(|list| all.iter().all(|row| list.contains(row)))
        .collect()
}

/// Every valid listing of a column.
pub fn listings(column: &[f64]) -> Vec<Vec<u32>> {
    let falls = |listing: &Vec<u32>| {
        let values = listing.iter().map(|row| column[*row as usize]);
        values.clone().zip(values.skip(1)).any(|(a, b)| b < a)
    };
    let mut all = permutations(column.len() as u32);
    all.retain(|listing| !falls(listing));
    all
}

/// One feature, one to three rows: every value of three, listing, target of two, count of three.
fn columns(mut each: impl FnMut(Fit)) {
    for rows in 1..=3 {
        for x in lists(&[-0.0, 0.0, 1.0], rows) {
            for listings in listings(&x) {
                for y in lists(&[0.0, 1.0], rows) {
                    for counts in lists(&[0, 1, 2], rows) {
                        each(Fit {
                            rows,
                            features: 1,
                            trees: 1,
                            tried: Some(1),
                            x: x.clone(),
                            y: y.clone(),
                            counts,
                            listings: listings.clone(),
                            words: vec![0; 5],
                            ..Fit::default()
                        });
                    }
                }
            }
        }
    }
}

/// A fit in both choices: with cuts halfway, and at the lower value.
fn both(mut fit: Fit, each: &mut impl FnMut(Case)) {
    make_fit::rooms(&mut Chance::new(0), &mut fit);
    each(Case::fit(fit.clone(), 0));
    fit.lower = true;
    each(Case::fit(fit, 0));
}

pub fn best(mut each: impl FnMut(Case)) {
    columns(|fit| {
        for limit in [None, Some(2)] {
            for (least_leaf, least_split) in [(0, 0), (1, 2), (2, 2), (1, 3), (2, 0), (3, 1)] {
                let fit = Fit {
                    limit,
                    least_leaf,
                    least_split,
                    ..fit.clone()
                };
                both(fit, &mut each);
            }
        }
    });
}

/// Two thresholds of three, good or bad.
pub fn random(mut each: impl FnMut(Case)) {
    let tapes = lists(&[-0.0, 0.5, 0.0], 2);
    columns(|fit| {
        for thresholds in &tapes {
            let fit = Fit {
                random: true,
                least_leaf: 1,
                least_split: 2,
                thresholds: thresholds.clone(),
                ..fit.clone()
            };
            both(fit, &mut each);
        }
    });
}

/// Two features, two rows, and every tape of words for two searches.
pub fn words(mut each: impl FnMut(Case)) {
    let tapes = lists(&[0, 1], 4);
    for x in lists(&[0.0, 1.0], 4) {
        let column = |feature: usize| vec![x[feature], x[2 + feature]];
        for first in listings(&column(0)) {
            for second in listings(&column(1)) {
                for words in &tapes {
                    for tried in 0..=3 {
                        let fit = Fit {
                            rows: 2,
                            features: 2,
                            trees: 1,
                            tried: Some(tried),
                            x: x.clone(),
                            y: vec![1.0, 3.0],
                            counts: vec![1, 2],
                            listings: [first.clone(), second.clone()].concat(),
                            words: words.clone(),
                            ..Fit::default()
                        };
                        both(fit, &mut each);
                    }
                }
            }
        }
    }
}

/// Every table of up to three nodes with children from 0 to 3 and one of two features, only one of them in range. Each table
/// is checked, and each of its nodes and the one past the end are read out.
/// Which tables are valid is known from a list of what a valid node can contain.
pub fn tables(mut each: impl FnMut(Case)) {
    let mut entries = Vec::new();
    for children in lists(&[0, 1, 2, 3], 2) {
        entries.push((children[0], children[1], 0));
        entries.push((children[0], children[1], 1));
    }
    for nodes in 1..=3u32 {
        for tree in lists(&entries, nodes as usize) {
            let good = |number: u32, entry: &(u32, u32, u32)| {
                let leaves = [(0, 0, 0), (0, 0, 1)];
                let splits = (number + 1..nodes).map(|child| (child, child + 1, 0));
                let splits = splits.filter(|split| split.1 < nodes);
                leaves.into_iter().chain(splits).any(|held| held == *entry)
            };
            let all = (0..nodes).all(|number| good(number, &tree[number as usize]));
            let refusal = if all { 0 } else { 8 };
            let mut read = Read {
                reader: Reader::CheckTree,
                features: 1,
                table: table(&tree),
                ..Read::default()
            };
            each(Case::read(read.clone(), refusal));
            read.reader = Reader::Node;
            for node in 0..=tree.len() {
                read.node = node;
                each(Case::read(read.clone(), refusal));
            }
        }
    }
}

/// A table of these children and features, with floats that differ between nodes and columns.
fn table(tree: &[(u32, u32, u32)]) -> Table {
    let floats = |from: f64| (0..tree.len()).map(|at| from + at as f64).collect();
    Table {
        value: floats(0.5),
        feature: tree.iter().map(|entry| entry.2).collect(),
        threshold: floats(10.5),
        score: floats(20.5),
        true_child: tree.iter().map(|entry| entry.0).collect(),
        false_child: tree.iter().map(|entry| entry.1).collect(),
    }
}

/// Every error of up to three rows with one of five means, two of which are none, and one of four targets.
pub fn errors(mut each: impl FnMut(Case)) {
    let negative = f64::from_bits(0xFFF0_0000_0000_0001);
    let means = [f64::NAN, negative, -0.0, 0.7, f64::INFINITY];
    let targets = [0.1, -2.0, f64::NAN, f64::INFINITY];
    for rows in 1..=3 {
        for chosen in lists(&[0, 1, 2, 3, 4], rows) {
            let none = chosen.iter().all(|mean| *mean < 2);
            for targets in lists(&targets, rows) {
                let read = Read {
                    reader: Reader::OutOfBagError,
                    rows,
                    targets,
                    means: chosen.iter().map(|mean| means[*mean]).collect(),
                    ..Read::default()
                };
                each(Case::read(read, if none { 18 } else { 0 }));
            }
        }
    }
}
