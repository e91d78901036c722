//! How many fixtures of the old show stand behind a correction.

use crate::both::Both;
use crate::fixtures::listed;
use crate::parts::in_parts;
use tailboardy::{DenseMatrix, RandomForestRegressor, Refusal};

/// A correction that rests on fewer fixtures is warned of.
pub const ENOUGH: u32 = 3;

/// For each row how many fixtures are in the leaf that it comes to: the median of the trees, which is the count of some tree's leaf.
pub fn of(forest: &RandomForestRegressor, x: &DenseMatrix) -> Result<Vec<u32>, Refusal> {
    in_parts(forest, x, |part| {
        let support = forest.support(part)?;
        let medians = (0..support.len()).map_while(|row| support.median_count(row));
        Ok(medians.collect())
    })
}

/// A warning if corrections rest on few fixtures.
pub fn few(both: &Both, forest: &RandomForestRegressor, support: &[u32]) -> Option<String> {
    let thin = support.iter().enumerate().filter(|(_, it)| **it < ENOUGH);
    let thin: Vec<(usize, &u32)> = thin.collect();
    let fixtures = thin
        .iter()
        .map(|(row, count)| format!("{} ({count})", both.new.fixture(*row)));
    let file = both.old.csv.file();
    let on = format!("on leaves with fewer than three fixtures of {file}");
    let why = match (thin.len(), support.len()) {
        (0, _) => return None,
        (1, 1) => format!("the only correction rests {on}"),
        (is, all) if is == all => format!("all {all} corrections rest {on}"),
        (1, all) => format!("1 of {all} corrections rests {on}: {}", listed(fixtures)),
        (is, all) => format!("{is} of {all} corrections rest {on}: {}", listed(fixtures)),
    };
    let roots = forest.trees().filter_map(|tree| tree.nodes().next()?.count);
    let how = match roots.max() {
        Some(ENOUGH..) => "for at least three in every leaf: --min-samples-leaf 3",
        _ => "fit three fixtures or more",
    };
    Some(format!("{why}; {how}"))
}
