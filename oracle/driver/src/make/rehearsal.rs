//! The rehearsal table, P1 to P10 and the lines below it, as cases.

use crate::call::calls::Fit;
use crate::judge::case::Case;
use crate::make::chance::Chance;
use crate::make::fit as make_fit;

fn first() -> Fit {
    Fit {
        rows: 4,
        features: 1,
        trees: 1,
        least_leaf: 1,
        least_split: 2,
        tried: Some(1),
        x: vec![1.0, 2.0, 3.0, 4.0],
        y: vec![0.0, 0.0, 10.0, 10.0],
        counts: vec![1; 4],
        listings: vec![0, 1, 2, 3],
        words: vec![0; 4],
        ..Fit::default()
    }
}

/// P1 with one thing changed, in rooms that are just long enough.
pub fn with(change: impl Fn(&mut Fit)) -> Fit {
    let mut fit = first();
    change(&mut fit);
    make_fit::rooms(&mut Chance::new(0), &mut fit);
    fit
}

pub fn cases() -> Vec<Case> {
    let one_up = 1.0 + f64::EPSILON;
    let two_up = 1.0 + 2.0 * f64::EPSILON;
    let mut cases: Vec<Case> = [
        with(|_| ()),
        with(|fit| fit.limit = Some(2)),
        with(|fit| fit.limit = Some(1)),
        with(|fit| fit.limit = Some(0)),
        with(|fit| fit.least_leaf = 2),
        with(|fit| fit.least_leaf = 3),
        with(|fit| fit.least_split = 5),
        with(|fit| fit.x = vec![7.0; 4]),
        with(|fit| fit.counts = vec![2, 0, 1, 1]),
        with(|fit| {
            fit.counts = vec![2, 0, 1, 1];
            fit.y[1] = -1000.0;
        }),
        with(|fit| fit.counts = vec![0; 4]),
        with(|fit| fit.x = vec![one_up, one_up, two_up, two_up]),
        with(|fit| fit.x = vec![-1.7e308, -1.7e308, 1.7e308, 1.7e308]),
    ]
    .into_iter()
    .map(|fit| Case::fit(fit, 0))
    .collect();
    let refused = with(|fit| fit.listings = vec![0, 1, 1, 3]);
    cases.push(Case::fit(refused, [12, 0, 2, 2]));
    for room in [7, 6] {
        let mut fit = with(|_| ());
        fit.rooms.nodes = [room; 8];
        cases.push(Case::fit(fit, if room == 7 { 0 } else { 6 }));
    }
    cases
}
