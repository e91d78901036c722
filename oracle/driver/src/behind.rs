//! Compares the counts and masses that a library's fits leave with those that were found by hand.

use crate::call::calls::Call;
use crate::call::outcome::Room;
use crate::judge::run;
use crate::make::behind;
use crate::tally::Tally;

/// Whether a column has these entries, and after them only entries that were not touched.
fn left(column: &Room, expected: &Room) -> bool {
    let (front, rest) = column.entries.split_at(expected.entries.len());
    front == expected.entries && rest.iter().all(|entry| *entry == column.fill)
}

pub fn hold(tally: &mut Tally) {
    for (fit, behind) in behind::known() {
        let rooms = run::run(tally.library, &Call::Fit(fit.clone())).rooms;
        let (counts, masses): (Vec<u32>, Vec<f64>) = behind.into_iter().unzip();
        let same =
            left(&rooms[6], &Room::numbers(&counts)) && left(&rooms[7], &Room::floats(&masses));
        tally.told(same, || format!("the counts and masses of {fit:?}"));
    }
}
