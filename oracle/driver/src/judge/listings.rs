//! What is expected of damaged listings, which smartcore takes as they are: every fault in them, by its definition, and the first one.
//! The second judge has no part in this.

use crate::call::calls::{Call, Fit, Read};
use crate::call::fault::Fault;

/// Listings of an expected length, and the values that they are listings of.
#[derive(Clone, Copy)]
pub struct Listings<'a> {
    pub rows: usize,
    pub features: usize,
    pub x: &'a [f64],
    pub listings: &'a [u32],
}

impl<'a> From<&'a Fit> for Listings<'a> {
    fn from(fit: &'a Fit) -> Self {
        Listings {
            rows: fit.rows,
            features: fit.features,
            x: &fit.x,
            listings: &fit.listings,
        }
    }
}

impl<'a> From<&'a Read> for Listings<'a> {
    fn from(read: &'a Read) -> Self {
        Listings {
            rows: read.rows,
            features: read.features,
            x: &read.x,
            listings: &read.listings,
        }
    }
}

impl<'a> From<&'a Call> for Listings<'a> {
    fn from(call: &'a Call) -> Self {
        match call {
            Call::Fit(fit) => fit.into(),
            Call::Read(read) => read.into(),
            Call::File(_) => unreachable!("a file has no listings"),
        }
    }
}

/// A test that fails: its column, its place and its number. The tests of a place are made in the order of their numbers, so of all faults
/// the least is the first to be found.
type Failed = (usize, usize, u32);

impl Listings<'_> {
    fn column(&self, column: usize) -> &[u32] {
        &self.listings[column * self.rows..(column + 1) * self.rows]
    }

    /// The value of the row at a place. A row that is too large has none, and nothing is below or above it.
    fn value(&self, column: usize, place: usize) -> f64 {
        let row = self.column(column)[place] as usize;
        let value = self.x.get(row * self.features + column);
        value.copied().unwrap_or(f64::NAN)
    }

    fn failed(&self, column: usize, place: usize) -> impl Iterator<Item = Failed> {
        let listing = self.column(column);
        let value = |place: usize| self.value(column, place);
        let tests = [
            (11, listing[place] as usize >= self.rows),
            (12, listing[..place].contains(&listing[place])),
            (13, place > 0 && value(place) < value(place - 1)),
        ];
        let failed = tests.into_iter().filter(|(_, fails)| *fails);
        failed.map(move |(number, _)| (column, place, number))
    }

    fn faults(&self) -> impl Iterator<Item = Failed> {
        let places = |column: usize| (0..self.rows).map(move |place| (column, place));
        let all = (0..self.features).flat_map(places);
        all.flat_map(|(column, place)| self.failed(column, place))
    }

    /// The rows that are nowhere in a column, in ascending order.
    fn lacking(&self, column: usize) -> impl Iterator<Item = u32> {
        let listing = self.column(column);
        (0..self.rows as u32).filter(|row| !listing.contains(row))
    }

    /// What is told of them.
    pub fn fault(&self) -> Fault {
        match self.faults().min() {
            None => Fault::default(),
            Some((column, place, number)) => {
                let lacking = self.lacking(column).next().filter(|_| number == 12);
                Fault([number, column as u32, place as u32, lacking.unwrap_or(0)])
            }
        }
    }
}

/// What damaged listings show, for the tally.
pub const SHOWN: [&str; 8] = [
    "given to a fit of one tree",
    "to a fit of a forest",
    "to the check",
    "told in a column after the first",
    "told at the last place",
    "with a fault at another place of the column",
    "with one in another column",
    "with a row met before and several lacking",
];

/// Which of `SHOWN` a call with this answer shows.
pub fn shown(call: &Call, answer: &[u64]) -> [bool; SHOWN.len()] {
    let listings = Listings::from(call);
    let [column, place] = [answer[1], answer[2]].map(|at| at as usize);
    let check = matches!(call, Call::Read(_));
    let forest = matches!(call, Call::Fit(fit) if fit.forest);
    let last = place + 1 == listings.rows;
    // finding all faults takes the square of the rows; those at the limits have no second one
    let all: Vec<Failed> = match listings.rows {
        0..1_000 => listings.faults().collect(),
        _ => Vec::new(),
    };
    [
        !check && !forest,
        forest,
        check,
        column > 0,
        last,
        all.iter().any(|(c, p, _)| *c == column && *p != place),
        all.iter().any(|(c, ..)| *c != column),
        answer[0] == 12 && !all.is_empty() && listings.lacking(column).nth(1).is_some(),
    ]
}
