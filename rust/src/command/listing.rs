//! A listing in a file: for each feature a column of row numbers, counted from 0, in ascending order of its values.

use crate::csv::Csv;
use crate::number::quoted;
use crate::show::Show;
use crate::stop::{Damage, Stop};
use tailboardy::{Breach, Cause, DenseMatrix, ListingFault, Listings, Refusal};

/// What may have happened if each row is there once, but the order is not that of the show's values.
const OTHER: &str = "the listing looks like that of another version of the show; `tailboardy list` writes a fresh one";

#[derive(Debug)]
pub struct Listing {
    csv: Csv,
    /// The columns of the features.
    columns: Vec<usize>,
    pub listings: Listings,
}

impl Listing {
    fn new(csv: Csv, features: &[String]) -> Result<Self, Stop> {
        let columns: Result<Vec<usize>, Stop> = features.iter().map(|it| csv.column(it)).collect();
        let columns = columns?;
        let lists: Result<Vec<Vec<u32>>, Stop> = columns.iter().map(|it| rows(&csv, *it)).collect();
        let listings = Listings::from_columns(&lists?);
        Ok(Listing {
            listings: listings.map_err(|it| Stop::refused(csv.file(), &it.to_string()))?,
            csv,
            columns,
        })
    }

    /// The listing for the features of a show, if a table was given.
    pub fn of(csv: Option<Csv>, show: &Show) -> Result<Option<Self>, Stop> {
        csv.map(|csv| Listing::new(csv, &show.features)).transpose()
    }

    pub fn file(&self) -> &str {
        self.csv.file()
    }

    /// What is wrong, as a fault of the whole listing if it can be told as that, and for every column that is wrong.
    pub fn refused(&self, refusal: &Refusal, show: &Show) -> Stop {
        let line = |(told, cause): (String, Cause)| {
            format!("{told} (refusal {}, {})", cause.number(), cause.name())
        };
        let features = 0..self.columns.len();
        let faults = features.filter_map(|it| self.listings.fault(&show.x, it));
        let faults: Vec<ListingFault> = faults.collect();
        let told = self.told(refusal.cause(), &faults, show).into_iter();
        let lines = told.map(line).collect();
        match refusal.cause() {
            Cause::Lengths => Stop::Refused(lines),
            _ => Stop::Damaged(lines, faults.iter().map(|it| self.damage(it)).collect()),
        }
    }

    /// Lines, each with its refusal. A listing of another length is refused as that, whatever is wrong in its columns.
    fn told(&self, cause: Cause, faults: &[ListingFault], show: &Show) -> Vec<(String, Cause)> {
        let features = 0..self.columns.len();
        let firsts: Vec<Option<u32>> = features.clone().map(|it| self.counted(it, show)).collect();
        match firsts[..] {
            [Some(first), ..] if firsts.iter().all(|it| *it == Some(first)) => {
                return vec![(format!("{}: {}", self.file(), counts_from(first)), cause)];
            }
            _ => (),
        }
        let whole = features.clone().all(|it| self.first(it) == Some(0));
        if self.csv.rows() != show.csv.rows() && whole {
            let falls = features.filter_map(|it| self.fall(it, 0, show));
            let falls = falls.map(|fault| self.fault(&fault, show));
            let lines = [self.other_length(show)].into_iter().chain(falls);
            return lines.map(|line| (line, cause)).collect();
        }
        let told = |fault: &ListingFault| match firsts[fault.feature] {
            Some(first) => format!("{}: {}", self.place(fault), counts_from(first)),
            None => self.fault(fault, show),
        };
        let own = |fault: &ListingFault| match cause {
            Cause::Lengths => cause,
            _ => fault.breach.cause(),
        };
        faults.iter().map(|it| (told(it), own(it))).collect()
    }

    fn damage(&self, fault: &ListingFault) -> Damage {
        let column = self.columns[fault.feature];
        Damage {
            column: Some(self.csv.names()[column].clone()),
            refusal: fault.breach.cause().number(),
            place: fault.place,
            missing: fault.missing,
        }
    }

    /// That the listing is not as long as the show, but otherwise complete.
    fn other_length(&self, show: &Show) -> String {
        let (is, rows, file) = (self.csv.rows(), show.csv.rows(), show.csv.file());
        let missing = match is < rows {
            true => format!(
                ", and row {is} is missing, which is line {} of {file}",
                show.csv.line(is)
            ),
            false => String::new(),
        };
        format!(
            "{}: it has {is} rows, but {file} has {rows}{missing}; {OTHER}",
            self.file()
        )
    }

    /// Where a fault is: on its line, unless the listing ends before.
    fn place(&self, fault: &ListingFault) -> String {
        let column = self.columns[fault.feature];
        match fault.place < self.csv.rows() {
            true => self.csv.place(fault.place, column),
            false => format!("{}, column {}", self.file(), self.csv.names()[column]),
        }
    }

    fn fault(&self, fault: &ListingFault, show: &Show) -> String {
        let rows = show.csv.rows();
        let what = match fault.breach {
            Breach::NoSuchRow(row) => {
                format!("there is no row {row}; the last row is {}", rows - 1)
            }
            Breach::Twice { row, before } => {
                let line = self.csv.line(before);
                format!("row {row} appears twice, first in line {line}")
            }
            Breach::Falls { row, after } => {
                let value = |row| value(row, fault.feature, show);
                format!("{} follows {}, which is higher", value(row), value(after))
            }
            _ => format!("it ends after {} of {rows} rows", fault.place),
        };
        let more = match (fault.missing, fault.breach) {
            (Some(row), _) => {
                let (line, file) = (show.csv.line(row), show.csv.file());
                format!(", and row {row} is missing, which is line {line} of {file}")
            }
            (None, Breach::Falls { .. }) => format!("; {OTHER}"),
            (None, _) => String::new(),
        };
        format!("{}: {what}{more}", self.place(fault))
    }

    /// The number that a feature's listing counts from, if that is not 0 and the listing is right otherwise.
    fn counted(&self, feature: usize, show: &Show) -> Option<u32> {
        let first = self.first(feature).filter(|it| *it > 0);
        first.filter(|it| {
            self.csv.rows() == show.csv.rows() && self.fall(feature, *it, show).is_none()
        })
    }

    /// The lowest row number of a feature's listing, if it and those that follow it are there once each.
    fn first(&self, feature: usize) -> Option<u32> {
        let mut rows = self.listings.column(feature)?.to_vec();
        rows.sort_unstable();
        let first = *rows.first()?;
        let mut counted = rows.iter().zip(0..);
        counted.all(|(row, at)| row - first == at).then_some(first)
    }

    /// The first place where a value falls, of a listing that has each row once and counts from `first`. Rows that the show does not have
    /// are passed over: the library is asked about the others.
    fn fall(&self, feature: usize, first: u32, show: &Show) -> Option<ListingFault> {
        let (rows, features) = show.x.shape();
        let column = self.listings.column(feature)?.iter().map(|row| row - first);
        let others = column.enumerate().filter(|(_, row)| (*row as usize) < rows);
        let (places, others): (Vec<usize>, Vec<u32>) = others.unzip();
        let values = show.x.values().iter().skip(feature).step_by(features);
        let x = DenseMatrix::new(rows, 1, values.copied().collect(), false).ok()?;
        let fault = Listings::from_columns(&[others]).ok()?.fault(&x, 0)?;
        let falls = matches!(fault.breach, Breach::Falls { .. });
        falls.then(|| ListingFault {
            feature,
            place: places[fault.place],
            missing: None,
            ..fault
        })
    }
}

fn counts_from(first: u32) -> String {
    format!(
        "row numbers are counted from {first} instead of 0; `tailboardy list` writes a fresh listing"
    )
}

/// A row with its value and its line in the show.
fn value(row: u32, feature: usize, show: &Show) -> String {
    let at = row as usize;
    let name = &show.features[feature];
    let cell = show
        .csv
        .find(name)
        .map_or("", |column| show.csv.cell(at, column));
    let (line, file) = (show.csv.line(at), show.csv.file());
    format!("row {row} ({} in line {line} of {file})", cell.trim())
}

/// Checks that these columns have row numbers in every cell.
pub fn has_rows(csv: &Csv, names: &[String]) -> Result<(), Stop> {
    let mut columns = names.iter().map(|it| csv.column(it));
    columns.try_for_each(|column| rows(csv, column?).map(|_| ()))
}

fn rows(csv: &Csv, column: usize) -> Result<Vec<u32>, Stop> {
    let read = |row: usize| {
        let text = csv.cell(row, column).trim();
        let digits = text.bytes().all(|byte| byte.is_ascii_digit());
        let number = text.parse().ok().filter(|_| digits);
        number.ok_or_else(|| {
            let why = match text {
                "" => "the cell is empty; a row number is required".to_owned(),
                text => format!("{} is not a row number", quoted(text)),
            };
            Stop::refused(&csv.place(row, column), &why)
        })
    };
    (0..csv.rows()).map(read).collect()
}
