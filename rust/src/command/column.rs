//! What a column can be used for, and what is wrong with one that cannot.

use crate::csv::Csv;
use crate::faults::Faults;
use crate::measure::{self, Holds};
use crate::number::{self, quoted};
use crate::numbering::{counted, is_numbering};
use crate::units::{bare, is_known};

/// What a column that was given no role can be used for.
#[derive(Debug)]
pub enum Use {
    /// A measurement, in this unit, which is empty if none is written.
    Measured(String),
    /// It has numbers, but not of measurements.
    Left(Left),
    Words,
    /// It has numbers, but not all of its cells can be read as such.
    Faulty(Holds),
}

/// A column with numbers that is no feature: where it is, and why.
#[derive(Debug)]
pub struct Left {
    pub column: String,
    pub place: String,
    pub why: String,
    /// Whether it could be a feature if it were named as one.
    pub usable: bool,
}

impl Use {
    pub fn of(csv: &Csv, column: usize) -> Use {
        let name = &csv.names()[column];
        let left = |place: String, why: String, usable: bool| {
            Use::Left(Left {
                column: name.clone(),
                place,
                why,
                usable,
            })
        };
        let place = || format!("{}, column {name}", csv.file());
        let measured = |unit: String| {
            let cells = csv.cells(column).map(|cell| bare(cell, &unit));
            match counted(cells) {
                Some((first, last)) => {
                    let why = format!("it only counts, from {first} to {last}");
                    left(place(), why, true)
                }
                None => Use::Measured(unit),
            }
        };
        match Holds::of(csv.cells(column), csv.decimal()) {
            Holds::Words => Use::Words,
            Holds::Unit(unit) if is_known(&unit) => Use::Measured(unit),
            holds if is_numbering(name) => {
                let usable = matches!(holds, Holds::Numbers | Holds::Unit(_));
                let why = "its name says that it numbers or names fixtures";
                left(place(), why.into(), usable)
            }
            Holds::OnlyNumber { row } => {
                let cell = quoted(csv.cell(row, column));
                let why = format!("{cell} is the only number in it");
                left(csv.place(row, column), why, false)
            }
            Holds::Numbers => measured(String::new()),
            Holds::Unit(unit) => measured(unit),
            holds => Use::Faulty(holds),
        }
    }
}

/// The unit of a column that has to have a number in every cell, or `None` after its faults are told, with what can be done besides
/// correcting it.
pub fn required(csv: &Csv, column: usize, remedy: &str, faults: &mut Faults) -> Option<String> {
    match Holds::of(csv.cells(column), csv.decimal()) {
        Holds::Numbers => Some(String::new()),
        Holds::Unit(unit) => Some(unit),
        holds => {
            tell(csv, column, &holds, remedy, faults);
            None
        }
    }
}

/// Tells what is wrong with a column that does not have a number in every cell. The remedy is what can be done besides correcting it.
pub fn tell(csv: &Csv, column: usize, holds: &Holds, remedy: &str, faults: &mut Faults) {
    let text = |row: usize| csv.cell(row, column).trim();
    let wrong = |row: usize| wrong(csv, row, column);
    let line = |row: usize| format!("line {}", csv.line(row));
    let (row, why) = match *holds {
        Holds::Numbers | Holds::Unit(_) => return,
        Holds::Otherwise { .. } => return tell_otherwise(csv, column, remedy, faults),
        Holds::Words => return tell_words(csv, column, remedy, faults),
        Holds::OnlyNumber { row } => {
            let cell = quoted(text(row));
            (row, format!("{cell} is the only number in the column"))
        }
        Holds::OnlyWord { row } => {
            let why = wrong(row);
            (
                row,
                format!("{why}; it is the only such cell of the column"),
            )
        }
        Holds::Mixed { number, word } => {
            let (cell, line) = (quoted(text(number)), line(number));
            (word, format!("{}, but {cell} in {line} is", wrong(word)))
        }
        Holds::Odd { row } => (row, wrong(row)),
        Holds::Units { row, other } => (row, differ(text(row), text(other), &line(other))),
    };
    faults.add(&csv.place(row, column), &(why + remedy));
    if !matches!(holds, Holds::OnlyNumber { .. } | Holds::Units { .. }) {
        tell_others(csv, column, row, faults);
    }
}

/// Tells that no cell of a column is a number.
fn tell_words(csv: &Csv, column: usize, remedy: &str, faults: &mut Faults) {
    let filled = |row: &usize| !csv.cell(*row, column).trim().is_empty();
    let row = (0..csv.rows()).find(filled);
    let place = match row {
        None if csv.rows() > 1 => format!("{}, column {}", csv.file(), csv.names()[column]),
        row => csv.place(row.unwrap_or(0), column),
    };
    let why = match row {
        None if csv.rows() > 1 => "every cell is empty; a number is required in each".into(),
        Some(row) if csv.rows() > 1 => {
            wrong(csv, row, column) + ", and neither is any other cell of the column"
        }
        _ => wrong(csv, 0, column),
    };
    faults.add(&place, &(why + remedy));
}

/// Why a cell cannot be read as a number.
fn wrong(csv: &Csv, row: usize, column: usize) -> String {
    let cell = csv.cell(row, column);
    match measure::is_odd(cell, csv.decimal()) {
        true => format!(
            "{} is not one number in one unit; write it as one",
            quoted(cell.trim())
        ),
        false => csv.number(row, column).err().unwrap_or_default(),
    }
}

/// Tells all cells whose numbers are written otherwise than the table's.
fn tell_otherwise(csv: &Csv, column: usize, remedy: &str, faults: &mut Faults) {
    for row in 0..csv.rows() {
        let number = measure::otherwise(csv.cell(row, column), csv.decimal());
        let why = number.and_then(|it| number::read(it, csv.decimal()).err());
        why.iter()
            .for_each(|why| faults.add(&csv.place(row, column), &format!("{why}{remedy}")));
    }
}

/// Tells the other cells that are no numbers, unless most of the column is words.
fn tell_others(csv: &Csv, column: usize, told: usize, faults: &mut Faults) {
    let is_number = |row: &usize| measure::is_number(csv.cell(*row, column), csv.decimal());
    let rows: Vec<usize> = (0..csv.rows()).filter(|row| !is_number(row)).collect();
    if 2 * rows.len() <= csv.rows() {
        for row in rows.into_iter().filter(|row| *row != told) {
            faults.add(&csv.place(row, column), &wrong(csv, row, column));
        }
    }
}

/// That a cell does not have the unit of another one, which is in another place.
pub fn differ(one: &str, other: &str, place: &str) -> String {
    let unit = |cell: &str| match measure::unit(cell) {
        "" => "has no unit".to_owned(),
        unit => format!("is in {unit}"),
    };
    let (here, there) = (quoted(one.trim()), quoted(other.trim()));
    format!(
        "{here} {}, but {there} in {place} {}",
        unit(one),
        unit(other)
    )
}

#[cfg(test)]
mod tests {
    use super::*;

    fn csv(name: &str, cells: &[&str]) -> Csv {
        let rows: String = cells.iter().map(|it| format!("{it},1\n")).collect();
        let text = format!("{name},pan\n{rows}");
        Csv::of(&text)
    }

    fn left(name: &str, cells: &[&str]) -> Option<(String, String, bool)> {
        match Use::of(&csv(name, cells), 0) {
            Use::Left(it) => Some((it.place, it.why, it.usable)),
            _ => None,
        }
    }

    #[test]
    fn numbers_that_are_no_measurements_are_left() {
        let by_name = "its name says that it numbers or names fixtures";
        let told = |place: &str, why: &str, usable| Some((place.into(), why.into(), usable));
        assert_eq!(
            left("channel", &["7.5", "7.5"]),
            told("t, column channel", by_name, true)
        );
        assert_eq!(
            left("unit", &["1", "2", "2A", "n"]),
            told("t, column unit", by_name, false)
        );
        assert_eq!(
            left("spot", &["12", "10", "11"]),
            told("t, column spot", "it only counts, from 10 to 12", true)
        );
        assert_eq!(
            left("spot", &["FOH", "7", "BOX"]),
            told(
                "t, line 3, column spot",
                "\"7\" is the only number in it",
                false
            )
        );
        assert_eq!(left("trim", &["7.5", "8", "9"]), None);
        let counts = "it only counts, from 1 to 3";
        assert_eq!(
            left("spot", &["1A", "2A", "3A"]),
            told("t, column spot", counts, true)
        );
        assert_eq!(left("fixture", &["a", "b", "c"]), None);
        assert_eq!(left("line", &["4 m", "5 m", "6 m"]), None);
    }

    fn faults(cells: &[&str]) -> Vec<String> {
        let csv = csv("x", cells);
        let mut faults = Faults::default();
        let holds = Holds::of(csv.cells(0), csv.decimal());
        tell(&csv, 0, &holds, "; or so", &mut faults);
        let told = faults.end().err().map(|it| it.to_string());
        let told = told.unwrap_or_default();
        let line = |it: &str| it.replace("t, line ", "").replace(", column x", "");
        told.lines().map(line).collect()
    }

    /// Cells, and what is told of them: the line and why.
    const FAULTS: &[(&[&str], &[&str])] = &[
        (&["low"], &["2: \"low\" is not a number; or so"]),
        (
            &["", "low", "high"],
            &["3: \"low\" is not a number, and neither is any other cell of the column; or so"],
        ),
        (
            &["a", "b", "7"],
            &["4: \"7\" is the only number in the column; or so"],
        ),
        (
            &["1", "low", "2", ""],
            &[
                "3: \"low\" is not a number; it is the only such cell of the column; or so",
                "5: the cell is empty; fill it in, or leave out such rows with --skip-incomplete",
            ],
        ),
        (
            &["1", "low", "2", "high", "3"],
            &[
                "3: \"low\" is not a number, but \"1\" in line 2 is; or so",
                "5: \"high\" is not a number",
            ],
        ),
        (
            &["a", "1", "b", "c", "2", "d"],
            &["2: \"a\" is not a number, but \"1\" in line 3 is; or so"],
        ),
        (
            &["4.2 m", "4.3 m", "430 cm"],
            &["2: \"4.2 m\" is in m, but \"430 cm\" in line 4 is in cm; or so"],
        ),
        (
            &["4.2 m", "4.3"],
            &["2: \"4.2 m\" is in m, but \"4.3\" in line 3 has no unit; or so"],
        ),
        (
            &["18'6", "19", "20", "12'3"],
            &[
                "2: \"18'6\" is not one number in one unit; write it as one; or so",
                "5: \"12'3\" is not one number in one unit; write it as one",
            ],
        ),
        (
            &["", ""],
            &["t: every cell is empty; a number is required in each; or so"],
        ),
        (
            &["950", "1 050 m", "1 150"],
            &[
                "3: \"1 050\" is not a number; it looks like 1050 with thousands separators, which are not read: leave them out; or so",
                "4: \"1 150\" is not a number; it looks like 1150 with thousands separators, which are not read: leave them out; or so",
            ],
        ),
    ];

    #[test]
    fn faults_name_the_cell() {
        assert!(faults(&["1", "2.5"]).is_empty());
        assert!(faults(&["1 m", "2.5m"]).is_empty());
        for (cells, told) in FAULTS {
            assert_eq!(faults(cells), *told);
        }
    }
}
