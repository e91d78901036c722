//! Tables with named columns, in separated text.

use crate::decimal::{self, Kind, Unclear};
use crate::faults::Faults;
use crate::format::{self, Format};
use crate::input;
use crate::number::{self, Decimal, quoted};
use crate::numbering;
use crate::reading::{self, Reading};
use crate::stop::Stop;
use crate::units;
use std::io::Read;

pub use crate::reading::name;

/// A table that was read completely. Every column has a name, and every row has a cell in every column.
#[derive(Debug)]
pub struct Csv {
    file: String,
    read: Reading,
    /// Which of the records that were read are rows: all, until some are left out.
    rows: Vec<usize>,
    /// Whether rows with empty cells may be left out.
    skips: bool,
    /// The decimal sign, if it was said or any number has one.
    decimal: Option<Decimal>,
    /// The columns that name a fixture.
    named_by: Vec<usize>,
    /// What follows the number in each cell of a column; empty for most columns.
    units: Vec<String>,
}

impl Csv {
    /// Reads a file. If anything is wrong with it, the messages name the file and the lines.
    pub fn read(file: &str, format: &Format) -> Result<Self, Stop> {
        let mut faults = Faults::default();
        let csv = Csv::read_on(file, format, &mut faults)?;
        faults.end()?;
        Ok(csv)
    }

    /// Reads a file. Rows with another number of cells than there are columns are faults, and left out of the table; it stops if none is
    /// left.
    pub fn read_on(file: &str, format: &Format, faults: &mut Faults) -> Result<Self, Stop> {
        let called = input::called(file);
        let from = input::open(file).map_err(|error| faults.stop(Stop::unread(called, &error)))?;
        Csv::read_from(called, from, format, faults)
    }

    fn read_from(
        file: &str,
        from: impl Read,
        format: &Format,
        faults: &mut Faults,
    ) -> Result<Self, Stop> {
        let read = reading::read(file, from, format, faults)?;
        if read.lines.is_empty() {
            return Err(faults.stop(Stop::Refused(Vec::new())));
        }
        let naming = numbering::naming(&read.names, |column| read.differ(column));
        let units = vec![String::new(); read.names.len()];
        let mut csv = Csv {
            file: file.to_owned(),
            rows: (0..read.lines.len()).collect(),
            read,
            skips: format.skip_incomplete,
            decimal: format.decimal,
            named_by: naming.into_iter().collect(),
            units,
        };
        if csv.decimal.is_none() {
            csv.decimal = csv.find_decimal(faults)?;
        }
        Ok(csv)
    }

    fn find_decimal(&self, faults: &mut Faults) -> Result<Option<Decimal>, Stop> {
        let kinds = |column: usize| match numbering::is_numbering(&self.names()[column]) {
            true => Vec::new(),
            false => self.cells(column).map(Kind::of).collect(),
        };
        let found = decimal::find((0..self.names().len()).map(kinds), self.read.delimiter);
        let at = |(row, column)| {
            let (line, name) = (self.line(row), &self.names()[column]);
            format!(
                "{} in line {line}, column {name}",
                quoted(self.cell(row, column).trim())
            )
        };
        let stop = |unclear| match unclear {
            Unclear::Both(point, comma) => {
                let (point, comma) = (at(point), at(comma));
                let why = format!(
                    "the decimal sign is unclear: {point} has a point, but {comma} a comma; \
                     write all numbers alike, or say which sign it is with --decimal"
                );
                Stop::refused(&self.file, &why)
            }
            Unclear::Thousands((row, column)) => {
                let cell = self.cell(row, column).trim();
                let sign = if cell.contains(',') { "comma" } else { "point" };
                let why = format!(
                    "the {sign} in {} may be the decimal sign or stand between thousands; \
                     say --decimal {sign}, or leave out thousands separators",
                    quoted(cell)
                );
                Stop::refused(&self.place(row, column), &why)
            }
        };
        found.map_err(|unclear| faults.stop(stop(unclear)))
    }

    /// What separates the cells.
    pub fn delimiter(&self) -> char {
        self.read.delimiter
    }

    /// The decimal sign of the numbers, or if none of them has one, that of another table.
    pub fn decimal_or(&self, other: &Csv) -> Decimal {
        self.decimal.unwrap_or_else(|| other.decimal())
    }

    /// The decimal sign of the numbers.
    pub fn decimal(&self) -> Decimal {
        self.decimal.unwrap_or_default()
    }

    /// The number in a cell, or why there is none.
    pub fn number(&self, row: usize, column: usize) -> Result<f64, String> {
        let cell = self.cell(row, column);
        if cell.trim().is_empty() {
            let how = "fill it in, or leave out such rows with --skip-incomplete";
            return Err(match self.called(row) {
                Some(name) => format!("the cell of {name} is empty; {how}"),
                None => format!("the cell is empty; {how}"),
            });
        }
        number::read(units::bare(cell, &self.units[column]), self.decimal())
    }

    /// The unit that the cells of a column are known to have; empty if they have none.
    pub fn unit(&self, column: usize) -> &str {
        &self.units[column]
    }

    /// Makes it known that the cells of a column have this unit.
    pub fn set_unit(&mut self, column: usize, unit: String) {
        self.units[column] = unit;
    }

    /// The numbers of a column. A cell that has none is a fault, and counts as 0.
    pub fn numbers(&self, column: usize, faults: &mut Faults) -> Vec<f64> {
        let mut number = |row| {
            self.number(row, column).unwrap_or_else(|why| {
                faults.add(&self.place(row, column), &why);
                0.0
            })
        };
        (0..self.rows()).map(&mut number).collect()
    }

    /// Names fixtures by these columns in messages.
    pub fn name_by(&mut self, columns: Vec<usize>) {
        self.named_by = columns;
    }

    /// What a fixture is called in messages: its cells in the columns that name it, or else its line.
    pub fn fixture(&self, row: usize) -> String {
        let line = || format!("line {}", self.line(row));
        self.called(row).unwrap_or_else(line)
    }

    /// The name of a fixture, if it has one.
    pub fn called(&self, row: usize) -> Option<String> {
        let cells = self.named_by.iter().map(|it| name(self.cell(row, *it)));
        let cells: Vec<String> = cells.filter(|cell| !cell.is_empty()).collect();
        (!cells.is_empty()).then(|| cells.join(" "))
    }

    /// The name under which it was opened.
    pub fn file(&self) -> &str {
        &self.file
    }

    /// The columns' names.
    pub fn names(&self) -> &[String] {
        &self.read.names
    }

    /// Where the columns' names are, in words.
    pub fn head(&self) -> String {
        format!("{}, line {}", self.file, self.read.head)
    }

    /// The number of rows.
    pub fn rows(&self) -> usize {
        self.rows.len()
    }

    /// The line on which a row begins.
    pub fn line(&self, row: usize) -> usize {
        self.read.lines[self.rows[row]]
    }

    /// The text of a cell.
    pub fn cell(&self, row: usize, column: usize) -> &str {
        self.text(self.rows[row], column)
    }

    /// The text of a cell of a record, which may be left out.
    pub fn text(&self, record: usize, column: usize) -> &str {
        self.read.cells.get(record * self.names().len() + column)
    }

    /// All records, and the row that each is, unless it is left out.
    pub fn records(&self) -> impl Iterator<Item = (usize, Option<usize>)> {
        let row = |record: usize| self.rows.binary_search(&record).ok();
        (0..self.read.lines.len()).map(move |record| (record, row(record)))
    }

    /// Leaves out the rows that have empty cells in these columns, if that may be done. Returns for each what it is called and the names
    /// of the columns.
    pub fn leave_out(&mut self, columns: &[usize]) -> Vec<String> {
        let empty = |row: usize| {
            let empty = columns
                .iter()
                .filter(|it| self.cell(row, **it).trim().is_empty());
            let names: Vec<&str> = empty.map(|it| self.names()[*it].as_str()).collect();
            names.join(", ")
        };
        let (mut rows, mut left) = (Vec::new(), Vec::new());
        for row in 0..self.rows() {
            match empty(row) {
                names if names.is_empty() || !self.skips => rows.push(self.rows[row]),
                names => left.push(format!("{} ({names})", self.fixture(row))),
            }
        }
        self.rows = rows;
        left
    }

    /// All cells of a column.
    pub fn cells(&self, column: usize) -> impl Iterator<Item = &str> {
        (0..self.rows()).map(move |row| self.cell(row, column))
    }

    /// The column with this name, if there is one.
    pub fn find(&self, name: &str) -> Option<usize> {
        self.names().iter().position(|it| it == name)
    }

    /// What to say where a column is missing, if the first lines have more of another separator.
    pub fn split(&self) -> String {
        let more = format::more_of(self.read.delimiter, &[&self.read.written]);
        more.map_or(String::new(), |it| format!("; {it}"))
    }

    /// The column with this name, or a message that there is none.
    pub fn column(&self, name: &str) -> Result<usize, Stop> {
        self.find(name).ok_or_else(|| {
            let names = self.names().iter().filter(|it| !it.is_empty());
            let there: Vec<String> = names.clone().take(20).map(|it| quoted(it)).collect();
            let more = if names.count() > 20 { ", .." } else { "" };
            let split = self.split();
            Stop::refused(
                &self.head(),
                &format!(
                    "there is no column {}; there are {}{more}{split}",
                    quoted(name),
                    there.join(", ")
                ),
            )
        })
    }

    /// Where a cell is, in words.
    pub fn place(&self, row: usize, column: usize) -> String {
        format!(
            "{}, line {}, column {}",
            self.file,
            self.line(row),
            self.names()[column]
        )
    }
}

#[cfg(test)]
impl Csv {
    /// A table named `t`, for tests.
    pub fn of(text: &str) -> Csv {
        let format = Format::default();
        Csv::read_from("t", text.as_bytes(), &format, &mut Faults::default()).expect("a table")
    }
}

#[cfg(test)]
mod tests {
    use super::*;
    use Decimal::{Comma, Point};

    fn csv(text: &str, format: &Format) -> Result<Csv, String> {
        let mut faults = Faults::default();
        let csv = Csv::read_from("t", text.as_bytes(), format, &mut faults);
        let csv = csv.and_then(|it| faults.end().map(|()| it));
        csv.map_err(|stop| stop.to_string())
    }

    #[test]
    fn numbers_have_the_tables_decimal_sign() {
        for (text, decimal, number) in [
            ("fixture;x\na;4,25\nb;3\n", Comma, 4.25),
            ("fixture\tx\na\t-4,5\nb\t3\n", Comma, -4.5),
            ("fixture,x\na,\"4,25\"\nb,3\n", Comma, 4.25),
            ("fixture,x\na,4.25\nb,3\n", Point, 4.25),
            ("fixture;x\na;4.25\nb;3\n", Point, 4.25),
            ("fixture;x\na;4\nb;3\n", Point, 4.0),
            ("dmx address;x\n1.101;4,25\n1.201;3\n", Comma, 4.25),
        ] {
            let csv = csv(text, &Format::default()).unwrap();
            assert_eq!(csv.decimal(), decimal, "{text}");
            assert_eq!(csv.number(0, 1), Ok(number), "{text}");
        }
        let said = |decimal| Format {
            decimal: Some(decimal),
            ..Format::default()
        };
        let thousands = "x;z\n1,050;5\n950;4\n";
        assert_eq!(csv(thousands, &said(Comma)).unwrap().number(0, 0), Ok(1.05));
        assert!(csv(thousands, &said(Point)).unwrap().number(0, 0).is_err());
        assert_eq!(
            csv(thousands, &Format::default()).unwrap_err(),
            "t, line 2, column x: the comma in \"1,050\" may be the decimal sign or stand between thousands; \
             say --decimal comma, or leave out thousands separators"
        );
        assert_eq!(
            csv("x;z\n1,5;5\n2;4.25\n", &Format::default()).unwrap_err(),
            "t: the decimal sign is unclear: \"4.25\" in line 3, column z has a point, but \"1,5\" in line 2, column x a comma; \
             write all numbers alike, or say which sign it is with --decimal"
        );
    }

    #[test]
    fn fixtures_are_named_by_the_column_that_says_so() {
        let text = "x,Unit no,truss\n1,7,a\n,,b\n,8,c\n";
        let mut csv = csv(text, &Format::default()).unwrap();
        assert_eq!([csv.fixture(0), csv.fixture(1)], ["7", "line 3"]);
        assert_eq!(csv.number(0, 0), Ok(1.0));
        let how = "fill it in, or leave out such rows with --skip-incomplete";
        let empty = format!("the cell is empty; {how}");
        assert_eq!(csv.number(1, 0), Err(empty));
        let empty = format!("the cell of 8 is empty; {how}");
        assert_eq!(csv.number(2, 0), Err(empty));
        csv.name_by(vec![2, 1]);
        assert_eq!([csv.fixture(0), csv.fixture(1)], ["a 7", "b"]);
        assert_eq!(csv.place(1, 2), "t, line 3, column truss");
    }

    #[test]
    fn rows_with_empty_cells_may_be_left_out() {
        let text = "fixture,x,z\na,1,\nb,,4\n,,\nc,5,6\n, ,\t\nd,,\n";
        let mut csv = csv(text, &Format::default()).unwrap();
        assert_eq!(csv.leave_out(&[1]), [""; 0]);
        assert_eq!(csv.rows(), 4);
        csv.skips = true;
        assert_eq!(csv.leave_out(&[1]), ["b (x)", "d (x)"]);
        assert_eq!((csv.rows(), csv.line(1), csv.cell(1, 0)), (2, 5, "c"));
        let records = [(0, Some(0)), (1, None), (2, Some(1)), (3, None)];
        assert_eq!(csv.records().collect::<Vec<_>>(), records);
        assert_eq!([csv.text(1, 0), csv.text(2, 2)], ["b", "6"]);
        assert_eq!(csv.leave_out(&[2, 1]), ["a (z)"]);
        assert_eq!((csv.rows(), csv.cell(0, 0)), (1, "c"));
    }

    #[test]
    fn a_column_that_is_not_there_is_told_with_those_that_are() {
        let said = |delimiter| Format {
            delimiter: Some(delimiter),
            ..Format::default()
        };
        let stop = |text, delimiter| {
            let stop = csv(text, &said(delimiter)).unwrap().column("z");
            stop.unwrap_err().to_string()
        };
        assert_eq!(
            stop("\nx,y\n1,2\n", ','),
            "t, line 2: there is no column \"z\"; there are \"x\", \"y\""
        );
        assert_eq!(
            stop("The house\nx;z\n1;2\n", ','),
            "t, line 1: there is no column \"z\"; there are \"The house\"; cells were split at commas, but there are more semicolons; try --delimiter semicolon"
        );
        assert_eq!(
            stop("x,y\n1,2\n", ';'),
            "t, line 1: there is no column \"z\"; there are \"x,y\"; cells were split at semicolons, but there are more commas; try --delimiter comma"
        );
    }
}
