//! Reading a table: its names, and its rows with a cell for each of them.

use crate::encoding;
use crate::faults::Faults;
use crate::format::{self, Format, SPLIT};
use crate::input::{Input, MOST};
use crate::number::{self, Decimal, quoted};
use crate::record::{Cells, Reader};
use crate::stop::Stop;
use std::collections::HashSet;
use std::io::{BufRead, Read};
use tailboardy::MAX_ROWS;

const EMPTY: &str =
    "the file is empty; a table has a line of column names, and a row for each fixture";

const NO_ROWS: &str = "there are column names but no rows; a table has a row for each fixture";

/// What was read.
#[derive(Debug)]
pub struct Reading {
    pub delimiter: char,
    /// The names of the columns, and the line that they are on.
    pub names: Vec<String>,
    pub head: usize,
    /// That line and the first row, as they are written.
    pub written: Vec<u8>,
    /// The cells of all rows, and the line on which each row begins.
    pub cells: Cells,
    pub lines: Vec<usize>,
}

/// Reads a table. Names that cannot be used and rows with another number of cells are faults, and those rows are left out.
pub fn read(
    file: &str,
    from: impl Read,
    format: &Format,
    faults: &mut Faults,
) -> Result<Reading, Stop> {
    let input = Input::new(from, MOST).map_err(|error| faults.stop(Stop::unread(file, &error)))?;
    if let Some(why) = encoding::other(input.first()) {
        return Err(faults.stop(Stop::refused(file, &why)));
    }
    let found = match format.delimiter {
        Some(said) => Ok(said),
        None => format::find_delimiter(input.first()),
    };
    let delimiter = found.map_err(|why| faults.stop(Stop::refused(file, &why)))?;
    let mut reader = Reader::new(input.all(), delimiter);
    let mut head = Cells::default();
    let wrong = |(line, why): (usize, String)| (format!("{file}, line {line}"), why);
    let line = match reader.record(&mut head).map_err(wrong) {
        Ok(Some(line)) => line,
        Ok(None) => return Err(faults.stop(Stop::refused(file, EMPTY))),
        Err((place, why)) => return Err(faults.stop(Stop::refused(&place, &why))),
    };
    let mut reading = Reading {
        delimiter,
        names: names(&head, &format!("{file}, line {line}"), faults),
        head: line,
        written: reader.last_line().to_owned(),
        cells: Cells::default(),
        lines: Vec::new(),
    };
    reading.rows(&mut reader, file, faults)?;
    Ok(reading)
}

/// Rows that do not have a cell for each name.
#[derive(Default)]
struct Uneven {
    faults: Faults,
    /// How many rows there are of any kind, and how many cells each has, if it is the same number.
    rows: usize,
    cells: Option<usize>,
}

impl Reading {
    /// Whether the cells of a column are all different.
    pub fn differ(&self, column: usize) -> bool {
        let cells = (0..self.lines.len()).map(|row| row * self.names.len() + column);
        let mut met = HashSet::new();
        cells
            .into_iter()
            .all(|at| met.insert(self.cells.get(at).trim()))
    }

    fn rows(
        &mut self,
        reader: &mut Reader<impl BufRead>,
        file: &str,
        faults: &mut Faults,
    ) -> Result<(), Stop> {
        let mut uneven = Uneven::default();
        let read = self.records(reader, file, &mut uneven);
        let head = format!("{file}, line {}", self.head);
        match uneven.cells {
            Some(cells) if read.is_ok() && self.lines.is_empty() && uneven.rows > 1 => {
                faults.add(&head, &self.all_uneven(cells));
            }
            _ => faults.append(uneven.faults),
        }
        self.nameless(&head, faults);
        read.map_err(|stop| faults.stop(stop))
    }

    fn records(
        &mut self,
        reader: &mut Reader<impl BufRead>,
        file: &str,
        uneven: &mut Uneven,
    ) -> Result<(), Stop> {
        let place = |line: usize| format!("{file}, line {line}");
        loop {
            let before = self.cells.len();
            let read = reader.record(&mut self.cells);
            let read = read.map_err(|(line, why)| Stop::refused(&place(line), &why))?;
            let Some(line) = read else {
                break;
            };
            let is = self.cells.len() - before;
            uneven.rows += 1;
            match uneven.rows {
                1 => {
                    self.written.extend_from_slice(reader.last_line());
                    uneven.cells = Some(is);
                }
                count if count > MAX_ROWS => {
                    let why = format!(
                        "there are too many rows: leave some out, the maximum is {MAX_ROWS}"
                    );
                    return Err(Stop::refused(&place(line), &why));
                }
                _ => uneven.cells = uneven.cells.filter(|cells| *cells == is),
            }
            if is == self.names.len() {
                self.lines.push(line);
            } else {
                self.cells.truncate(before);
                let why = self.uneven(is, reader.last_line());
                uneven.faults.add(&place(line), &why);
            }
        }
        match uneven.rows {
            0 => Err(Stop::refused(file, NO_ROWS)),
            _ => Ok(()),
        }
    }

    /// Why a row of so many cells cannot be used.
    fn uneven(&self, is: usize, line: &[u8]) -> String {
        let names = self.names.len();
        let cells = format!("the number of cells is {is}, but the number of columns is {names}");
        let (one, several) = format::names(self.delimiter);
        let how = match format::more_of(self.delimiter, &[&self.written, line]) {
            Some(other) => other,
            None if is > names => {
                format!("{SPLIT} {several}, so a cell with a {one} in it must be in quotes")
            }
            None => format!("{SPLIT} {several}, so an empty cell needs its {one} too"),
        };
        format!("{cells}; {how}")
    }

    /// Why no row can be used, if all have so many cells.
    fn all_uneven(&self, is: usize) -> String {
        let names = self.names.len();
        let (one, several) = format::names(self.delimiter);
        let how = match format::more_of(self.delimiter, &[&self.written]) {
            Some(other) => other,
            None => format!(
                "{SPLIT} {several}, so the first line must have a name for each, and a cell with a {one} in it must be in quotes"
            ),
        };
        format!(
            "the number of columns is {names}, but the number of cells in each row is {is}; {how}"
        )
    }

    /// Tells the columns that have cells but no name, and the first one with a number for a name and numbers below it: the line of names is
    /// missing then, and a fixture was taken for it.
    fn nameless(&self, head: &str, faults: &mut Faults) {
        let mut numbers = false;
        for (column, name) in self.names.iter().enumerate() {
            let cells = (column..self.cells.len()).step_by(self.names.len());
            let cells = cells.map(|it| self.cells.get(it).trim());
            let mut cells = cells.filter(|it| !it.is_empty()).peekable();
            if cells.peek().is_none() {
                continue;
            }
            if name.is_empty() {
                let number = column + 1;
                let why = format!("column {number} has no name; give it one, or take it out");
                faults.add(head, &why);
            } else if !numbers && is_number(name) && cells.all(is_number) {
                numbers = true;
                let why =
                    "is a number, not the name of a column; put a line of names above the rows";
                faults.add(head, &format!("{} {why}", quoted(name)));
            }
        }
    }
}

fn is_number(text: &str) -> bool {
    number::decimal(text, Decimal::Point) || number::decimal(text, Decimal::Comma)
}

/// A column's name on a single line: without the spaces around it, and with one space between words or lines. A byte order mark counts
/// as a space, since it is invisible.
pub fn name(text: &str) -> String {
    let parts =
        |letter: char| letter.is_whitespace() || letter.is_control() || letter == '\u{feff}';
    let words = text.split(parts);
    let words: Vec<&str> = words.filter(|word| !word.is_empty()).collect();
    words.join(" ")
}

/// The names of all columns, which must be different. A column without cells needs none: some programs end every line with a separator.
fn names(head: &Cells, place: &str, faults: &mut Faults) -> Vec<String> {
    let mut met = HashSet::new();
    let names: Vec<String> = (0..head.len()).map(|it| name(head.get(it))).collect();
    for name in &names {
        if !name.is_empty() && !met.insert(name) {
            faults.add(
                place,
                &format!("two columns have the name {}; rename one", quoted(name)),
            );
        }
    }
    names
}

#[cfg(test)]
mod tests {
    use super::*;
    use crate::record;
    use tailboardy::SplitMix64;

    fn reading(text: impl AsRef<[u8]>, format: &Format) -> Result<Reading, String> {
        let mut faults = Faults::default();
        let read = super::read("t", text.as_ref(), format, &mut faults);
        let read = read.and_then(|it| faults.end().map(|()| it));
        read.map_err(|stop| stop.to_string())
    }

    fn rows(read: &Reading) -> Vec<Vec<String>> {
        let cells = (0..read.cells.len()).map(|it| read.cells.get(it).to_owned());
        let cells: Vec<String> = read.names.iter().cloned().chain(cells).collect();
        let rows = cells.chunks(read.names.len());
        rows.map(<[String]>::to_vec).collect()
    }

    fn read(text: &str) -> Result<Vec<Vec<String>>, String> {
        reading(text, &Format::default()).map(|it| rows(&it))
    }

    fn table(rows: &[&[&str]]) -> Result<Vec<Vec<String>>, String> {
        let row = |row: &&[&str]| row.iter().map(|it| (*it).to_owned()).collect();
        Ok(rows.iter().map(row).collect())
    }

    #[test]
    fn tables_are_read() {
        let plain = table(&[&["a", "b"], &["1", "2"], &["3", ""]]);
        assert_eq!(read("a,b\n1,2\n3,\n"), plain);
        assert_eq!(read("\u{feff} a ,b\t\r\n1,2\r\n3,\r\n\r\n\n"), plain);
        assert_eq!(read("\"a\",b\n\"1\" ,2\n3,\"\""), plain);
        assert_eq!(read("a;b\r1;2\r3;\r"), plain);
        assert_eq!(read("a\tb\n1\t2\r\n3\t"), plain);
        assert_eq!(
            read("a;b;;\r\n1;2;;\r\n"),
            table(&[&["a", "b", "", ""], &["1", "2", "", ""]])
        );
        assert_eq!(read("sep=;\r\na;b\r\n1;2\r\n3;\r\n"), plain);
        assert_eq!(read("\n |\n\ra|b\r\r\n\n1|2\n  \n|\n3|\n\n"), plain);
        let quotes = table(&[
            &["a", "b"],
            &["x, \"y\"", "two\r\nlines"],
            &["5\" bar", " z "],
        ]);
        assert_eq!(
            read("a,b\n\"x, \"\"y\"\"\",\"two\r\nlines\"\n5\" bar, z \n"),
            quotes
        );
        assert_eq!(read("a\n1\n2\n\n"), table(&[&["a"], &["1"], &["2"]]));
        assert_eq!(read("\" a\r\n  b\t\"\n1\n"), table(&[&["a b"], &["1"]]));
    }

    /// Any text is either read or refused, and a table that is read and written again stays the same.
    #[test]
    fn any_text_is_read_or_told() {
        let mut draws = SplitMix64::new(17);
        let letters = [
            'a', 'b', ',', ',', ';', '"', '"', '\n', '\n', '\r', ' ', '1', '\t', '\u{feff}', 'é',
        ];
        let mut tables = 0;
        for _ in 0..50_000 {
            let length = draws.up_to(14);
            let letter = |_| letters[draws.up_to(letters.len() as u64 - 1) as usize];
            let text: String = (0..length).map(letter).collect();
            let Ok(read) = reading(&text, &Format::default()) else {
                continue;
            };
            let mut again = String::new();
            for row in rows(&read) {
                record::write(row.iter().map(String::as_str), read.delimiter, &mut again);
            }
            let blank = |row: &Vec<String>| row.iter().all(|cell| cell.trim().is_empty());
            let format = Format {
                delimiter: Some(read.delimiter),
                ..Format::default()
            };
            let same = || reading(&again, &format).map(|it| rows(&it)) == Ok(rows(&read));
            assert!(
                rows(&read).iter().any(blank) || same(),
                "{text:?} {again:?}"
            );
            tables += 1;
        }
        assert!(tables > 500, "{tables}");
    }

    #[test]
    fn lines_are_counted_where_rows_begin() {
        for (text, lines) in [
            ("a,b\n\"1\n\n\",2\n3,4\n", [1, 2, 5]),
            ("\r\n\ra,b\r\"1\r\r\n\",2\r\n\n3,4\n", [3, 4, 8]),
        ] {
            let read = reading(text, &Format::default()).unwrap();
            assert_eq!([read.head, read.lines[0], read.lines[1]], lines);
        }
    }

    /// Texts that are no tables, and why not. COMMAS stands for what cells were split at.
    const UNEVEN: &[[&str; 2]] = &[
        [
            "",
            "t: the file is empty; a table has a line of column names, and a row for each fixture",
        ],
        [
            "\n\n",
            "t: the file is empty; a table has a line of column names, and a row for each fixture",
        ],
        [
            "a,b\n",
            "t: there are column names but no rows; a table has a row for each fixture",
        ],
        [
            "a,,c,a,a\n1,2,3,4,5\n",
            "t, line 1: two columns have the name \"a\"; rename one\n\
             t, line 1: two columns have the name \"a\"; rename one\n\
             t, line 1: column 2 has no name; give it one, or take it out",
        ],
        [
            "a,b\n1,2\n3\n4,5\n6,7,8\n",
            "t, line 3: the number of cells is 1, but the number of columns is 2; COMMAS, so an empty cell needs its comma too\n\
             t, line 5: the number of cells is 3, but the number of columns is 2; COMMAS, so a cell with a comma in it must be in quotes",
        ],
        [
            "The house\na,b\n1,2\n",
            "t, line 1: the number of columns is 1, but the number of cells in each row is 2; COMMAS, \
             so the first line must have a name for each, and a cell with a comma in it must be in quotes",
        ],
        [
            "a,b\n1;2;3\n",
            "t, line 2: the number of cells is 1, but the number of columns is 2; COMMAS, but there are more semicolons; try --delimiter semicolon",
        ],
        [
            "a,b\n1,\"2\n3,4\n",
            "t, line 2: a quote is opened but never closed; put one at the end of the cell",
        ],
        [
            "a,b\n1\n1,\"2\"x\n",
            "t, line 2: the number of cells is 1, but the number of columns is 2; COMMAS, so an empty cell needs its comma too\n\
             t, line 3: \"x\" follows a closing quote; double the quotes that belong to the text",
        ],
    ];

    #[test]
    fn uneven_tables_are_not() {
        for [text, why] in UNEVEN {
            let why = why.replace("COMMAS", "cells were split at commas");
            assert_eq!(read(text), Err(why));
        }
        let rows = "1\n".repeat(MAX_ROWS);
        assert_eq!(read(&format!("a\n{rows}")).unwrap().len(), MAX_ROWS + 1);
        let many = "t, line 65537: there are too many rows: leave some out, the maximum is 65535";
        assert_eq!(read(&format!("a\n{rows}1\n")), Err(many.to_owned()));
    }
}
