//! How a table is written: what separates its cells, and its decimal sign. What was not said is found out.

use crate::decimal::Kind;
use crate::number::Decimal;
use crate::record::{self, Cells, Reader};

/// The separators, and what the command calls them, one and several.
const DELIMITERS: [(char, &str, &str); 4] = [
    (',', "comma", "commas"),
    (';', "semicolon", "semicolons"),
    ('\t', "tab", "tabs"),
    ('|', "bar", "bars"),
];

/// How messages begin that name the separator.
pub const SPLIT: &str = "cells were split at";

/// How many rows are looked at to find out what separates cells.
const SOME: usize = 100;

/// What was said about the tables; what was not is found out from each table.
#[derive(Clone, Copy, Debug, Default)]
pub struct Format {
    pub delimiter: Option<char>,
    pub decimal: Option<Decimal>,
    /// Whether rows with empty cells may be left out.
    pub skip_incomplete: bool,
}

/// A separator by its character or its name.
pub fn delimiter(said: &str) -> Option<char> {
    let is = |letter: char, name: &str| name == said || said.chars().eq([letter]);
    let mut all = DELIMITERS.iter();
    all.find(|it| is(it.0, it.1)).map(|it| it.0)
}

/// A decimal sign by its character or its name.
pub fn decimal(said: &str) -> Option<Decimal> {
    match said {
        "point" | "." => Some(Decimal::Point),
        "comma" | "," => Some(Decimal::Comma),
        _ => None,
    }
}

/// The name of a separator, and that of several.
pub fn names(delimiter: char) -> (&'static str, &'static str) {
    let named = DELIMITERS.iter().find(|it| it.0 == delimiter);
    named.map_or(("separator", "separators"), |it| (it.1, it.2))
}

/// What cells were split at, if these lines have more of another separator, and of which.
pub fn more_of(delimiter: char, lines: &[&[u8]]) -> Option<String> {
    let count = |delimiter: char| {
        let bytes = lines.iter().flat_map(|it| it.iter());
        bytes.filter(|it| char::from(**it) == delimiter).count()
    };
    let (most, one, several) = DELIMITERS.iter().rev().max_by_key(|it| count(it.0))?;
    let taken = names(delimiter).1;
    let more = count(*most) > count(delimiter);
    more.then(|| format!("{SPLIT} {taken}, but there are more {several}; try --delimiter {one}"))
}

/// What a separator makes of the first lines.
struct Split {
    delimiter: char,
    /// How many names the head has, how many rows were looked at, and how many of them have as many cells as there are names.
    names: usize,
    rows: usize,
    even: usize,
    /// How many columns have numbers in these rows and nothing else.
    numbers: usize,
}

impl Split {
    fn new(first: &[u8], delimiter: char) -> Self {
        let mut reader = Reader::new(first, delimiter);
        let mut cells = Cells::default();
        let mut next = || {
            cells.truncate(0);
            let read = reader.record(&mut cells).ok().flatten();
            read.map(|_| (0..cells.len()).map(|it| Kind::of(cells.get(it))).collect())
        };
        let names = next().map_or(0, |head: Vec<Kind>| head.len());
        let rows: Vec<Vec<Kind>> = std::iter::from_fn(next).take(SOME).collect();
        let even = || rows.iter().filter(|row| row.len() == names);
        let is_number = |column: usize| even().all(|row| !matches!(row[column], Kind::Words));
        Split {
            delimiter,
            names,
            rows: rows.len(),
            even: even().count(),
            numbers: (0..names).filter(|it| is_number(*it)).count(),
        }
    }

    /// Whether it splits the head, and most rows into as many cells.
    fn fits(&self) -> bool {
        self.names > 1 && self.even * 2 > self.rows
    }
}

/// The separator of a table with these first lines: the one that splits head and rows into the same number of cells, more than one. If
/// several do, the one that makes the most columns of numbers. The comma, if there is no sign of any. A table may also name it itself.
pub fn find_delimiter(first: &[u8]) -> Result<char, String> {
    if let Some(named) = record::named(first).and_then(|it| delimiter(&it.to_string())) {
        return Ok(named);
    }
    let splits = DELIMITERS.map(|it| Split::new(first, it.0));
    let fit = || splits.iter().filter(|it| it.fits());
    let most = fit().map(|it| it.numbers).max();
    let best: Vec<&Split> = fit().filter(|it| Some(it.numbers) == most).collect();
    match best[..] {
        [one] => Ok(one.delimiter),
        [one, other, ..] => Err(format!(
            "its cells could be separated by {} ({} to a row) or by {} ({} to a row); say which with --delimiter",
            names(one.delimiter).1,
            one.names,
            names(other.delimiter).1,
            other.names
        )),
        [] => {
            let split = splits.iter().filter(|it| it.names > 1).rev();
            let most = split.max_by_key(|it| (it.even * it.names, it.names));
            Ok(most.map_or(',', |it| it.delimiter))
        }
    }
}

#[cfg(test)]
mod tests {
    use super::*;

    #[test]
    fn separators_are_found_out() {
        for (text, delimiter) in [
            ("", ','),
            ("a\n1\n2\n", ','),
            ("a,b\n1,2\n", ','),
            ("a;b\n1,5;2,5\n", ';'),
            ("a\tb\n1,5\t2\n", '\t'),
            ("a|b\n1|2\n", '|'),
            ("\n;;\na;b\r\r1;2\r", ';'),
            // in quotes, in the names, or in a column of words
            ("\"x, m\";\"y, m\"\n\"1,5\";\"2,5\"\n", ';'),
            ("trim;m,offset;m,pan;deg\n1,2,3\n4,5,6\n", ','),
            ("kind|mode,x,pan\nspot|std,1,2\nwash|ext,3,4\n", ','),
            ("x,y\tz\tpan\n1,2\t3\t4\n5,6\t7\t8\n", '\t'),
            // some rows are uneven
            ("a;b;c\n1;2;3\n1;2\n1,5;2;3\n", ';'),
            ("a;b;c\n1,2\n", ';'),
            ("a,b;c\n1\n", ','),
            // it says so itself
            ("sep=;\na,b;c,d\n1,2;3,4\n", ';'),
            ("\u{feff}sep=\t\r\na,b\r\n1,2\r\n", '\t'),
            ("sep=:\na,b\n1,2\n", ','),
            // a quote that one of them cannot read
            ("a;b\n\"1\";\"2,5\"\n", ';'),
        ] {
            assert_eq!(find_delimiter(text.as_bytes()), Ok(delimiter), "{text:?}");
        }
    }

    #[test]
    fn what_may_be_either_is_not_guessed() {
        let text = "x, m;y, m\n1,5;2,5\n3,5;4,5\n";
        let why = "its cells could be separated by commas (3 to a row) or by semicolons (2 to a row); say which with --delimiter";
        assert_eq!(find_delimiter(text.as_bytes()), Err(why.into()));
    }

    #[test]
    fn separators_are_said_by_letter_or_name() {
        for (letter, name, _) in DELIMITERS {
            assert_eq!(delimiter(name), Some(letter));
            assert_eq!(delimiter(&letter.to_string()), Some(letter));
        }
        for said in ["", "commas", ",,", ":", "space"] {
            assert_eq!(delimiter(said), None);
        }
        for (said, sign) in [
            ("point", Decimal::Point),
            (".", Decimal::Point),
            ("comma", Decimal::Comma),
            (",", Decimal::Comma),
        ] {
            assert_eq!(decimal(said), Some(sign));
        }
        assert_eq!(decimal("dot"), None);
    }
}
