//! Records of separated text, as in RFC 4180 but with any separator: cells may be quoted, lines may end in LF, CRLF or CR, blank lines
//! are passed over, and a byte order mark is accepted.

use crate::encoding;
use crate::number::quoted;
use std::io::{self, BufRead, ErrorKind};

/// Cells, stored one after another in one string. What is read of a file is far below 4 GiB, so that a place takes 32 bits.
#[derive(Debug, Default)]
pub struct Cells {
    text: String,
    ends: Vec<u32>,
}

impl Cells {
    pub fn len(&self) -> usize {
        self.ends.len()
    }

    fn end(&mut self) {
        self.ends.push(self.text.len() as u32);
    }

    fn start(&self, at: usize) -> usize {
        at.checked_sub(1).map_or(0, |it| self.ends[it] as usize)
    }

    pub fn get(&self, at: usize) -> &str {
        &self.text[self.start(at)..self.ends[at] as usize]
    }

    /// Drops all cells from here on.
    pub fn truncate(&mut self, at: usize) {
        self.text.truncate(self.start(at));
        self.ends.truncate(at);
    }
}

pub struct Reader<R> {
    from: R,
    delimiter: char,
    /// How many lines have been read, and the bytes of the last one.
    line: usize,
    bytes: Vec<u8>,
}

/// The state of reading a record.
#[derive(Clone, Copy)]
enum At {
    /// At the first character of a cell.
    Start,
    /// In a cell without quotes.
    Bare,
    /// Between quotes.
    Quoted,
    /// After a quote that ends a cell or is the first of two.
    Behind,
}

/// The line on which something is wrong, and what.
pub type Wrong = (usize, String);

impl<R: BufRead> Reader<R> {
    pub fn new(from: R, delimiter: char) -> Self {
        Reader {
            from,
            delimiter,
            line: 0,
            bytes: Vec::new(),
        }
    }

    /// The last line that was read, including its end.
    pub fn last_line(&self) -> &[u8] {
        &self.bytes
    }

    /// Reads the next line, including its end. There is none if nothing is left.
    fn next_line(&mut self) -> io::Result<()> {
        self.bytes.clear();
        self.line += 1;
        loop {
            let part = filled(&mut self.from)?;
            let end = part.iter().position(|byte| b"\r\n".contains(byte));
            let taken = end.map_or(part.len(), |end| end + 1);
            let cr = end.is_some_and(|end| part[end] == b'\r');
            self.bytes.extend_from_slice(&part[..taken]);
            self.from.consume(taken);
            if cr && filled(&mut self.from)?.first() == Some(&b'\n') {
                self.bytes.push(b'\n');
                self.from.consume(1);
            }
            if end.is_some() || taken == 0 {
                return Ok(());
            }
        }
    }

    /// The text of the next line, including its end; `None` if nothing is left.
    fn text(&mut self) -> Result<Option<&str>, Wrong> {
        let read = self.next_line();
        read.map_err(|error| (self.line, error.to_string()))?;
        if self.bytes.is_empty() {
            return Ok(None);
        }
        let text = encoding::text(&self.bytes).map_err(|why| (self.line, why))?;
        Ok(Some(match self.line {
            1 => text.strip_prefix('\u{feff}').unwrap_or(text),
            _ => text,
        }))
    }

    /// Adds the cells of the next record, which may span several lines. Returns the line on which it begins, or `None` at the end.
    /// Blank lines before it are passed over: those with nothing but spaces and separators. A line with just two quotes is not blank. A
    /// first line that names the separator is passed over too.
    pub fn record(&mut self, cells: &mut Cells) -> Result<Option<usize>, Wrong> {
        let delimiter = self.delimiter;
        let blank = |letter: char| letter.is_whitespace() || letter == delimiter;
        let (mut at, mut begin) = (At::Start, None);
        let mut first = self.line == 0;
        loop {
            let Some(text) = self.text()? else {
                let open = "a quote is opened but never closed; put one at the end of the cell";
                return begin.map_or(Ok(None), |line| Err((line, open.into())));
            };
            let named = first && named(text.as_bytes()).is_some();
            if begin.is_none() && (named || text.chars().all(blank)) {
                first = false;
                continue;
            }
            let line = text.trim_end_matches(['\r', '\n']);
            let step = |at: At, letter| at.step(letter, delimiter, cells);
            let stepped = line.chars().try_fold(at, step);
            let line_end = text.len() - line.len();
            let begun = *begin.get_or_insert(self.line);
            at = stepped.map_err(|why| (begun, why))?;
            if !matches!(at, At::Quoted) {
                cells.end();
                return Ok(Some(begun));
            }
            let end = &self.bytes[self.bytes.len() - line_end..];
            cells.text.extend(end.iter().map(|it| char::from(*it)));
        }
    }
}

/// The separator that a table names itself, in a first line like `sep=;`, which some programs write for spreadsheets.
pub fn named(text: &[u8]) -> Option<char> {
    let text = text.strip_prefix("\u{feff}".as_bytes()).unwrap_or(text);
    match text.strip_prefix(b"sep=")? {
        [letter, b'\r' | b'\n', ..] => Some(char::from(*letter)),
        _ => None,
    }
}

/// What is at hand to be read; nothing at the end.
fn filled(from: &mut impl BufRead) -> io::Result<&[u8]> {
    loop {
        match from.fill_buf() {
            Ok([]) => return Ok(&[]),
            Ok(_) => return from.fill_buf(),
            Err(error) if error.kind() == ErrorKind::Interrupted => (),
            Err(error) => return Err(error),
        }
    }
}

impl At {
    fn step(self, letter: char, delimiter: char, cells: &mut Cells) -> Result<At, String> {
        match (self, letter) {
            (At::Start, '"') => Ok(At::Quoted),
            (At::Quoted, '"') => Ok(At::Behind),
            (At::Quoted, _) | (At::Behind, '"') => {
                cells.text.push(letter);
                Ok(At::Quoted)
            }
            (At::Start | At::Bare | At::Behind, it) if it == delimiter => {
                cells.end();
                Ok(At::Start)
            }
            (At::Start | At::Bare, _) => {
                cells.text.push(letter);
                Ok(At::Bare)
            }
            (At::Behind, ' ' | '\t') => Ok(At::Behind),
            (At::Behind, _) => {
                let letter = quoted(&letter.to_string());
                Err(format!(
                    "{letter} follows a closing quote; double the quotes that belong to the text"
                ))
            }
        }
    }
}

/// The cells of a single record, separated by commas.
pub fn record(text: &str) -> Result<Vec<String>, String> {
    let mut reader = Reader::new(text.as_bytes(), ',');
    let mut cells = Cells::default();
    reader.record(&mut cells).map_err(|(_, why)| why)?;
    let cell = |at: usize| cells.get(at).to_owned();
    let record = (0..cells.len()).map(cell).collect();
    match reader.record(&mut cells) {
        Ok(None) => Ok(record),
        _ => Err("it continues on another line".into()),
    }
}

/// Writes a record, with quotes where necessary.
pub fn write<'a>(cells: impl Iterator<Item = &'a str>, delimiter: char, to: &mut String) {
    for (at, cell) in cells.enumerate() {
        if at > 0 {
            to.push(delimiter);
        }
        if cell.contains([delimiter, '"', '\r', '\n']) {
            to.push('"');
            to.push_str(&cell.replace('"', "\"\""));
            to.push('"');
        } else {
            to.push_str(cell);
        }
    }
    to.push('\n');
}

#[cfg(test)]
mod tests {
    use super::*;

    #[test]
    fn what_is_written_reads_back() {
        let cells = ["plain", "a,b", "say \"x\"", "two\nlines", "", " z "];
        let mut text = String::new();
        write(cells.into_iter(), ',', &mut text);
        assert_eq!(
            text,
            "plain,\"a,b\",\"say \"\"x\"\"\",\"two\nlines\",, z \n"
        );
        assert_eq!(record(&text).unwrap(), cells);
        assert!(record("a,b\nc").is_err());
    }
}
