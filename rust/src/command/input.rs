//! Where tables and models are read from: a file or standard input, up to a limit.

use std::fs::File;
use std::io::{self, BufRead, BufReader, Cursor, Read, stdin};

/// The most bytes that are read of a table: 8 KiB for each row that a show may have, enough for 1,024 numbers of 8 characters.
pub const MOST: usize = 512 << 20;

/// How many bytes of a file are looked at to find out how it is written.
const FIRST: usize = 1 << 20;

/// The name that stands for standard input in place of a file.
pub const STANDARD: &str = "-";

/// What a file is called in messages.
pub fn called(file: &str) -> &str {
    match file {
        STANDARD => "standard input",
        file => file,
    }
}

/// Opens a file, or standard input.
pub fn open(file: &str) -> io::Result<Box<dyn Read>> {
    Ok(match file {
        STANDARD => Box::new(stdin().lock()),
        file => Box::new(File::open(file)?),
    })
}

/// What is read: the first part of it, which can be looked at before, and the rest.
pub struct Input<R> {
    first: Vec<u8>,
    rest: BufReader<Limited<R>>,
}

impl<R: Read> Input<R> {
    pub fn new(from: R, most: usize) -> io::Result<Self> {
        let limited = Limited::new(from, most, table);
        let mut rest = BufReader::with_capacity(1 << 16, limited);
        let mut first = Vec::new();
        rest.by_ref().take(FIRST as u64).read_to_end(&mut first)?;
        Ok(Input { first, rest })
    }

    /// The first lines, as far as they are complete. Of a line that is longer than all that is looked at, its beginning.
    pub fn first(&self) -> &[u8] {
        let last = self.first.iter().rposition(|byte| b"\r\n".contains(byte));
        match last {
            Some(last) if self.first.len() == FIRST => &self.first[..=last],
            _ => &self.first,
        }
    }

    /// All of it, from its beginning.
    pub fn all(self) -> impl BufRead {
        Cursor::new(self.first).chain(self.rest)
    }
}

/// A source that ends in an error if there is more than so many bytes.
pub struct Limited<R> {
    from: R,
    most: usize,
    left: usize,
    why: fn() -> String,
}

impl<R> Limited<R> {
    /// With the reason that is told in that case.
    pub fn new(from: R, most: usize, why: fn() -> String) -> Self {
        let left = most;
        Limited {
            from,
            most,
            left,
            why,
        }
    }

    /// How many bytes were read.
    pub fn read(&self) -> usize {
        self.most - self.left
    }
}

fn table() -> String {
    format!(
        "there is more than {} MiB to read, the most that a table may have; leave out what is not needed",
        MOST >> 20
    )
}

impl<R: Read> Read for Limited<R> {
    fn read(&mut self, to: &mut [u8]) -> io::Result<usize> {
        let most = to.len().min(self.left);
        let read = match most {
            0 => self.from.read(&mut [0])?,
            _ => self.from.read(&mut to[..most])?,
        };
        if read > self.left {
            return Err(io::Error::other((self.why)()));
        }
        self.left -= read;
        Ok(read)
    }
}

#[cfg(test)]
mod tests {
    use super::*;

    fn read(from: impl Read, most: usize) -> Result<usize, String> {
        let input = Input::new(from, most).map_err(|error| error.to_string())?;
        let mut all = Vec::new();
        let read = input.all().read_to_end(&mut all);
        read.map_err(|error| error.to_string())
    }

    #[test]
    fn reading_ends_at_the_limit() {
        let why = "there is more than 512 MiB to read, the most that a table may have; leave out what is not needed";
        for most in [1, 1000, FIRST, FIRST + 1, 3 * FIRST] {
            let bytes = vec![b'a'; most];
            assert_eq!(read(&bytes[..], most), Ok(most));
            assert_eq!(read(&bytes[1..], most), Ok(most - 1));
            assert_eq!(read(bytes.chain(&b"a"[..]), most), Err(why.into()));
            assert_eq!(read(io::repeat(b'a'), most), Err(why.into()));
        }
    }

    #[test]
    fn first_lines_are_complete() {
        let input = |text: Vec<u8>| Input::new(Cursor::new(text), MOST).unwrap();
        assert_eq!(input(b"a\nb".to_vec()).first(), b"a\nb");
        let long = [vec![b'a'; FIRST - 3], b"\nbcd\n".to_vec()].concat();
        assert_eq!(input(long).first().len(), FIRST - 2);
        assert_eq!(input(vec![b'a'; FIRST + 9]).first().len(), FIRST);
    }
}
