//! Model files as streams: what fails to be read or written is not called damaged, and what is no model is not read to its end.

mod common;

use common::small;
use std::error::Error;
use std::io::{self, Read, Write};
use tailboardy::{ModelError, RandomForestRegressor};

/// A file that fails after so many bytes.
struct Failing(usize);

impl Read for Failing {
    fn read(&mut self, to: &mut [u8]) -> io::Result<usize> {
        let some = small().model_bytes().unwrap();
        let end = (some.len() - self.0).min(to.len());
        match self.0 {
            0..=20 => to[..end].copy_from_slice(&some[self.0..self.0 + end]),
            _ => return Err(io::ErrorKind::ConnectionReset.into()),
        }
        self.0 += end;
        Ok(end)
    }
}

impl Write for Failing {
    fn write(&mut self, bytes: &[u8]) -> io::Result<usize> {
        match self.0 {
            0 => Err(io::ErrorKind::StorageFull.into()),
            left => {
                let some = left.min(bytes.len());
                self.0 -= some;
                Ok(some)
            }
        }
    }

    fn flush(&mut self) -> io::Result<()> {
        Ok(())
    }
}

#[test]
fn a_file_that_fails_is_not_called_damaged() {
    let kind = |error: ModelError| match error {
        ModelError::Io(error) => error.kind(),
        ModelError::Refused(refusal) => panic!("{refusal}"),
    };
    let read = RandomForestRegressor::read_model(Failing(0));
    assert_eq!(kind(read.unwrap_err()), io::ErrorKind::ConnectionReset);
    for room in [0, 5, 82] {
        let written = small().write_model(Failing(room));
        assert_eq!(kind(written.unwrap_err()), io::ErrorKind::StorageFull);
    }
    small().write_model(Failing(83)).unwrap();
    let error = RandomForestRegressor::read_model(&b"RGF"[..]).unwrap_err();
    assert!(error.source().is_none());
    assert_eq!(
        error.to_string(),
        "refusal 14 (file ends early): byte 3: the file ends before the version; the file is cut off: copy it again, or write it again"
    );
}

/// A stream without an end is not read on if its first bytes are not those of a model.
#[test]
fn what_is_no_model_is_not_read_to_its_end() {
    let header = |bytes: &'static [u8]| bytes.chain(io::repeat(0));
    for first in [
        &b""[..],
        b"RGF\x02\x00",
        b"RGF\x01\x00\x00\x08",
        b"RGF\x01\x00\x01\x00",
    ] {
        let read = RandomForestRegressor::read_model(header(first));
        assert!(matches!(read, Err(ModelError::Refused(_))));
    }
}
