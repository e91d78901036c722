//! Why the command stops.

use crate::nearest::nearest_file;
use std::fmt;
use std::io::{Error, ErrorKind};

/// Why the command stopped without a result.
#[derive(Debug)]
pub enum Stop {
    /// The command line is wrong: status 2.
    Usage(String),
    /// The files that it names cannot be used: status 1. One line for each thing that is wrong.
    Refused(Vec<String>),
    /// The same for a damaged listing or model, with what programs are told of each column that is wrong, or of the model.
    Damaged(Vec<String>, Vec<Damage>),
}

/// Where a column of a listing is damaged, or a model, which has no columns.
#[derive(Debug)]
pub struct Damage {
    pub column: Option<String>,
    pub refusal: u32,
    pub place: usize,
    pub missing: Option<usize>,
}

impl Stop {
    /// One line: where something is wrong, and what.
    pub fn refused(place: &str, why: &str) -> Self {
        Stop::Refused(vec![format!("{place}: {why}")])
    }

    /// A file that cannot be read.
    pub fn unread(file: &str, error: &Error) -> Self {
        let why = match error.kind() {
            ErrorKind::NotFound => match nearest_file(file) {
                Some(meant) => format!("there is no such file; did you mean {meant}?"),
                None => "there is no such file; check its name and folder".to_owned(),
            },
            ErrorKind::PermissionDenied => {
                format!("{error}; get permission to read it, or use a copy")
            }
            ErrorKind::IsADirectory => "it is a folder; name a file in it".to_owned(),
            _ => error.to_string(),
        };
        Stop::refused(file, &why)
    }

    /// A file that cannot be written, and the option that names it.
    pub fn unwritten(option: &str, file: &str, error: &Error) -> Self {
        let other = format!("choose another place with {option}");
        let advice = match error.kind() {
            ErrorKind::PermissionDenied | ErrorKind::ReadOnlyFilesystem => {
                format!("get permission to write there, or {other}")
            }
            ErrorKind::StorageFull | ErrorKind::QuotaExceeded | ErrorKind::FileTooLarge => {
                format!("make room, or {other}")
            }
            ErrorKind::BrokenPipe => {
                "the program that reads it stopped before the end; start both again".to_owned()
            }
            _ => other,
        };
        Stop::refused(file, &format!("{error}; {advice}"))
    }
}

impl fmt::Display for Stop {
    fn fmt(&self, f: &mut fmt::Formatter<'_>) -> fmt::Result {
        match self {
            Stop::Usage(why) => f.write_str(why),
            Stop::Refused(lines) | Stop::Damaged(lines, _) => f.write_str(&lines.join("\n")),
        }
    }
}

#[cfg(test)]
mod tests {
    use super::*;

    #[test]
    fn what_to_do_about_a_file_is_told() {
        let (denied, full) = (13, 28);
        let unread = |number| Stop::unread("a.csv", &Error::from_raw_os_error(number)).to_string();
        assert_eq!(
            unread(denied),
            "a.csv: Permission denied (os error 13); get permission to read it, or use a copy"
        );
        assert_eq!(unread(5), "a.csv: Input/output error (os error 5)");
        let unwritten = |option, number| {
            Stop::unwritten(option, "a.csv", &Error::from_raw_os_error(number)).to_string()
        };
        assert_eq!(
            unwritten("--out", denied),
            "a.csv: Permission denied (os error 13); get permission to write there, or choose another place with --out"
        );
        assert_eq!(
            unwritten("--model", full),
            "a.csv: No space left on device (os error 28); make room, or choose another place with --model"
        );
    }
}
