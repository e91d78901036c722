//! What a run writes, once it is complete.

use crate::replace;
use crate::stop::Stop;
use std::io::{self, Write};

/// What goes to standard error, and what goes to a file or to standard output.
#[derive(Debug, Default)]
pub struct Output {
    pub beside: String,
    pub text: String,
    pub file: Option<String>,
}

impl Output {
    /// Text for standard output only.
    pub fn told(text: String) -> Self {
        Output {
            text,
            ..Output::default()
        }
    }

    /// Adds notes to what goes to standard error.
    pub fn note(&mut self, notes: &[String]) {
        for note in notes {
            self.beside += &format!("tailboardy: note: {note}\n");
        }
    }

    /// Writes the text first and then what goes beside it. It is not an error if the reader of standard output stops reading early, but
    /// what it has is not complete.
    pub fn write(mut self) -> Result<(), Stop> {
        let written = match &self.file {
            Some(file) => replace::write(file, self.text.as_bytes()),
            None => {
                let mut out = io::stdout().lock();
                out.write_all(self.text.as_bytes())
                    .and_then(|()| out.flush())
            }
        };
        match (written, self.file.as_deref()) {
            (Ok(()), _) => (),
            (Err(error), None) if error.kind() == io::ErrorKind::BrokenPipe => {
                self.note(&["standard output: it was closed before everything was written".into()]);
            }
            (Err(error), file) => {
                let file = file.unwrap_or("standard output");
                return Err(Stop::unwritten("--out", file, &error));
            }
        }
        say(&self.beside);
        Ok(())
    }
}

/// Writes to standard error. If that fails, there is nowhere left to report it.
pub fn say(text: &str) {
    let _ = io::stderr().lock().write_all(text.as_bytes());
}
