//! The command, run as a user runs it: on shows/, and on files that are wrong.

mod bad_input;
mod bags;
mod columns;
mod cuts;
mod faults;
mod habits;
mod json;
mod listings;
mod markup;
mod models;
mod outside;
mod page;
mod predict;
mod shows;
mod support;
mod tables;
mod usage;

use std::fs;
use std::path::PathBuf;
use std::process::{Command, Output};
use std::sync::atomic::{AtomicUsize, Ordering};

/// The result of a run.
#[derive(Debug, PartialEq)]
pub(crate) struct Run {
    pub(crate) status: Option<i32>,
    pub(crate) out: String,
    pub(crate) err: String,
}

/// The command with these arguments. If it is built for another processor, TAILBOARDY_RUNNER names the program that runs it.
pub(crate) fn command(words: &[&str]) -> Command {
    let program = env!("CARGO_BIN_EXE_tailboardy");
    let runner = std::env::var("TAILBOARDY_RUNNER").unwrap_or_default();
    let mut line = runner.split_whitespace().chain([program]);
    let mut command = Command::new(line.next().unwrap());
    command.args(line).args(words);
    command
}

pub(crate) fn told(output: Output) -> Run {
    let text = |bytes| String::from_utf8(bytes).expect("text");
    Run {
        status: output.status.code(),
        out: text(output.stdout),
        err: text(output.stderr),
    }
}

pub(crate) fn run(words: &[&str]) -> Run {
    told(command(words).output().expect("the command starts"))
}

/// A file of shows/.
pub(crate) fn show(name: &str) -> String {
    format!("{}/../shows/{name}", env!("CARGO_MANIFEST_DIR"))
}

/// A folder that is removed after the test.
pub(crate) struct Folder(PathBuf);

impl Folder {
    pub(crate) fn new(name: &str) -> Self {
        static NEXT: AtomicUsize = AtomicUsize::new(0);
        let own = NEXT.fetch_add(1, Ordering::Relaxed);
        let name = format!("tailboardy-{}-{own}-{name}", std::process::id());
        let folder = std::env::temp_dir().join(name);
        fs::create_dir_all(&folder).expect("a folder");
        Folder(folder)
    }

    pub(crate) fn path(&self, name: &str) -> String {
        self.0.join(name).to_string_lossy().into_owned()
    }

    pub(crate) fn write(&self, name: &str, text: impl AsRef<[u8]>) -> String {
        fs::write(self.0.join(name), text).expect("a file");
        self.path(name)
    }

    pub(crate) fn files(&self) -> usize {
        fs::read_dir(&self.0).expect("a folder").count()
    }
}

impl Drop for Folder {
    fn drop(&mut self) {
        let _ = fs::remove_dir_all(&self.0);
    }
}
