//! The command: checks shows, fits forests on them, and writes corrections for the next house.

#![forbid(unsafe_code)]

mod args;
mod both;
mod check;
mod column;
mod commands;
mod correct;
mod csv;
mod decimal;
mod encoding;
mod faults;
mod fit;
mod fixtures;
mod format;
mod incomplete;
mod input;
mod json;
mod list;
mod listing;
mod measure;
mod model;
mod nearest;
mod number;
mod numbering;
mod output;
mod outside;
mod page;
mod parts;
mod predict;
mod progress;
mod reading;
mod record;
mod replace;
mod report;
mod roles;
mod show;
mod spread;
mod stop;
mod summary;
mod support;
mod thresholds;
mod units;

use args::Command;
use commands::COMMANDS;
use output::Output;
use std::process::ExitCode;
use stop::Stop;

fn main() -> ExitCode {
    match run().and_then(Output::write) {
        Ok(()) => ExitCode::SUCCESS,
        Err(Stop::Usage(why)) => {
            output::say(&format!("tailboardy: {}\n", why.trim_end()));
            ExitCode::from(2)
        }
        Err(Stop::Refused(lines) | Stop::Damaged(lines, _)) => {
            for line in lines {
                output::say(&format!("tailboardy: {line}\n"));
            }
            ExitCode::from(1)
        }
    }
}

fn run() -> Result<Output, Stop> {
    let words = std::env::args_os().skip(1).map(|word| word.into_string());
    let words: Result<Vec<String>, _> = words.collect();
    let words = words
        .map_err(|word| Stop::Usage(format!("{} is not valid UTF-8", word.to_string_lossy())))?;
    let Some((first, rest)) = words.split_first() else {
        return Err(Stop::Usage(format!(
            "a command is required\n{}",
            overview()
        )));
    };
    match (first.as_str(), rest) {
        ("--version" | "-V", _) => Ok(Output::told(
            concat!("tailboardy ", env!("CARGO_PKG_VERSION"), "\n").into(),
        )),
        ("help", [name, ..]) if !name.starts_with('-') => Ok(Output::told(named(name)?.help())),
        ("--help" | "-h" | "help", _) => Ok(Output::told(overview())),
        (name, rest) => started(named(name)?, rest),
    }
}

fn named(name: &str) -> Result<&'static Command, Stop> {
    let command = COMMANDS.iter().find(|command| command.name == name);
    command.ok_or_else(|| {
        let names = COMMANDS.iter().map(|command| command.name);
        let why = args::unknown("command", name, names);
        Stop::Usage(format!("{why}\n{}", overview()))
    })
}

fn started(command: &Command, words: &[String]) -> Result<Output, Stop> {
    let Some(args) = command.parse(words)? else {
        return Ok(Output::told(command.help()));
    };
    let ran = (command.run)(&args);
    let refused = ran.as_ref().err().and_then(summary::refused);
    if let (Some(refused), true) = (refused, args.has("--json")) {
        Output::told(refused.line(None)).write()?;
    }
    ran
}

fn overview() -> String {
    let mut text =
        String::from("a regression forest that can be trusted with a show\n\ncommands:\n");
    for command in &COMMANDS {
        text += &format!("  tailboardy {:<9}{}\n", command.name, command.about);
    }
    text + "\n`tailboardy help COMMAND` explains a command and its options; `tailboardy --version` prints the version\n"
}
