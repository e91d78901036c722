//! The command line, and the help text that is made from the same list of options.

use crate::format::{self, Format};
use crate::input::{MOST, STANDARD};
use crate::nearest::nearest;
use crate::number::quoted;
use crate::output::Output;
use crate::replace::{place_for, same_file};
use crate::stop::Stop;
use crate::{csv, record};
use std::fmt::Write;
use tailboardy::{Cuts, MAX_ROWS, MAX_TREES, RandomForestRegressorParameters, Splitter};

/// Digits beyond these mean nothing, unless a number is very small.
const MAX_DIGITS: u64 = 17;

/// An option: its name, the name of its value (empty for a flag), and what it does.
pub struct Choice {
    name: &'static str,
    value: &'static str,
    help: &'static str,
}

pub const fn choice(name: &'static str, value: &'static str, help: &'static str) -> Choice {
    Choice { name, value, help }
}

/// A command: its files, what it does, its groups of options, and the function that runs it.
pub struct Command {
    pub name: &'static str,
    pub files: &'static [&'static str],
    pub about: &'static str,
    pub more: &'static str,
    pub groups: &'static [&'static [Choice]],
    pub run: fn(&Args) -> Result<Output, Stop>,
}

/// The files and options that were given.
#[derive(Debug)]
pub struct Args {
    pub files: Vec<String>,
    said: Vec<(&'static str, String)>,
}

impl Command {
    fn usage(&self) -> String {
        format!(
            "tailboardy {} {} [OPTION..]",
            self.name,
            self.files.join(" ")
        )
    }

    pub fn help(&self) -> String {
        let mut text = format!("{}\n\n{}.\n{}\n\n", self.usage(), self.about, self.more);
        for choice in self.groups.iter().copied().flatten() {
            let said = format!("{} {}", choice.name, choice.value);
            let _ = writeln!(text, "  {said:<26}{}", choice.help);
        }
        text += &format!(
            "\n`-` in place of a file that is read means standard input. A table has at most {MAX_ROWS} rows and {} MiB.\n",
            MOST >> 20
        );
        text + "\nExit status: 0 if done, 1 if the input is refused, with the reason on standard error, 2 if the command line is wrong.\n"
    }

    /// Parses the words after the command's name. `None` if help is requested.
    pub fn parse(&self, words: &[String]) -> Result<Option<Args>, Stop> {
        let (mut files, mut said) = (Vec::new(), Vec::new());
        let mut words = words.iter();
        while let Some(word) = words.next() {
            match word.as_str() {
                "--help" | "-h" => return Ok(None),
                "--" => files.extend(words.by_ref().cloned()),
                option if option.starts_with("--") => {
                    let (name, value) = self.option(option, &mut words)?;
                    if said.iter().any(|(it, _)| *it == name)
                        && !["--features", "--ignore", "--id"].contains(&name)
                    {
                        return Err(self.bad(&format!("{name} is given twice")));
                    }
                    said.push((name, value));
                }
                option if option.len() > 1 && option.starts_with('-') => {
                    return Err(self.no_option(option));
                }
                _ => files.push(word.clone()),
            }
        }
        if files.len() != self.files.len() {
            return Err(self.bad(&format!("the files required are {}", self.files.join(" "))));
        }
        let listing = said.iter().find(|(it, _)| *it == "--listing");
        let read = files.iter().chain(listing.map(|(_, file)| file));
        if read.filter(|file| *file == STANDARD).count() > 1 {
            return Err(self.bad("standard input, `-`, can be only one of the files"));
        }
        Ok(Some(Args { files, said }))
    }

    /// An option and its value, which is the next word or follows an equals sign.
    fn option<'a>(
        &self,
        word: &str,
        words: &mut impl Iterator<Item = &'a String>,
    ) -> Result<(&'static str, String), Stop> {
        let (name, behind) = match word.split_once('=') {
            Some((name, value)) => (name, Some(value.to_owned())),
            None => (word, None),
        };
        let mut choices = self.groups.iter().copied().flatten();
        let choice = choices.find(|choice| choice.name == name);
        let choice = choice.ok_or_else(|| self.no_option(name))?;
        match (choice.value, behind) {
            ("", None) => Ok((choice.name, String::new())),
            ("", Some(_)) => Err(self.bad(&format!("{name} takes no value"))),
            (_, Some(value)) => Ok((choice.name, value)),
            (value, None) => match words.next() {
                Some(word) => Ok((choice.name, word.clone())),
                None => Err(self.bad(&format!("{name} requires a value: {value}"))),
            },
        }
    }

    fn no_option(&self, name: &str) -> Stop {
        let names = self.groups.iter().copied().flatten().map(|it| it.name);
        self.bad(&unknown("option", name, names))
    }

    fn bad(&self, why: &str) -> Stop {
        Stop::Usage(format!(
            "{why}\nusage: {}\nsee `tailboardy {} --help`",
            self.usage(),
            self.name
        ))
    }
}

/// That there is no command or option of this name, and which may be meant.
pub fn unknown<'a>(what: &str, word: &str, names: impl Iterator<Item = &'a str>) -> String {
    match nearest(word, names) {
        Some(meant) => format!("there is no {what} {word}; did you mean {meant}?"),
        None => format!("there is no {what} {word}"),
    }
}

impl Args {
    /// The value of an option, if it was given.
    pub fn get(&self, name: &str) -> Option<&str> {
        let said = self.said.iter().find(|(it, _)| *it == name);
        said.map(|(_, value)| value.as_str())
    }

    /// Whether a flag was given.
    pub fn has(&self, name: &str) -> bool {
        self.get(name).is_some()
    }

    /// Where to write: to the file that `--out` names, or else to standard output.
    pub fn out(&self) -> Result<Option<String>, Stop> {
        let out = self.get("--out").filter(|out| *out != STANDARD);
        out.map(|out| self.written("--out", out)).transpose()
    }

    /// Where to write the model, if that was requested. Standard output has the report.
    pub fn model(&self) -> Result<Option<String>, Stop> {
        match self.get("--model") {
            Some(STANDARD) => {
                let why = "standard output is for the report; name a file";
                Err(Stop::Usage(format!("--model {STANDARD}: {why}")))
            }
            model => model.map(|it| self.written("--model", it)).transpose(),
        }
    }

    /// The file that an option names. It is checked before any work is done that the file is not one that is read, and that it can be
    /// written.
    fn written(&self, option: &str, out: &str) -> Result<String, Stop> {
        let read = self.files.iter().map(String::as_str);
        let mut read = read.chain(self.get("--listing")).map(|file| match file {
            STANDARD => "/dev/stdin",
            file => file,
        });
        if read.any(|file| same_file(file, out)) {
            let why = "this file is also read; choose another one";
            return Err(Stop::Usage(format!("{option} {out}: {why}")));
        }
        place_for(option, out)?;
        Ok(out.to_owned())
    }

    /// The list of names that an option was given, separated like the cells of a table; `None` if it was not given.
    pub fn names(&self, name: &str) -> Result<Option<Vec<String>>, Stop> {
        let mut names = None;
        for (_, value) in self.said.iter().filter(|(it, _)| *it == name) {
            let record =
                record::record(value).map_err(|why| Stop::Usage(format!("{name}: {why}")))?;
            let all = names.get_or_insert_with(Vec::new);
            all.extend(record.iter().map(|it| csv::name(it)));
        }
        Ok(names)
    }

    /// What was said about how tables are written.
    pub fn format(&self) -> Result<Format, Stop> {
        let unknown = |name: &str, said: &str, known: &str| {
            Stop::Usage(format!("{name} {}: {known} is required", quoted(said)))
        };
        let delimiter = self.get("--delimiter").map(|said| {
            let known = "comma, semicolon, tab or bar";
            format::delimiter(said).ok_or_else(|| unknown("--delimiter", said, known))
        });
        let decimal = self.get("--decimal").map(|said| {
            format::decimal(said).ok_or_else(|| unknown("--decimal", said, "point or comma"))
        });
        Ok(Format {
            delimiter: delimiter.transpose()?,
            decimal: decimal.transpose()?,
            skip_incomplete: self.has("--skip-incomplete"),
        })
    }

    /// How many digits numbers have after the decimal sign, if that was given.
    pub fn digits(&self) -> Result<Option<usize>, Stop> {
        self.number("--digits", MAX_DIGITS)
    }

    fn number<N: TryFrom<u64>>(&self, name: &str, most: u64) -> Result<Option<N>, Stop> {
        let read = |text: &str| {
            let number = text.parse::<u64>().ok().filter(|it| *it <= most);
            let number = number.and_then(|it| N::try_from(it).ok());
            let why = || format!("{name} {text}: a whole number up to {most} is required");
            number.ok_or_else(|| Stop::Usage(why()))
        };
        self.get(name).map(read).transpose()
    }

    fn trees(&self) -> Result<Option<usize>, Stop> {
        match self.number("--n-trees", MAX_TREES as u64)? {
            Some(0) => Err(Stop::Usage(
                "--n-trees 0: a forest needs at least one tree".into(),
            )),
            trees => Ok(trees),
        }
    }

    fn splitter(&self) -> Result<Splitter, Stop> {
        match self.get("--splitter") {
            None | Some("best") => Ok(Splitter::Best),
            Some("random") => Ok(Splitter::Random),
            Some(other) => Err(Stop::Usage(format!(
                "--splitter {other}: the splitter is best or random"
            ))),
        }
    }

    fn cuts(&self) -> Result<Cuts, Stop> {
        match self.get("--cuts") {
            None | Some("midpoint") => Ok(Cuts::Midpoint),
            Some("measured") => Ok(Cuts::Measured),
            Some(other) => Err(Stop::Usage(format!(
                "--cuts {other}: the cuts are midpoint or measured"
            ))),
        }
    }

    /// The parameters of the forest.
    pub fn parameters(&self) -> Result<RandomForestRegressorParameters, Stop> {
        let plain = RandomForestRegressorParameters::default();
        let count = u64::from(u32::MAX);
        Ok(RandomForestRegressorParameters {
            n_trees: self.trees()?.unwrap_or(plain.n_trees),
            m: self.number("--m", count)?,
            max_depth: self.number("--max-depth", u16::MAX.into())?,
            min_samples_leaf: self
                .number("--min-samples-leaf", count)?
                .unwrap_or(plain.min_samples_leaf),
            min_samples_split: self
                .number("--min-samples-split", count)?
                .unwrap_or(plain.min_samples_split),
            bootstrap: !self.has("--no-bootstrap"),
            keep_samples: true,
            splitter: self.splitter()?,
            cuts: self.cuts()?,
            seed: self.number("--seed", u64::MAX)?.unwrap_or(plain.seed),
            n_threads: self.number("--n-threads", count)?,
        })
    }
}
