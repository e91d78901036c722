//! The command: compares both judges, replays the list, and makes it.

use driver::compare::{self, By};
use driver::judge::{case::Case, library::Paper};
use driver::list::{mutants, pick};
use driver::make::chance::Chance;
use driver::tally::{Counts, Tally};
use std::process::ExitCode;

const USE: &str =
    "compare [COUNT] | files COUNT | longest | replay LIST | each LIST paper|copy | pool COUNT
mutants FILE | mutant FILE NUMBER FROM TO | pick POOL FOUND";

fn main() -> ExitCode {
    let args: Vec<String> = std::env::args().skip(1).collect();
    let args: Vec<&str> = args.iter().map(String::as_str).collect();
    match args.as_slice() {
        ["compare"] => return compared(600_000),
        ["compare", count] => return compared(number(count)),
        ["files", count] => return compare::files(paper(), number(count)),
        ["longest"] => return compare::longest(paper()),
        ["replay", list] => return replayed(&[By::Library, By::Copy], list, false),
        ["each", list, "paper"] => return replayed(&[By::Library], list, true),
        ["each", list, "copy"] => return replayed(&[By::Copy], list, true),
        ["pool", count] => pool(number(count)),
        // one line per edit, with whether it changes a result
        ["mutants", file] => mutants::parse(&read(file)).iter().for_each(|mutant| {
            let shows = if mutant.same { "same" } else { "shows" };
            let edit = format!("{} ==> {}", mutant.old, mutant.new).replace('\n', "\\n");
            println!("{shows} {} :: {edit}", mutant.file);
        }),
        ["mutant", file, at, from, to] => {
            mutants::apply(&mutants::parse(&read(file)), number(at), from, to);
        }
        ["pick", pool, found] => picked(&read(pool), &read(found)),
        _ => {
            eprintln!("{USE}");
            return ExitCode::from(2);
        }
    }
    ExitCode::SUCCESS
}

fn paper() -> Tally<'static> {
    Tally::new("the judges", &Paper, None)
}

/// At least half of the pairs of each kind must have a split.
fn compared(count: usize) -> ExitCode {
    let least = Counts {
        files: [1; 8],
        pairs: [count / 200; 2],
        ..Counts::each(1)
    };
    compare::compare(paper(), count, count / 2, &least)
}

/// With `each`, a list of any cases is accepted, and every case that differs is reported.
fn replayed(by: &[By], list: &str, each: bool) -> ExitCode {
    let least = if each { 0 } else { 1 };
    compare::replay(paper(), by, list, each, &Counts::each(least))
}

fn number(word: &str) -> usize {
    word.parse().expect("a number")
}

fn read(file: &str) -> String {
    std::fs::read_to_string(file).expect("a file to read")
}

fn pool(count: usize) {
    let mut chance = Chance::new(2);
    let random = (0..count).map(|_| compare::make(&mut chance, compare::TINY));
    let lines: Vec<String> = compare::fixed().iter().map(Case::line).collect();
    let random: Vec<String> = random.map(|case| case.line()).collect();
    print(&[lines, random].concat());
}

/// The first line has the number of cases, and how many numbers the longest line has.
fn print(lines: &[String]) {
    let longest = lines.iter().map(|line| line.split(' ').count()).max();
    println!("{} {}", lines.len(), longest.unwrap_or(0));
    lines.iter().for_each(|line| println!("{line}"));
}

/// `found` has a line for each edit: the positions of the cases that detect it.
fn picked(pool: &str, found: &str) {
    let lines: Vec<&str> = pool.lines().skip(1).collect();
    let places = |line: &str| line.split_whitespace().map(number).collect();
    let found: Vec<Vec<usize>> = found.lines().map(places).collect();
    let taken = pick::pick(&lines, &found);
    let taken: Vec<String> = taken
        .iter()
        .map(|place| lines[*place].to_string())
        .collect();
    print(&taken);
}
