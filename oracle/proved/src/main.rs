//! The command: compares the proved library with both judges, and replays the list with it.

use driver::compare::{self, By};
use driver::judge::library::Paper;
use driver::tally::{Counts, Tally};
use proved::Proved;
use std::process::ExitCode;

/// The least number of each kind that must be compared in a full run,
const FULL: Counts = Counts {
    trees: 1_000_000,
    forests: 57_000,
    readers: 57_000,
    nodes: 9_000,
    checks: 25_000,
    bad_draws: 12_000,
    refusals: [
        40_000, 25_000, 7_500, 7_500, 20_000, 150_000, 1_500, 1_200, 205_000, 129_000, 57_500,
        3_500,
    ],
    damaged: [
        53_000, 51_500, 288_000, 35_000, 91_500, 187_500, 312_000, 36_000,
    ],
    measured: [220_000, 160_000, 85_000, 55_000],
    behind: [21_000, 5_800, 6_800, 37_000, 40_000, 3_700, 290, 300],
    files: [
        13_000, 13_000, 190_000, 200_000, 94_000, 630_000, 114_000, 65_000,
    ],
    pairs: [3_000, 3_300],
};

/// in a sample, and in the list.
const SAMPLE: Counts = Counts {
    behind: [50, 50, 50, 50, 50, 50, 10, 10],
    files: [50; 8],
    ..Counts::each(50)
};
const LIST: Counts = Counts::each(1);

fn main() -> ExitCode {
    let args: Vec<String> = std::env::args().skip(1).collect();
    let args: Vec<&str> = args.iter().map(String::as_str).collect();
    let what = match proved::served() {
        true => "the served library",
        false => "the linked library",
    };
    let tally = Tally::new(what, &Proved, Some(&Paper));
    let number = |word: &str| word.parse().expect("a number");
    match args.as_slice() {
        ["compare"] => compared(tally, 600_000),
        ["compare", count] => compared(tally, number(count)),
        ["sample", count] => compare::sample(tally, number(count), &SAMPLE),
        ["files", count] => compare::files(tally, number(count)),
        ["longest"] => compare::longest(tally),
        ["replay", list] => compare::replay(tally, &[By::Library], list, false, &LIST),
        _ => {
            eprintln!("compare [COUNT] | sample COUNT | files COUNT | longest | replay LIST");
            ExitCode::from(2)
        }
    }
}

/// Three files are damaged for each random input.
fn compared(tally: Tally, count: usize) -> ExitCode {
    compare::compare(tally, count, 3 * count, &FULL)
}
