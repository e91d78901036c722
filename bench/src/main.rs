//! Times of fits and means beside those of smartcore: the same inputs, one run, one thread, results compared bit for bit. docs/SPEED.md says
//! what is measured.

mod clock;
mod input;
mod memory;
mod ours;

use clock::{Pair, Times, median, minimum};
use input::{Size, Values};
use std::process::ExitCode;

/// The sizes, each with its aims, if it has any: the greatest ratio of our time to smartcore's, for fit and for predict.
const CASES: [(&str, Size, &str, &str); 6] = [
    ("a", size(2_000, 3, 100), "0.60", "0.25"),
    ("b", size(10_000, 3, 100), "0.60", "0.25"),
    ("c", size(2_000, 64, 50), "0.80", "0.40"),
    ("d", size(60_000, 8, 20), "0.70", "0.25"),
    (
        "e",
        of(Values::Few(20), size(2_000, 3, 100)),
        "0.80",
        "0.40",
    ),
    ("f", of(Values::Alike, size(10_000, 8, 20)), "", ""),
];

/// Growing numbers of rows, of features and of trees, one at a time.
const GROWTH: [(&str, [Size; 4]); 3] = [
    (
        "rows",
        [
            size(1_000, 4, 20),
            size(4_000, 4, 20),
            size(16_000, 4, 20),
            size(64_000, 4, 20),
        ],
    ),
    (
        "features",
        [
            size(2_000, 4, 20),
            size(2_000, 16, 20),
            size(2_000, 64, 20),
            size(2_000, 256, 20),
        ],
    ),
    (
        "trees",
        [
            size(1_000, 4, 10),
            size(1_000, 4, 40),
            size(1_000, 4, 160),
            size(1_000, 4, 640),
        ],
    ),
];

/// The number of rounds for a line of the second table.
const FEW: usize = 3;

const fn size(rows: usize, features: usize, trees: usize) -> Size {
    Size {
        rows,
        features,
        trees,
        values: Values::Different,
    }
}

const fn of(values: Values, size: Size) -> Size {
    Size { values, ..size }
}

fn line(name: &str, what: &str, aim: &str, pair: &Pair) {
    let ms = |seconds: f64| seconds * 1e3;
    let (low, high) = pair.spread();
    println!(
        "| {name} | {what} | {:.2} | {:.2} | {:.2} | {:.2} | **{:.2}** | {:.2} | {low:.2} to {high:.2} | {aim} |",
        ms(median(pair.rust)),
        ms(minimum(pair.rust)),
        ms(median(pair.ours)),
        ms(minimum(pair.ours)),
        pair.of_medians(),
        pair.of_minima(),
    );
}

fn cases(count: usize) -> bool {
    println!(
        "{count} rounds; times in ms\n\n\
        | | | Rust, median | least | ours, median | least | ratio of medians | of minima | in a round | aim |\n\
        |---|---|---|---|---|---|---|---|---|---|"
    );
    for (name, size, fit, predict) in CASES {
        let Some(times) = clock::rounds(size, count) else {
            println!("{name}: the results differ");
            return false;
        };
        line(name, "fit", fit, &times.fits());
        line(name, "fit again", fit, &times.fits_again());
        line(name, "predict", predict, &times.predictions());
    }
    true
}

/// A time, and its factor over the one before it.
fn grown(times: &[f64], before: &mut Option<f64>) -> String {
    let now = minimum(times);
    let factor = before
        .replace(now)
        .map(|then| format!(" (x {:.1})", now / then));
    format!("{:.2}{}", now * 1e3, factor.unwrap_or_default())
}

fn growth() -> bool {
    println!(
        "\n{FEW} rounds; least times in ms, each with its factor over the line above\n\n\
        | grows | rows | features | trees | our fit | Rust's fit | our predict | Rust's predict |\n\
        |---|---|---|---|---|---|---|---|"
    );
    for (what, sizes) in GROWTH {
        let mut before = [None; 4];
        for size in sizes {
            let Some(times) = clock::rounds(size, FEW) else {
                println!("growth in {what}: the results differ");
                return false;
            };
            let told = told(&times, &mut before).join(" | ");
            let Size {
                rows,
                features,
                trees,
                ..
            } = size;
            println!("| {what} | {rows} | {features} | {trees} | {told} |");
        }
    }
    true
}

fn told(times: &Times, before: &mut [Option<f64>; 4]) -> [String; 4] {
    let (fits, predictions) = (times.fits(), times.predictions());
    let columns = [fits.ours, fits.rust, predictions.ours, predictions.rust];
    std::array::from_fn(|column| grown(columns[column], &mut before[column]))
}

fn main() -> ExitCode {
    let words: Vec<String> = std::env::args().skip(1).collect();
    let words: Vec<&str> = words.iter().map(String::as_str).collect();
    let number = |word: &str| word.parse().expect("a number of rounds");
    let same = match words[..] {
        [count] => cases(number(count)) && growth(),
        ["cases", count] => cases(number(count)),
        ["alone", name, count] => {
            let case = CASES.iter().find(|case| case.0 == name);
            clock::alone(case.expect("a to f").1, number(count));
            true
        }
        _ => {
            eprintln!("usage: bench ROUNDS | bench cases ROUNDS | bench alone CASE ROUNDS");
            false
        }
    };
    match same {
        true => ExitCode::SUCCESS,
        false => ExitCode::FAILURE,
    }
}
