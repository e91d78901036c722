//! The commands, their options, and the functions that run them.

use crate::args::{Choice, Command, choice};
use crate::{check, correct, fit, list, model, predict, report};

const COLUMNS: &[Choice] = &[
    choice("--target", "NAME", "the column to predict"),
    choice(
        "--weight",
        "NAME",
        "a column of weights, which say how much each fixture counts",
    ),
];

const PREDICTED: &[Choice] = &[choice(
    "--target",
    "NAME",
    "what is predicted, for the names of the columns that are added; a column of this name is not a feature",
)];

const FEATURES: &[Choice] = &[
    choice(
        "--features",
        "A,B,..",
        "the columns to use as features; default: all other columns of measurements",
    ),
    choice(
        "--ignore",
        "A,B,..",
        "columns that are not features, even if they hold measurements",
    ),
    choice(
        "--id",
        "A,B,..",
        "the columns that name a fixture in messages; they are not features",
    ),
];

const LISTING: &[Choice] = &[choice(
    "--listing",
    "FILE",
    "your own listings, instead of sorted ones: a column of row numbers for each feature",
)];

const TABLES: &[Choice] = &[
    choice(
        "--delimiter",
        "NAME",
        "what separates cells: comma, semicolon, tab or bar; default: found out",
    ),
    choice(
        "--decimal",
        "point|comma",
        "the decimal sign of numbers; default: found out",
    ),
    choice(
        "--skip-incomplete",
        "",
        "leave out rows with empty cells, and tell which; default: they are refused",
    ),
];

const GROWTH: &[Choice] = &[
    choice(
        "--n-trees",
        "N",
        "the number of trees, up to 1024; default: 100",
    ),
    choice(
        "--m",
        "N",
        "how many features each search tries; default: the square root of their number, rounded down",
    ),
    choice("--max-depth", "N", "the maximum depth; default: no limit"),
    choice(
        "--min-samples-leaf",
        "N",
        "the minimum number of fixtures in a leaf; default: 1",
    ),
    choice(
        "--min-samples-split",
        "N",
        "the minimum number of fixtures in a node to be split; default: 2",
    ),
    choice(
        "--splitter",
        "best|random",
        "how cuts are chosen; default: best",
    ),
    choice(
        "--cuts",
        "midpoint|measured",
        "where the best splitter cuts between two values: at their midpoint, or at the lower, a measured one; default: midpoint",
    ),
    choice(
        "--no-bootstrap",
        "",
        "grow every tree on all fixtures, with their weights; there is no out-of-bag error then",
    ),
    choice(
        "--seed",
        "N",
        "the seed for bags, orders and thresholds; default: 0",
    ),
    choice(
        "--n-threads",
        "N",
        "the number of threads, which affects only the time; default: as many as the machine can run",
    ),
];

const JSON: &[Choice] = &[choice(
    "--json",
    "",
    "report in JSON: one object on standard output, with the reasons if the input is refused",
)];

const MODEL: &[Choice] = &[choice(
    "--model",
    "FILE",
    "where to write the forest, for `predict`; default: it is not written",
)];

const RANGE: &[Choice] = &[
    choice(
        "--strict",
        "",
        "refuse fixtures outside the range of the old show or with the same name, and columns that may be in another unit",
    ),
    choice(
        "--extrapolate",
        "",
        "let a column pass of which every fixture is outside the range of the old show",
    ),
];

const SPREAD: &[Choice] = &[choice(
    "--spread",
    "",
    "add columns NAME_low and NAME_high: the tenth and ninetieth percentile of the trees' predictions",
)];

const DIGITS: &[Choice] = &[choice(
    "--digits",
    "N",
    "how many digits to round to after the decimal sign, up to 17; default: as many as it takes to read the same bits back",
)];

const PLOT: &[Choice] = &[choice(
    "--plot",
    "A,B",
    "the features that place fixtures in the picture of the rig, across and up; default: the two that are most important",
)];

const OUT: &[Choice] = &[choice(
    "--out",
    "FILE",
    "where to write it; default: standard output, which is also meant by -",
)];

pub static COMMANDS: [Command; 7] = [
    Command {
        name: "check",
        files: &["SHOW.csv"],
        about: "Checks whether a show and its listing can be used, and reports what is wrong if not",
        more: "A listing is a table with a column for each feature, named as in the show. Its cells are row numbers, counted\n\
               from 0, in ascending order of the feature's values. Without --target and --features, the columns of the listing\n\
               are the features.",
        groups: &[COLUMNS, FEATURES, LISTING, TABLES, JSON],
        run: check::run,
    },
    Command {
        name: "fit",
        files: &["SHOW.csv"],
        about: "Fits a forest on a show and reports its out-of-bag error and importances",
        more: "With --model the forest is written to a file, by which `predict` predicts the corrections of any show later, without the old\n\
               show. `correct` fits and predicts in one run.",
        groups: &[
            COLUMNS, FEATURES, LISTING, TABLES, GROWTH, MODEL, DIGITS, JSON,
        ],
        run: fit::fit,
    },
    Command {
        name: "correct",
        files: &["OLD.csv", "NEW.csv"],
        about: "Fits a forest on the old show and writes a correction for each fixture of the new one",
        more: "The output has the columns of the new show, a column NAME_correction, where NAME is the target, a column support with\n\
               the number of fixtures of the old show that the correction rests on, and a column outside that names the measurements\n\
               outside the range of the old show. Without --features, the features are the columns of measurements that both shows\n\
               have. Those that only the old show has are ignored, unless the new one has others that may be meant instead. Notes\n\
               and a report on the forest go to standard error, with a warning if a correction rests on fewer than three fixtures.",
        groups: &[
            COLUMNS, FEATURES, LISTING, TABLES, RANGE, GROWTH, SPREAD, DIGITS, OUT,
        ],
        run: correct::correct,
    },
    Command {
        name: "predict",
        files: &["MODEL.rgf", "NEW.csv"],
        about: "Writes a correction for each fixture of the new show, by a model that `fit --model` wrote",
        more: "The output has the columns of the new show and a column NAME_correction, or correction without --target. A model has no\n\
               names of columns, only a number of features. Without --features they are the columns of measurements of the new show,\n\
               in the order of the table; another number of them is refused. Which they are goes to standard error, with notes.\n\
               A model does not say how many fixtures a correction rests on, so there is no column support.",
        groups: &[PREDICTED, FEATURES, TABLES, SPREAD, DIGITS, OUT],
        run: predict::run,
    },
    Command {
        name: "model",
        files: &["MODEL.rgf"],
        about: "Checks whether a model can be used, and reports what is in it, or where its file is damaged",
        more: "Features are known by their numbers, counted from 0 in the order of the fit. The levels of a tree are counted from its\n\
               root, which is level 1; a tree without a split has 0.",
        groups: &[DIGITS, JSON],
        run: model::run,
    },
    Command {
        name: "list",
        files: &["SHOW.csv"],
        about: "Writes a fresh listing of a show, which --listing of the other commands takes",
        more: "For each feature the rows are sorted by value, and rows with the same value by number. Row numbers count from 0, not\n\
               counting the line of names. Which columns are listed goes to standard error.",
        groups: &[COLUMNS, FEATURES, TABLES, OUT],
        run: list::run,
    },
    Command {
        name: "report",
        files: &["OLD.csv", "NEW.csv"],
        about: "Fits a forest on the old show and writes a page about the corrections of the new one, with pictures",
        more: "The page is one HTML file for a browser or a printer, which stands by itself. It begins with what to look at first:\n\
               fixtures outside the range of the old show, fixtures that the trees disagree about, and corrections that rest on few\n\
               fixtures. It ends with a table of all corrections, rounded for reading; `correct` writes them exactly. Notes and a\n\
               report on the forest go to standard error.",
        groups: &[COLUMNS, FEATURES, LISTING, TABLES, RANGE, GROWTH, PLOT, OUT],
        run: report::report,
    },
];
