//! Help, and command lines that are wrong.

use crate::{command, run, show};
use std::fs::File;

const COMMANDS: &[[&str; 3]] = &[
    [
        "check",
        "SHOW.csv",
        "--target --weight --features --id --listing",
    ],
    [
        "fit",
        "SHOW.csv",
        "--target --n-trees --m --max-depth --min-samples-leaf --seed --model",
    ],
    [
        "correct",
        "OLD.csv NEW.csv",
        "--min-samples-split --splitter --cuts --no-bootstrap --n-threads --out",
    ],
    [
        "predict",
        "MODEL.rgf NEW.csv",
        "--target --features --ignore --id --spread --digits --out",
    ],
    ["model", "MODEL.rgf", "--digits --json"],
];

#[test]
fn help_is_given_for_each() {
    let all = run(&["--help"]);
    assert_eq!((all.status, all.err.as_str()), (Some(0), ""));
    for [name, files, options] in COMMANDS {
        assert!(all.out.contains(&format!("tailboardy {name}")));
        let told = run(&[name, "--help"]);
        assert_eq!((told.status, told.err.as_str()), (Some(0), ""));
        let head = format!("tailboardy {name} {files} [OPTION..]\n");
        assert!(told.out.starts_with(&head));
        let mut options = options.split(' ').map(|it| format!("  {it} "));
        assert!(options.all(|it| told.out.contains(&it)), "{}", told.out);
        assert!(
            told.out
                .contains("Exit status: 0 if done, 1 if the input is refused")
        );
    }
    let version = run(&["--version"]).out;
    assert_eq!(
        version,
        concat!("tailboardy ", env!("CARGO_PKG_VERSION"), "\n")
    );
}

/// Command lines and the messages that they give.
const SENSELESS: &[[&str; 2]] = &[
    ["", "a command is required"],
    ["frobnicate", "there is no command frobnicate"],
    ["check", "the files required are SHOW.csv"],
    ["check a b", "the files required are SHOW.csv"],
    [
        "correct a --target pan",
        "the files required are OLD.csv NEW.csv",
    ],
    ["check a --frobnicate", "there is no option --frobnicate"],
    ["check a --n-trees 3", "there is no option --n-trees"],
    ["fit a --target", "--target requires a value: NAME"],
    ["fit a --no-bootstrap=1", "--no-bootstrap takes no value"],
    ["fit a --seed 1 --seed 2", "--seed is given twice"],
    ["fit a", "--target NAME is required: the column to predict"],
    ["fit a --target p --model", "--model requires a value: FILE"],
    ["model", "the files required are MODEL.rgf"],
    ["model a b", "the files required are MODEL.rgf"],
    ["predict a", "the files required are MODEL.rgf NEW.csv"],
    ["predict a b --weight w", "there is no option --weight"],
    [
        "predict - -",
        "standard input, `-`, can be only one of the files",
    ],
    [
        "fit a --target p --n-trees many",
        "--n-trees many: a whole number up to 1024 is required",
    ],
    [
        "fit a --target p --n-trees -1",
        "--n-trees -1: a whole number up to 1024 is required",
    ],
    [
        "fit a --target p --n-trees 0",
        "--n-trees 0: a forest needs at least one tree",
    ],
    [
        "fit a --target p --n-trees 1025",
        "--n-trees 1025: a whole number up to 1024 is required",
    ],
    ["fit a --target p -o x", "there is no option -o"],
    [
        "fit a --target p --max-depth 65536",
        "--max-depth 65536: a whole number up to 65535 is required",
    ],
    [
        "fit a --target p --splitter worst",
        "--splitter worst: the splitter is best or random",
    ],
    [
        "correct a b --target p --cuts upper",
        "--cuts upper: the cuts are midpoint or measured",
    ],
    [
        "fit a --target p --weight p",
        "the column \"p\" is named twice",
    ],
    [
        "fit a --target p --features x,p",
        "the column \"p\" is named twice",
    ],
    [
        "fit a --target p --features \"x",
        "--features: a quote is opened but never closed; put one at the end of the cell",
    ],
];

#[test]
fn words_that_make_no_sense_are_told() {
    for [words, why] in SENSELESS {
        let words: Vec<&str> = words.split_whitespace().collect();
        let told = run(&words);
        assert_eq!((told.status, told.out.as_str()), (Some(2), ""), "{words:?}");
        let line = format!("tailboardy: {why}");
        assert_eq!(told.err.lines().next(), Some(line.as_str()));
    }
}

#[test]
fn a_show_is_not_written_over() {
    let (old, new) = (show("old-house.csv"), show("new-house.csv"));
    let listing = show("old-house-listing.csv");
    for read in [&old, &new, &listing] {
        let words = ["correct", &old, &new, "--target", "pan"];
        let told = run(&[&words[..], &["--listing", &listing, "--out", read]].concat());
        assert_eq!(told.status, Some(2));
        assert_eq!(
            told.err,
            format!("tailboardy: --out {read}: this file is also read; choose another one\n")
        );
    }
}

#[test]
fn no_place_for_a_file_is_told_before_a_fit() {
    let (old, new) = (show("old-house.csv"), show("new-house.csv"));
    for (out, why) in [
        (
            "no-folder/x.csv",
            "no-folder/x.csv: there is no such folder; create it, or choose another one",
        ),
        (".", "\".\": it is a folder; name a file in it"),
        ("", "\"\": it is not the name of a file"),
        ("no-folder/", "\"no-folder/\": it is not the name of a file"),
    ] {
        let told = run(&["correct", &old, &new, "--target", "pan", "--out", out]);
        assert_eq!(
            (told.status, told.err),
            (Some(1), format!("tailboardy: {why}\n"))
        );
    }
}

#[test]
fn what_cannot_be_written_is_told() {
    let (old, new) = (show("old-house.csv"), show("new-house.csv"));
    let words = ["correct", &old, &new, "--target", "pan"];
    let full = File::options().write(true).open("/dev/full").unwrap();
    let status = command(&words).stdout(full).output().unwrap();
    let told = crate::told(status);
    assert_eq!(told.status, Some(1));
    assert!(
        told.err
            .contains("tailboardy: standard output: No space left"),
        "{}",
        told.err
    );
    let told = run(&[&words[..], &["--out", "/nowhere/out.csv"]].concat());
    assert_eq!(told.status, Some(1));
    assert!(
        told.err
            .contains("tailboardy: /nowhere/out.csv: there is no such folder"),
        "{}",
        told.err
    );
    assert_eq!(
        run(&[&words[..], &["--out", "/dev/null"]].concat()).status,
        Some(0)
    );
}
