//! The shows of shows/, and what the command makes of them.

use crate::{Folder, Run, run, show};
use std::fs;
use tailboardy::{DenseMatrix, RandomForestRegressor, RandomForestRegressorParameters};

fn correct(more: &[&str]) -> Run {
    let (old, new) = (show("old-house.csv"), show("new-house.csv"));
    let words = ["correct", &old, &new, "--target", "pan"];
    run(&[&words, more].concat())
}

/// The numbers in a range of columns.
fn numbers(name: &str, columns: std::ops::Range<usize>) -> Vec<Vec<f64>> {
    let text = fs::read_to_string(show(name)).unwrap();
    let row = |line: &str| {
        let cells = line.split(',').skip(columns.start).take(columns.len());
        cells.map(|cell| cell.parse().unwrap()).collect()
    };
    text.lines().skip(1).map(row).collect()
}

#[test]
fn corrections_are_the_crates_predictions() {
    let told = correct(&["--seed", "5"]);
    assert_eq!(told.status, Some(0), "{}", told.err);
    let x = DenseMatrix::from_2d_array(&numbers("old-house.csv", 3..6)).unwrap();
    let y = numbers("old-house.csv", 6..7).concat();
    let parameters = RandomForestRegressorParameters::default().with_seed(5);
    let forest = RandomForestRegressor::fit(&x, &y, parameters).unwrap();
    let new = DenseMatrix::from_2d_array(&numbers("new-house.csv", 3..6)).unwrap();
    let (means, support) = (forest.predict(&new).unwrap(), forest.support(&new).unwrap());

    let given = fs::read_to_string(show("new-house.csv")).unwrap();
    let mut lines = told.out.lines().zip(given.lines());
    let (head, names) = lines.next().unwrap();
    assert_eq!(head, format!("{names},pan_correction,support,outside"));
    for (row, (mean, (line, cells))) in means.iter().zip(lines).enumerate() {
        let (before, _) = line.rsplit_once(',').unwrap();
        let (before, count) = before.rsplit_once(',').unwrap();
        let (before, correction) = before.rsplit_once(',').unwrap();
        assert_eq!(before, cells);
        assert_eq!(count.parse().ok(), support.median_count(row));
        let correction: f64 = correction.parse().unwrap();
        assert_eq!(correction.to_bits(), mean.to_bits());
    }
    assert_eq!(told.out.lines().count(), 121);
}

#[test]
fn corrections_stay_what_they_are() {
    let corrected = fs::read_to_string(show("new-house-corrected.csv")).unwrap();
    assert_eq!(correct(&[]).out, corrected);
}

#[test]
fn the_forest_is_told_of_beside() {
    let told = correct(&[]).err;
    for line in [
        "fixtures: 120",
        "features: trim_height, truss_offset, mounting_angle",
        "target: pan",
        "not used: fixture, house, truss",
        "trees: 100, with ",
        "out-of-bag error: 0.9",
        "importances: truss_offset 0.4",
    ] {
        assert!(
            told.lines().any(|it| it.starts_with(line)),
            "{line} in {told}"
        );
    }
    assert!(!told.contains('\r'), "progress is for terminals");
    let fit = run(&["fit", &show("old-house.csv"), "--target", "pan"]);
    assert_eq!((fit.status, fit.err.as_str()), (Some(0), ""));
    assert!(told.contains(&fit.out));
}

#[test]
fn corrections_go_where_they_are_sent() {
    let folder = Folder::new("out");
    let out = folder.write("corrections.csv", "what stood here before");
    let told = correct(&["--out", &out]);
    assert_eq!((told.status, told.out.as_str()), (Some(0), ""));
    let plain = correct(&[]);
    assert_eq!(fs::read_to_string(&out).unwrap(), plain.out);
    assert_eq!(folder.files(), 1);
}

#[test]
fn seeds_decide_and_threads_do_not() {
    let plain = correct(&[]);
    assert_eq!(plain, correct(&["--seed=0", "--n-threads", "1"]));
    assert_eq!(
        plain,
        correct(&[
            "--n-threads",
            "7",
            "--features",
            "trim_height,truss_offset,mounting_angle"
        ])
    );
    assert_ne!(plain.out, correct(&["--seed", "1"]).out);
    assert_ne!(plain.out, correct(&["--n-trees", "99"]).out);
    let all = [
        ["--m", "3"],
        ["--max-depth", "3"],
        ["--min-samples-leaf", "5"],
        ["--min-samples-split", "9"],
        ["--splitter", "random"],
        ["--cuts", "measured"],
    ];
    for said in all {
        let other = correct(&said);
        assert_eq!(other.status, Some(0));
        assert_ne!(plain.out, other.out, "{said:?}");
    }
    let whole = correct(&["--no-bootstrap"]);
    assert_ne!(plain.out, whole.out);
    assert!(
        whole
            .err
            .contains("out-of-bag error: none, because every tree uses every fixture")
    );
}

#[test]
fn a_good_listing_is_taken() {
    let listing = show("old-house-listing.csv");
    let listed = correct(&["--listing", &listing]);
    assert_eq!(listed.out, correct(&[]).out);
    let old = show("old-house.csv");
    let told = run(&["check", &old, "--listing", &listing, "--target", "pan"]);
    let lines = [
        format!("{old} can be used"),
        "fixtures: 120".into(),
        "features: trim_height, truss_offset, mounting_angle".into(),
        "target: pan".into(),
        "not used: fixture, house, truss".into(),
        format!(
            "{listing} can be used: every column has each row exactly once, in ascending order of value\n"
        ),
    ];
    assert_eq!((told.status, told.out), (Some(0), lines.join("\n")));
    assert_eq!(run(&["check", &show("new-house.csv")]).status, Some(0));
}

#[test]
fn the_damaged_listing_is_refused() {
    let folder = Folder::new("damaged");
    let (old, new) = (show("old-house.csv"), show("new-house.csv"));
    let listing = show("old-house-listing-damaged.csv");
    let line = format!(
        "tailboardy: {listing}, line 46, column trim_height: row 13 appears twice, first in line 45, \
         and row 12 is missing, which is line 14 of {old} (refusal 12, row twice)\n"
    );
    let out = folder.path("out.csv");
    for words in [
        vec!["check", &old, "--listing", &listing],
        vec!["fit", &old, "--listing", &listing, "--target", "pan"],
        vec![
            "correct",
            &old,
            &new,
            "--listing",
            &listing,
            "--target",
            "pan",
            "--out",
            &out,
        ],
    ] {
        let told = run(&words);
        assert_eq!(
            (told.status, told.out.as_str(), told.err.as_str()),
            (Some(1), "", line.as_str())
        );
    }
    assert_eq!(folder.files(), 0);
}

#[test]
fn tables_may_be_written_by_other_hands() {
    let folder = Folder::new("hands");
    let own = fs::read_to_string(show("old-house.csv")).unwrap();
    let quoted = own.replace("FRONT-01", "\"FRONT, \"\"01\"\"\"");
    let lines = quoted.replace(",pan", ", pan ").replace('\n', "\r\n");
    let old = folder.write("old.csv", format!("\u{feff}{lines}\r\n\r\n"));
    let told = run(&["correct", &old, &old, "--target", "pan"]);
    let plain = show("old-house.csv");
    let plain = run(&["correct", &plain, &plain, "--target", "pan"]);
    assert_eq!(told.status, Some(0), "{}", told.err);
    let corrected = plain.out.replace("FRONT-01", "\"FRONT, \"\"01\"\"\"");
    assert_eq!(told.out, corrected);
}

#[test]
fn weights_count() {
    let folder = Folder::new("weights");
    let old = "x,pan,w\n1,0,0\n2,0,0\n3,8,1\n4.5,8,2\n";
    let (old, new) = (
        folder.write("old.csv", old),
        folder.write("new.csv", "x\n3\n4\n"),
    );
    for more in [&[][..], &["--no-bootstrap"], &["--splitter", "random"]] {
        let words = ["correct", &old, &new, "--target", "pan", "--weight", "w"];
        let told = run(&[&words, more].concat());
        let cells = |line: &str| line.split(',').take(2).collect::<Vec<_>>().join(",");
        let lines: Vec<String> = told.out.lines().map(cells).collect();
        assert_eq!(lines, ["x,pan_correction", "3,8", "4,8"]);
        assert!(told.err.contains("weight: w\n"));
    }
}

#[test]
fn a_measurement_that_the_new_house_lacks_is_told() {
    let folder = Folder::new("lacking");
    let old = folder.write("old.csv", "pitch,x,pan\n1,5,0\n2,6,1\n");
    let new = folder.write("new.csv", "x\n5\n");
    let told = run(&["correct", &old, &new, "--target", "pan"]);
    assert_eq!(told.status, Some(0));
    assert!(told.err.contains(&format!(
        "not used, because {new} does not have them: pitch\n"
    )));
    assert!(told.err.contains("features: x\n"));
}
