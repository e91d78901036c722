//! Predictions by a model: the same as those of the forest, for the same columns.

use crate::models::fitted;
use crate::{Folder, Run, command, run, show, told};
use std::fs::{self, File};

fn correct(old: &str, new: &str, more: &[&str]) -> String {
    let words = ["correct", old, new, "--target", "pan", "--n-trees", "10"];
    run(&[&words[..], more].concat()).out
}

/// A table without its last column.
fn shorter(table: &str, delimiter: char) -> String {
    let line = |line: &str| format!("{}\n", line.rsplit_once(delimiter).unwrap().0);
    table.lines().map(line).collect()
}

#[test]
fn a_model_predicts_what_the_fit_would() {
    let folder = Folder::new("predicts");
    for (end, delimiter) in [("", ','), ("-semicolons", ';'), ("-units", ',')] {
        let (old, new) = (
            show(&format!("old-house{end}.csv")),
            show(&format!("new-house{end}.csv")),
        );
        let model = folder.path("house.rgf");
        let words = ["fit", &old, "--target", "pan", "--n-trees", "10", "--model"];
        assert_eq!(run(&[&words[..], &[&model]].concat()).status, Some(0));
        for more in [&[][..], &["--spread"], &["--digits", "3", "--spread"]] {
            let words = ["predict", &model, &new, "--target", "pan"];
            let told = run(&[&words[..], more].concat());
            assert_eq!(told.status, Some(0), "{}", told.err);
            // `correct` has columns `support` and `outside` after the others
            let corrected = shorter(&correct(&old, &new, more), delimiter);
            assert_eq!(told.out, shorter(&corrected, delimiter));
        }
    }
}

#[test]
fn features_are_as_many_as_the_models() {
    let folder = Folder::new("many");
    let model = folder.path("house.rgf");
    assert_eq!(fitted(&model, &[]).status, Some(0));
    let (old, new) = (show("old-house.csv"), show("new-house.csv"));
    let but = format!("but the number of features of {model} is 3");
    let how = "name those that it was fitted on with --features, in the same order";
    let channels = folder.write("channels.csv", "channel,x,z\n101,1,2\n205,3,4\n");
    for (words, why) in [
        (
            vec![&old[..]],
            format!(
                "{old}, line 1: the number of columns of measurements is 4 (trim_height, truss_offset, mounting_angle, pan), {but}; {how}"
            ),
        ),
        (
            vec![&new, "--ignore", "truss_offset"],
            format!(
                "{new}, line 1: the number of columns of measurements is 2 (trim_height, mounting_angle), {but}; {how}"
            ),
        ),
        (
            vec![&new, "--features", "trim_height"],
            format!("{new}, line 1: the number of columns that --features names is 1, {but}"),
        ),
        (
            vec![&channels],
            format!(
                "{channels}, line 1: the number of columns of measurements is 2 (x, z), {but}; {how}; left out: \"channel\", because its name \
                 says that it numbers or names fixtures"
            ),
        ),
    ] {
        let told = run(&[&["predict", &model], &words[..]].concat());
        assert_eq!(told.err, format!("tailboardy: {why}\n"));
        assert_eq!((told.status, told.out.as_str()), (Some(1), ""));
    }
}

#[test]
fn a_target_is_not_a_feature() {
    let folder = Folder::new("target");
    let (model, old) = (folder.path("house.rgf"), show("old-house.csv"));
    assert_eq!(fitted(&model, &[]).status, Some(0));
    let told = run(&["predict", &model, &old, "--target", "pan"]);
    assert_eq!(told.status, Some(0), "{}", told.err);
    assert!(
        told.err
            .contains("\nnot used: fixture, house, truss, pan\n")
    );
}

#[test]
fn the_order_of_the_columns_is_told() {
    let folder = Folder::new("order");
    let model = folder.path("house.rgf");
    assert_eq!(fitted(&model, &[]).status, Some(0));
    let new = show("new-house.csv");
    let report = "fixtures: 120\nfeatures: trim_height, truss_offset, mounting_angle\nnot used: fixture, house, truss\ntrees: 10, with ";
    let told = run(&["predict", &model, &new]);
    let note = format!(
        "tailboardy: note: {model} has no names of columns: its features are taken to be trim_height, truss_offset, mounting_angle of {new}, \
         in this order; if it was fitted on others, name them with --features\n"
    );
    assert!(told.err.starts_with(&(note + report)), "{}", told.err);
    let features = ["--features", "trim_height,truss_offset,mounting_angle"];
    let said = run(&[&["predict", &model, &new], &features[..]].concat());
    assert!(said.err.starts_with(report), "{}", said.err);
    assert_eq!(said.out, told.out);
    // the columns of a table in another order
    let table = fs::read_to_string(&new).unwrap();
    let swap = |line: &str| {
        let cells: Vec<&str> = line.split(',').collect();
        let order = [0, 1, 2, 5, 3, 4].map(|it| cells[it]);
        format!("{}\n", order.join(","))
    };
    let other = folder.write("other.csv", table.lines().map(swap).collect::<String>());
    let swapped = run(&[&["predict", &model, &other], &features[..]].concat());
    let last = |told: &Run| {
        let cells = told
            .out
            .lines()
            .map(|it| it.rsplit_once(',').unwrap().1.to_owned());
        cells.collect::<Vec<_>>()
    };
    assert_eq!(last(&swapped), last(&told));
}

#[test]
fn thresholds_that_do_not_suit_a_column_are_told() {
    let folder = Folder::new("suit");
    let model = folder.path("house.rgf");
    assert_eq!(fitted(&model, &[]).status, Some(0));
    let new = show("new-house-millimetres.csv");
    let told = run(&["predict", &model, &new]);
    assert_eq!(told.status, Some(0));
    let notes = |column: &str, feature: usize| {
        format!(
            "tailboardy: note: {new}, column {column}: no fixture lies between the lowest and the highest threshold of feature {feature} of {model}, "
        )
    };
    assert!(told.err.contains(&notes("trim_height", 0)), "{}", told.err);
    assert!(told.err.contains(&notes("truss_offset", 1)), "{}", told.err);
    assert!(!told.err.contains("column mounting_angle"), "{}", told.err);
    let fits = run(&["predict", &model, &show("new-house.csv")]);
    assert!(!fits.err.contains("threshold"), "{}", fits.err);
}

/// A model of one measurement, the corrections being twice that.
fn twofold(folder: &Folder) -> String {
    let model = folder.path("model.rgf");
    let old = folder.write("old.csv", "x,pan\n1.5,2\n2,4\n3,6\n");
    let words = ["fit", &old, "--target", "pan", "--no-bootstrap", "--model"];
    assert_eq!(run(&[&words[..], &[&model]].concat()).status, Some(0));
    model
}

#[test]
fn a_new_show_comes_out_whole() {
    let folder = Folder::new("whole-show");
    let model = twofold(&folder);
    let text = "fixture;x;note\na;2,9;\"x;y\"\nb;;z\n\nc;1;\n";
    let new = folder.write("new.csv", text);
    let words = ["predict", &model, &new, "--skip-incomplete"];
    let told = run(&[&words[..], &["--target", "pan"]].concat());
    assert_eq!(
        told.out,
        "fixture;x;note;pan_correction\na;2,9;\"x;y\";6\nb;;z;\nc;1;;2\n"
    );
    let note = format!(
        "tailboardy: note: {new}: no correction for 1 of 3 fixtures, because cells are empty: b (x)\n"
    );
    assert!(told.err.contains(&note), "{}", told.err);
}

#[test]
fn a_new_show_that_cannot_be_used_is_told() {
    let folder = Folder::new("not-used");
    let model = twofold(&folder);
    let taken = folder.write("taken.csv", "x,low\n1.5,a\n2,b\n");
    let told = run(&["predict", &model, &taken, "--spread"]);
    let why = "there is already a column \"low\", which is added to the corrected show; give it another name or take it out";
    assert_eq!(told.err, format!("tailboardy: {taken}, line 1: {why}\n"));
    assert_eq!(run(&["predict", &model, &taken]).status, Some(0));
    let bad = folder.write("bad.csv", "x\n1.5\nlow\n2\n");
    let told = run(&["predict", &model, &bad]);
    let why = "\"low\" is not a number; it is the only such cell of the column; correct it, or leave the column out: --ignore x";
    assert_eq!(
        told.err,
        format!("tailboardy: {bad}, line 3, column x: {why}\n")
    );
}

#[test]
fn a_model_or_a_show_may_be_standard_input() {
    let folder = Folder::new("dash");
    let (model, new) = (folder.path("house.rgf"), show("new-house.csv"));
    assert_eq!(fitted(&model, &[]).status, Some(0));
    let from = |file: &str, words: &[&str]| {
        let from = File::open(file).unwrap();
        told(command(words).stdin(from).output().unwrap())
    };
    let plain = run(&["predict", &model, &new]);
    assert_eq!(from(&model, &["predict", "-", &new]).out, plain.out);
    assert_eq!(from(&new, &["predict", &model, "-"]).out, plain.out);
    assert!(
        from(&model, &["model", "-"])
            .out
            .starts_with("standard input can be used: ")
    );
    let out = folder.path("out.csv");
    let told = run(&["predict", &model, &new, "--out", &out]);
    assert_eq!(
        (told.out.as_str(), fs::read_to_string(&out).unwrap()),
        ("", plain.out)
    );
    let over = run(&["predict", &model, &new, "--out", &model]);
    let why = "this file is also read; choose another one";
    assert_eq!(over.err, format!("tailboardy: --out {model}: {why}\n"));
}
