//! Cuts at measured values.

use crate::json::parse;
use crate::{Folder, Run, run, show};

fn fit(more: &[&str]) -> Run {
    let old = show("old-house.csv");
    run(&[&["fit", &old, "--target", "pan"], more].concat())
}

/// The forest is the same in all that is reported of it, apart from its error: a fixture that a tree leaves out may lie between two others.
#[test]
fn a_fit_differs_in_its_error_only() {
    let plain = fit(&[]);
    assert_eq!(fit(&["--cuts", "midpoint"]), plain);
    let measured = fit(&["--cuts", "measured"]);
    assert_eq!((measured.status, measured.err.as_str()), (Some(0), ""));
    assert_eq!(plain.out.lines().count(), measured.out.lines().count());
    let lines = plain.out.lines().zip(measured.out.lines());
    let differ: Vec<&str> = lines.filter(|(a, b)| a != b).map(|(a, _)| a).collect();
    assert_eq!(differ.len(), 1, "{differ:?}");
    assert!(differ[0].starts_with("out-of-bag error: "), "{differ:?}");
}

/// A bar hung at 6 and at 8. One at 7 is taken for the lower if cuts are in the middle, and for the higher if they are at 6.
#[test]
fn a_bar_between_two_others_goes_up() {
    let folder = Folder::new("cuts");
    let old = folder.write("old.csv", "trim,pan\n6,1.5\n8,4.5\n");
    let new = folder.write("new.csv", "trim\n6\n6.5\n7\n7.5\n8\n");
    for (cuts, pans) in [
        ("midpoint", ["1.5", "1.5", "1.5", "4.5", "4.5"]),
        ("measured", ["1.5", "4.5", "4.5", "4.5", "4.5"]),
    ] {
        let words = ["correct", &old, &new, "--target", "pan", "--no-bootstrap"];
        let told = run(&[&words[..], &["--cuts", cuts]].concat());
        assert_eq!(told.status, Some(0), "{}", told.err);
        let cells = told.out.lines().skip(1).map(|it| it.split(',').nth(1));
        assert!(cells.eq(pans.map(Some)), "{}", told.out);
    }
}

/// The random splitter takes no notice of it, and that is told.
#[test]
fn no_effect_is_warned_of() {
    let warning = "--cuts measured has no effect: --splitter random draws its thresholds";
    let random = ["--splitter", "random"];
    let both = ["--splitter", "random", "--cuts", "measured"];
    let (plain, told) = (fit(&random), fit(&both));
    assert!(!plain.out.contains("warning: "), "{}", plain.out);
    let line = format!("warning: {warning}\n");
    assert_eq!(told.out.replace(&line, ""), plain.out);
    assert!(told.out.contains(&line), "{}", told.out);
    assert!(!fit(&both[2..]).out.contains("warning: "));

    // after the one about the error
    let few = fit(&[&both[..], &["--n-trees", "3"]].concat()).out;
    let lines: Vec<&str> = few.lines().filter(|it| it.starts_with("warning")).collect();
    assert_eq!((lines.len(), lines[1]), (2, line.trim_end()), "{few}");
    let few = fit(&[&both[..], &["--n-trees", "3", "--json"]].concat()).out;
    assert_eq!(parse(&few).get("warnings").texts()[1], warning);

    let (old, new) = (show("old-house.csv"), show("new-house.csv"));
    let files = [&*old, &new, "--target", "pan"];
    let correct = |more: &[&str]| run(&[&["correct"], &files[..], more].concat());
    let (plain, told) = (correct(&random), correct(&both));
    assert_eq!(told.out, plain.out);
    assert!(told.err.contains(&line), "{}", told.err);
    let page = run(&[&["report"], &files[..], &both].concat());
    assert!(page.out.contains(warning));
}
