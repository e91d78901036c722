//! How many fixtures a correction rests on, and what is warned of.

use crate::tables::corrected;
use crate::{Folder, Run, run, show};

/// Four bars at 5.5, two at 6.5 and one at 8, each height with a correction of its own.
const OLD: &str = "fixture,trim,pan\na,5.5,1\nb,5.5,1\nc,5.5,1\nd,5.5,1\ne,6.5,4\nf,6.5,4\ng,8,9\n";
const NEW: &str = "fixture,trim\nh,5.5\ni,6.5\nj,8\n";
const MORE: &str = "for at least three in every leaf: --min-samples-leaf 3";

/// Without bags, so that every tree is the same and its leaves can be counted by hand.
fn counted(old: &str, new: &str, more: &[&str]) -> Run {
    corrected(old, new, &[&["--no-bootstrap"], more].concat())
}

/// The lines that warn of few fixtures. Small shows are warned of for their out-of-bag error too.
fn warnings(told: &Run) -> Vec<&str> {
    assert_eq!(told.status, Some(0), "{}", told.err);
    let lines = told.err.lines();
    let warned = lines.filter_map(|it| it.strip_prefix("warning: "));
    warned
        .filter(|it| it.contains("leaves with fewer"))
        .collect()
}

#[test]
fn a_leaf_has_as_many_as_hang_at_its_height() {
    let told = counted(OLD, NEW, &[]);
    let rows = "h,5.5,1,4,\ni,6.5,4,2,\nj,8,9,1,\n";
    assert_eq!(
        told.out,
        format!("fixture,trim,pan_correction,support,outside\n{rows}")
    );
    let few =
        "2 of 3 corrections rest on leaves with fewer than three fixtures of OLD: i (2), j (1)";
    assert_eq!(warnings(&told), [format!("{few}; {MORE}")]);
    let spread = counted(OLD, NEW, &["--spread", "--digits", "2"]);
    let line = spread.out.lines().nth(2);
    assert_eq!(line, Some("i,6.5,4.00,4.00,4.00,2,"), "{}", spread.out);
}

#[test]
fn three_or_more_are_not_warned_of() {
    let told = counted(OLD, NEW, &["--min-samples-leaf", "3", "--digits", "2"]);
    let rows = "h,5.5,1.00,4,\ni,6.5,5.67,3,\nj,8,5.67,3,\n";
    assert!(told.out.ends_with(rows), "{}", told.out);
    assert_eq!(warnings(&told), [""; 0]);
    for more in [&[][..], &["--splitter", "random"], &["--no-bootstrap"]] {
        let (old, new) = (show("old-house.csv"), show("new-house.csv"));
        let words = [
            "correct",
            &old,
            &new,
            "--target",
            "pan",
            "--min-samples-leaf",
        ];
        let told = run(&[&words[..], &["3"], more].concat());
        assert_eq!(warnings(&told), [""; 0]);
    }
}

#[test]
fn those_that_rest_on_few_are_named() {
    let one = counted(OLD, "fixture,trim\nh,5.5\nj,8\n", &[]);
    let few = "1 of 2 corrections rests on leaves with fewer than three fixtures of OLD: j (1)";
    assert_eq!(warnings(&one), [format!("{few}; {MORE}")]);
    let unnamed = counted(OLD, "trim\n5.5\n8\n", &[]);
    let few = few.replace("j (1)", "line 3 (1)");
    assert_eq!(warnings(&unnamed), [format!("{few}; {MORE}")]);

    let rows: String = (1..=12).map(|it| format!("x{it},8\n")).collect();
    let many = counted(OLD, &format!("fixture,trim\nh,5.5\n{rows}"), &[]);
    let names: Vec<String> = (1..=10).map(|it| format!("x{it} (1)")).collect();
    let names = format!("{} and 2 more", names.join(", "));
    let few = format!(
        "12 of 13 corrections rest on leaves with fewer than three fixtures of OLD: {names}"
    );
    assert_eq!(warnings(&many), [format!("{few}; {MORE}")]);
}

/// If that is so of every correction, it is no single fixture that is to be looked at.
#[test]
fn all_are_told_in_one() {
    let only = counted(OLD, "fixture,trim\nj,8\n", &[]);
    let few = "rests on leaves with fewer than three fixtures of OLD";
    assert_eq!(
        warnings(&only),
        [format!("the only correction {few}; {MORE}")]
    );
    let all = counted(OLD, "fixture,trim\ni,6.5\nj,8\n", &[]);
    let few = "all 2 corrections rest on leaves with fewer than three fixtures of OLD";
    assert_eq!(warnings(&all), [format!("{few}; {MORE}")]);

    let two = "fixture,trim,pan\na,5.5,1\nb,6.5,2\n";
    let told = counted(two, "fixture,trim\ni,6\nj,6.5\n", &[]);
    assert_eq!(
        warnings(&told),
        [format!("{few}; fit three fixtures or more")]
    );
    let whole = counted(two, "trim\n6\n", &["--min-samples-leaf", "3"]);
    assert_eq!(whole.out.lines().nth(1), Some("6,1.5,2,"));
}

/// A fixture that is in a bag twice counts twice, and one that weighs nothing is in none.
#[test]
fn bags_and_weights_count() {
    let old = "trim,pan,w\n5.5,1,1\n5.5,1,2\n5.5,1,0\n5.5,1,0\n5.5,1,0\n";
    for (more, line) in [
        (&["--no-bootstrap"][..], "5.5,1,2,"),
        (&["--no-bootstrap", "--min-samples-leaf", "3"], "5.5,1,2,"),
        (&[], "5.5,1,5,"),
    ] {
        let told = corrected(old, "trim\n5.5\n", &[&["--weight", "w"], more].concat());
        assert_eq!(told.out.lines().nth(1), Some(line), "{}", told.err);
        assert_eq!(warnings(&told).len(), usize::from(!more.is_empty()));
    }
}

#[test]
fn what_has_no_correction_rests_on_nothing() {
    let new = "fixture,trim\nh,5.5\nk,\nj,8\n";
    let told = counted(OLD, new, &["--skip-incomplete"]);
    assert!(
        told.out.ends_with("h,5.5,1,4,\nk,,,,\nj,8,9,1,\n"),
        "{}",
        told.out
    );
    let few = "1 of 2 corrections rests on leaves with fewer than three fixtures of OLD: j (1)";
    assert_eq!(warnings(&told), [format!("{few}; {MORE}")]);
}

/// The file of a model does not have it, so nothing is added and nothing warned of.
#[test]
fn a_model_tells_nothing_of_it() {
    let folder = Folder::new("support");
    let (old, model) = (folder.write("old.csv", OLD), folder.path("model.rgf"));
    let words = ["fit", &old, "--target", "pan", "--no-bootstrap"];
    let fitted = run(&[&words[..], &["--model", &model]].concat());
    assert_eq!((fitted.status, warnings(&fitted).len()), (Some(0), 0));
    let new = folder.write("new.csv", "fixture,trim,support\nh,5.5,truss\nj,8,tower\n");
    let told = run(&["predict", &model, &new, "--target", "pan"]);
    assert_eq!(
        told.out,
        "fixture,trim,support,pan_correction\nh,5.5,truss,1\nj,8,tower,9\n"
    );
    assert_eq!(warnings(&told), [""; 0]);
}

/// `report` warns of the same, and the page has it.
#[test]
fn the_page_says_the_same() {
    let folder = Folder::new("thin");
    let (old, new) = (folder.write("old.csv", OLD), folder.write("new.csv", NEW));
    let files = [&*old, &new, "--target", "pan", "--no-bootstrap"];
    let page = run(&[&["report"], &files[..]].concat());
    let told = run(&[&["correct"], &files[..]].concat());
    assert_eq!(page.err, told.err);
    assert!(page.out.contains("<a href=\"#thin\">Thin support: 2</a>"));
    for row in [
        "<bdi>h</bdi></th><td>+1.00</td><td>+1.00</td><td>+1.00</td><td>4</td><td></td>",
        "<bdi>i</bdi></th><td>+4.00</td><td>+4.00</td><td>+4.00</td><td>2</td><td>thin support</td>",
        "<bdi>j</bdi></th><td>+9.00</td><td>1</td>",
    ] {
        assert!(page.out.contains(row), "{row}");
    }
}
