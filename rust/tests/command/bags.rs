//! What is told of a forest that leaves few fixtures out, or none.

use crate::json::parse;
use crate::{Folder, run, show};

/// The error of a small forest is over few fixtures, and is not to be trusted.
#[test]
fn a_small_forest_is_warned_of() {
    let old = show("old-house.csv");
    let words = ["fit", &old, "--target", "pan", "--n-trees"];
    let fit = |more: &[&str]| run(&[&words[..], more].concat());
    let json = parse(&fit(&["3", "--json"]).out);
    let fixtures = json.get("out_of_bag").get("fixtures").number().to_owned();
    assert!(fixtures.parse::<usize>().unwrap() < 108, "{fixtures}");
    let warning = format!(
        "only {fixtures} of 120 fixtures are left out by a tree, and the error says nothing of the others; grow at least 21 trees (--n-trees 21)"
    );
    assert_eq!(json.get("warnings").texts(), [warning.as_str()]);
    let text = fit(&["3"]).out;
    let over = format!("), over {fixtures} of 120 fixtures\nwarning: {warning}\n");
    assert!(text.contains(&over), "{text}");
    let new = show("new-house.csv");
    let files = [&*old, &new, "--target", "pan", "--n-trees", "3"];
    let corrected = run(&[&["correct"], &files[..]].concat());
    assert!(corrected.err.contains(&warning), "{}", corrected.err);
    let page = run(&[&["report"], &files[..]].concat());
    assert!(page.out.contains(&warning));

    for (enough, told) in [
        (&["21"][..], ", over 120 of 120 fixtures\nimportances"),
        (&["3", "--no-bootstrap"], "uses every fixture\nimportances"),
    ] {
        let text = fit(enough).out;
        assert!(text.contains(told), "{text}");
    }
}

/// Three fixtures, one of which is in every bag by its weight, and less: what is told of those that are left out, by seed.
#[test]
fn few_fixtures_are_told_of_in_words() {
    let folder = Folder::new("bags");
    let show = |rows: usize| {
        let all = "x,pan,weight\n1.5,1,1\n2,2,1\n3,3,1e9\n";
        let lines: Vec<&str> = all.lines().take(1 + rows).collect();
        folder.write(&format!("{rows}.csv"), &(lines.join("\n") + "\n"))
    };
    let fitted = |rows: usize, trees: &str, seed: usize| {
        let (show, seed) = (show(rows), seed.to_string());
        let target = ["fit", &show, "--target", "pan", "--weight", "weight"];
        run(&[&target[..], &["--n-trees", trees, "--seed", &seed]].concat()).out
    };
    let others = "and the error says nothing of the others";
    let unknown = "so it is not known how far off the corrections are";
    let none = "out-of-bag error: none, because every tree uses every fixture\nwarning: ";
    for (rows, trees, told) in [
        (
            3,
            "100",
            format!(
                ", over 2 of 3 fixtures\nwarning: only 2 of 3 fixtures are left out by a tree, {others}; grow more trees, or weigh the fixtures more evenly\n"
            ),
        ),
        (
            2,
            "1",
            format!(
                ", over 1 of 2 fixtures\nwarning: only 1 of 2 fixtures is left out by a tree, {others}; grow at least 19 trees (--n-trees 19)\n"
            ),
        ),
        (
            2,
            "1",
            format!(
                "{none}none of the 2 fixtures is left out by a tree, {unknown}; grow at least 19 trees (--n-trees 19)\n"
            ),
        ),
        (
            1,
            "100",
            format!(
                "{none}the only fixture is in the bag of every tree, {unknown}; fit two fixtures or more\n"
            ),
        ),
    ] {
        let texts: Vec<String> = (0..20).map(|seed| fitted(rows, trees, seed)).collect();
        assert!(
            texts.iter().any(|it| it.contains(&told)),
            "{told} in {texts:?}"
        );
    }
}
