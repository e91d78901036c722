//! The page that `report` writes.

use crate::markup::{self, Element};
use crate::{Folder, Run, run, show};
use std::fs;

fn report(more: &[&str]) -> Run {
    let (old, new) = (show("old-house.csv"), show("new-house.csv"));
    let words = ["report", &old, &new, "--target", "pan"];
    run(&[&words, more].concat())
}

/// The page of a run, which must be well formed and refer to nothing that is not in it.
fn page(run: &Run) -> Vec<Element> {
    assert_eq!(run.status, Some(0), "{}", run.err);
    let elements = markup::read(&run.out).unwrap();
    markup::linked(&elements).unwrap();
    for outside in [
        "http:", "https:", "src=", "<script", "url(", "@import", "NaN",
    ] {
        assert!(!run.out.contains(outside), "{outside}");
    }
    elements
}

fn part<'a>(elements: &'a [Element], id: &str) -> &'a str {
    let section = elements.iter().find(|it| it.get("id") == Some(id));
    &section.unwrap().text
}

fn texts<'a>(elements: &'a [Element], name: &str) -> Vec<&'a str> {
    let named = elements.iter().filter(|it| it.name == name);
    named.map(|it| it.text.as_str()).collect()
}

/// The part of a page from one id to the next.
fn between<'a>(page: &'a str, id: &str, next: &str) -> &'a str {
    let behind = page.split_once(&format!("id=\"{id}\"")).unwrap().1;
    behind.split_once(next).unwrap().0
}

#[test]
fn the_page_stands_by_itself() {
    let told = report(&[]);
    let elements = page(&told);
    let first = &elements[0];
    assert_eq!(
        (first.name.as_str(), first.get("lang")),
        ("html", Some("en"))
    );
    let policy = elements.iter().find(|it| it.get("http-equiv").is_some());
    let policy = policy.and_then(|it| it.get("content")).unwrap();
    assert!(policy.starts_with("default-src 'none';"));
    let pictures = elements.iter().filter(|it| it.get("role") == Some("img"));
    assert_eq!(pictures.count(), 2);
    let headings = elements
        .iter()
        .filter(|it| ["h1", "h2"].contains(&it.name.as_str()));
    let headings: Vec<&str> = headings.map(|it| it.text.as_str()).collect();
    let order = [
        "pan corrections for new-house.csv",
        "What this was made from",
        "Outside the old show",
        "Wide spread",
        "Thin support",
        "The rig",
        "The old show, predicted",
        "What decides",
        "All corrections",
    ];
    assert_eq!(headings, order);
    let heads = elements.iter().filter(|it| it.name == "th");
    assert!(heads.into_iter().all(|it| it.get("scope").is_some()));
    assert!(told.err.contains("out-of-bag error: 0.9"), "{}", told.err);
}

#[test]
fn the_page_has_what_correct_writes() {
    let told = report(&[]);
    let elements = page(&told);
    let rig = between(&told.out, "rig", "<figcaption>");
    assert_eq!(rig.matches("<circle").count(), 120);
    let old = between(&told.out, "old", "</figure>");
    assert_eq!(old.matches("<circle").count(), 120);
    let (old, new) = (show("old-house.csv"), show("new-house.csv"));
    let corrected = run(&["correct", &old, &new, "--target", "pan", "--spread"]);
    let all = part(&elements, "all");
    let mut lines = corrected.out.lines();
    let names: Vec<&str> = lines.next().unwrap().split(',').collect();
    let column = |name: &str| names.iter().position(|it| *it == name).unwrap();
    let numbers = ["pan_correction", "pan_low", "pan_high"].map(column);
    let support = column("support");
    for line in lines {
        let cells: Vec<&str> = line.split(',').collect();
        let number = |at: usize| {
            let number: f64 = cells[at].parse().unwrap();
            format!("{number:+.2}")
        };
        let numbers = numbers.map(number).concat();
        let row = format!("{}{numbers}{}", cells[0], cells[support]);
        assert!(all.contains(&row), "{row}");
    }
    assert_eq!(
        between(&told.out, "all", "</table>")
            .matches("<tr>")
            .count(),
        121
    );
}

#[test]
fn the_forest_and_its_error_are_on_the_page() {
    let told = report(&["--seed", "7", "--n-trees", "1"]);
    let elements = page(&told);
    let made = part(&elements, "made");
    assert!(
        made.contains("1 tree with ") && made.contains("seed 7"),
        "{made}"
    );
    let over = told.err.split("), over ").nth(1).unwrap();
    let over = over.split(" fixtures").next().unwrap();
    assert!(
        made.contains(&format!("over {over} fixtures")),
        "{over} in {made}"
    );
    let shown: usize = over.split(' ').next().unwrap().parse().unwrap();
    let lacking = format!("{} fixtures are not shown", 120 - shown);
    assert!(part(&elements, "old").contains(&lacking), "{lacking}");
    let elements = page(&report(&["--no-bootstrap"]));
    assert!(part(&elements, "old").contains("nothing to compare"));
    assert!(part(&elements, "made").contains("no tree left a fixture out"));
}

#[test]
fn a_page_goes_where_it_is_sent() {
    let folder = Folder::new("page");
    let out = folder.path("report.html");
    let told = report(&["--out", &out]);
    assert_eq!((told.status, told.out.as_str()), (Some(0), ""));
    assert_eq!(fs::read_to_string(&out).unwrap(), report(&[]).out);
    assert_eq!(folder.files(), 1);
    let own = show("new-house.csv");
    assert_eq!(report(&["--out", &own]).status, Some(2));
}

#[test]
fn the_measurements_of_the_picture_can_be_chosen() {
    let sides = |more: &[&str]| {
        let elements = page(&report(more));
        let sides = elements
            .iter()
            .filter(|it| it.get("class").is_some_and(|it| it.starts_with("side")));
        let sides = sides.map(|it| it.text.clone());
        sides
            .take_while(|it| !it.contains("predicted"))
            .collect::<Vec<_>>()
    };
    assert_eq!(sides(&[]), ["↑ mounting_angle", "truss_offset →"]);
    assert_eq!(
        sides(&["--plot", "trim_height,truss_offset"]),
        ["↑ truss_offset", "trim_height →"]
    );
    assert_eq!(sides(&["--plot", "trim_height"]), ["trim_height →"]);
}

#[test]
fn other_columns_cannot_be_chosen() {
    for (plot, status, why) in [
        (
            "truss",
            1,
            "--plot truss: the forest does not go by this column; it goes by trim_height, truss_offset, mounting_angle",
        ),
        (
            "trim_height,trim_height",
            2,
            "--plot trim_height,trim_height: one measurement or two different ones are required",
        ),
        (
            "trim_height,truss_offset,mounting_angle",
            2,
            "one measurement or two different ones are required",
        ),
    ] {
        let told = report(&["--plot", plot]);
        assert_eq!(
            (told.status, told.out.as_str()),
            (Some(status), ""),
            "{plot}"
        );
        assert!(told.err.contains(why), "{}", told.err);
    }
}

/// The page about two small shows.
fn small(old: &str, new: &str, more: &[&str]) -> Run {
    let folder = Folder::new("small");
    let (old, new) = (folder.write("old.csv", old), folder.write("new.csv", new));
    let words = ["report", &old, &new, "--target", "pan"];
    run(&[&words, more].concat())
}

const OLD: &str = "fixture,x,y,pan\na,1.5,10,0\nb,2,20,1\nc,3,30,-1\nd,4,50,2\n";

#[test]
fn what_lies_outside_comes_first() {
    let told = small(OLD, "fixture,x,y\ne,2,20\nf,4.5,5\ng,3,40\n", &[]);
    let elements = page(&told);
    let outside = part(&elements, "outside");
    assert!(
        outside.contains("1 fixture of the new show lies outside"),
        "{outside}"
    );
    for row in [
        "x: 1 fixture; the old show has 1.5 to 4\n",
        "fx 4.50.5 above",
        "fy 55 below",
    ] {
        assert!(outside.contains(row), "{row} in {outside}");
    }
    assert!(part(&elements, "all").contains("x, y"));
    let rig = between(&told.out, "rig", "<figcaption>");
    assert_eq!(rig.matches("class=\"out\"").count(), 1);
    let none = small(OLD, "fixture,x,y\ne,2,20\n", &[]);
    assert!(part(&page(&none), "outside").contains("None"));
    let strict = small(OLD, "fixture,x,y\ne,2,20\nf,4.5,5\n", &["--strict"]);
    assert_eq!((strict.status, strict.out.as_str()), (Some(1), ""));
}

#[test]
fn what_is_noted_about_the_tables_is_on_the_page() {
    let old = OLD.replace("fixture,", "unit;fixture,").replace(',', ";");
    let old = old
        .replace("\na", "\n1;a")
        .replace("\nb", "\n2;b")
        .replace("\nc", "\n3;c")
        .replace("\nd", "\n4;d");
    let new = "unit;fixture;x;y\n1;e;2,5;20\n2;f;;30\n";
    let told = small(&old.replace('.', ","), new, &["--skip-incomplete"]);
    let elements = page(&told);
    let made = part(&elements, "made");
    for note in [
        "column unit: left out",
        "no correction for 1 of 2 fixtures",
        "numbers on this page have a decimal point",
    ] {
        assert!(made.contains(note), "{note} in {made}");
    }
    assert!(made.contains("new.csv, 1 fixture\n"), "{made}");
    assert!(!part(&elements, "all").contains("f+"));
}

#[test]
fn one_measurement_makes_a_strip() {
    let told = small("x,pan\n1.5,0\n2,1\n4,-1\n", "x\n1.5\n2\n2\n", &[]);
    page(&told);
    assert!(told.out.contains("<div class=\"plot strip\""));
    let rig = between(&told.out, "rig", "<figcaption>");
    assert_eq!(rig.matches("<circle").count(), 3);
    assert!(
        told.out.contains("line 2"),
        "what has no name is named by its line"
    );
}

#[test]
fn equal_and_very_large_corrections() {
    let told = small("x,pan\n1.5,0.5\n2,0.5\n4,0.5\n", "x\n1.5\n2\n", &[]);
    let elements = page(&told);
    assert!(part(&elements, "rig").contains("+0.5 2 fixtures"));
    assert!(part(&elements, "weigh").contains("no tree has a split"));
    let old = "x,pan\n1e300,1e100\n-1e300,-1e100\n0,0\n";
    let told = small(old, "x\n1e300\n-1e300\n", &["--no-bootstrap"]);
    let elements = page(&told);
    let all = part(&elements, "all");
    assert!(all.contains("line 2+1e100+1e100+1e100"), "{all}");
    assert!(part(&elements, "rig").contains("-1e100 to -5e99"));
}

#[test]
fn names_are_no_markup() {
    let name = "<b>&\"'</th><script>alert(1)</script>";
    let cell = format!("\"{}\"", name.replace('"', "\"\""));
    let old = format!("fixture,{cell},pan\n{cell},1,0\nz,2,1\n");
    let new = format!("fixture,{cell}\n{cell},3\ny,1.5\n");
    let told = small(&old, &new, &[]);
    let elements = page(&told);
    assert!(texts(&elements, "bdi").contains(&name));
    assert!(
        !elements
            .iter()
            .any(|it| ["b", "script"].contains(&it.name.as_str()))
    );
    assert!(part(&elements, "outside").contains(name));
}

#[test]
fn the_reader_of_pages_is_strict() {
    let page = |body: &str| format!("<!DOCTYPE html>\n<html>{body}</html>\n");
    assert!(markup::read(&page("<p id=\"a\">a &lt; b<wbr></p><svg><g/></svg>")).is_ok());
    for wrong in [
        "<p>",
        "</p>",
        "<p></b></p>",
        "<p id=a></p>",
        "<p id=\"a\" id=\"b\"></p>",
        "<p id=\"a\"class=\"b\"></p>",
        "a & b",
        "a < b",
        "<p title=\"&x\"></p>",
        "<>",
        "\u{7}",
        "</html>x<html>",
    ] {
        assert!(markup::read(&page(wrong)).is_err(), "{wrong}");
    }
    assert!(markup::read("<html></html>").is_err());
    let linked = |body: &str| markup::linked(&markup::read(&page(body)).unwrap());
    assert!(linked("<p id=\"a\"></p><a href=\"#a\"></a>").is_ok());
    for wrong in [
        "<a href=\"#a\"></a>",
        "<p id=\"a\"></p><p id=\"a\"></p>",
        "<p aria-labelledby=\"a b\" id=\"a\"></p>",
        "<a href=\"a\"></a>",
    ] {
        assert!(linked(wrong).is_err(), "{wrong}");
    }
}
