//! Pages made from plain data: the usual one, and those at the edges.

#[path = "../../../tests/command/markup.rs"]
mod markup;

use crate::page::data::{Fixture, Focused, Forest, Measurement, Outside, Page, Source};
use crate::page::write;
use markup::Element;
use tailboardy::OutOfBagError;

fn measurement(name: &str, unit: &str, importance: f64, high: f64) -> Measurement {
    Measurement {
        name: name.into(),
        unit: unit.into(),
        importance,
        low: 0.0,
        high,
        units: None,
    }
}

fn fixture(row: usize, part: f64, size: f64) -> Fixture {
    Fixture {
        name: format!("F-{row}"),
        at: [9.0 * size * part, 7.0 * size * (row % 7) as f64 / 7.0],
        correction: size * (part - 0.5),
        low: size * (part - 0.6),
        high: size * (part - 0.4),
        support: 3 + row as u32 % 40,
        outside: Vec::new(),
    }
}

/// A rig with this many fixtures, all of whose numbers are multiplied by a size.
fn rig(fixtures: usize, size: f64) -> Page {
    let part = |row: usize| row as f64 / fixtures as f64;
    let source = |file: &str| Source {
        file: file.into(),
        fixtures,
    };
    let focused = |row: usize| Focused {
        name: format!("F-{row}"),
        correction: size * (part(row) - 0.5),
        mean: (row % 5 > 0).then_some(size * (part(row) - 0.45)),
    };
    let told = (0..fixtures).filter(|row| row % 5 > 0).count();
    Page {
        target: "pan".into(),
        unit: "°".into(),
        old: source("shows/old.csv"),
        new: source("shows/new.csv"),
        forest: Forest {
            trees: 100,
            nodes: 1234,
            seed: 5,
            error: (told > 0).then_some(OutOfBagError {
                error: 0.25,
                rows: told,
            }),
        },
        measurements: vec![
            measurement("offset", "m", 0.75, 9.0 * size),
            measurement("height", "", 0.25, 7.0 * size),
        ],
        across: 0,
        up: Some(1),
        fixtures: (0..fixtures)
            .map(|row| fixture(row, part(row), size))
            .collect(),
        focused: (0..fixtures).map(focused).collect(),
        notes: vec!["a < b".into()],
    }
}

/// The page, which must be in order: well formed, with every id that it refers to, and without a word for what is not a number.
fn read(page: &Page) -> (String, Vec<Element>) {
    let text = write(page);
    let elements = markup::read(&text).unwrap();
    markup::linked(&elements).unwrap();
    for word in ["NaN", "inf<", "inf ", "inf%", "inf\"", "-0.00<", ">-0<"] {
        assert!(!text.contains(word), "{word}");
    }
    (text, elements)
}

fn texts<'a>(elements: &'a [Element], name: &str) -> Vec<&'a str> {
    let named = elements.iter().filter(|it| it.name == name);
    named.map(|it| it.text.as_str()).collect()
}

/// What a page says in one of its parts.
fn part<'a>(elements: &'a [Element], id: &str) -> &'a str {
    let section = elements.iter().find(|it| it.get("id") == Some(id));
    &section.unwrap().text
}

#[test]
fn what_is_urgent_comes_first() {
    let (_, elements) = read(&rig(30, 1.0));
    let headings = [
        "What this was made from",
        "Outside the old show",
        "Wide spread",
        "Thin support",
        "The rig",
        "The old show, predicted",
        "What decides",
        "All corrections",
    ];
    assert_eq!(texts(&elements, "h2"), headings);
    assert_eq!(texts(&elements, "h1"), ["pan corrections for new.csv"]);
    let made = part(&elements, "made");
    for told in [
        "shows/old.csv, 30 fixtures",
        "100 trees with 1,234 nodes, seed 5",
        "0.25, over 24 of 30 fixtures; the others were left out by no tree and do not count; its square root is 0.5",
        "a < b",
    ] {
        assert!(made.contains(told), "{told} in {made}");
    }
    let (_, elements) = read(&rig(5, 1.0));
    let told =
        "0.25, over 4 of 5 fixtures; the other one was left out by no tree and does not count;";
    assert!(part(&elements, "made").contains(told));
}

#[test]
fn what_lies_outside_is_told_and_marked() {
    let mut page = rig(30, 1.0);
    let beyond = |measurement: usize, value: f64| Outside { measurement, value };
    page.fixtures[3].outside = vec![beyond(0, 9.5)];
    page.fixtures[4].outside = vec![beyond(0, -1.25), beyond(1, 8.0)];
    page.measurements[0].units = Some(("feet", "metres"));
    let (_, elements) = read(&page);
    let outside = part(&elements, "outside");
    assert!(outside.contains("2 fixtures of the new show lie outside"));
    let rows = [
        "offset: 2 fixtures; the old show has 0 to 9\u{a0}m; its values look like feet, those of the old show like metres\n",
        "height: 1 fixture; the old show has 0 to 7\n",
        "F-4height 8",
        "F-4offset -1.25\u{a0}m",
        "F-3offset 9.5\u{a0}m",
    ];
    let found = rows.map(|row| outside.find(row));
    assert!(
        found.iter().all(Option::is_some) && found.is_sorted(),
        "{outside}"
    );
    assert!(outside.contains("0.5\u{a0}m above") && outside.contains("1.25\u{a0}m below"));
    let marked = elements.iter().filter(|it| it.get("class") == Some("out"));
    assert_eq!(marked.count(), 3, "one in the legend");
    let all = part(&elements, "all");
    assert!(all.contains("Corrections of pan in °") && all.contains("offset, height"));
}

#[test]
fn wide_spreads_are_told() {
    let mut page = rig(30, 1.0);
    page.fixtures[7].high += 0.3;
    page.fixtures[8].low -= 0.4;
    let (_, elements) = read(&page);
    let wide = part(&elements, "wide");
    assert!(wide.contains("2 fixtures have more than twice the usual spread"));
    assert!(wide.find("F-8") < wide.find("F-7"), "the widest first");
    assert_eq!(part(&elements, "all").matches("wide spread").count(), 2);
    assert!(part(&read(&rig(30, 1.0)).1, "wide").contains("None"));
    let mut page = rig(60, 1.0);
    let some = page.fixtures.iter_mut().take(29);
    some.for_each(|it| it.high = it.low + 1.0);
    let (_, elements) = read(&page);
    let wide = part(&elements, "wide");
    assert!(wide.contains("29 fixtures have") && wide.contains("And 9 more"));
}

#[test]
fn thin_supports_are_told() {
    let mut page = rig(30, 1.0);
    let none = "None: every correction rests on leaves with three fixtures or more.";
    assert!(part(&read(&page).1, "thin").contains(none));
    assert!(!part(&read(&page).1, "all").contains("thin support"));
    page.fixtures[7].support = 2;
    page.fixtures[9].support = 1;
    page.fixtures[11].support = 1_234;
    let (_, elements) = read(&page);
    let thin = part(&elements, "thin");
    assert!(thin.contains("2 corrections rest on leaves with fewer than three fixtures."));
    assert!(thin.contains("--min-samples-leaf 3"));
    assert!(thin.find("F-9-0.2001") < thin.find("F-7-0.2672"), "{thin}");
    let all = part(&elements, "all");
    assert_eq!(all.matches("thin support").count(), 2);
    for row in [
        "F-7-0.267-0.367-0.1672thin support",
        "F-11-0.133-0.233-0.0331,234",
    ] {
        assert!(all.contains(row), "{row} in {all}");
    }
    page.fixtures.iter_mut().for_each(|it| it.support = 1);
    let (text, elements) = read(&page);
    let every = "Every correction rests on leaves with fewer than three fixtures.";
    assert!(part(&elements, "thin").contains(every));
    assert!(text.contains("Thin support: 30</a>"));
    page.fixtures[0].support = 3;
    assert!(part(&read(&page).1, "thin").contains("And 9 more"));
}

/// How often an element is in the picture of the rig: those of the legend come behind it.
fn in_rig(text: &str, element: &str) -> usize {
    let picture = text.split_once("rig-picture").unwrap().1;
    let picture = picture.split_once("<figcaption>").unwrap().0;
    picture.matches(element).count()
}

#[test]
fn every_fixture_is_in_the_picture_and_in_the_table() {
    let mut page = rig(999, 1.0);
    page.fixtures[0].correction = 0.0;
    let (text, elements) = read(&page);
    assert_eq!(in_rig(&text, "<circle"), 999);
    let plus = page.fixtures.iter().filter(|it| it.correction > 0.0);
    assert_eq!(in_rig(&text, "M0-2.4v4.8"), plus.count(), "signs");
    assert_eq!(in_rig(&text, "<path"), 998, "zero has no sign");
    assert!(
        text.contains("<title>F-1: -0.499 (offset 0.00900900901 m, height 1); support 4</title>")
    );
    assert!(part(&elements, "rig").contains("-0.6 to -0.4"));
    assert_eq!(text.matches("<th scope=\"row\"><bdi>F-").count(), 999 + 5);
}

#[test]
fn many_fixtures_are_dots() {
    let mut page = rig(5000, 1.0);
    page.fixtures[9].outside = vec![Outside {
        measurement: 0,
        value: 10.0,
    }];
    let (text, elements) = read(&page);
    assert_eq!(in_rig(&text, "<circle"), 0);
    assert_eq!(in_rig(&text, "h0"), 5000 + 1, "the one outside has a rim");
    assert_eq!(in_rig(&text, "class=\"rim\""), 1);
    assert!(part(&elements, "rig").contains("too many of them"));
    assert!(part(&elements, "all").contains("F-4999"));
    let mut page = rig(65_535, 1.0);
    page.fixtures.iter_mut().for_each(|it| it.support = 1);
    let most = write(&page).len();
    assert!(most < 9_000_000, "{most}");
}

#[test]
fn one_measurement_makes_a_strip() {
    let mut page = rig(30, 1.0);
    page.measurements.truncate(1);
    page.up = None;
    page.fixtures.iter_mut().for_each(|it| it.at = [3.0, 0.0]);
    let (text, _) = read(&page);
    assert!(text.contains("<div class=\"plot strip\""));
    assert_eq!(in_rig(&text, "<circle"), 30);
    let rows = ["y=\"8.00%\"><g>", "y=\"50.00%\"><g>", "y=\"92.00%\"><g>"];
    let used = rows.map(|row| in_rig(&text, row));
    assert!(used.iter().all(|it| (4..=5).contains(it)), "{used:?}");
    let (text, elements) = read(&rig(1, 1.0));
    assert_eq!(in_rig(&text, "<circle"), 1);
    assert!(part(&elements, "rig").contains("-0.5 1 fixture"));
}

#[test]
fn fixtures_at_the_same_place_are_counted() {
    let mut page = rig(30, 1.0);
    assert!(!part(&read(&page).1, "rig").contains("same place"));
    page.fixtures[1].at = page.fixtures[0].at;
    assert!(part(&read(&page).1, "rig").contains("1 fixture is at the same place"));
}

#[test]
fn what_is_no_number_is_told_in_words() {
    let mut page = rig(30, 1.0);
    let measurements = page.measurements.iter_mut();
    measurements.for_each(|it| it.importance = 0.0);
    page.fixtures[0].low = -1.7e308;
    page.fixtures[0].high = 1.7e308;
    let (_, elements) = read(&page);
    assert!(part(&elements, "weigh").contains("no tree has a split"));
    assert!(part(&elements, "wide").contains("1.7e308not a number"));
    page.focused.iter_mut().for_each(|it| it.mean = None);
    page.forest.error = None;
    let (text, elements) = read(&page);
    assert!(part(&elements, "made").contains("none, because no tree left a fixture out"));
    assert!(part(&elements, "old").contains("nothing to compare"));
    assert!(!text.contains("old-picture"));
    for size in [1e300, 1.9e307, 1e-300, 0.0] {
        let mut page = rig(30, size);
        page.fixtures[3].outside = vec![Outside {
            measurement: 0,
            value: -size,
        }];
        assert_eq!(in_rig(&read(&page).0, "<circle"), 30, "{size}");
    }
    page.fixtures.iter_mut().for_each(|it| it.correction = 1.25);
    assert!(part(&read(&page).1, "rig").contains("+1.25 30 fixtures"));
}

#[test]
fn importances_are_bars() {
    let mut page = rig(30, 1.0);
    let (text, elements) = read(&page);
    assert!(text.contains("<rect width=\"75.00%\" height=\"100%\"/>"));
    let weigh = part(&elements, "weigh");
    assert!(
        weigh.find("offset75.0\u{a0}%") < weigh.find("height25.0\u{a0}%"),
        "{weigh}"
    );
    let more = (0..30).map(|it| measurement(&format!("m{it}"), "", 0.0001, 1.0));
    page.measurements.extend(more);
    let (_, elements) = read(&page);
    assert!(part(&elements, "weigh").contains("12 others together0.1\u{a0}%"));
    assert!(part(&elements, "made").contains("and 12 more"));
}

#[test]
fn nothing_in_a_table_is_taken_for_markup() {
    let mut page = rig(3, 1.0);
    let name = "<b>&\"'</td><script>";
    page.target = name.into();
    page.old.file = name.into();
    page.new.file = name.into();
    page.notes = vec![name.into()];
    page.measurements
        .iter_mut()
        .for_each(|it| (it.name, it.unit) = (name.into(), name.into()));
    page.fixtures
        .iter_mut()
        .for_each(|it| it.name = format!("{name}{}", "x".repeat(9000)));
    page.focused.iter_mut().for_each(|it| it.name = name.into());
    page.fixtures[0].outside = vec![Outside {
        measurement: 0,
        value: 10.0,
    }];
    let (text, elements) = read(&page);
    assert!(
        !elements
            .iter()
            .any(|it| ["b", "script"].contains(&it.name.as_str()))
    );
    assert!(texts(&elements, "h1")[0].starts_with(name));
    assert!(texts(&elements, "bdi").contains(&name));
    assert!(text.len() < 40_000, "long names are cut: {}", text.len());
    for mark in ["http:", "https:", "src=", "<script", "url(", "@import"] {
        assert!(!text.contains(mark), "{mark}");
    }
}
