//! What to look at first: fixtures that lie outside the range of the old show, fixtures that the trees disagree about, and corrections that
//! rest on few fixtures.

use crate::page::data::{Fixture, Outside, Page};
use crate::page::html::{name, paragraph, section, table, with_unit};
use crate::page::round::{Column, count, counted, rounded};

/// How many fixtures each list has at most.
const LISTED: usize = 20;

/// How many times the usual spread a spread has to be to count as wide.
const WIDE: f64 = 2.0;

/// The fixtures of the page whose spread is wide, the widest first: more than twice that of the fixture in the middle.
pub struct Wide<'a> {
    pub fixtures: Vec<&'a Fixture>,
    usual: f64,
}

impl<'a> Wide<'a> {
    pub fn of(page: &'a Page) -> Self {
        let mut spreads: Vec<f64> = page.fixtures.iter().map(Fixture::spread).collect();
        spreads.sort_by(f64::total_cmp);
        let usual = spreads.get(spreads.len() / 2).copied().unwrap_or(0.0);
        let mut fixtures: Vec<&Fixture> = page
            .fixtures
            .iter()
            .filter(|it| it.spread() > usual * WIDE)
            .collect();
        fixtures.sort_by(|a, b| b.spread().total_cmp(&a.spread()));
        Wide { fixtures, usual }
    }

    pub fn has(&self, fixture: &Fixture) -> bool {
        fixture.spread() > self.usual * WIDE
    }
}

/// The part of the page with the fixtures that lie outside.
pub fn outside(page: &Page) -> String {
    let all = page.fixtures.iter().flat_map(|fixture| {
        let outside = fixture.outside.iter();
        outside.map(move |outside| (fixture, outside))
    });
    let all: Vec<Beyond> = all.collect();
    let body = match page.outside().count() {
        0 => paragraph(
            "None: every measurement of the new show lies within the range of the old one.",
        ),
        number => {
            let lie = counted(
                number,
                "fixture of the new show lies",
                "fixtures of the new show lie",
            );
            let told = format!(
                "{lie} outside the range of the old show. The forest knows nothing about such values: it treats them like the nearest ones that it has seen. Check the measurement first, then the correction."
            );
            paragraph(&told) + &ranges(page, &all) + &beyond(page, all)
        }
    };
    section("outside", "Outside the old show", &body)
}

/// A fixture and a measurement of it that lies outside.
type Beyond<'a> = (&'a Fixture, &'a Outside);

/// For each measurement that has values outside: of how many fixtures, the range of the old show, and whether the units may differ.
fn ranges(page: &Page, all: &[Beyond]) -> String {
    let mut text = String::from("<ul class=\"notes\">\n");
    for (at, it) in page.measurements.iter().enumerate() {
        let within = all.iter().filter(|(_, outside)| outside.measurement == at);
        let number = within.count();
        if number == 0 {
            continue;
        }
        let units = it.units.map(|(new, old)| {
            format!("; its values look like {new}, those of the old show like {old}")
        });
        text += &format!(
            "<li>{}: {}; the old show has {} to {}{}</li>\n",
            name(&it.name),
            counted(number, "fixture", "fixtures"),
            rounded(it.low, 9),
            with_unit(&rounded(it.high, 9), &it.unit),
            units.unwrap_or_default()
        );
    }
    text + "</ul>\n"
}

/// What lies outside, the farthest first, as a part of the old show's range.
fn beyond(page: &Page, mut all: Vec<Beyond>) -> String {
    let far = |(_, outside): &Beyond| {
        let range = &page.measurements[outside.measurement];
        page.beyond(outside) / (range.high - range.low)
    };
    all.sort_by(|a, b| far(b).total_cmp(&far(a)));
    let column = Column::of(page.fixtures.iter().map(|it| it.correction));
    let rows = all.iter().take(LISTED).map(|(fixture, outside)| {
        let it = &page.measurements[outside.measurement];
        let above = outside.value > it.high;
        let by = rounded(page.beyond(outside), 3);
        let value = rounded(outside.value, 9);
        [
            name(&fixture.name),
            format!("{} {}", name(&it.name), with_unit(&value, &it.unit)),
            with_unit(&by, &it.unit) + if above { " above" } else { " below" },
            column.signed(fixture.correction),
        ]
    });
    let heads = [
        ("Fixture", false),
        ("Measurement", false),
        ("Outside by", false),
        ("Correction", true),
    ];
    let caption = "Measurements outside, the farthest first";
    table("outside", caption, heads, rows) + &more(all.len())
}

/// The part of the page with the fixtures whose spread is wide.
pub fn wide(page: &Page, wide: &Wide) -> String {
    let column = Column::of(page.fixtures.iter().flat_map(|it| [it.low, it.high]));
    let usual = column.write(wide.usual);
    let meant = format!(
        "The spread is what lies between a tenth of the trees and nine tenths of them; half of the fixtures have a spread of {usual} or less."
    );
    let body = match wide.fixtures.len() {
        0 => paragraph(&format!(
            "None: no fixture has more than twice the usual spread. {meant}"
        )),
        number => {
            let has = counted(number, "fixture has", "fixtures have");
            let told = format!(
                "{has} more than twice the usual spread: the trees disagree about the correction. {meant}"
            );
            paragraph(&told) + &apart(&wide.fixtures, column)
        }
    };
    section("wide", "Wide spread", &body)
}

fn apart(fixtures: &[&Fixture], column: Column) -> String {
    let rows = fixtures.iter().take(LISTED).map(|it| {
        [
            name(&it.name),
            column.signed(it.correction),
            column.signed(it.low),
            column.signed(it.high),
            column.write(it.spread()),
        ]
    });
    let heads = [
        ("Fixture", false),
        ("Correction", true),
        ("Low", true),
        ("High", true),
        ("Spread", true),
    ];
    table("wide", "Wide spreads, the widest first", heads, rows) + &more(fixtures.len())
}

/// The part of the page with the corrections that rest on few fixtures.
pub fn thin(page: &Page) -> String {
    let meant = "The support of a correction is how many fixtures of the old show are in the leaf that its fixture comes to: the median of all trees. A fixture that is in the bag of a tree twice counts twice.";
    let how = match page.old.fixtures {
        0..3 => "Fit three fixtures or more.",
        _ => "For larger leaves: <code>--min-samples-leaf 3</code>.",
    };
    let thin: Vec<&Fixture> = page.thin().collect();
    let body = match thin.len() {
        0 => paragraph(&format!(
            "None: every correction rests on leaves with three fixtures or more. {meant}"
        )),
        number if number == page.fixtures.len() => paragraph(&format!(
            "Every correction rests on leaves with fewer than three fixtures. {meant} {how}"
        )),
        number => {
            let rest = counted(number, "correction rests", "corrections rest");
            let told = format!("{rest} on leaves with fewer than three fixtures. {meant} {how}");
            paragraph(&told) + &fewest(page, thin)
        }
    };
    section("thin", "Thin support", &body)
}

fn fewest(page: &Page, mut thin: Vec<&Fixture>) -> String {
    thin.sort_by_key(|it| it.support);
    let column = Column::of(page.fixtures.iter().map(|it| it.correction));
    let rows = thin.iter().take(LISTED).map(|it| {
        [
            name(&it.name),
            column.signed(it.correction),
            it.support.to_string(),
        ]
    });
    let heads = [("Fixture", false), ("Correction", true), ("Support", true)];
    table("thin", "Thin supports, the fewest first", heads, rows) + &more(thin.len())
}

/// How many more there are than are listed.
fn more(number: usize) -> String {
    match number.saturating_sub(LISTED) {
        0 => String::new(),
        more => paragraph(&format!(
            "And {} more, which the table of all corrections has.",
            count(more)
        )),
    }
}
