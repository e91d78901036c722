//! All corrections, in the order of the new show.

use crate::page::data::{Fixture, Page};
use crate::page::first::Wide;
use crate::page::html::{in_unit, name, section, table};
use crate::page::round::{Column, count};

/// The part of the page with the table of all corrections.
pub fn all(page: &Page, wide: &Wide) -> String {
    let column = Column::of(
        page.fixtures
            .iter()
            .flat_map(|it| [it.correction, it.low, it.high]),
    );
    let rows = page.fixtures.iter().map(|it| {
        [
            name(&it.name),
            column.signed(it.correction),
            column.signed(it.low),
            column.signed(it.high),
            count(it.support as usize),
            note(page, wide, it),
        ]
    });
    let heads = [
        ("Fixture", false),
        ("Correction", true),
        ("Low", true),
        ("High", true),
        ("Support", true),
        ("Outside, wide or thin", false),
    ];
    let caption = format!(
        "Corrections of {}, in the order of {}",
        in_unit(&page.target, &page.unit),
        name(&page.new.file)
    );
    section(
        "all",
        "All corrections",
        &table("all", &caption, heads, rows),
    )
}

/// What lies outside, whether the spread is wide, and whether the support is thin.
fn note(page: &Page, wide: &Wide, fixture: &Fixture) -> String {
    let outside = fixture
        .outside
        .iter()
        .map(|it| name(&page.measurements[it.measurement].name));
    let wide = wide.has(fixture).then(|| "wide spread".to_owned());
    let thin = fixture.thin().then(|| "thin support".to_owned());
    let told = outside.chain(wide).chain(thin);
    told.collect::<Vec<_>>().join(", ")
}
