//! Corrections of the old show against out-of-bag means: how well the forest predicts fixtures that it did not see.

use crate::page::axis::Axis;
use crate::page::data::{Focused, Page};
use crate::page::html::{name, paragraph, section, table};
use crate::page::round::{Column, count, counted};
use crate::page::svg::{self, MANY, Plot};

/// How many of the fixtures that are missed by most are listed.
const WORST: usize = 5;

/// A fixture that has a mean, and its mean.
type Told<'a> = (&'a Focused, f64);

/// The part of the page with the picture, and the fixtures that are missed by most.
pub fn old(page: &Page) -> String {
    let told: Vec<Told> = page
        .focused
        .iter()
        .filter_map(|it| it.mean.map(|mean| (it, mean)))
        .collect();
    let body = match told.len() {
        0 => paragraph(
            "There is nothing to compare: no tree left a fixture out, so there are no out-of-bag means.",
        ),
        _ => {
            about(page, told.len())
                + "<div class=\"pair\">\n"
                + &picture(page, &told)
                + &worst(told)
                + "</div>\n"
        }
    };
    section("old", "The old show, predicted", &body)
}

fn about(page: &Page, told: usize) -> String {
    let lacking = match page.focused.len() - told {
        0 => String::new(),
        lacking => format!(
            " {} not shown, because no tree left {} out.",
            counted(lacking, "fixture is", "fixtures are"),
            if lacking == 1 { "it" } else { "them" }
        ),
    };
    paragraph(&format!(
        "Each dot is a fixture of the old show: the correction that it was focused with, and what the trees predict that did not see it. On the line, both are the same.{lacking}"
    ))
}

fn picture(page: &Page, told: &[Told]) -> String {
    let column = Column::of(told.iter().flat_map(|(it, mean)| [it.correction, *mean]));
    let axis = Axis::over(told.iter().flat_map(|(it, mean)| [it.correction, *mean]));
    let plot = Plot {
        id: "old-picture",
        title: format!("{} as focused and as predicted", page.target),
        about: format!(
            "{} of {}: the correction as focused across, the out-of-bag mean up, and the line on which both are the same.",
            counted(told.len(), "fixture", "fixtures"),
            page.old.file
        ),
        across: axis,
        up: Some(axis),
    };
    let place = |(it, mean): &Told| plot.place(it.correction, *mean);
    let mark = |told: &Told| {
        let tip = format!(
            "focused {}, predicted {}",
            column.signed(told.0.correction),
            column.signed(told.1)
        );
        svg::mark(place(told), "<circle r=\"3.6\"/>", &told.0.name, &tip)
    };
    let line = "<line class=\"same\" y1=\"100%\" x2=\"100%\"/>\n".to_owned();
    let marks: String = match told.len() {
        ..=MANY => told.iter().map(mark).collect(),
        _ => svg::dotted(&svg::dots("focused", told.iter().map(place))),
    };
    format!(
        "<figure class=\"old\">\n<p class=\"side\">↑ predicted without it</p>\n{}<p class=\"side across\">as focused →</p>\n</figure>\n",
        plot.draw(&(line + &marks))
    )
}

/// The fixtures that are missed by most.
fn worst(mut told: Vec<Told>) -> String {
    let column = Column::of(told.iter().flat_map(|(it, mean)| [it.correction, *mean]));
    let missed = |(it, mean): &Told| (mean / 2.0 - it.correction / 2.0).abs();
    told.sort_by(|a, b| missed(b).total_cmp(&missed(a)));
    let rows = told.iter().take(WORST).map(|(it, mean)| {
        [
            name(&it.name),
            column.signed(it.correction),
            column.signed(*mean),
            column.signed(mean - it.correction),
        ]
    });
    let caption = match told.len() {
        ..=WORST => "How far each is missed".to_owned(),
        all => format!("Missed by most: {WORST} of {}", count(all)),
    };
    let heads = [
        ("Fixture", false),
        ("Focused", true),
        ("Predicted", true),
        ("Difference", true),
    ];
    table("old", &caption, heads, rows)
}
