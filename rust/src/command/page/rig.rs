//! The picture of the rig: fixtures placed by two measurements, or along one, and drawn by their corrections.

use crate::page::axis::Axis;
use crate::page::data::{Fixture, Page};
use crate::page::html::{in_unit, paragraph, section};
use crate::page::legend::{self, drawn, sign, tinted};
use crate::page::round::{Column, count, counted, rounded};
use crate::page::scale::{Class, Scale};
use crate::page::svg::{self, MANY, Place, Plot};

/// The rows that fixtures of a strip are drawn in, in hundredths of its height from the top. The first is taken first.
const LANES: [f64; 7] = [50.0, 36.0, 64.0, 22.0, 78.0, 8.0, 92.0];

/// How far apart the fixtures in one row of a strip are at least, in hundredths of its width.
const APART: f64 = 4.0;

/// The part of the page with the picture, its legend, and what has to be said about both.
pub fn rig(page: &Page) -> String {
    let scale = Scale::over(page.fixtures.iter().map(|fixture| fixture.correction));
    let plot = plot(page);
    let places = places(page, &plot);
    let inside = match places.len() {
        ..=MANY => marks(page, &places, &scale),
        _ => dots(page, &places, &scale),
    };
    let label = |side: usize| {
        let it = &page.measurements[side];
        in_unit(&it.name, &it.unit)
    };
    let up = page
        .up
        .map(|up| format!("<p class=\"side\">↑ {}</p>\n", label(up)));
    let body = format!(
        "{}<figure class=\"rig\">\n{}{}<p class=\"side across\">{} →</p>\n{}</figure>\n",
        paragraph(&about(page)),
        up.unwrap_or_default(),
        plot.draw(&(range(page, &plot) + &inside)),
        label(page.across),
        legend::legend(page, &scale),
    );
    section("rig", "The rig", &body)
}

fn plot(page: &Page) -> Plot<'static> {
    let axis = |side: usize, at: usize| {
        let old = &page.measurements[side];
        let new = page.fixtures.iter().map(|fixture| fixture.at[at]);
        Axis::over(new.chain([old.low, old.high]))
    };
    let up = page
        .up
        .map(|up| format!(" and {}", page.measurements[up].name));
    Plot {
        id: "rig-picture",
        title: format!("{} corrections in the rig", page.target),
        about: format!(
            "{} of {}, placed by {}{}; {} outside the range of the old show. The table of all corrections has the numbers.",
            counted(page.fixtures.len(), "fixture", "fixtures"),
            page.new.file,
            page.measurements[page.across].name,
            up.unwrap_or_default(),
            counted(page.outside().count(), "fixture lies", "fixtures lie"),
        ),
        across: axis(page.across, 0),
        up: page.up.map(|up| axis(up, 1)),
    }
}

/// What the picture shows, in words.
fn about(page: &Page) -> String {
    let shown = match page.fixtures.len() {
        ..=MANY => {
            "Each mark is a fixture of the new show, with the sign and the tint of its correction; the larger the mark, the larger the correction."
        }
        _ => {
            "Each dot is a fixture of the new show, in the tint of its correction: round from zero on, square below zero. There are too many of them for marks that tell more, and where they cover each other, the larger correction is on top."
        }
    };
    let mut places: Vec<[u64; 2]> = page
        .fixtures
        .iter()
        .map(|it| it.at.map(f64::to_bits))
        .collect();
    places.sort_unstable();
    places.dedup();
    let hidden = match page.fixtures.len() - places.len() {
        hidden if hidden > 0 && page.up.is_some() => format!(
            " {} at the same place as another one.",
            counted(hidden, "fixture is", "fixtures are")
        ),
        _ => String::new(),
    };
    format!("{shown} The shaded area is the range of the old show.{hidden}")
}

/// The range of the old show as a shaded area.
fn range(page: &Page, plot: &Plot) -> String {
    let ends = |side: usize| [page.measurements[side].low, page.measurements[side].high];
    let [left, right] = ends(page.across).map(|it| plot.across.place(it));
    let [low, high] = match (page.up, plot.up) {
        (Some(up), Some(axis)) => ends(up).map(|it| axis.place(it)),
        _ => [0.0, 100.0],
    };
    format!(
        "<rect class=\"range\" x=\"{left:.2}%\" y=\"{:.2}%\" width=\"{:.2}%\" height=\"{:.2}%\"/>\n",
        100.0 - high,
        right - left,
        high - low
    )
}

/// The place of each fixture. In a strip it is in the first row in which it covers no other fixture; if there is none, rows take turns.
fn places(page: &Page, plot: &Plot) -> Vec<Place> {
    let fixtures = page.fixtures.iter();
    let mut places: Vec<Place> = fixtures.map(|it| plot.place(it.at[0], it.at[1])).collect();
    if page.up.is_some() {
        return places;
    }
    let mut order: Vec<usize> = (0..places.len()).collect();
    order.sort_by(|a, b| places[*a].0.total_cmp(&places[*b].0));
    let mut last = [f64::NEG_INFINITY; LANES.len()];
    for (turn, at) in order.into_iter().enumerate() {
        let left = places[at].0;
        let free = last.iter().position(|it| left - it >= APART);
        let lane = free.unwrap_or(turn % LANES.len());
        last[lane] = left;
        places[at].1 = LANES[lane];
    }
    places
}

/// A mark for each fixture; the small ones and those outside come last, so that no other one covers them.
fn marks(page: &Page, places: &[Place], scale: &Scale) -> String {
    let column = Column::of(page.fixtures.iter().map(|fixture| fixture.correction));
    let class = |at: usize| scale.class_of(page.fixtures[at].correction);
    let mut order: Vec<usize> = (0..page.fixtures.len()).collect();
    order.sort_by_key(|at| (!page.fixtures[*at].outside.is_empty(), -class(*at).tint));
    let mark = |at: usize| {
        let fixture = &page.fixtures[at];
        let drawn = drawn(
            class(at),
            sign(fixture.correction),
            !fixture.outside.is_empty(),
        );
        svg::mark(
            places[at],
            &drawn,
            &fixture.name,
            &tip(page, fixture, column),
        )
    };
    order.into_iter().map(mark).collect()
}

/// What is told about a fixture if one points at it.
fn tip(page: &Page, fixture: &Fixture, column: Column) -> String {
    let side = |(side, value): (usize, f64)| {
        let it = &page.measurements[side];
        let text = format!("{} {} {}", it.name, rounded(value, 9), it.unit);
        text.trim_end().to_owned()
    };
    let sides = [Some(page.across), page.up].into_iter().flatten();
    let sides: Vec<String> = sides.zip(fixture.at).map(side).collect();
    let outside = match fixture.outside.is_empty() {
        true => "",
        false => "; outside the range of the old show",
    };
    format!(
        "{} ({}); support {}{outside}",
        column.signed(fixture.correction),
        sides.join(", "),
        count(fixture.support as usize)
    )
}

/// A dot for each fixture, a path for each tint. Dots cover each other, so the largest corrections come last, and at the very end those
/// of fixtures outside, which have a rim.
fn dots(page: &Page, places: &[Place], scale: &Scale) -> String {
    let mut classes: Vec<&Class> = scale.classes.iter().collect();
    classes.sort_by_key(|class| class.tint);
    let tints = |outside: bool| -> String {
        let dots = |class: &Class| {
            let all = page.fixtures.iter().zip(places);
            let within = all.filter(|(it, _)| {
                it.outside.is_empty() != outside && scale.class_of(it.correction) == class
            });
            svg::dots(&tinted(class), within.map(|(_, place)| *place))
        };
        classes.iter().copied().map(dots).collect()
    };
    let outside = page.fixtures.iter().zip(places);
    let outside = outside.filter(|(it, _)| !it.outside.is_empty());
    let rim = svg::dots("rim", outside.map(|(_, place)| *place));
    svg::dotted(&(tints(false) + &rim + &tints(true)))
}
