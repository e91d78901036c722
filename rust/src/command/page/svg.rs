//! Pictures with axes. Places are hundredths of the width and height, so that a picture takes the width that there is while its text and
//! its marks keep their size.

use crate::page::axis::{Axis, Tick};
use crate::page::html::{escaped, short};
use std::fmt::Write;

/// If there are more marks than this, they are small dots, all in one path for each tint, which keeps the page small.
pub const MANY: usize = 1000;

/// The longest name that is shown beside a mark, in letters.
const TIP: usize = 60;

/// A picture: what it is, what it shows, and its axes. A strip has none that goes up.
pub struct Plot<'a> {
    pub id: &'a str,
    pub title: String,
    pub about: String,
    pub across: Axis,
    pub up: Option<Axis>,
}

/// A place in a picture: hundredths from the left and from the top.
pub type Place = (f64, f64);

impl Plot<'_> {
    /// The place of a pair of numbers.
    pub fn place(&self, across: f64, up: f64) -> Place {
        let top = self.up.map_or(50.0, |axis| 100.0 - axis.place(up));
        (self.across.place(across), top)
    }

    /// The picture, with these things in it.
    pub fn draw(&self, inside: &str) -> String {
        let (across, up) = (
            self.across.ticks_across(),
            self.up.map(|axis| axis.ticks(8)),
        );
        let up = up.unwrap_or_default();
        let letters = up.iter().map(|tick| tick.label.len()).max().unwrap_or(0);
        let (id, kind) = (self.id, if self.up.is_some() { "" } else { " strip" });
        let mut text = format!(
            "<div class=\"plot{kind}\" style=\"--letters:{letters}\">\n\
             <svg role=\"img\" aria-labelledby=\"{id}-title {id}-about\">\n\
             <title id=\"{id}-title\">{}</title>\n<desc id=\"{id}-about\">{}</desc>\n",
            escaped(&self.title),
            escaped(&self.about)
        );
        grid(&across, &up, &mut text);
        text + inside + "</svg>\n</div>\n"
    }
}

/// Lines and labels at the ticks.
fn grid(across: &[Tick], up: &[Tick], text: &mut String) {
    *text += "<g class=\"grid\"><rect width=\"100%\" height=\"100%\"/>";
    for Tick { place, .. } in across {
        let _ = write!(
            text,
            "<line x1=\"{place:.2}%\" x2=\"{place:.2}%\" y2=\"100%\"/>"
        );
    }
    for Tick { place, .. } in up {
        let place = 100.0 - place;
        let _ = write!(
            text,
            "<line y1=\"{place:.2}%\" y2=\"{place:.2}%\" x2=\"100%\"/>"
        );
    }
    *text += "</g>\n<g class=\"labels\">";
    for Tick { place, label } in across {
        let _ = write!(
            text,
            "<text x=\"{place:.2}%\" y=\"100%\" dy=\"1.4em\" text-anchor=\"middle\">{label}</text>"
        );
    }
    for Tick { place, label } in up {
        let place = 100.0 - place;
        let _ = write!(
            text,
            "<text y=\"{place:.2}%\" dx=\"-0.5em\" dy=\"0.32em\" text-anchor=\"end\">{label}</text>"
        );
    }
    *text += "</g>\n";
}

/// A mark, which is drawn around the origin, and what is told if one points at it.
pub fn mark((left, top): Place, drawn: &str, name: &str, tip: &str) -> String {
    let tip = escaped(&format!("{}: {tip}", short(name, TIP)));
    format!("<svg x=\"{left:.2}%\" y=\"{top:.2}%\"><g><title>{tip}</title>{drawn}</g></svg>\n")
}

/// Many places as dots, in one path. Dots at the same place are drawn once.
pub fn dots(class: &str, places: impl Iterator<Item = Place>) -> String {
    let whole = |(left, top): Place| ((left * 10.0).round() as u16, (top * 10.0).round() as u16);
    let mut places: Vec<(u16, u16)> = places.map(whole).collect();
    places.sort_unstable();
    places.dedup();
    if places.is_empty() {
        return String::new();
    }
    let mut text = format!("<path class=\"{class}\" d=\"");
    for (left, top) in places {
        let _ = write!(text, "M{left} {top}h0");
    }
    text + "\"/>\n"
}

/// A frame for dots, whose places are thousandths.
pub fn dotted(dots: &str) -> String {
    format!(
        "<svg class=\"dots\" viewBox=\"0 0 1000 1000\" preserveAspectRatio=\"none\">\n{dots}</svg>\n"
    )
}
