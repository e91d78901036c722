//! The marks of fixtures, and the legend that explains them.

use crate::page::data::Page;
use crate::page::html::in_unit;
use crate::page::round::counted;
use crate::page::scale::{Class, Scale};
use crate::page::svg::MANY;

/// What is around a fixture that lies outside.
const SQUARE: &str = "<rect class=\"out\" x=\"-9\" y=\"-9\" width=\"18\" height=\"18\"/>";

/// The name of a tint in the style sheet.
pub fn tinted(class: &Class) -> String {
    format!("{}{}", if class.negative { 'n' } else { 'p' }, class.tint)
}

/// The sign of a correction; zero has none.
pub fn sign(correction: f64) -> &'static str {
    match correction {
        it if it > 0.0 => "<path d=\"M-2.4 0h4.8M0-2.4v4.8\"/>",
        it if it < 0.0 => "<path d=\"M-2.4 0h4.8\"/>",
        _ => "",
    }
}

/// A circle in the tint and the size of a class with a sign in it, and in a square if the fixture lies outside.
pub fn drawn(class: &Class, sign: &str, outside: bool) -> String {
    let square = if outside { SQUARE } else { "" };
    let radius = 3.4 + class.tint as f64 * 0.9;
    format!(
        "{square}<g class=\"{}\"><circle r=\"{radius:.1}\"/>{sign}</g>",
        tinted(class)
    )
}

/// The classes with their marks, and how many fixtures are in each.
pub fn legend(page: &Page, scale: &Scale) -> String {
    let many = page.fixtures.len() > MANY;
    let mut text = format!(
        "<figcaption>Correction of {}\n<ul class=\"legend\">\n",
        in_unit(&page.target, &page.unit)
    );
    for class in &scale.classes {
        let within = page.fixtures.iter();
        let within = within.filter(|it| scale.class_of(it.correction) == class);
        let drawn = if many { dot(class) } else { whole(class) };
        text += &entry(&drawn, &class.label, within.count());
    }
    let outside = match many {
        true => "<g class=\"rimmed\"><circle r=\"5\"/></g>",
        false => SQUARE,
    };
    let what = "outside the range of the old show";
    text + &entry(outside, what, page.outside().count()) + "</ul>\n</figcaption>\n"
}

fn entry(drawn: &str, what: &str, number: usize) -> String {
    format!(
        "<li><svg class=\"key\" aria-hidden=\"true\" viewBox=\"-10 -10 20 20\">{drawn}</svg> {what} <small>{}</small></li>\n",
        counted(number, "fixture", "fixtures")
    )
}

fn whole(class: &Class) -> String {
    let side = match class {
        Class { negative: true, .. } => -1.0,
        Class { label, .. } if label == "0" => 0.0,
        _ => 1.0,
    };
    drawn(class, sign(side), false)
}

/// A class as it is drawn if there are many fixtures.
fn dot(class: &Class) -> String {
    let shape = match class.negative {
        true => "<rect class=\"dot\" x=\"-5\" y=\"-5\" width=\"10\" height=\"10\"/>",
        false => "<circle class=\"dot\" r=\"5\"/>",
    };
    format!("<g class=\"{}\">{shape}</g>", tinted(class))
}
