//! The page that `report` writes: one file that stands by itself, made from plain data.

mod all;
mod axis;
pub mod data;
mod first;
mod html;
mod legend;
mod made;
mod old;
mod rig;
mod round;
mod scale;
mod step;
mod svg;
#[cfg(test)]
mod tests;
mod weigh;

use crate::page::data::Page;
use crate::page::first::Wide;
use crate::page::html::{escaped, name, short};
use crate::page::round::count;
use std::path::Path;

const STYLE: &str = include_str!("style.css");

/// The page as HTML: what is most urgent comes first.
pub fn write(page: &Page) -> String {
    let wide = Wide::of(page);
    let parts = [
        head(page),
        top(page, &wide),
        made::made(page),
        format!(
            "<div class=\"two\">\n{}{}</div>\n",
            first::outside(page),
            first::wide(page, &wide)
        ),
        first::thin(page),
        rig::rig(page),
        old::old(page),
        weigh::weigh(page),
        all::all(page, &wide),
        String::from("</main>\n</body>\n</html>\n"),
    ];
    parts.concat()
}

/// The name of a file without its folders.
fn file(path: &str) -> String {
    let name = Path::new(path).file_name();
    name.map_or(path.into(), |name| name.to_string_lossy().into_owned())
}

/// The policy forbids the browser to fetch or to run anything, whatever a table contains.
fn head(page: &Page) -> String {
    let title = format!(
        "{} corrections for {}",
        short(&page.target, 60),
        file(&page.new.file)
    );
    format!(
        "<!DOCTYPE html>\n<html lang=\"en\">\n<head>\n<meta charset=\"utf-8\">\n\
         <meta name=\"viewport\" content=\"width=device-width, initial-scale=1\">\n\
         <meta name=\"color-scheme\" content=\"light dark\">\n\
         <meta http-equiv=\"Content-Security-Policy\" content=\"default-src 'none'; style-src 'unsafe-inline'\">\n\
         <title>{}</title>\n<style>\n{STYLE}</style>\n</head>\n<body>\n",
        escaped(&title)
    )
}

/// The heading, and links to the parts.
fn top(page: &Page, wide: &Wide) -> String {
    let links = [
        (
            "outside",
            format!("Outside the old show: {}", count(page.outside().count())),
        ),
        (
            "wide",
            format!("Wide spread: {}", count(wide.fixtures.len())),
        ),
        (
            "thin",
            format!("Thin support: {}", count(page.thin().count())),
        ),
        ("rig", "The rig".into()),
        ("old", "The old show, predicted".into()),
        ("weigh", "What decides".into()),
        (
            "all",
            format!("All corrections: {}", count(page.fixtures.len())),
        ),
    ];
    let links = links.map(|(id, text)| format!("<li><a href=\"#{id}\">{text}</a></li>\n"));
    format!(
        "<header>\n<h1>{} corrections for {}</h1>\n<nav aria-label=\"Parts of this page\">\n<ul>\n{}</ul>\n</nav>\n</header>\n<main>\n",
        name(&page.target),
        name(&file(&page.new.file)),
        links.concat()
    )
}
