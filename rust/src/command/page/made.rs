//! What the page was made from.

use crate::page::data::{Page, Source};
use crate::page::html::{escaped, name, section};
use crate::page::round::{count, counted, rounded};
use tailboardy::OutOfBagError;

/// The part of the page that says what it was made from.
pub fn made(page: &Page) -> String {
    let measurements: Vec<String> = page
        .measurements
        .iter()
        .take(20)
        .map(|it| name(&it.name))
        .collect();
    let more = match page.measurements.len().saturating_sub(20) {
        0 => String::new(),
        more => format!(" and {} more", count(more)),
    };
    let facts = [
        ("Old show", source(&page.old)),
        ("New show", source(&page.new)),
        ("Goes by", measurements.join(", ") + &more),
        ("Forest", forest(page)),
        ("Out-of-bag error", error(page)),
    ];
    let mut body = String::from("<dl>\n");
    for (what, fact) in facts {
        body += &format!("<div><dt>{what}</dt><dd>{fact}</dd></div>\n");
    }
    body += "</dl>\n";
    if !page.notes.is_empty() {
        let notes = page
            .notes
            .iter()
            .map(|note| format!("<li>{}</li>\n", escaped(note)));
        body += &format!("<ul class=\"notes\">\n{}</ul>\n", notes.collect::<String>());
    }
    section("made", "What this was made from", &body)
}

fn source(source: &Source) -> String {
    format!(
        "{}, {}",
        name(&source.file),
        counted(source.fixtures, "fixture", "fixtures")
    )
}

fn forest(page: &Page) -> String {
    let forest = &page.forest;
    format!(
        "{} with {}, seed {}",
        counted(forest.trees, "tree", "trees"),
        counted(forest.nodes, "node", "nodes"),
        forest.seed
    )
}

/// The error, and over how many fixtures it is.
fn error(page: &Page) -> String {
    let Some(OutOfBagError { error, rows }) = page.forest.error else {
        return "none, because no tree left a fixture out".into();
    };
    let all = counted(page.focused.len(), "fixture", "fixtures");
    let over = match page.focused.len() - rows {
        0 => format!("over all {all} of the old show"),
        1 => format!(
            "over {} of {all}; the other one was left out by no tree and does not count",
            count(rows)
        ),
        _ => format!(
            "over {} of {all}; the others were left out by no tree and do not count",
            count(rows)
        ),
    };
    format!(
        "{}, {over}; its square root is {}",
        rounded(error, 3),
        rounded(error.sqrt(), 3)
    )
}
