//! How much each measurement weighs in the forest, as bars.

use crate::page::data::{Measurement, Page};
use crate::page::html::{name, paragraph, section, table};
use crate::page::round::counted;

/// How many measurements have a bar. Those that weigh less are added up.
const BARS: usize = 20;

/// The part of the page with the bars.
pub fn weigh(page: &Page) -> String {
    let mut all: Vec<&Measurement> = page.measurements.iter().collect();
    all.sort_by(|a, b| b.importance.total_cmp(&a.importance));
    let body = match all.iter().any(|it| it.importance > 0.0) {
        true => {
            let told = "The share of each measurement in what the splits of all trees gain.";
            paragraph(told) + &bars(&all)
        }
        false => {
            paragraph("Nothing: no tree has a split, so every fixture gets the same correction.")
        }
    };
    section("weigh", "What decides", &body)
}

fn bars(all: &[&Measurement]) -> String {
    let row = |what: String, part: f64| {
        let bar = format!(
            "<svg class=\"bar\" aria-hidden=\"true\"><rect width=\"{:.2}%\" height=\"100%\"/></svg>",
            (part * 100.0).clamp(0.0, 100.0)
        );
        [what, bar, share(part)]
    };
    let shown = all
        .iter()
        .take(BARS)
        .map(|it| row(name(&it.name), it.importance));
    let rest = all.get(BARS..).unwrap_or_default();
    let more = (!rest.is_empty()).then(|| {
        let part = rest.iter().map(|it| it.importance).sum();
        row(counted(rest.len(), "other", "others together"), part)
    });
    let heads = [
        ("Measurement", false),
        ("<span class=\"unseen\">Bar</span>", false),
        ("Share", true),
    ];
    let table = table("weigh", "Importances", heads, shown.chain(more));
    format!("<div class=\"bars\">\n{table}</div>\n")
}

/// A part in hundredths.
fn share(part: f64) -> String {
    match part * 100.0 {
        it if it > 0.0 && it < 0.1 => "under 0.1&nbsp;%".into(),
        it => format!("{it:.1}&nbsp;%"),
    }
}
