//! Whether the thresholds of a model suit the columns that it is given. A model has no other trace of the show that it was fitted on.

use crate::both::amount;
use crate::model::Model;
use crate::show::Show;
use tailboardy::{Kind, RandomForestRegressor};

/// A note for each column of which no fixture lies between the lowest and the highest threshold of its feature: the column may have another
/// unit, or not be the one that the model was fitted on. A single fixture tells nothing.
pub fn notes(model: &Model, show: &Show) -> Vec<String> {
    let spans = spans(&model.forest);
    let within = |feature: usize, (least, greatest): (f64, f64)| {
        let values = (0..show.csv.rows()).filter_map(|row| show.x.get((row, feature)));
        values.into_iter().any(|it| least < it && it <= greatest)
    };
    let note = |(feature, span): (usize, &Option<(f64, f64)>)| {
        let (least, greatest) = span.filter(|(least, greatest)| least < greatest)?;
        let alone = show.csv.rows() < 2;
        if alone || within(feature, (least, greatest)) {
            return None;
        }
        let (csv, name) = (&show.csv, &show.features[feature]);
        let unit = csv.find(name).map_or("", |it| csv.unit(it));
        Some(format!(
            "{}, column {name}: no fixture lies between the lowest and the highest threshold of feature {feature} of {}, {} and {}; \
             check the unit of the column, and whether it is this feature",
            csv.file(),
            model.file,
            amount(least, unit, csv),
            amount(greatest, unit, csv)
        ))
    };
    spans.iter().enumerate().filter_map(note).collect()
}

/// The lowest and the highest threshold of each feature that has one.
fn spans(forest: &RandomForestRegressor) -> Vec<Option<(f64, f64)>> {
    let mut spans = vec![None; forest.n_features()];
    for node in forest.trees().flat_map(|tree| tree.nodes()) {
        if let Kind::Split(split) = node.kind {
            let at = split.threshold;
            let (least, greatest) = spans[split.feature].unwrap_or((at, at));
            spans[split.feature] = Some((at.min(least), at.max(greatest)));
        }
    }
    spans
}
