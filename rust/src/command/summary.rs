//! What is reported about a show and its forest, for people and for programs.

use crate::args::Args;
use crate::json::Json;
use crate::number::{Style, write};
use crate::output::Output;
use crate::show::Show;
use crate::stop::{Damage, Stop};
use tailboardy::{
    Cause, Cuts, OutOfBagError, OutOfBagMeans, RandomForestRegressor,
    RandomForestRegressorParameters, Refusal, Splitter,
};

/// What `--json` writes if the input is refused: each line that is also on standard error, and where a listing or a model is
/// damaged.
pub fn refused(stop: &Stop) -> Option<Json> {
    let (lines, damage) = match stop {
        Stop::Usage(_) => return None,
        Stop::Refused(lines) => (lines, None),
        Stop::Damaged(lines, damage) => (lines, Some(damage)),
    };
    let faults = [("ok", false.into()), ("faults", Json::list(lines))];
    let damage = damage.map(|all| ("damage", Json::list(all)));
    Some(Json::object(faults.into_iter().chain(damage)))
}

impl From<&Damage> for Json {
    fn from(damage: &Damage) -> Self {
        Json::object([
            (
                "column",
                damage.column.as_ref().map_or(Json::Null, Json::from),
            ),
            ("refusal", Json::from(u64::from(damage.refusal))),
            ("place", damage.place.into()),
            ("missing", damage.missing.map_or(Json::Null, Json::from)),
        ])
    }
}

/// One thing that is reported: its key and value in JSON, and a line of text that says the same.
#[derive(Debug)]
pub struct Entry {
    pub key: &'static str,
    pub value: Json,
    pub text: String,
}

/// What is reported, and how many digits its numbers have after the decimal sign, if that was given.
#[derive(Debug)]
pub struct Summary {
    entries: Vec<Entry>,
    digits: Option<usize>,
}

impl Summary {
    pub fn new(digits: Option<usize>) -> Self {
        Summary {
            entries: Vec::new(),
            digits,
        }
    }

    pub fn add(&mut self, key: &'static str, value: impl Into<Json>, text: impl Into<String>) {
        self.entries.push(Entry {
            key,
            value: value.into(),
            text: text.into(),
        });
    }

    /// A number as it is reported.
    pub fn number(&self, number: f64) -> String {
        let digits = self.digits;
        let style = Style {
            digits,
            ..Style::EXACT
        };
        write(number, &style)
    }

    /// A line for each entry.
    pub fn text(&self) -> String {
        let entries = self.entries.iter();
        entries.map(|it| format!("{}\n", it.text)).collect()
    }

    /// An object with a member for each entry.
    fn json(self) -> Json {
        let done = ("ok".to_owned(), true.into());
        let entries = self.entries.into_iter();
        let members = entries.map(|it| (it.key.to_owned(), it.value));
        Json::Object([done].into_iter().chain(members).collect())
    }

    /// What is told on standard output: text, or JSON if that is requested.
    pub fn told(self, args: &Args) -> Output {
        let digits = self.digits;
        Output::told(match args.has("--json") {
            true => self.json().line(digits),
            false => self.text(),
        })
    }

    /// The number of fixtures, and the role of each column.
    pub fn show(&mut self, show: &Show) {
        let rows = show.csv.rows();
        self.add("fixtures", rows, format!("fixtures: {rows}"));
        let features = show.features.join(", ");
        let names = Json::list(&show.features);
        self.add("features", names, format!("features: {features}"));
        if let Some(target) = &show.target {
            self.add("target", target, format!("target: {target}"));
        }
        if let Some(weight) = &show.weight {
            self.add("weight", weight, format!("weight: {weight}"));
        }
        let units = show.units();
        if !units.is_empty() {
            let text = units.iter().map(|(name, unit)| format!("{name} {unit}"));
            let text = format!("units: {}", text.collect::<Vec<_>>().join(", "));
            let units = units.into_iter().map(|(name, unit)| (name, unit.into()));
            self.add("units", Json::object(units), text);
        }
        let passed = show.passed();
        if !passed.is_empty() {
            let text = format!("not used: {}", passed.join(", "));
            self.add("not_used", Json::list(passed), text);
        }
    }

    /// What should be known about the columns and fixtures of a show.
    pub fn notes(&mut self, notes: &[String]) {
        if !notes.is_empty() {
            let text = notes.iter().map(|note| format!("note: {note}"));
            let text = text.collect::<Vec<_>>().join("\n");
            self.add("notes", Json::list(notes), text);
        }
    }

    /// What is warned of.
    pub fn warnings(&mut self, warnings: &[String]) {
        if !warnings.is_empty() {
            let text = warnings.iter().map(|it| format!("warning: {it}"));
            let text = text.collect::<Vec<_>>().join("\n");
            self.add("warnings", Json::list(warnings), text);
        }
    }

    /// A description of the forest, and how good it is.
    pub fn forest(
        &mut self,
        show: &Show,
        forest: &RandomForestRegressor,
        parameters: &RandomForestRegressorParameters,
    ) -> Result<(), Stop> {
        let failed = |refusal: Refusal| Stop::refused(show.csv.file(), &refusal.to_string());
        self.trees(forest, parameters.seed);
        let means = forest.predict_oob(&show.x).map_err(failed)?;
        self.error(out_of_bag(&means, &show.y).map_err(failed)?, means.len());
        self.warnings(&warnings(&means, parameters));
        let importances = forest.compute_feature_importances().map_err(failed)?;
        let ranked = importances.ranked();
        let name = |feature: usize| show.features[feature].as_str();
        let parts = ranked
            .iter()
            .map(|(feature, part)| (name(*feature), (*part).into()));
        let named = ranked
            .iter()
            .map(|(feature, part)| format!("{} {}", name(*feature), self.number(*part)));
        let text = format!("importances: {}", named.collect::<Vec<_>>().join(", "));
        self.add("importances", Json::object(parts), text);
        Ok(())
    }

    fn trees(&mut self, forest: &RandomForestRegressor, seed: u64) {
        let (trees, nodes) = (forest.n_trees(), forest.nodes().len());
        let depth = forest
            .reports()
            .iter()
            .map(|it| it.depth)
            .max()
            .unwrap_or(0);
        let value = Json::object([
            ("trees", trees.into()),
            ("nodes", nodes.into()),
            ("depth", Json::from(u64::from(depth))),
            ("seed", seed.into()),
        ]);
        let text =
            format!("trees: {trees}, with {nodes} nodes, up to {depth} levels deep; seed {seed}");
        self.add("forest", value, text);
    }

    fn error(&mut self, told: Option<OutOfBagError>, all: usize) {
        let Some(OutOfBagError { error, rows }) = told else {
            let text = "out-of-bag error: none, because every tree uses every fixture";
            return self.add("out_of_bag", Json::Null, text);
        };
        let root = error.sqrt();
        let value = Json::object([
            ("error", error.into()),
            ("square_root", root.into()),
            ("fixtures", rows.into()),
        ]);
        let text = format!(
            "out-of-bag error: {} (square root {}), over {rows} of {all} fixtures",
            self.number(error),
            self.number(root),
        );
        self.add("out_of_bag", value, text);
    }
}

/// The out-of-bag error, if some fixture has a mean.
pub fn out_of_bag(means: &OutOfBagMeans, y: &[f64]) -> Result<Option<OutOfBagError>, Refusal> {
    match means.error(y) {
        Err(refusal) if refusal.cause() == Cause::NoMeans => Ok(None),
        error => error.map(Some),
    }
}

/// What is warned of in a forest.
pub fn warnings(
    means: &OutOfBagMeans,
    parameters: &RandomForestRegressorParameters,
) -> Vec<String> {
    let unheeded = parameters.splitter == Splitter::Random && parameters.cuts == Cuts::Measured;
    let unheeded = unheeded.then(|| {
        "--cuts measured has no effect: --splitter random draws its thresholds".to_owned()
    });
    few(means, parameters).into_iter().chain(unheeded).collect()
}

/// A warning if fewer than nine tenths of the fixtures have a mean: the error says nothing of the rest, and may
/// mislead. Without bootstrap none has one, which was asked for.
fn few(means: &OutOfBagMeans, parameters: &RandomForestRegressorParameters) -> Option<String> {
    let (told, all) = (means.count(), means.len());
    if !parameters.bootstrap || 10 * told >= 9 * all {
        return None;
    }
    let unknown = "so it is not known how far off the corrections are";
    let others = "and the error says nothing of the others";
    let why = match (told, all) {
        (_, 1) => format!("the only fixture is in the bag of every tree, {unknown}"),
        (0, _) => format!("none of the {all} fixtures is left out by a tree, {unknown}"),
        (1, _) => format!("only 1 of {all} fixtures is left out by a tree, {others}"),
        _ => format!("only {told} of {all} fixtures are left out by a tree, {others}"),
    };
    let how = match means.enough_trees() {
        None => "fit two fixtures or more".into(),
        Some(trees) if trees > parameters.n_trees => {
            format!("grow at least {trees} trees (--n-trees {trees})")
        }
        // some fixtures are in every bag by their weight
        Some(_) => "grow more trees, or weigh the fixtures more evenly".into(),
    };
    Some(format!("{why}; {how}"))
}
