//! Forests as files: written by `fit`, read by `predict`, and the command `model`, which says what is in one.

use crate::args::Args;
use crate::input::{Limited, called, open};
use crate::json::Json;
use crate::output::Output;
use crate::replace;
use crate::roles::option;
use crate::show::Show;
use crate::stop::{Damage, Stop};
use crate::summary::Summary;
use tailboardy::{
    Fault, Kind, MAX_ROWS, MAX_TREES, ModelError, RandomForestRegressor, Refusal, Tree,
};

/// The most bytes that are read of a model: enough for 1,024 trees with 65,535 leaves each, so for every forest that can be fitted.
const MOST: usize = 2688 << 20;
const _: () = assert!(MOST > 9 + MAX_TREES * (4 + 12 * MAX_ROWS + 30 * (MAX_ROWS - 1)));

/// A forest that was read from a file.
pub struct Model {
    pub file: String,
    pub forest: RandomForestRegressor,
    bytes: usize,
}

/// Says what is in a model.
pub fn run(args: &Args) -> Result<Output, Stop> {
    let mut summary = Summary::new(args.digits()?);
    let model = Model::read(&args.files[0])?;
    model.tell(&mut summary);
    Ok(summary.told(args))
}

/// Writes a forest to a file, and reports that. The file does not say which columns the features are.
pub fn save(
    forest: &RandomForestRegressor,
    file: &str,
    show: &Show,
    summary: &mut Summary,
) -> Result<(), Stop> {
    let bytes = forest.model_bytes();
    let bytes = bytes.map_err(|it| Stop::refused(show.csv.file(), &it.to_string()))?;
    let written = replace::write(file, &bytes);
    written.map_err(|error| Stop::unwritten("--model", file, &error))?;
    let names = option(show.features.iter());
    let text = format!(
        "model: {file}, {} bytes; it has no names of columns, so predict with --features {names}",
        bytes.len()
    );
    summary.add("model", value(file, bytes.len()), text);
    Ok(())
}

fn value(file: &str, bytes: usize) -> Json {
    Json::object([("file", file.into()), ("bytes", bytes.into())])
}

impl Model {
    /// Reads a model from a file or standard input.
    pub fn read(file: &str) -> Result<Self, Stop> {
        let opened = open(file);
        let file = called(file);
        let opened = opened.map_err(|error| Stop::unread(file, &error))?;
        let mut from = Limited::new(opened, MOST, too_long);
        match RandomForestRegressor::read_model(&mut from) {
            Ok(forest) => Ok(Model {
                file: file.to_owned(),
                forest,
                bytes: from.read(),
            }),
            Err(ModelError::Io(error)) => Err(Stop::unread(file, &error)),
            Err(ModelError::Refused(refusal)) => Err(refused(file, &refusal)),
        }
    }

    /// Adds what is reported of it: its size, and what is in it.
    fn tell(&self, summary: &mut Summary) {
        let (file, bytes) = (&self.file, self.bytes);
        let text = format!("{file} can be used: it is a model of {bytes} bytes");
        summary.add("model", value(file, bytes), text);
        let features = self.forest.n_features();
        summary.add("n_features", features, format!("features: {features}"));
        self.tell_trees(summary);
        let splits = self.splits();
        let each = numbered(splits.iter().map(usize::to_string).enumerate());
        let text = format!("splits: {}; {each}", splits.iter().sum::<usize>());
        summary.add("splits", Json::list(splits), text);
        let (value, text) = match self.forest.compute_feature_importances() {
            Err(refusal) => (Json::Null, format!("none, {refusal}")),
            Ok(parts) => {
                let ranked = parts.ranked().into_iter();
                let ranked = ranked.map(|(feature, part)| (feature, summary.number(part)));
                (Json::list(parts.iter().copied()), numbered(ranked))
            }
        };
        summary.add("importances", value, format!("importances: {text}"));
    }

    /// Adds the number of trees and nodes, and how deep the trees are.
    pub fn tell_trees(&self, summary: &mut Summary) {
        let (trees, nodes) = (self.forest.n_trees(), self.forest.nodes().len());
        let depths: Vec<usize> = self.forest.trees().map(|it| depth(&it)).collect();
        let least = depths.iter().min().copied().unwrap_or(0);
        let most = depths.iter().max().copied().unwrap_or(0);
        let value = Json::object([
            ("trees", trees.into()),
            ("nodes", nodes.into()),
            ("least_depth", least.into()),
            ("depth", most.into()),
        ]);
        let levels = match least == most {
            true => most.to_string(),
            false => format!("{least} to {most}"),
        };
        let text = format!("trees: {trees}, with {nodes} nodes, {levels} levels deep");
        summary.add("forest", value, text);
    }

    /// How many splits go by each feature.
    fn splits(&self) -> Vec<usize> {
        let mut splits = vec![0; self.forest.n_features()];
        for node in self.forest.trees().flat_map(|tree| tree.nodes()) {
            if let Kind::Split(split) = node.kind {
                splits[split.feature] += 1;
            }
        }
        splits
    }
}

/// The deepest level of any child, where the root is at level 1; 0 if there is no split.
fn depth(tree: &Tree) -> usize {
    let mut levels = vec![1; tree.n_nodes()];
    let mut deepest = 0;
    for (number, node) in tree.nodes().enumerate() {
        if let Kind::Split(split) = node.kind {
            let below = levels[number] + 1;
            levels[split.true_child] = below.max(levels[split.true_child]);
            levels[split.false_child] = below.max(levels[split.false_child]);
            deepest = deepest.max(below);
        }
    }
    deepest
}

/// What is told of features by their numbers.
fn numbered(told: impl Iterator<Item = (usize, String)>) -> String {
    let told = told.map(|(feature, what)| format!("feature {feature}: {what}"));
    told.collect::<Vec<_>>().join(", ")
}

fn too_long() -> String {
    format!(
        "there is more than {} MiB to read, the most that a model of this command has; choose another file",
        MOST >> 20
    )
}

/// A model that was refused, with the place in its file.
fn refused(file: &str, refusal: &Refusal) -> Stop {
    let (cause, Some(Fault::Model(fault))) = (refusal.cause(), refusal.fault()) else {
        return Stop::refused(file, &refusal.to_string());
    };
    let (number, name, advice) = (cause.number(), cause.name(), cause.advice());
    let line = format!("{file}, {fault}; {advice} (refusal {number}, {name})");
    let damage = Damage {
        column: None,
        refusal: number,
        place: fault.place,
        missing: None,
    };
    Stop::Damaged(vec![line], vec![damage])
}
