//! The command `report`: a page about the corrections of a new show.

use crate::args::Args;
use crate::both::Both;
use crate::correct::Predicted;
use crate::csv::Csv;
use crate::fit::Task;
use crate::number::Decimal;
use crate::output::Output;
use crate::page::data::{Fixture, Focused, Forest, Measurement, Outside, Page, Source};
use crate::stop::Stop;
use crate::summary::{out_of_bag, warnings};
use crate::{outside, page, support};
use tailboardy::{RandomForestRegressor, Refusal};

/// The measurements that place the fixtures in the picture: across, and up if there are two.
type Sides = (usize, Option<usize>);

/// Fits a forest on the old show and writes a page about the corrections of the new one.
pub fn report(args: &Args) -> Result<Output, Stop> {
    let task = Task::new(args)?;
    let file = args.out()?;
    let plot = plotted(args)?;
    let both = Both::read(&task)?;
    let sides = plot.map(|names| sides(&names, &both.old.features));
    let sides = sides.transpose()?;
    let (forest, mut summary) = task.fitted(&both.old)?;
    both.report(&mut summary);
    let page = filled(&task, &both, &forest, sides)?;
    let counts: Vec<u32> = page.fixtures.iter().map(|it| it.support).collect();
    summary.warnings(support::few(&both, &forest, &counts).as_slice());
    let mut output = Output {
        text: page::write(&page),
        file,
        ..Output::default()
    };
    output.note(&both.notes);
    output.note(&both.warnings);
    output.beside += &summary.text();
    Ok(output)
}

/// The measurements that `--plot` names.
fn plotted(args: &Args) -> Result<Option<Vec<String>>, Stop> {
    let plot = args.names("--plot")?;
    match plot.as_deref() {
        None | Some([_]) => Ok(plot),
        Some([across, up]) if across != up => Ok(plot),
        Some(names) => Err(Stop::Usage(format!(
            "--plot {}: one measurement or two different ones are required",
            names.join(",")
        ))),
    }
}

fn sides(names: &[String], features: &[String]) -> Result<Sides, Stop> {
    let side = |name: &String| {
        let found = features.iter().position(|it| it == name);
        found.ok_or_else(|| {
            let why = "the forest does not go by this column; it goes by";
            let why = format!("{why} {}", features.join(", "));
            Stop::refused(&format!("--plot {name}"), &why)
        })
    };
    let across = names.first().map_or(Ok(0), side)?;
    Ok((across, names.get(1).map(side).transpose()?))
}

/// The page, with the numbers of the forest.
fn filled(
    task: &Task,
    both: &Both,
    forest: &RandomForestRegressor,
    sides: Option<Sides>,
) -> Result<Page, Stop> {
    let (old, new) = (&both.old, &both.new);
    let failed = |refusal: Refusal| Stop::refused(old.csv.file(), &refusal.to_string());
    let importances = forest.compute_feature_importances().map_err(failed)?;
    let means = forest.predict_oob(&old.x).map_err(failed)?;
    let ranked = importances.ranked();
    let heaviest = |at: usize| ranked.get(at).map(|(feature, _)| *feature);
    let (across, up) = sides.unwrap_or((heaviest(0).unwrap_or(0), heaviest(1)));
    let focused = means.iter().enumerate().map(|(row, mean)| Focused {
        name: name(&old.csv, row),
        correction: old.y[row],
        mean,
    });
    let target = task.roles.target.clone().unwrap_or_default();
    let column = old.csv.find(&target);
    Ok(Page {
        unit: column.map_or("", |it| old.csv.unit(it)).to_owned(),
        target,
        old: source(&old.csv),
        new: source(new),
        forest: Forest {
            trees: forest.n_trees(),
            nodes: forest.nodes().len(),
            seed: task.parameters.seed,
            error: out_of_bag(&means, &old.y).map_err(failed)?,
        },
        measurements: measurements(both, &importances),
        across,
        up,
        fixtures: fixtures(both, forest, (across, up))?,
        focused: focused.collect(),
        notes: notes(both)
            .into_iter()
            .chain(warnings(&means, &task.parameters))
            .collect(),
    })
}

fn source(show: &Csv) -> Source {
    Source {
        file: show.file().to_owned(),
        fixtures: show.rows(),
    }
}

/// What a fixture is called on the page: by its name, or else by its line.
fn name(show: &Csv, row: usize) -> String {
    let line = || format!("line {}", show.line(row));
    show.called(row).unwrap_or_else(line)
}

fn measurements(both: &Both, importances: &[f64]) -> Vec<Measurement> {
    let ranges = outside::ranges(&both.old.x, &both.old.weights);
    let named = both.old.features.iter().zip(ranges).zip(importances);
    let measurement = |((name, range), importance): ((&String, outside::Range), &f64)| {
        let column = both.new.find(name);
        Measurement {
            name: name.clone(),
            unit: column.map_or("", |it| both.new.unit(it)).to_owned(),
            importance: *importance,
            low: range.least,
            high: range.greatest,
            units: None,
        }
    };
    let mut measurements: Vec<Measurement> = named.map(measurement).collect();
    for beyond in &both.beyond {
        measurements[beyond.feature].units = beyond.units;
    }
    measurements
}

fn fixtures(
    both: &Both,
    forest: &RandomForestRegressor,
    (across, up): Sides,
) -> Result<Vec<Fixture>, Stop> {
    let (new, x) = (&both.new, &both.x);
    let predicted = Predicted {
        csv: new,
        x,
        forest,
    };
    let (spreads, means) = (predicted.spreads()?, predicted.corrections()?);
    let support = predicted.support()?;
    let value = |row: usize, feature: usize| x.get((row, feature)).unwrap_or_default();
    let fixture = |(row, ((low, high), mean)): (usize, ((f64, f64), &f64))| Fixture {
        name: name(new, row),
        at: [value(row, across), up.map_or(0.0, |up| value(row, up))],
        correction: *mean,
        low,
        high,
        support: support[row],
        outside: Vec::new(),
    };
    let rows = spreads.into_iter().zip(means.iter()).enumerate();
    let mut fixtures: Vec<Fixture> = rows.map(fixture).collect();
    for beyond in both.beyond.iter().flat_map(|it| &it.outside) {
        fixtures[beyond.row].outside.push(Outside {
            measurement: beyond.feature,
            value: value(beyond.row, beyond.feature),
        });
    }
    Ok(fixtures)
}

/// What the reader should know about the tables, and how the page differs from them. What lies outside has a part of its own.
fn notes(both: &Both) -> Vec<String> {
    let mut notes = both.notes.clone();
    if !both.lacking.is_empty() {
        let names = both.lacking.join(", ");
        notes.push(format!(
            "not used, because {} does not have them: {names}",
            both.new.file()
        ));
    }
    if both.new.decimal_or(&both.old.csv) == Decimal::Comma {
        notes.push("numbers on this page have a decimal point".into());
    }
    notes
}
