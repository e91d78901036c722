//! The command `correct`.

use crate::args::Args;
use crate::both::Both;
use crate::csv::Csv;
use crate::fit::Task;
use crate::json::Json;
use crate::number::{self, Style};
use crate::output::Output;
use crate::stop::Stop;
use crate::summary::Summary;
use crate::{record, spread, support};
use std::collections::BTreeSet;
use tailboardy::{DenseMatrix, Means, RandomForestRegressor, Refusal};

/// A column that is added to the new show.
pub type Added = (String, Vec<String>);

/// Fits a forest on the old show and predicts the corrections of the new one.
pub fn correct(args: &Args) -> Result<Output, Stop> {
    let task = Task::new(args)?;
    let file = args.out()?;
    let both = Both::read(&task)?;
    let target = task.roles.target.as_deref();
    let more = ["support", "outside"];
    free(&both.new, target, args.has("--spread"), &more)?;
    let (forest, mut summary) = task.fitted(&both.old)?;
    both.report(&mut summary);
    let style = Style {
        decimal: both.new.decimal_or(&both.old.csv),
        digits: task.digits,
    };
    let predicted = Predicted {
        csv: &both.new,
        x: &both.x,
        forest: &forest,
    };
    let mut added = predicted.columns(target, args.has("--spread"), &style)?;
    let support = predicted.support()?;
    summary.warnings(support::few(&both, &forest, &support).as_slice());
    let counts = support.iter().map(u32::to_string);
    added.push(("support".into(), counts.collect()));
    added.push(("outside".into(), outsides(&both)));
    let mut output = Output {
        text: table(&both.new, &added),
        file,
        ..Output::default()
    };
    output.note(&both.notes);
    output.note(&both.warnings);
    output.beside += &summary.text();
    Ok(output)
}

/// The name of an added column: with that of the target in front, if it is known.
fn named(target: Option<&str>, column: &str) -> String {
    match target {
        Some(target) => format!("{target}_{column}"),
        None => column.to_owned(),
    }
}

/// Checks that the new show has none of the columns that are added to it: the corrections, their spread if there is one, and more.
pub fn free(new: &Csv, target: Option<&str>, spread: bool, more: &[&str]) -> Result<(), Stop> {
    let spreads = ["low", "high"].into_iter().filter(|_| spread);
    let added = ["correction"].into_iter().chain(spreads);
    let added = added.map(|it| named(target, it));
    let mut added = added.chain(more.iter().map(|it| (*it).to_owned()));
    match added.find(|it| new.find(it).is_some()) {
        Some(name) => Err(Stop::refused(
            &new.head(),
            &format!(
                "there is already a column {}, which is added to the corrected show; give it another name or take it out",
                number::quoted(&name)
            ),
        )),
        None => Ok(()),
    }
}

/// A new show, its measurements, and the forest that predicts its corrections.
pub struct Predicted<'a> {
    pub csv: &'a Csv,
    pub x: &'a DenseMatrix,
    pub forest: &'a RandomForestRegressor,
}

impl Predicted<'_> {
    /// The columns that are added: the corrections and, if that is requested, their spread.
    pub fn columns(
        &self,
        target: Option<&str>,
        spread: bool,
        style: &Style,
    ) -> Result<Vec<Added>, Stop> {
        let means = self.corrections()?;
        let means = means.iter().map(|it| number::write(*it, style));
        let mut added = vec![(named(target, "correction"), means.collect())];
        if spread {
            let ends = self.spreads()?;
            let column = |end: fn(&(f64, f64)) -> f64| {
                let cells = ends.iter().map(|it| number::write(end(it), style));
                cells.collect()
            };
            added.push((named(target, "low"), column(|it| it.0)));
            added.push((named(target, "high"), column(|it| it.1)));
        }
        Ok(added)
    }

    /// The prediction for each fixture.
    pub fn corrections(&self) -> Result<Means, Stop> {
        let means = self.forest.predict(self.x);
        means.map_err(|it| self.refused(&it))
    }

    /// A low and a high prediction for each fixture.
    pub fn spreads(&self) -> Result<Vec<(f64, f64)>, Stop> {
        spread::of(self.forest, self.x).map_err(|it| self.refused(&it))
    }

    /// How many fixtures of the old show stand behind each correction.
    pub fn support(&self) -> Result<Vec<u32>, Stop> {
        support::of(self.forest, self.x).map_err(|it| self.refused(&it))
    }

    fn refused(&self, refusal: &Refusal) -> Stop {
        Stop::refused(self.csv.file(), &refusal.to_string())
    }
}

/// For each fixture the measurements that lie outside the range of the old show.
fn outsides(both: &Both) -> Vec<String> {
    let mut cells = vec![String::new(); both.new.rows()];
    for outside in both.beyond.iter().flat_map(|it| &it.outside) {
        let cell = &mut cells[outside.row];
        if !cell.is_empty() {
            cell.push_str(" + ");
        }
        cell.push_str(&both.old.features[outside.feature]);
    }
    cells
}

/// The new show with the columns that are added to it, which are empty where a row was left out.
pub fn table(new: &Csv, added: &[Added]) -> String {
    let mut text = String::new();
    let names = new.names().iter().chain(added.iter().map(|(name, _)| name));
    record::write(names.map(String::as_str), new.delimiter(), &mut text);
    for (record, row) in new.records() {
        let cells = (0..new.names().len()).map(|column| new.text(record, column));
        let more = added
            .iter()
            .map(|(_, cells)| row.map_or("", |row| cells[row].as_str()));
        record::write(cells.chain(more), new.delimiter(), &mut text);
    }
    text
}

impl Both {
    /// Adds what is reported of the new show.
    pub fn report(&self, summary: &mut Summary) {
        let (new, old) = (self.new.file(), self.old.csv.file());
        if !self.lacking.is_empty() {
            let names = self.lacking.join(", ");
            let text = format!("not used, because {new} does not have them: {names}");
            summary.add("lacking", Json::list(&self.lacking), text);
        }
        let rows = self.beyond.iter().flat_map(|it| &it.outside);
        let rows: BTreeSet<usize> = rows.map(|it| it.row).collect();
        let (is, all) = (rows.len(), self.new.rows());
        let text = format!("outside the range of {old}: {is} of {all} fixtures of {new}");
        summary.add("outside", is, text);
    }
}
