//! A show: a table whose columns have their roles, and their numbers.

use crate::args::Args;
use crate::csv::Csv;
use crate::faults::Faults;
use crate::fixtures::twice;
use crate::incomplete::leave_out;
use crate::roles::{Chosen, Roles, measure};
use crate::stop::Stop;
use tailboardy::DenseMatrix;

/// A show with its numbers. The targets are 0 if no target was given, and there are no weights if none were given.
#[derive(Debug)]
pub struct Show {
    pub csv: Csv,
    pub features: Vec<String>,
    pub target: Option<String>,
    pub weight: Option<String>,
    pub x: DenseMatrix,
    pub y: Vec<f64>,
    pub weights: Vec<f64>,
    /// What should be known about its columns and fixtures.
    pub notes: Vec<String>,
}

impl Show {
    /// The show of a command that takes one.
    pub fn read(args: &Args, roles: &Roles) -> Result<Self, Stop> {
        let mut faults = Faults::default();
        let mut csv = Csv::read_on(&args.files[0], &args.format()?, &mut faults)?;
        let named = roles.name_fixtures(&mut csv);
        let chosen = named.and_then(|()| roles.features(&mut csv, &mut faults));
        let chosen = chosen.map_err(|stop| faults.stop(stop))?;
        Show::new(csv, roles, chosen, faults)
    }

    /// A show, unless there is a fault here or before.
    pub fn new(
        mut csv: Csv,
        roles: &Roles,
        chosen: Chosen,
        mut faults: Faults,
    ) -> Result<Self, Stop> {
        let used = chosen.features.iter().chain(&roles.target);
        let incomplete = leave_out(&mut csv, used.chain(&roles.weight), "left out");
        let incomplete = incomplete.map_err(|stop| faults.stop(stop))?;
        let read = numbers(&mut csv, roles, &chosen, &mut faults);
        let (y, weights, x) = read.map_err(|stop| faults.stop(stop))?;
        faults.end()?;
        if let (Some(weight), true) = (&roles.weight, weights.iter().all(|it| *it == 0.0)) {
            let place = format!("{}, column {weight}", csv.file());
            let why = "all weights are 0, so there is nothing to fit on";
            return Err(Stop::refused(&place, why));
        }
        let mut notes = chosen.notes();
        notes.extend(incomplete);
        notes.extend(twice(&csv).map(|why| format!("{}: {why}", csv.file())));
        Ok(Show {
            y,
            target: roles.target.clone(),
            weight: roles.weight.clone(),
            notes,
            features: chosen.features,
            csv,
            x,
            weights,
        })
    }

    /// Columns that have no role.
    pub fn passed(&self) -> Vec<&str> {
        let names = self.csv.names().iter().filter(|name| !name.is_empty());
        let passed = names.filter(|name| !self.used().any(|it| it == *name));
        passed.map(String::as_str).collect()
    }

    /// The columns whose numbers have a unit, and the units.
    pub fn units(&self) -> Vec<(&str, &str)> {
        let unit = |name: &'_ String| self.csv.find(name).map_or("", |it| self.csv.unit(it));
        let units = self.used().map(|name| (name.as_str(), unit(name)));
        units.filter(|(_, unit)| !unit.is_empty()).collect()
    }

    fn used(&self) -> impl Iterator<Item = &String> {
        self.features.iter().chain(&self.target).chain(&self.weight)
    }
}

/// The targets, weights and features of a show.
type Numbers = (Vec<f64>, Vec<f64>, DenseMatrix);

fn numbers(
    csv: &mut Csv,
    roles: &Roles,
    chosen: &Chosen,
    faults: &mut Faults,
) -> Result<Numbers, Stop> {
    let y = list(csv, roles.target.as_deref(), faults)?;
    let weights = list(csv, roles.weight.as_deref(), faults)?.unwrap_or_default();
    let x = matrix(csv, &chosen.features, faults)?;
    Ok((y.unwrap_or_else(|| vec![0.0; csv.rows()]), weights, x))
}

/// The numbers of a column, if it was given.
fn list(csv: &mut Csv, name: Option<&str>, faults: &mut Faults) -> Result<Option<Vec<f64>>, Stop> {
    let Some(name) = name else {
        return Ok(None);
    };
    let column = csv.column(name)?;
    Ok(Some(match measure(csv, column, "", faults) {
        true => csv.numbers(column, faults),
        false => vec![0.0; csv.rows()],
    }))
}

/// The numbers of the features.
pub fn matrix(csv: &Csv, features: &[String], faults: &mut Faults) -> Result<DenseMatrix, Stop> {
    let columns: Result<Vec<usize>, Stop> = features.iter().map(|it| csv.column(it)).collect();
    let mut values = Vec::with_capacity(csv.rows() * features.len());
    for column in columns? {
        values.append(&mut csv.numbers(column, faults));
    }
    let matrix = DenseMatrix::new(csv.rows(), features.len(), values, true);
    matrix.map_err(|refusal| Stop::refused(csv.file(), &refusal.to_string()))
}
