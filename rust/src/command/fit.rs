//! The command `fit`, and the fit that other commands begin with.

use crate::args::Args;
use crate::csv::Csv;
use crate::listing::Listing;
use crate::model;
use crate::output::Output;
use crate::progress::Progress;
use crate::roles::Roles;
use crate::show::Show;
use crate::stop::Stop;
use crate::summary::Summary;
use tailboardy::{Fault, Fitting, RandomForestRegressor, RandomForestRegressorParameters, Refusal};

/// The command line, checked before any file is read.
pub struct Task<'a> {
    pub args: &'a Args,
    pub roles: Roles,
    pub parameters: RandomForestRegressorParameters,
    pub digits: Option<usize>,
}

impl<'a> Task<'a> {
    pub fn new(args: &'a Args) -> Result<Self, Stop> {
        let roles = Roles::said(args)?;
        if roles.target.is_none() {
            let why = "--target NAME is required: the column to predict";
            return Err(Stop::Usage(why.into()));
        }
        Ok(Task {
            args,
            roles,
            parameters: args.parameters()?,
            digits: args.digits()?,
        })
    }
}

/// Fits a forest, writes it to a file if that is requested, and reports on it.
pub fn fit(args: &Args) -> Result<Output, Stop> {
    let task = Task::new(args)?;
    let file = args.model()?;
    let show = Show::read(args, &task.roles)?;
    let (forest, mut summary) = task.fitted(&show)?;
    if let Some(file) = file {
        model::save(&forest, &file, &show, &mut summary)?;
    }
    if args.has("--json") {
        summary.notes(&show.notes);
    }
    let mut output = summary.told(args);
    output.note(&show.notes);
    Ok(output)
}

impl Task<'_> {
    /// The forest of a show, and what is reported of both.
    pub fn fitted(&self, show: &Show) -> Result<(RandomForestRegressor, Summary), Stop> {
        let listing = self.args.get("--listing");
        let format = self.args.format()?;
        let listing = listing.map(|it| Csv::read(it, &format)).transpose()?;
        let listing = Listing::of(listing, show)?;
        let progress = Progress::new();
        let watch = |stand: usize, all: usize| progress.tell(stand, all);
        let mut fitting = Fitting::new(&show.x, &show.y)
            .with_weights(&show.weights)
            .with_watch(&watch);
        if let Some(listing) = &listing {
            fitting = fitting.with_listings(&listing.listings);
        }
        let forest = fitting.forest(self.parameters);
        drop(progress);
        let forest = forest.map_err(|refusal| refused(&refusal, show, listing.as_ref()))?;
        let mut summary = Summary::new(self.digits);
        summary.show(show);
        summary.forest(show, &forest, &self.parameters)?;
        Ok((forest, summary))
    }
}

/// A refusal, with the names of the files and columns instead of numbers.
pub fn refused(refusal: &Refusal, show: &Show, listing: Option<&Listing>) -> Stop {
    let (number, name) = (refusal.number(), refusal.cause().name());
    let named = |row: usize, column: Option<&String>, what: String| {
        let column = column.map_or("", String::as_str);
        let place = format!(
            "{}, line {}, column {column}",
            show.csv.file(),
            show.csv.line(row)
        );
        Stop::refused(&place, &format!("{what} (refusal {number}, {name})"))
    };
    match (refusal.fault(), listing) {
        (Some(Fault::Listing(_)), Some(listing)) => listing.refused(refusal, show),
        (
            Some(Fault::Value {
                row,
                feature,
                value,
            }),
            _,
        ) => named(
            *row,
            show.features.get(*feature),
            format!("the value is {value}"),
        ),
        (Some(Fault::Target { row, value }), _) => {
            named(*row, show.target.as_ref(), format!("the target is {value}"))
        }
        (Some(Fault::Weight { row, value }), _) => named(
            *row,
            show.weight.as_ref(),
            format!("the weight is {value}; it may not be negative"),
        ),
        _ => Stop::refused(show.csv.file(), &refusal.to_string()),
    }
}
