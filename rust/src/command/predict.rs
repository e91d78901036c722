//! The command `predict`.

use crate::args::Args;
use crate::correct::{Predicted, free, table};
use crate::csv::Csv;
use crate::faults::Faults;
use crate::fixtures::listed;
use crate::incomplete::leave_out;
use crate::model::Model;
use crate::number::Style;
use crate::output::Output;
use crate::roles::{Chosen, Roles};
use crate::show::Show;
use crate::stop::Stop;
use crate::summary::Summary;
use crate::thresholds;

/// Predicts the corrections of a new show by a model.
pub fn run(args: &Args) -> Result<Output, Stop> {
    let roles = Roles::said(args)?;
    let (file, digits) = (args.out()?, args.digits()?);
    let (target, spread) = (roles.target.clone(), args.has("--spread"));
    let model = Model::read(&args.files[0])?;
    let mut new = read(args, roles, &model)?;
    let notes = thresholds::notes(&model, &new);
    new.notes.extend(notes);
    free(&new.csv, target.as_deref(), spread, &[])?;
    let style = Style {
        decimal: new.csv.decimal(),
        digits,
    };
    let predicted = Predicted {
        csv: &new.csv,
        x: &new.x,
        forest: &model.forest,
    };
    let added = predicted.columns(target.as_deref(), spread, &style)?;
    let mut summary = Summary::new(digits);
    summary.show(&new);
    model.tell_trees(&mut summary);
    let mut output = Output {
        text: table(&new.csv, &added),
        file,
        ..Output::default()
    };
    output.note(&new.notes);
    output.beside += &summary.text();
    Ok(output)
}

/// The new show. Its features are found as those of any show are; a target that it may have is none of them, and is not read.
fn read(args: &Args, mut roles: Roles, model: &Model) -> Result<Show, Stop> {
    let mut faults = Faults::default();
    let mut csv = Csv::read_on(&args.files[1], &args.format()?, &mut faults)?;
    let named = roles.name_fixtures(&mut csv);
    let chosen = named.and_then(|()| roles.features(&mut csv, &mut faults));
    let chosen = chosen.map_err(|stop| faults.stop(stop))?;
    if faults.is_empty() {
        as_many(&chosen, &csv, model, roles.features.is_some())?;
    }
    let names = chosen.features.iter();
    let incomplete = leave_out(&mut csv, names, "no correction for");
    let incomplete = incomplete.map_err(|stop| faults.stop(stop))?;
    let order = roles.features.is_none().then(|| {
        let names = listed(chosen.features.iter().cloned());
        format!(
            "{} has no names of columns: its features are taken to be {names} of {}, in this order; if it was fitted on others, name them with --features",
            model.file,
            csv.file()
        )
    });
    roles.target = None;
    let mut show = Show::new(csv, &roles, chosen, faults)?;
    show.notes.extend(incomplete.into_iter().chain(order));
    Ok(show)
}

/// Checks that there are as many features as the model has.
fn as_many(chosen: &Chosen, csv: &Csv, model: &Model, said: bool) -> Result<(), Stop> {
    let (is, required) = (chosen.features.len(), model.forest.n_features());
    if is == required {
        return Ok(());
    }
    let but = format!("but the number of features of {} is {required}", model.file);
    let why = match said {
        true => format!("the number of columns that --features names is {is}, {but}"),
        false => {
            let names = listed(chosen.features.iter().cloned());
            let how = "name those that it was fitted on with --features, in the same order";
            let why =
                format!("the number of columns of measurements is {is} ({names}), {but}; {how}");
            chosen.without(&why)
        }
    };
    Err(Stop::refused(&csv.head(), &why))
}
