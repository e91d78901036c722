//! The command `list`.

use crate::args::Args;
use crate::fit::refused;
use crate::output::Output;
use crate::record;
use crate::roles::Roles;
use crate::show::Show;
use crate::stop::Stop;
use crate::summary::Summary;
use tailboardy::{Fitting, Listings};

/// Writes the listing of a show: for each feature a column of row numbers, counted from 0, in ascending order of its values.
pub fn run(args: &Args) -> Result<Output, Stop> {
    let roles = Roles::said(args)?;
    let file = args.out()?;
    let show = Show::read(args, &roles)?;
    let listings = Listings::sorted(&show.x);
    let fitting = Fitting::new(&show.x, &show.y)
        .with_weights(&show.weights)
        .with_listings(&listings);
    let checked = fitting.check();
    checked.map_err(|refusal| refused(&refusal, &show, None))?;
    let mut summary = Summary::new(None);
    summary.show(&show);
    let mut output = Output {
        text: table(&show, &listings),
        file,
        ..Output::default()
    };
    output.note(&show.notes);
    output.beside += &summary.text();
    Ok(output)
}

fn table(show: &Show, listings: &Listings) -> String {
    let mut text = String::new();
    let names = show.features.iter().map(String::as_str);
    record::write(names, show.csv.delimiter(), &mut text);
    let columns = (0..listings.features()).filter_map(|it| listings.column(it));
    let columns: Vec<&[u32]> = columns.collect();
    for place in 0..show.csv.rows() {
        let rows: Vec<String> = columns.iter().map(|it| it[place].to_string()).collect();
        let cells = rows.iter().map(String::as_str);
        record::write(cells, show.csv.delimiter(), &mut text);
    }
    text
}
