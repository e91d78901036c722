//! The command `check`.

use crate::args::Args;
use crate::csv::Csv;
use crate::fit::refused;
use crate::listing::{self, Listing};
use crate::output::Output;
use crate::roles::Roles;
use crate::show::Show;
use crate::stop::Stop;
use crate::summary::Summary;
use tailboardy::Fitting;

/// Makes the proved checks of a fit on the data in the files.
pub fn run(args: &Args) -> Result<Output, Stop> {
    let mut roles = Roles::said(args)?;
    let format = args.format()?;
    let listed = args.get("--listing");
    let listed = listed.map(|it| Csv::read(it, &format)).transpose()?;
    if let (None, None, Some(listed)) = (&roles.features, &roles.target, &listed) {
        let names = roles.listed(listed)?;
        // another table in place of a listing is not the show's fault
        listing::has_rows(listed, &names)?;
        roles.features = Some(names);
    }
    let show = Show::read(args, &roles)?;
    let listing = Listing::of(listed, &show)?;
    let mut fitting = Fitting::new(&show.x, &show.y).with_weights(&show.weights);
    if let Some(listing) = &listing {
        fitting = fitting.with_listings(&listing.listings);
    }
    let checked = fitting.check();
    checked.map_err(|refusal| refused(&refusal, &show, listing.as_ref()))?;
    let mut summary = Summary::new(None);
    let file = show.csv.file();
    summary.add("show", file, format!("{file} can be used"));
    summary.show(&show);
    if let Some(listing) = &listing {
        let file = listing.file();
        let text =
            "can be used: every column has each row exactly once, in ascending order of value";
        summary.add("listing", file, format!("{file} {text}"));
    }
    summary.notes(&show.notes);
    Ok(summary.told(args))
}
