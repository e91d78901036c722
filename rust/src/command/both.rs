//! An old and a new show: the measurements that they have in common, and where the new one leaves the range of the old one.

use crate::csv::Csv;
use crate::faults::Faults;
use crate::fit::Task;
use crate::fixtures::{listed, twice};
use crate::incomplete::leave_out;
use crate::number::{self, Style};
use crate::outside::{self, Beyond, Narrow, Range};
use crate::show::{Show, matrix};
use crate::stop::Stop;
use tailboardy::DenseMatrix;

#[derive(Debug)]
pub struct Both {
    pub old: Show,
    pub new: Csv,
    /// The measurements of the new show.
    pub x: DenseMatrix,
    /// Those that lie outside the range of the old show.
    pub beyond: Vec<Beyond>,
    /// Those whose values lie so close together that they may have another unit.
    pub narrow: Vec<Narrow>,
    /// Measurements that only the old show has.
    pub lacking: Vec<String>,
    /// What should be known about both shows,
    pub notes: Vec<String>,
    /// and about what lies outside.
    pub warnings: Vec<String>,
}

impl Both {
    /// Reads both shows. Fixtures with the same name, and measurements outside the range, are noted or refused, as the options say.
    pub fn read(task: &Task) -> Result<Both, Stop> {
        let args = task.args;
        let (strict, extrapolate) = (args.has("--strict"), args.has("--extrapolate"));
        if strict && extrapolate {
            let why = "--strict refuses what --extrapolate lets pass; give one of them";
            return Err(Stop::Usage(why.into()));
        }
        let mut faults = Faults::default();
        let (mut old, mut new) = tables(task, &mut faults)?;
        let common = task.roles.common(&mut old, &mut new, &mut faults);
        let mut chosen = common.map_err(|stop| faults.stop(stop))?;
        let incomplete = leave_out(&mut new, chosen.features.iter(), "no correction for");
        let incomplete = incomplete.map_err(|stop| faults.stop(stop))?;
        let x = matrix(&new, &chosen.features, &mut faults)?;
        let lacking = std::mem::take(&mut chosen.lacking);
        let old = Show::new(old, &task.roles, chosen, faults)?;
        let ranges = outside::ranges(&old.x, &old.weights);
        let mut both = Both {
            beyond: outside::of(&ranges, &x),
            narrow: outside::narrow(&ranges, &x),
            notes: old.notes.iter().cloned().chain(incomplete).collect(),
            old,
            new,
            x,
            lacking,
            warnings: Vec::new(),
        };
        both.judge(strict, extrapolate)?;
        Ok(both)
    }

    fn judge(&mut self, strict: bool, extrapolate: bool) -> Result<(), Stop> {
        let mut faults = Faults::default();
        for beyond in &self.beyond {
            let (place, why) = self.told(beyond);
            if beyond.whole && !extrapolate {
                let how = match beyond.units {
                    Some(_) => "convert the column",
                    None => "check its values and their unit",
                };
                faults.add(
                    &place,
                    &format!("{why}; {how}, or let it pass with --extrapolate"),
                );
            } else if strict {
                faults.add(&place, &format!("{why}; --strict refuses that"));
            } else {
                let how = "no tree knows such values, so check these corrections";
                self.warnings.push(format!("{place}: {why}; {how}"));
            }
        }
        for narrow in &self.narrow {
            let (place, why) = self.told_narrow(narrow);
            match strict {
                true => faults.add(&place, &format!("{why}; --strict refuses that")),
                false => self
                    .notes
                    .push(format!("{place}: {why}; if so, convert the column")),
            }
        }
        let file = self.new.file();
        self.notes
            .extend(twice(&self.new).map(|why| format!("{file}: {why}")));
        for csv in [&self.old.csv, &self.new].into_iter().filter(|_| strict) {
            let why = twice(csv).map(|why| why + "; --strict refuses that");
            why.iter().for_each(|why| faults.add(csv.file(), why));
        }
        faults.end()
    }

    /// Where fixtures lie outside the range of the old show, how many, which, and by how much.
    fn told(&self, beyond: &Beyond) -> (String, String) {
        let (new, old) = (&self.new, self.old.csv.file());
        let amount = |value: f64| self.amount(value, beyond.feature);
        let range = |it: &Range| self.range(it, beyond.feature);
        let (there, here) = (range(&beyond.old), range(&beyond.new));
        let (is, all) = (beyond.outside.len(), new.rows());
        let fixtures = beyond.outside.iter().map(|it| {
            let side = if it.by < 0.0 { "below" } else { "above" };
            format!("{} by {} {side}", new.fixture(it.row), amount(it.by.abs()))
        });
        let units = beyond.units.map_or(String::new(), |(here, there)| {
            format!("; these look like {here}, and those of {old} like {there}")
        });
        let lie = if is == 1 { "lies" } else { "lie" };
        let why = match beyond.whole {
            true => format!(
                "{is} of {all} fixtures {lie} outside the range of {old}: {here} here, {there} there{units}"
            ),
            false => format!(
                "{is} of {all} fixtures {lie} outside the range of {old}, {there}: {}{units}",
                listed(fixtures)
            ),
        };
        (self.place(beyond.feature), why)
    }

    /// Where values may have another unit, though they lie inside the range of the old show.
    fn told_narrow(&self, narrow: &Narrow) -> (String, String) {
        let range = |it: &Range| self.range(it, narrow.feature);
        let (there, here) = (range(&narrow.old), range(&narrow.new));
        let (old, (new_unit, old_unit)) = (self.old.csv.file(), narrow.units);
        let why = format!(
            "all values lie close together within the range of {old}: {here} here, {there} there; \
             these look like {new_unit}, and those of {old} like {old_unit}"
        );
        (self.place(narrow.feature), why)
    }

    fn place(&self, feature: usize) -> String {
        format!("{}, column {}", self.new.file(), self.old.features[feature])
    }

    fn range(&self, range: &Range, feature: usize) -> String {
        let amount = |value: f64| self.amount(value, feature);
        format!("{} to {}", amount(range.least), amount(range.greatest))
    }

    fn amount(&self, value: f64, feature: usize) -> String {
        let new = &self.new;
        let column = new.find(&self.old.features[feature]);
        amount(value, column.map_or("", |it| new.unit(it)), new)
    }
}

/// The old and the new table.
fn tables(task: &Task, faults: &mut Faults) -> Result<(Csv, Csv), Stop> {
    let format = task.args.format()?;
    let mut old = Csv::read_on(&task.args.files[0], &format, faults)?;
    let mut new = Csv::read_on(&task.args.files[1], &format, faults)?;
    let named = task.roles.name_fixtures(&mut new);
    named.map_err(|stop| faults.stop(stop))?;
    // the old show may name its fixtures otherwise
    let _ = task.roles.name_fixtures(&mut old);
    Ok((old, new))
}

/// A value in its unit, to six digits, as the show writes numbers.
pub fn amount(value: f64, unit: &str, show: &Csv) -> String {
    let style = Style {
        decimal: show.decimal(),
        digits: None,
    };
    let rounded = format!("{value:.5e}").parse().unwrap_or(value);
    let gap = if unit.starts_with(char::is_alphabetic) {
        " "
    } else {
        ""
    };
    format!("{}{gap}{unit}", number::write(rounded, &style))
}
