//! Which columns of a show are what: those that were given a role, and the features that are found among the others.

use crate::args::Args;
use crate::column::{Left, Use, differ, required, tell};
use crate::csv::{self, Csv};
use crate::faults::Faults;
use crate::number::quoted;
use crate::record;
use crate::stop::Stop;
use crate::units;

/// The roles of columns, as far as they were given.
#[derive(Debug)]
pub struct Roles {
    pub target: Option<String>,
    pub weight: Option<String>,
    pub features: Option<Vec<String>>,
    pub ignored: Vec<String>,
    pub ids: Vec<String>,
}

/// The features, and the columns with numbers that are none.
#[derive(Debug, Default)]
pub struct Chosen {
    pub features: Vec<String>,
    pub left: Vec<Left>,
    /// Measurements that only the old show has.
    pub lacking: Vec<String>,
}

impl Roles {
    pub fn said(args: &Args) -> Result<Self, Stop> {
        let roles = Roles {
            target: args.get("--target").map(csv::name),
            weight: args.get("--weight").map(csv::name),
            features: args.names("--features")?,
            ignored: args.names("--ignore")?.unwrap_or_default(),
            ids: args.names("--id")?.unwrap_or_default(),
        };
        let mut taken: Vec<&String> = Vec::new();
        let features = roles.features.iter().flatten();
        for name in features.chain(roles.others()) {
            if taken.contains(&name) {
                return Err(Stop::Usage(format!(
                    "the column {} is named twice",
                    quoted(name)
                )));
            }
            taken.push(name);
        }
        Ok(roles)
    }

    /// The columns that were given as not being features.
    fn others(&self) -> impl Iterator<Item = &String> {
        let lists = self.ignored.iter().chain(&self.ids);
        lists.chain(&self.target).chain(&self.weight)
    }

    /// Names the fixtures of a show by the columns that were given for it.
    pub fn name_fixtures(&self, show: &mut Csv) -> Result<(), Stop> {
        let columns: Result<Vec<usize>, Stop> = self.ids.iter().map(|id| show.column(id)).collect();
        match columns? {
            none if none.is_empty() => (),
            columns => show.name_by(columns),
        }
        Ok(())
    }

    /// The features of one show: those that were given, or else every column of measurements that has no other role.
    pub fn features(&self, show: &mut Csv, faults: &mut Faults) -> Result<Chosen, Stop> {
        for name in &self.ignored {
            show.column(name)?;
        }
        let chosen = match &self.features {
            Some(names) => named(names, show, faults)?,
            None => self.found(show, None, faults),
        };
        if chosen.features.is_empty() && faults.is_empty() {
            let why = "there is no column of measurements besides target and weight";
            let why = format!("{why}{}", show.split());
            return Err(Stop::refused(show.file(), &chosen.instead(&why)));
        }
        Ok(chosen)
    }

    /// The features that two shows have in common.
    pub fn common(
        &self,
        old: &mut Csv,
        new: &mut Csv,
        faults: &mut Faults,
    ) -> Result<Chosen, Stop> {
        for name in self.ignored.iter().filter(|it| old.find(it).is_none()) {
            new.column(name)?;
        }
        let chosen = match &self.features {
            Some(names) => {
                let there = named(names, new, faults)?;
                let mut chosen = named(names, old, faults)?;
                chosen.features.retain(|it| there.features.contains(it));
                chosen
            }
            None => self.found_in_both(old, new, faults)?,
        };
        if chosen.features.is_empty() && faults.is_empty() {
            let why = "there is no column of measurements in common with";
            let why = format!("{why} {}{}", old.file(), new.split());
            return Err(Stop::refused(&new.head(), &chosen.instead(&why)));
        }
        for name in &chosen.features {
            same_unit(old, new, name, faults);
        }
        Ok(chosen)
    }

    /// The columns of a listing, which are the features if no target is given.
    pub fn listed(&self, listing: &Csv) -> Result<Vec<String>, Stop> {
        let other = |name: &&String| self.others().any(|it| it == *name);
        match listing.names().iter().find(other) {
            Some(name) => Err(Stop::refused(
                &listing.head(),
                &format!(
                    "the column {} is given as not being a feature",
                    quoted(name)
                ),
            )),
            None => {
                let names = listing.names().iter().filter(|it| !it.is_empty());
                Ok(names.cloned().collect())
            }
        }
    }

    /// What each column can be used for that was given no role.
    fn uses(&self, show: &Csv) -> Vec<(usize, Use)> {
        let names = show.names().iter().enumerate();
        let free = names.filter(|(_, name)| !self.others().any(|it| it == *name));
        free.map(|(column, _)| (column, Use::of(show, column)))
            .collect()
    }

    /// The measurements of a show. A column that has to be corrected first is a fault, not a reason to do without it, unless the next show
    /// lacks it anyway.
    fn found(&self, show: &mut Csv, next: Option<&Csv>, faults: &mut Faults) -> Chosen {
        let mut chosen = Chosen::default();
        for (column, use_of) in self.uses(show) {
            let name = show.names()[column].clone();
            match use_of {
                Use::Words => (),
                Use::Left(left) => chosen.left.push(left),
                Use::Faulty(_) if next.is_some_and(|it| it.find(&name).is_none()) => {
                    chosen.features.push(name);
                }
                Use::Faulty(holds) => tell(show, column, &holds, &ignoring(&name), faults),
                Use::Measured(unit) => {
                    show.set_unit(column, unit);
                    chosen.features.push(name);
                }
            }
        }
        chosen
    }

    /// The measurements that both shows have. If each show has a measurement that the other lacks, or one has it as text, they may be
    /// the same measurement with another name or in another form; that is an error, so that no measurement is lost silently.
    fn found_in_both(
        &self,
        old: &mut Csv,
        new: &mut Csv,
        faults: &mut Faults,
    ) -> Result<Chosen, Stop> {
        let mut chosen = self.found(old, Some(new), faults);
        let there = |name: &String| new.find(name).is_some();
        let (both, lacking) = chosen.features.into_iter().partition(there);
        (chosen.features, chosen.lacking) = (both, lacking);
        for left in &mut chosen.left {
            left.usable &= there(&left.column);
        }
        for (column, use_of) in self.uses(new) {
            let name = new.names()[column].clone();
            let measured = matches!(use_of, Use::Measured(_) | Use::Faulty(_));
            let common = chosen.features.contains(&name);
            let remedy = ignoring(&name);
            if common && !measure(new, column, &remedy, faults) {
                chosen.features.retain(|it| *it != name);
            }
            match old.find(&name) {
                Some(column) if !common && measured && is_text(old, column) => {
                    measure(old, column, &remedy, faults);
                }
                None if measured => {
                    not_renamed(&name, &chosen.lacking, old, new)?;
                    chosen.left.push(Left {
                        place: format!("{}, column {name}", new.file()),
                        why: format!("{} does not have it", old.file()),
                        column: name,
                        usable: false,
                    });
                }
                _ => (),
            }
        }
        Ok(chosen)
    }
}

impl Chosen {
    /// What is told about the columns that were left out.
    pub fn notes(&self) -> Vec<String> {
        let note = |left: &Left| {
            let how = match left.usable {
                true => {
                    let names = self.features.iter().chain([&left.column]);
                    format!("; to use it all the same: --features {}", option(names))
                }
                false => String::new(),
            };
            format!("{}: left out, because {}{how}", left.place, left.why)
        };
        self.left.iter().map(note).collect()
    }

    /// What is wrong with the features, with the columns that were left out, and why they were.
    pub fn without(&self, why: &str) -> String {
        let because = |it: &Left| format!("{}, because {}", quoted(&it.column), it.why);
        let left: Vec<String> = self.left.iter().map(because).collect();
        match left.is_empty() {
            true => why.to_owned(),
            false => format!("{why}; left out: {}", left.join("; ")),
        }
    }

    /// Why there are no features, with the columns that could be some.
    fn instead(&self, why: &str) -> String {
        let why = self.without(why);
        let usable: Vec<&Left> = self.left.iter().filter(|left| left.usable).collect();
        let them = match usable.len() {
            0 => return why,
            1 if self.left.len() == 1 => "it".to_owned(),
            1 => quoted(&usable[0].column),
            _ => "them".to_owned(),
        };
        let names = option(usable.iter().map(|it| &it.column));
        format!("{why}; to use {them} all the same: --features {names}")
    }
}

/// The columns with these names, which must all have numbers.
fn named(names: &[String], show: &mut Csv, faults: &mut Faults) -> Result<Chosen, Stop> {
    let mut chosen = Chosen::default();
    for name in names {
        let column = show.column(name)?;
        if measure(show, column, "", faults) {
            chosen.features.push(name.clone());
        }
    }
    Ok(chosen)
}

/// What can be done about a column that was not named, besides correcting it.
fn ignoring(name: &String) -> String {
    let name = option([name].into_iter());
    format!("; correct it, or leave the column out: --ignore {name}")
}

/// Takes a column as a measurement, if it has numbers alone.
pub fn measure(show: &mut Csv, column: usize, remedy: &str, faults: &mut Faults) -> bool {
    let unit = required(show, column, remedy, faults);
    let done = unit.is_some();
    show.set_unit(column, unit.unwrap_or_default());
    done
}

fn is_text(show: &Csv, column: usize) -> bool {
    match Use::of(show, column) {
        Use::Words => true,
        Use::Left(left) => !left.usable,
        Use::Measured(_) | Use::Faulty(_) => false,
    }
}

/// Checks that a measurement that only the new show has cannot be one that only the old show has, under another name.
fn not_renamed(name: &str, lacking: &[String], old: &Csv, new: &Csv) -> Result<(), Stop> {
    let Some(first) = lacking.first() else {
        return Ok(());
    };
    let twin = lacking.iter().find(|it| units::differ(it, name));
    let why = match twin {
        Some(twin) => format!(
            "the column {} is called {} in {}, so their units may differ; bring both to one unit under one name",
            quoted(name),
            quoted(twin),
            old.file()
        ),
        None => format!(
            "there is no column {}, which {} has, while that file has no column {}; if they are the same measurement, give both the same name, or else name the features with --features",
            quoted(first),
            old.file(),
            quoted(name)
        ),
    };
    Err(Stop::refused(&new.head(), &why))
}

/// Tells if two shows have a measurement in different units.
fn same_unit(old: &Csv, new: &Csv, name: &str, faults: &mut Faults) {
    let (Some(there), Some(here)) = (old.find(name), new.find(name)) else {
        return;
    };
    if old.unit(there) != new.unit(here) {
        let filled = |csv: &Csv, column: usize| {
            let is = |row: &usize| !csv.cell(*row, column).trim().is_empty();
            (0..csv.rows()).find(is).unwrap_or(0)
        };
        let (row, other) = (filled(new, here), filled(old, there));
        let place = format!("line {} of {}", old.line(other), old.file());
        let why = differ(new.cell(row, here), old.cell(other, there), &place);
        let why = why + "; bring both to one unit";
        faults.add(&new.place(row, here), &why);
    }
}

/// Names as the value of an option, in quotes if a shell would need them.
pub fn option<'a>(names: impl Iterator<Item = &'a String>) -> String {
    let mut text = String::new();
    record::write(names.map(String::as_str), ',', &mut text);
    let text = text.trim_end();
    let plain = |it: char| it.is_alphanumeric() || "_,.-+".contains(it);
    match text.chars().all(plain) {
        true => text.to_owned(),
        false => format!("'{}'", text.replace('\'', "'\\''")),
    }
}
