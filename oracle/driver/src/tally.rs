//! What was compared: how many inputs of each kind, and the shortest one that differs.

use crate::call::behind;
use crate::call::calls::{Call, Reader};
use crate::call::splits;
use crate::judge::case::Case;
use crate::judge::library::Library;
use crate::judge::listings::{self, SHOWN};
use std::fmt;
use std::process::ExitCode;
use std::time::Instant;

/// The numbers of the refusals, except that of a bad draw.
const REFUSALS: [u64; 12] = [1, 2, 3, 4, 6, 8, 9, 10, 11, 12, 13, 18];

/// What the calls about files show: the three that are answered, those refused for their bytes, by number, and the others.
const FILES: [&str; 8] = [
    "sizes told",
    "files written",
    "files read",
    "refused by 14",
    "by 15",
    "by 16",
    "by 17",
    "for a table or a room",
];

/// Which of `FILES` a call with this refusal is.
fn of_file(call: &Call, refusal: u64) -> Option<usize> {
    let answered = match call {
        Call::Read(read) if read.reader == Reader::ModelSize => 0,
        Call::Read(read) if read.reader == Reader::WriteModel => 1,
        Call::File(_) => 2,
        _ => return None,
    };
    Some(match refusal {
        0 => answered,
        14..=17 => refusal as usize - 11,
        _ => 7,
    })
}

/// How many calls were answered, by kind, and how many refused, by number.
#[derive(Clone, Copy)]
pub struct Counts {
    pub trees: usize,
    pub forests: usize,
    /// Predictions, means, importances and errors.
    pub readers: usize,
    pub nodes: usize,
    pub checks: usize,
    pub bad_draws: usize,
    /// 1 to 4, 6, 8 to 13, then 18.
    pub refusals: [usize; REFUSALS.len()],
    /// Among those refused by 11, 12 and 13, what `listings::shown` finds.
    pub damaged: [usize; SHOWN.len()],
    /// Among the trees and forests, those with cuts at measured values and a split: all, those with ties, with both zeros, and with
    /// one of the two as a threshold (`splits::shown`).
    pub measured: [usize; 4],
    /// Among the trees and forests, and those refused by 6, what `behind::shown` finds.
    pub behind: [usize; behind::SHOWN.len()],
    /// The calls about files (`FILES`). They are counted here alone.
    pub files: [usize; FILES.len()],
    /// Pairs of trees with a split that differ in rows left out: with cuts halfway, and at measured values.
    pub pairs: [usize; 2],
}

fn count<const N: usize>(counts: &mut [usize; N], shown: [bool; N]) {
    for (count, shown) in counts.iter_mut().zip(shown) {
        *count += usize::from(shown);
    }
}

impl Counts {
    /// The same number of every kind, but no files, which the list does not have, and no pairs, which only `compare` has.
    pub const fn each(count: usize) -> Self {
        Counts {
            trees: count,
            forests: count,
            readers: count,
            nodes: count,
            checks: count,
            bad_draws: count,
            refusals: [count; REFUSALS.len()],
            damaged: [count; SHOWN.len()],
            measured: [count; 4],
            behind: [count; behind::SHOWN.len()],
            files: [0; FILES.len()],
            pairs: [0; 2],
        }
    }

    fn add(&mut self, call: &Call, answer: &[u64]) {
        let refusal = answer[0];
        if let Some(place) = of_file(call, refusal) {
            self.files[place] += 1;
            return;
        }
        if let (0, Call::Fit(fit)) = (refusal, call)
            && fit.measured()
        {
            count(&mut self.measured, splits::shown(fit, answer));
        }
        if let (0 | 6, Call::Fit(fit)) = (refusal, call) {
            count(&mut self.behind, behind::shown(fit, answer));
        }
        if (11..=13).contains(&refusal) {
            count(&mut self.damaged, listings::shown(call, answer));
        }
        let count = match (refusal, call) {
            (0, Call::Fit(fit)) if fit.forest => &mut self.forests,
            (0, Call::Fit(_)) => &mut self.trees,
            (0, Call::Read(read)) => match read.reader {
                Reader::CheckListings | Reader::CheckTree | Reader::CheckForest => &mut self.checks,
                Reader::Node => &mut self.nodes,
                _ => &mut self.readers,
            },
            (0, Call::File(_)) => unreachable!("counted with the files"),
            (7, _) => &mut self.bad_draws,
            (number, _) => {
                let place = REFUSALS.iter().position(|refusal| *refusal == number);
                &mut self.refusals[place.expect("the number of a refusal")]
            }
        };
        *count += 1;
    }

    /// Every call once, by its kind.
    fn kinds(&self) -> impl Iterator<Item = usize> {
        let answered = [self.trees, self.forests, self.readers];
        let others = [self.nodes, self.checks, self.bad_draws];
        let all = answered.into_iter().chain(others);
        all.chain(self.refusals).chain(self.files)
    }

    /// Every number that has a minimum.
    fn all(&self) -> impl Iterator<Item = usize> {
        let damaged = self.kinds().chain(self.damaged);
        let fits = self.measured.into_iter().chain(self.behind);
        damaged.chain(fits).chain(self.pairs)
    }

    fn reach(&self, least: &Counts) -> bool {
        let mut both = self.all().zip(least.all());
        both.all(|(count, least)| count >= least)
    }

    fn tell_refused(&self, to: &mut fmt::Formatter) -> fmt::Result {
        write!(to, "refusals by number:")?;
        for (number, count) in REFUSALS.iter().zip(self.refusals) {
            write!(to, " {number}: {count},")?;
        }
        write!(to, " of damaged listings:")?;
        for (what, count) in SHOWN.iter().zip(self.damaged) {
            write!(to, " {count} {what},")?;
        }
        Ok(())
    }

    fn tell_files(&self, to: &mut fmt::Formatter) -> fmt::Result {
        write!(to, " of files:")?;
        for (what, count) in FILES.iter().zip(self.files) {
            write!(to, " {count} {what},")?;
        }
        Ok(())
    }

    fn tell_behind(&self, to: &mut fmt::Formatter) -> fmt::Result {
        write!(to, " counts and masses of fits:")?;
        for (what, count) in behind::SHOWN.iter().zip(self.behind) {
            write!(to, " {count} {what},")?;
        }
        Ok(())
    }

    fn tell_measured(&self, to: &mut fmt::Formatter) -> fmt::Result {
        let [cut, ties, zeros, at_zero] = self.measured;
        let [halfway, measured] = self.pairs;
        write!(to, " cut at measured values: {cut} fits with a split, ")?;
        write!(to, "{ties} of these with ties, {zeros} with both zeros, ")?;
        write!(to, "{at_zero} cut at one of the two; ")?;
        write!(to, "pairs with a split that differ in rows left out: ")?;
        write!(to, "{halfway} halfway, {measured} at measured values")
    }

    /// Forests, readers, refusals and files: all but the trees grown.
    fn beside_trees(&self) -> usize {
        self.kinds().skip(1).sum()
    }
}

impl fmt::Display for Counts {
    fn fmt(&self, to: &mut fmt::Formatter) -> fmt::Result {
        let Counts {
            trees,
            forests,
            readers,
            nodes,
            checks,
            bad_draws,
            ..
        } = self;
        let beside = self.beside_trees();
        write!(
            to,
            "{trees} trees grown; {beside} others: {forests} forests grown, "
        )?;
        write!(to, "{readers} answers of readers, {nodes} nodes read out, ")?;
        write!(to, "{checks} checks passed, {bad_draws} bad draws, ")?;
        self.tell_refused(to)?;
        self.tell_files(to)?;
        self.tell_behind(to)?;
        self.tell_measured(to)
    }
}

/// Compares the answers of a library with those expected, counts the cases, and keeps the shortest one that differs.
pub struct Tally<'a> {
    what: &'static str,
    pub library: &'a dyn Library,
    /// A second library that must give the same answers.
    second: Option<&'a dyn Library>,
    since: Instant,
    inputs: usize,
    differences: usize,
    shortest: Option<String>,
    counts: Counts,
}

impl<'a> Tally<'a> {
    pub fn new(
        what: &'static str,
        library: &'a dyn Library,
        second: Option<&'a dyn Library>,
    ) -> Self {
        Tally {
            what,
            library,
            second,
            since: Instant::now(),
            inputs: 0,
            differences: 0,
            shortest: None,
            counts: Counts::each(0),
        }
    }

    pub fn hold(&mut self, case: &Case) {
        let expected = caught(|| case.expected());
        let by = |library: &dyn Library| caught(|| case.answer(library));
        match self.second {
            None => self.answered(case, &expected, &[by(self.library)]),
            Some(second) => self.answered(case, &expected, &[by(self.library), by(second)]),
        }
    }

    /// Compares each answer with the expected one, which is never empty.
    pub fn answered(&mut self, case: &Case, expected: &[u64], answers: &[Vec<u64>]) {
        if !expected.is_empty() {
            self.counts.add(&case.call, expected);
        }
        let same = !expected.is_empty() && answers.iter().all(|answer| answer == expected);
        self.told(same, || {
            let call = case.call_line();
            format!("{call}\n  expected {expected:?}\n  answered {answers:?}")
        });
    }

    /// Two fits that must give the same tree, which has a split or none; `measured` says where they cut.
    pub fn paired(&mut self, same: bool, split: bool, measured: bool, input: impl Fn() -> String) {
        self.counts.pairs[usize::from(measured)] += usize::from(split);
        self.told(same, input);
    }

    pub fn told(&mut self, same: bool, input: impl Fn() -> String) {
        self.inputs += 1;
        if same {
            return;
        }
        self.differences += 1;
        let told = input();
        let shorter = |held: &String| told.len() < held.len();
        if self.shortest.as_ref().is_none_or(shorter) {
            self.shortest = Some(told);
        }
    }

    /// Fails if an input differs, or if there are fewer than `least` of any kind.
    pub fn end(&self, run: &str, least: &Counts) -> ExitCode {
        let (inputs, differences) = (self.inputs, self.differences);
        let seconds = self.since.elapsed().as_secs_f64();
        println!(
            "{run}, {}: {inputs} inputs, {differences} differences, {seconds:.1} s: {}",
            self.what, self.counts
        );
        match &self.shortest {
            None if self.counts.reach(least) => return ExitCode::SUCCESS,
            None => println!("too few of a kind; at least {least}"),
            Some(told) => println!("the shortest: {told}"),
        }
        ExitCode::FAILURE
    }
}

/// A judge that panics gives an empty answer, which is never expected.
pub fn caught(judge: impl Fn() -> Vec<u64>) -> Vec<u64> {
    let ended = std::panic::catch_unwind(std::panic::AssertUnwindSafe(judge));
    ended.unwrap_or_default()
}
