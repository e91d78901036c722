//! Compares both judges on generated inputs or on the fixed list.

use crate::behind;
use crate::call::calls::{Call, Reader};
use crate::call::fault::Fault;
use crate::damage::faults;
use crate::damage::file as damage_file;
use crate::damage::fit as damage_fit;
use crate::damage::listing;
use crate::damage::misread;
use crate::damage::places;
use crate::damage::read as damage_read;
use crate::differences;
use crate::files;
use crate::judge::case::{self, Case};
use crate::left_out;
use crate::limits::file as limits_file;
use crate::limits::fit as limits_fit;
use crate::limits::listings as limits_listings;
use crate::limits::read as limits_read;
use crate::make::behind as make_behind;
use crate::make::chance::Chance;
use crate::make::crafted;
use crate::make::exhaustive;
use crate::make::file as make_file;
use crate::make::fit as make_fit;
use crate::make::fit::{SMALL, Size};
use crate::make::listed;
use crate::make::lower;
use crate::make::read as make_read;
use crate::make::rehearsal;
use crate::make::splitting;
use crate::own;
use crate::tally::{Counts, Tally, caught};
use std::process::ExitCode;

/// For the fixed list: few numbers per case.
pub const TINY: Size = Size {
    rows: 6,
    features: 2,
    trees: 3,
};

const MIDDLING: Size = Size {
    rows: 40,
    features: 12,
    trees: 6,
};

/// One random case: a fit that is valid, has bad draws or is damaged; or a reader that is valid or damaged.
pub fn make(chance: &mut Chance, size: Size) -> Case {
    if chance.one_in(3) {
        let mut read = make_read::read(chance);
        let fault = match chance.one_in(2) {
            true => damage_read::damage(chance, &mut read),
            false => Fault::default(),
        };
        return Case::read(read, fault);
    }
    let forest = chance.one_in(3);
    let mut fit = make_fit::fit(chance, forest, size);
    let mut fault = Fault::default();
    match chance.below(6) {
        0 => fault = damage_fit::damage(chance, &mut fit),
        1 => damage_fit::draws(chance, &mut fit),
        _ => {}
    }
    Case::fit(fit, fault)
}

/// A case that is made again, up to three times, if none of its trees has more than the search of its root.
fn make_growing(chance: &mut Chance, size: Size) -> Case {
    let bare = |case: &Case| match &case.call {
        Call::Fit(fit) => case.fault.none() && fit.words.len() <= fit.trees * fit.features,
        Call::Read(_) | Call::File(_) => false,
    };
    let mut case = make(chance, size);
    for _ in 0..3 {
        if bare(&case) {
            case = make(chance, size);
        }
    }
    case
}

/// The cases that are not random.
pub fn fixed() -> Vec<Case> {
    let mut cases = rehearsal::cases();
    cases.extend(crafted::cases());
    cases.extend(lower::cases());
    cases.extend(make_behind::cases());
    cases.extend(faults::cases());
    cases.extend(places::cases());
    cases
}

/// Random cases.
fn random(tally: &mut Tally, chance: &mut Chance, count: usize) {
    for i in 0..count {
        let size = if i % 20 == 0 { MIDDLING } else { SMALL };
        tally.hold(&make_growing(chance, size));
    }
}

/// Tables whose file is to be written or its size told, half of them damaged.
fn tables(tally: &mut Tally, chance: &mut Chance, count: usize) {
    for number in 0..count {
        let reader = chance.pick(&[Reader::ModelSize, Reader::WriteModel]);
        let mut read = make_file::table(chance, reader);
        let fault = match number % 2 {
            0 => damage_read::damage(chance, &mut read),
            _ => Fault::default(),
        };
        tally.hold(&Case::read(read, fault));
    }
}

/// The calls about files: the golden file, files made by hand, tables, `count` damaged files, and some tables and files for which writing
/// and reading must undo each other.
fn of_files(tally: &mut Tally, count: usize) {
    files::golden(tally);
    misread::cases().iter().for_each(|case| tally.hold(case));
    tables(tally, &mut Chance::new(11), count / 20);
    damage_file::each(&mut Chance::new(12), count, |case| tally.hold(&case));
    files::hold(tally, &mut Chance::new(13), count / 50);
}

/// The same, and those that are too many for a sample.
fn all_of_files(tally: &mut Tally, count: usize) {
    of_files(tally, count);
    misread::each(|case| tally.hold(&case));
    limits_file::each(&mut Chance::new(14), |case| tally.hold(&case));
}

/// The calls about files alone.
pub fn files(mut tally: Tally, count: usize) -> ExitCode {
    all_of_files(&mut tally, count);
    tally.end("files", &Counts::each(0))
}

/// Compares generated cases, `count` of them random, damaged listings, what docs/DIFFERENCES.md says, counts and masses found by hand,
/// smartcore's own `fit`s, trees with others that differ in rows left out, small fits that cut at measured values, and files, so many of
/// which are damaged.
pub fn compare(mut tally: Tally, count: usize, damaged: usize, least: &Counts) -> ExitCode {
    let mut chance = Chance::new(1);
    fixed().iter().for_each(|case| tally.hold(case));
    exhaustive::best(|case| tally.hold(&case));
    exhaustive::random(|case| tally.hold(&case));
    exhaustive::words(|case| tally.hold(&case));
    exhaustive::tables(|case| tally.hold(&case));
    listed::each(|case| tally.hold(&case));
    places::wide(|case| tally.hold(&case));
    exhaustive::errors(|case| tally.hold(&case));
    limits_fit::each(&mut chance, |case| tally.hold(&case));
    limits_read::each(&mut Chance::new(5), |case| tally.hold(&case));
    limits_listings::each(&mut Chance::new(8), |case| tally.hold(&case));
    random(&mut tally, &mut chance, count);
    listing::each(&mut Chance::new(9), count / 10, |case| tally.hold(&case));
    differences::hold(&mut tally);
    behind::hold(&mut tally);
    own::hold(&mut tally, &mut chance, count / 100);
    left_out::hold(&mut tally, &mut Chance::new(6), count / 100);
    let measured = count / 2;
    splitting::each(&mut Chance::new(7), measured, |case| tally.hold(&case));
    all_of_files(&mut tally, damaged);
    tally.end("compare", least)
}

/// The cases that are not random, `count` random ones, as many damaged files and some damaged listings, for a short run.
pub fn sample(mut tally: Tally, count: usize, least: &Counts) -> ExitCode {
    fixed().iter().for_each(|case| tally.hold(case));
    random(&mut tally, &mut Chance::new(4), count);
    listing::each(&mut Chance::new(10), count / 10, |case| tally.hold(&case));
    of_files(&mut tally, count);
    tally.end("sample", least)
}

/// The deepest trees that are possible; takes about a minute.
pub fn longest(mut tally: Tally) -> ExitCode {
    limits_fit::longest(&mut Chance::new(3), |case| tally.hold(&case));
    tally.end("longest", &Counts::each(0))
}

/// Who answers the list: the library of the tally, or the copy, which answers the cases marked as smartcore's and those that follow
/// from its answers. Where listings are damaged, the driver takes its place.
#[derive(Clone, Copy)]
pub enum By {
    Library,
    Copy,
}

/// Replays the list. With `each`, prints the position of every case that differs.
pub fn replay(mut tally: Tally, by: &[By], file: &str, each: bool, least: &Counts) -> ExitCode {
    let library = tally.library;
    // an edited judge may panic on many cases; each counts as one that differs
    std::panic::set_hook(Box::new(|_| ()));
    for (place, listed) in case::read_list(file).iter().enumerate() {
        for by in by {
            let answer = match by {
                By::Library => caught(|| listed.case.answer(library)),
                By::Copy if listed.found_again() => caught(|| listed.case.expected()),
                _ => continue,
            };
            if each && answer != listed.answer {
                println!("differs {place}");
            }
            tally.answered(&listed.case, &listed.answer, &[answer]);
        }
    }
    tally.end("replay", least)
}
