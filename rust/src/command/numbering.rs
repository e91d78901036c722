//! Columns that number or name fixtures. Their numbers are not measured.

use std::collections::HashSet;

/// What the name of such a column ends in: words for a fixture itself, for a number of any kind, and for where a fixture is patched.
/// `docs/COMMAND.md` has the same list.
const NUMBERING: &[&str] = &[
    "fixture", "fixtures", "name", "label", "id", "ids", "fid", "cid", "uid", "uuid", "key",
    "number", "numbers", "num", "no", "nr", "index", "idx", "row", "line", "serial", "unit",
    "channel", "channels", "chan", "ch", "address", "addr", "dmx", "universe", "univ", "ip",
    "patch", "circuit", "dimmer",
];

/// Whether the name of a column says that it numbers or names fixtures: its last word is one of the list, or two of them run together, as in
/// `fixtureid`; or any word is `dmx`, as in `DMX start`. Case does not matter, nor does what is not a letter.
pub fn is_numbering(name: &str) -> bool {
    let is = |word: &str| NUMBERING.contains(&word);
    let both = |word: &str| {
        let ends = NUMBERING.iter().filter_map(|end| word.strip_suffix(end));
        ends.into_iter().any(is)
    };
    let words = words(name);
    let last = words.last();
    last.is_some_and(|word| is(word) || both(word)) || words.iter().any(|word| word == "dmx")
}

/// Words for what names a fixture, the best first.
const NAMING: &[&str] = &[
    "fixture", "name", "label", "id", "fid", "uid", "number", "num", "no", "nr", "channel", "chan",
    "ch", "unit",
];

/// How many of them are for a fixture alone. The others often count again on each truss.
const OWN: usize = 6;

/// The column that names the fixtures: it has a name that says just that, such as `fixture`, `Fixture ID` or `unit no`, but not `truss name`.
/// Of several, it is the best one; but if that has a number of some kind, the best one whose cells are all different, if any.
pub fn naming(names: &[String], differ: impl Fn(usize) -> bool) -> Option<usize> {
    let rank = |name: &String| {
        let words = words(name);
        let only = words.iter().all(|it| NUMBERING.contains(&it.as_str()));
        let ranks = words.iter().map(|it| NAMING.iter().position(|is| is == it));
        ranks.flatten().min().filter(|_| only)
    };
    let ranked = names.iter().enumerate();
    let ranked = ranked.filter_map(|(column, name)| Some((rank(name)?, column)));
    let mut ranked: Vec<(usize, usize)> = ranked.collect();
    ranked.sort_unstable();
    let best = ranked.first()?;
    let others = ranked.iter().filter(|_| best.0 >= OWN);
    let differs = others.map(|(_, column)| *column).find(|it| differ(*it));
    Some(differs.unwrap_or(best.1))
}

/// The words of a name in lower case. A word ends where a capital follows a small letter, as in `unitNumber`; a `#` is the word for a number.
fn words(name: &str) -> Vec<String> {
    let mut words = vec![String::new()];
    let mut small = false;
    for letter in name.chars() {
        if !letter.is_alphabetic() || (small && letter.is_uppercase()) {
            words.push(String::new());
        }
        match (letter, words.last_mut()) {
            ('#', _) => words.push("number".into()),
            (_, Some(word)) if letter.is_alphabetic() => word.extend(letter.to_lowercase()),
            _ => (),
        }
        small = letter.is_lowercase();
    }
    words.retain(|word| !word.is_empty());
    words
}

/// How few fixtures cannot be said to be counted by a column.
const FEW: usize = 3;

/// The least and the greatest number if the cells only count, apart from empty ones: whole numbers without a sign, in one of two ways.
pub fn counted<'a>(cells: impl Iterator<Item = &'a str>) -> Option<(u64, u64)> {
    let whole = |cell: &str| {
        let digits = cell.bytes().all(|it| it.is_ascii_digit());
        cell.parse().ok().filter(|_| digits)
    };
    let cells = cells.map(str::trim).filter(|cell| !cell.is_empty());
    let numbers: Vec<u64> = cells.map(whole).collect::<Option<_>>()?;
    let ends = (*numbers.iter().min()?, *numbers.iter().max()?);
    let counts = numbers.len() >= FEW && (counts_once(&numbers, ends) || counts_again(&numbers));
    counts.then_some(ends)
}

/// Whether all numbers are different, and hardly any is left out: at most one for every ten fixtures.
fn counts_once(numbers: &[u64], (least, greatest): (u64, u64)) -> bool {
    let rows = numbers.len() as u64;
    let mut met = HashSet::new();
    let missing = (greatest - least).checked_sub(rows - 1);
    missing.is_some_and(|missing| missing <= rows / 10) && numbers.iter().all(|it| met.insert(it))
}

/// Whether the numbers rise by one from row to row, and begin again at 0 or 1 on each truss.
fn counts_again(numbers: &[u64]) -> bool {
    let begin = numbers[0];
    let mut steps = numbers.windows(2);
    let begins = numbers.iter().filter(|it| **it == begin).count();
    let steady = steps.all(|pair| pair[1] == begin || pair[1].checked_sub(1) == Some(pair[0]));
    begin <= 1 && begins * FEW <= numbers.len() && steady
}

#[cfg(test)]
mod tests {
    use super::*;

    const THESE: &[&str] = &[
        "fixture",
        "Fixture",
        "FIXTURE_ID",
        "fixture id 2",
        "fixtureId",
        "FixtureID",
        "fixtureid",
        "UnitNumber",
        "Unit #",
        "#",
        "No.",
        "position number",
        "dmx_address",
        "DMX",
        "DMX start",
        "Channel",
        "chan 1",
        "patch",
        "row",
        "Univ.",
    ];
    const OTHERS: &[&str] = &[
        "trim_height",
        "pan",
        "grid",
        "piano",
        "position",
        "x",
        "1",
        "",
        "unit height",
        "id_angle",
        "throw",
        "union",
        "hid",
        "Number of lamps",
    ];

    #[test]
    fn names_that_say_that_a_column_numbers() {
        for name in THESE {
            assert!(is_numbering(name), "{name}");
        }
        for name in OTHERS {
            assert!(!is_numbering(name), "{name}");
        }
    }

    #[test]
    fn the_page_has_the_same_list() {
        let page = include_str!("../../../docs/COMMAND.md");
        let list = NUMBERING.iter().map(|it| format!("`{it}`"));
        let list = list.collect::<Vec<_>>().join(", ");
        assert!(page.contains(&list), "{list}");
    }

    #[test]
    fn fixtures_are_named_by_the_best_column() {
        let naming = |names: &str, differ: &[usize]| {
            let names: Vec<String> = names.split(',').map(String::from).collect();
            naming(&names, |column| differ.contains(&column))
        };
        assert_eq!(naming("truss,unit,Fixture,channel", &[3]), Some(2));
        assert_eq!(naming("unit height,Unit #,chan,pan", &[]), Some(1));
        assert_eq!(naming("unit height,Unit #,chan,pan", &[0, 2]), Some(2));
        assert_eq!(naming("x,fixtureID", &[]), Some(1));
        assert_eq!(naming("truss name,house id,dmx address,pan", &[0]), None);
    }

    fn of(cells: &[&str]) -> Option<(u64, u64)> {
        counted(cells.iter().copied())
    }

    #[test]
    fn numbers_that_only_count() {
        assert_eq!(of(&["1", "2", "3"]), Some((1, 3)));
        assert_eq!(of(&["104", " 102", "103", "101"]), Some((101, 104)));
        assert_eq!(of(&["0", "01", "", "002"]), Some((0, 2)));
        for other in [
            &["1", "2"][..],
            &["1", "2", "2"],
            &["1", "2", "4"],
            &["1.0", "2.0", "3.0"],
            &["-1", "0", "1"],
            &["+1", "2", "3"],
            &["1 m", "2 m", "3 m"],
            &["1", "", "3"],
            &["99999999999999999999", "1", "2"],
            &["0", "9", "18446744073709551615"],
        ] {
            assert_eq!(of(other), None, "{other:?}");
        }
    }

    #[test]
    fn numbers_that_count_on_each_truss() {
        assert_eq!(of(&["1", "2", "3", "1", "2", "3", "4"]), Some((1, 4)));
        assert_eq!(of(&["0", "1", "2", "0", "1", "2"]), Some((0, 2)));
        for other in [
            &["1", "2", "3", "1", "2", "4"][..],
            &["5", "6", "7", "5", "6", "7"],
            &["1", "1", "1", "2", "2", "2"],
            &["1", "2", "1", "2"],
            &["0", "0", "0", "0", "0"],
        ] {
            assert_eq!(of(other), None, "{other:?}");
        }
    }

    /// One number in ten may be missing, since a fixture may have been taken out of the rig.
    #[test]
    fn a_gap_does_not_make_a_measurement() {
        let without = |gone: &[u64]| {
            let left = (1..=41).filter(|it| !gone.contains(it));
            let left: Vec<String> = left.map(|it| it.to_string()).collect();
            counted(left.iter().map(String::as_str))
        };
        assert_eq!(without(&[5, 6, 30]), Some((1, 41)));
        assert_eq!(without(&[5, 6, 7, 8, 9]), None);
    }
}
