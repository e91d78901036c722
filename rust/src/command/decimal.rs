//! The decimal sign of a table, found out from its cells.

use crate::number::{Decimal, decimal, unsigned};

/// What a cell says about the decimal sign of its table.
#[derive(Clone, Copy, Debug, PartialEq)]
pub enum Kind {
    Empty,
    Words,
    /// A number without a decimal sign.
    Whole,
    /// A number with this decimal sign.
    Parted(Decimal),
    /// A number with this decimal sign, unless that stands between thousands: `4,250`.
    Grouped(Decimal),
}

impl Kind {
    /// The cell's text may have a unit behind the number.
    pub fn of(cell: &str) -> Kind {
        let text = cell.trim();
        let end = text.find(|it: char| !matches!(it, '0'..='9' | '+' | '-' | '.' | ','));
        let (front, behind) = text.split_at(end.unwrap_or(text.len()));
        let power = behind.strip_prefix(['e', 'E']).map_or("", unsigned);
        let exponent = !power.is_empty() && power.bytes().all(|it| it.is_ascii_digit());
        let unit = !behind.contains(|letter: char| letter.is_ascii_digit());
        let sign = |sign: Decimal| {
            let (whole, part) = unsigned(front).split_once(sign.sign())?;
            decimal(front, sign).then(|| {
                let grouped = (1..=3).contains(&whole.len()) && part.len() == 3;
                match grouped && !whole.starts_with('0') && !exponent {
                    true => Kind::Grouped(sign),
                    false => Kind::Parted(sign),
                }
            })
        };
        if text.is_empty() {
            Kind::Empty
        } else if !exponent && !unit {
            Kind::Words
        } else if front.contains(['.', ',']) {
            let known = sign(Decimal::Point).or_else(|| sign(Decimal::Comma));
            known.unwrap_or(Kind::Words)
        } else if decimal(front, Decimal::Point) {
            Kind::Whole
        } else {
            Kind::Words
        }
    }
}

/// Where a table has a kind of cell, first.
type Place = Option<(usize, usize)>;

/// What the columns of numbers of a table say about its decimal sign.
#[derive(Default)]
struct Signs {
    points: Place,
    commas: Place,
    /// Points and commas that do not stand between thousands.
    parting: [bool; 2],
    /// A number without a sign in a column where another has a point.
    whole: bool,
}

impl Signs {
    fn add(&mut self, column: usize, kinds: &[Kind]) {
        let filled = kinds.iter().filter(|it| **it != Kind::Empty).count();
        let words = kinds.iter().filter(|it| **it == Kind::Words).count();
        if words * 2 >= filled {
            return;
        }
        let first = |sign| {
            let is = |it: &Kind| [Kind::Parted(sign), Kind::Grouped(sign)].contains(it);
            kinds.iter().position(is).map(|row| (row, column))
        };
        let points = first(Decimal::Point);
        self.whole |= points.is_some() && kinds.contains(&Kind::Whole);
        self.points = self.points.or(points);
        self.commas = self.commas.or(first(Decimal::Comma));
        self.parting[0] |= kinds.contains(&Kind::Parted(Decimal::Point));
        self.parting[1] |= kinds.contains(&Kind::Parted(Decimal::Comma));
    }
}

/// Why the decimal sign of a table is unclear, with the row and column of cells.
#[derive(Debug, PartialEq)]
pub enum Unclear {
    /// A number with a point, and one with a comma.
    Both((usize, usize), (usize, usize)),
    /// The first of the numbers whose sign may stand between thousands, as may that of all others.
    Thousands((usize, usize)),
}

/// The decimal sign that the columns of a table have in common, if any of their numbers has one. A comma that may stand between
/// thousands wherever there is one is not guessed to be the decimal sign. Neither is such a point, unless commas separate the cells or
/// no number beside it is without a point.
pub fn find(
    columns: impl Iterator<Item = Vec<Kind>>,
    delimiter: char,
) -> Result<Option<Decimal>, Unclear> {
    let mut signs = Signs::default();
    for (column, kinds) in columns.enumerate() {
        signs.add(column, &kinds);
    }
    let [points, commas] = signs.parting;
    match (signs.points, signs.commas) {
        (None, None) => Ok(None),
        (Some(point), Some(comma)) => Err(Unclear::Both(point, comma)),
        (None, Some(comma)) if !commas => Err(Unclear::Thousands(comma)),
        (None, Some(_)) => Ok(Some(Decimal::Comma)),
        (Some(point), None) if !points && signs.whole && delimiter != ',' => {
            Err(Unclear::Thousands(point))
        }
        (Some(_), None) => Ok(Some(Decimal::Point)),
    }
}

#[cfg(test)]
mod tests {
    use super::*;
    use Decimal::{Comma, Point};

    #[test]
    fn cells_tell_their_sign() {
        for (cell, kind) in [
            ("", Kind::Empty),
            (" \t", Kind::Empty),
            ("7", Kind::Whole),
            ("-7e3", Kind::Whole),
            ("7 m", Kind::Whole),
            ("+4.25", Kind::Parted(Point)),
            ("4.25e-3", Kind::Parted(Point)),
            ("4,25", Kind::Parted(Comma)),
            ("-4,2 m", Kind::Parted(Comma)),
            (",5", Kind::Parted(Comma)),
            ("0,250", Kind::Parted(Comma)),
            ("1250,125", Kind::Parted(Comma)),
            ("4,250", Kind::Grouped(Comma)),
            ("-12.500mm", Kind::Grouped(Point)),
            ("1.250e3", Kind::Parted(Point)),
            ("1.234,5", Kind::Words),
            ("1 234", Kind::Words),
            ("1.2.3", Kind::Words),
            ("-", Kind::Words),
            ("FRONT-01", Kind::Words),
            ("1-2", Kind::Words),
        ] {
            assert_eq!(Kind::of(cell), kind, "{cell:?}");
        }
    }

    fn found(delimiter: char, columns: &[&[&str]]) -> Result<Option<Decimal>, Unclear> {
        let kinds = |column: &&[&str]| column.iter().map(|it| Kind::of(it)).collect();
        find(columns.iter().map(kinds), delimiter)
    }

    #[test]
    fn signs_are_found_out_but_not_guessed() {
        assert_eq!(found(';', &[&["1", "2"], &["a", "b"]]), Ok(None));
        assert_eq!(found(';', &[&["1", "2,5"]]), Ok(Some(Comma)));
        assert_eq!(found(',', &[&["1", "2,5", "4,250"]]), Ok(Some(Comma)));
        assert_eq!(
            found(';', &[&["1", "2.5"], &["4.250", "7"]]),
            Ok(Some(Point))
        );
        let both = Err(Unclear::Both((1, 1), (1, 0)));
        assert_eq!(found(';', &[&["1", "2,5"], &["3", "2.5"]]), both);
        // a column of words has no say
        let notes = &["high", "4.25", "low", ""];
        assert_eq!(found(';', &[&["1", "2,5"], notes]), Ok(Some(Comma)));
        let thousands = Err(Unclear::Thousands((1, 0)));
        for delimiter in [',', ';', '\t', '|'] {
            assert_eq!(found(delimiter, &[&["950", "1,050"]]), thousands);
            assert_eq!(
                found(delimiter, &[&["5,500", "4,250"]]),
                Err(Unclear::Thousands((0, 0)))
            );
        }
        assert_eq!(found(';', &[&["950", "1.050"]]), thousands);
        assert_eq!(found(',', &[&["950", "1.050"]]), Ok(Some(Point)));
        assert_eq!(
            found(';', &[&["5.500", "4.250"], &["1", "2"]]),
            Ok(Some(Point))
        );
    }
}
