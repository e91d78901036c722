//! What the cells of a column are: numbers, numbers with a unit, words, or a mixture.

use crate::number::{self, Decimal};
use crate::units::{is_known, is_letter, is_unit};

/// What is in a cell.
#[derive(Debug, PartialEq)]
enum Cell<'a> {
    Empty,
    Number,
    Unit(&'a str),
    /// A measurement that is not one number: feet and inches, degrees and minutes, `1-4 m`.
    Odd,
    /// A number with another decimal sign than the table's, or with thousands separators.
    Otherwise,
    Word,
}

/// What is in a column, apart from empty cells. Rows are the first of their kind.
#[derive(Debug, PartialEq)]
pub enum Holds {
    Numbers,
    /// Numbers that all have this unit.
    Unit(String),
    /// Numbers of which these two do not have the same unit, or one has none.
    Units {
        row: usize,
        other: usize,
    },
    /// Numbers, but this measurement is not one.
    Odd {
        row: usize,
    },
    /// Numbers of which this one is written otherwise than the table's numbers.
    Otherwise {
        row: usize,
    },
    Words,
    /// A single number among words.
    OnlyNumber {
        row: usize,
    },
    /// A single word among numbers.
    OnlyWord {
        row: usize,
    },
    Mixed {
        number: usize,
        word: usize,
    },
}

impl Holds {
    pub fn of<'a>(cells: impl Iterator<Item = &'a str>, decimal: Decimal) -> Holds {
        let mut kinds = Kinds::default();
        for (row, text) in cells.enumerate() {
            kinds.add(row, &cell(text, decimal));
        }
        kinds.holds()
    }
}

/// How many cells are of a kind, and which is the first.
#[derive(Clone, Copy, Default)]
struct Tally {
    count: usize,
    first: Option<usize>,
}

impl Tally {
    fn add(&mut self, row: usize) {
        self.count += 1;
        self.first.get_or_insert(row);
    }

    fn and(self, other: Tally) -> Tally {
        Tally {
            count: self.count + other.count,
            first: self.first.into_iter().chain(other.first).min(),
        }
    }
}

#[derive(Default)]
struct Kinds {
    bare: Tally,
    /// With the unit that came first.
    with: Tally,
    unit: String,
    /// With any other unit.
    others: Tally,
    /// Whether any of the units is known.
    known: bool,
    odd: Tally,
    otherwise: Tally,
    words: Tally,
}

impl Kinds {
    fn add(&mut self, row: usize, cell: &Cell) {
        match cell {
            Cell::Empty => (),
            Cell::Number => self.bare.add(row),
            Cell::Odd => self.odd.add(row),
            Cell::Otherwise => self.otherwise.add(row),
            Cell::Word => self.words.add(row),
            Cell::Unit(unit) => {
                self.known |= is_known(unit);
                if self.with.count == 0 {
                    self.unit = (*unit).to_owned();
                }
                match self.unit == *unit {
                    true => self.with.add(row),
                    false => self.others.add(row),
                }
            }
        }
    }

    fn holds(self) -> Holds {
        let (with, words) = (self.with.and(self.others), self.words);
        let bare = self.bare.and(self.odd).and(self.otherwise);
        let all = bare.and(with).and(words);
        // a unit that is not known must be in all cells; one may be wrong, unless the unit may be the end of a name
        let wrong = usize::from(!is_letter(&self.unit));
        let believed = self.others.count == 0 && with.count + wrong >= all.count;
        let (numbers, words) = match self.known || believed {
            true => (bare.and(with), words),
            false => (bare, words.and(with)),
        };
        match (numbers.first, words.first) {
            (None, _) => Holds::Words,
            (Some(_), None) => self.numbers(),
            (Some(_), Some(row)) if words.count == 1 => Holds::OnlyWord { row },
            (Some(row), Some(_)) if numbers.count == 1 => Holds::OnlyNumber { row },
            (Some(number), Some(word)) => Holds::Mixed { number, word },
        }
    }

    /// What is in a column without words.
    fn numbers(self) -> Holds {
        let differs = self.bare.and(self.others).first;
        if let Some(row) = self.otherwise.first {
            return Holds::Otherwise { row };
        }
        match (self.odd.first, self.with.first, differs) {
            (Some(row), _, _) => Holds::Odd { row },
            (None, None, _) => Holds::Numbers,
            (None, Some(_), None) => Holds::Unit(self.unit),
            (None, Some(row), Some(other)) => Holds::Units { row, other },
        }
    }
}

fn cell(text: &str, decimal: Decimal) -> Cell<'_> {
    let text = text.trim();
    let is_number = |text: &str| number::read(text, decimal).is_ok();
    if text.is_empty() {
        return Cell::Empty;
    }
    if is_number(text) {
        return Cell::Number;
    }
    let (front, unit) = parts(text);
    if is_number(front) && is_unit(unit) && !in_name(text, front, unit) {
        Cell::Unit(unit)
    } else if in_parts(text, decimal) {
        Cell::Odd
    } else if number::otherwise(front, decimal) && (unit.is_empty() || is_known(unit)) {
        Cell::Otherwise
    } else if is_range(front, unit) {
        Cell::Odd
    } else {
        Cell::Word
    }
}

/// Whether what follows a number belongs to a name, as in `2E`: it is no known unit, and is run together with a whole number.
fn in_name(text: &str, front: &str, unit: &str) -> bool {
    let apart = text[front.len()..].starts_with(char::is_whitespace);
    !apart && !front.contains(['.', ',']) && !is_known(unit) && !is_letter(unit)
}

/// A cell as a number, up to its last digit, and as what stands behind that.
fn parts(text: &str) -> (&str, &str) {
    let digit = text.rfind(|it: char| it.is_ascii_digit());
    let (front, unit) = text.split_at(digit.map_or(0, |at| at + 1));
    (front, unit.trim())
}

/// Whether a cell is a number that can be read, on its own or with a known unit.
pub fn is_number(text: &str, decimal: Decimal) -> bool {
    match cell(text, decimal) {
        Cell::Number => true,
        Cell::Unit(unit) => is_known(unit),
        Cell::Empty | Cell::Odd | Cell::Otherwise | Cell::Word => false,
    }
}

/// The number of a cell without its unit, if it is written otherwise than the table's numbers.
pub fn otherwise(text: &str, decimal: Decimal) -> Option<&str> {
    (cell(text, decimal) == Cell::Otherwise).then(|| parts(text.trim()).0)
}

/// Whether a cell is a measurement that is not one number.
pub fn is_odd(text: &str, decimal: Decimal) -> bool {
    cell(text, decimal) == Cell::Odd
}

/// The unit of a cell that is a number with a unit.
pub fn unit(cell: &str) -> &str {
    parts(cell.trim()).1
}

/// Whether what stands before a known unit is more than a number: `1-4 m`.
fn is_range(front: &str, unit: &str) -> bool {
    let begins = front.starts_with(|it: char| it.is_ascii_digit() || "+-".contains(it));
    begins && !front.contains(char::is_alphabetic) && is_known(unit)
}

/// Whether a cell is several numbers with known units, of which the last may be missing: `18' 6"`, `5 ft 6 in`, `12°30`.
fn in_parts(text: &str, decimal: Decimal) -> bool {
    let is_digit = |it: char| it.is_ascii_digit() || "+-.,".contains(it);
    let (mut rest, mut count) = (text, 0);
    while !rest.is_empty() {
        let (front, behind) = rest.split_at(rest.find(|it| !is_digit(it)).unwrap_or(rest.len()));
        let (unit, next) = behind.split_at(behind.find(is_digit).unwrap_or(behind.len()));
        let last = next.is_empty() && unit.is_empty() && count > 0;
        if number::read(front, decimal).is_err() || !(last || is_known(unit.trim())) {
            return false;
        }
        (rest, count) = (next, count + 1);
    }
    count > 1
}

#[cfg(test)]
mod tests {
    use super::*;
    use Decimal::{Comma, Point};

    #[test]
    fn cells_are_told_apart() {
        for (text, is) in [
            ("", Cell::Empty),
            (" 4.2 ", Cell::Number),
            ("-1e3", Cell::Number),
            ("4.2 m", Cell::Unit("m")),
            (" 4.2m ", Cell::Unit("m")),
            ("12°", Cell::Unit("°")),
            ("-35 deg", Cell::Unit("deg")),
            ("6\"", Cell::Unit("\"")),
            ("12A", Cell::Unit("A")),
            ("3 bays", Cell::Unit("bays")),
            ("3.5bays", Cell::Unit("bays")),
            ("12B", Cell::Word),
            ("2E", Cell::Word),
            ("3 m left", Cell::Unit("m left")),
            ("18'6\"", Cell::Odd),
            ("5 ft 6 in", Cell::Odd),
            ("12°30", Cell::Odd),
            ("4,2 m", Cell::Otherwise),
            ("1 234.5", Cell::Otherwise),
            ("1 23", Cell::Word),
            ("1-4 m", Cell::Odd),
            ("10.0.0.12", Cell::Word),
            ("m", Cell::Word),
            ("LX12", Cell::Word),
            ("2nd electric of the house", Cell::Word),
            ("1e400", Cell::Word),
            ("4.2 (m)", Cell::Word),
        ] {
            assert_eq!(cell(text, Point), is, "{text}");
        }
        assert_eq!(cell("4,2 m", Comma), Cell::Unit("m"));
        assert_eq!(unit("4.2m"), "m");
    }

    fn holds(cells: &[&str]) -> Holds {
        Holds::of(cells.iter().copied(), Point)
    }

    #[test]
    fn columns_of_one_kind() {
        assert_eq!(holds(&["1", "", "2.5"]), Holds::Numbers);
        assert_eq!(holds(&["", "", ""]), Holds::Words);
        assert_eq!(holds(&["a", "b"]), Holds::Words);
        assert_eq!(holds(&["4.2 m", "4.3m", ""]), Holds::Unit("m".into()));
        assert_eq!(holds(&["3 bays", "4 bays"]), Holds::Unit("bays".into()));
        assert_eq!(holds(&["575W", "750W"]), Holds::Unit("W".into()));
    }

    #[test]
    fn units_that_differ() {
        let units = |row, other| Holds::Units { row, other };
        assert_eq!(holds(&["4.2 m", "4.3 m", "430 cm"]), units(0, 2));
        assert_eq!(holds(&["4.2", "4.3 m"]), units(1, 0));
        assert_eq!(holds(&["3 m left", "3 m right"]), units(0, 1));
        assert_eq!(holds(&["4 m", "18'6\""]), Holds::Odd { row: 1 });
        let otherwise = |row| Holds::Otherwise { row };
        assert_eq!(holds(&["950", "1 050", "1 150"]), otherwise(1));
        assert_eq!(holds(&["1,050.5 m", "1,150.5 m"]), otherwise(0));
        // names, since none of these is a unit
        assert_eq!(holds(&["1A", "1B", "2A", "2B"]), Holds::Words);
        assert_eq!(holds(&["1A", "1B", "1A", "2A"]), Holds::Words);
        assert_eq!(holds(&["FOH", "1E", "1E", "2E"]), Holds::Words);
        assert_eq!(holds(&["FOH", "3x", "BOX"]), Holds::Words);
    }

    #[test]
    fn one_cell_of_another_kind() {
        let only = |row| Holds::OnlyWord { row };
        assert_eq!(holds(&["1", "low", "2"]), only(1));
        assert_eq!(holds(&["1", "low"]), only(1));
        assert_eq!(holds(&["4 m", "5 m", "low"]), only(2));
        assert_eq!(holds(&["4", "5", "6A"]), only(2));
        let only = |row| Holds::OnlyNumber { row };
        assert_eq!(holds(&["a", "b", "7", ""]), only(2));
        assert_eq!(holds(&["FOH", "BOX", "3 m"]), only(2));
        let mixed = Holds::Mixed { number: 1, word: 0 };
        assert_eq!(holds(&["a", "1", "b", "2"]), mixed);
    }
}
