//! Numbers rounded for reading.

/// What is written in place of a number that is none.
const NONE: &str = "not a number";

/// A number with at most so many significant digits, and no zeros behind them; with an exponent if it would have many zeros.
pub fn rounded(number: f64, digits: usize) -> String {
    if !number.is_finite() {
        return NONE.into();
    }
    let text = format!("{number:.*e}", digits - 1);
    match text.parse::<f64>() {
        Ok(near) if near.is_finite() && plain(near) => format!("{}", near + 0.0),
        Ok(near) if near.is_finite() => format!("{near:e}"),
        // the largest floats, rounded up, are no floats
        _ => text,
    }
}

/// Whether a number is read more easily without an exponent.
fn plain(number: f64) -> bool {
    number == 0.0 || (1e-4..1e7).contains(&number.abs())
}

/// How the numbers of a column are written: all with the same number of decimals, or all with an exponent.
#[derive(Debug, Clone, Copy, PartialEq)]
pub struct Column {
    decimals: Option<usize>,
}

impl Column {
    /// Decimals that give the largest of the numbers three significant digits or four.
    pub fn of(numbers: impl Iterator<Item = f64>) -> Self {
        let most = numbers.map(f64::abs).fold(0.0, f64::max);
        let decimals = match most {
            0.0 => Some(0),
            it if !plain(it) => None,
            1e3.. => Some(0),
            1e2.. => Some(1),
            1.0.. => Some(2),
            it => Some((2.0 - it.log10().floor()) as usize),
        };
        Column { decimals }
    }

    /// A number.
    pub fn write(self, number: f64) -> String {
        let text = match self.decimals {
            _ if !number.is_finite() => return NONE.into(),
            None => return rounded(number, 3),
            Some(decimals) => format!("{number:.decimals$}"),
        };
        match text.strip_prefix('-') {
            Some(zero) if !zero.contains(|digit| ('1'..='9').contains(&digit)) => zero.into(),
            _ => text,
        }
    }

    /// A number with its sign, even if that is a plus.
    pub fn signed(self, number: f64) -> String {
        let text = self.write(number);
        let positive = number > 0.0 && text.contains(|digit| ('1'..='9').contains(&digit));
        let sign = if positive { "+" } else { "" };
        format!("{sign}{text}")
    }
}

/// A count, with commas between thousands.
pub fn count(number: usize) -> String {
    let digits = number.to_string();
    let mut text = String::new();
    for (at, digit) in digits.chars().enumerate() {
        if at > 0 && (digits.len() - at) % 3 == 0 {
            text.push(',');
        }
        text.push(digit);
    }
    text
}

/// A count of things, with the word for one of them or for several.
pub fn counted(number: usize, one: &str, several: &str) -> String {
    let word = if number == 1 { one } else { several };
    format!("{} {word}", count(number))
}

#[cfg(test)]
mod tests {
    use super::*;

    #[test]
    fn numbers_are_rounded() {
        for (number, text) in [
            (0.1 + 0.2, "0.3"),
            (7.941, "7.94"),
            (-1234.5, "-1230"),
            (-0.0, "0"),
            (1e300, "1e300"),
            (-2.5e-7, "-2.5e-7"),
            (f64::MAX, "1.80e308"),
            (5e-324, "5e-324"),
            (f64::NAN, "not a number"),
            (f64::INFINITY, "not a number"),
        ] {
            assert_eq!(rounded(number, 3), text);
        }
        assert_eq!(rounded(12345.6789, 9), "12345.6789");
    }

    #[test]
    fn columns_line_up() {
        let column = Column::of([1.346, -0.02, 0.0].into_iter());
        let written = [1.346, -0.02, -0.001, 0.0].map(|it| column.signed(it));
        assert_eq!(written, ["+1.35", "-0.02", "0.00", "0.00"]);
        for (most, text) in [
            (0.0, "0"),
            (0.0123, "0.0123"),
            (12.5, "12.50"),
            (345.67, "345.7"),
            (9999.4, "9999"),
            (1e300, "1e300"),
            (3e-9, "3e-9"),
        ] {
            assert_eq!(Column::of([most].into_iter()).write(most), text);
        }
        assert_eq!(column.signed(f64::NAN), "not a number");
        assert_eq!(column.signed(f64::INFINITY), "not a number");
    }

    #[test]
    fn counts_are_grouped() {
        assert_eq!(
            [0, 120, 1024, 65_535].map(count),
            ["0", "120", "1,024", "65,535"]
        );
        assert_eq!(counted(1, "row", "rows"), "1 row");
        assert_eq!(counted(2000, "row", "rows"), "2,000 rows");
    }
}
