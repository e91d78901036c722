//! Decimal numbers, written so that they read back to the same bits.

/// The sign between a number's whole part and its fraction.
#[derive(Clone, Copy, Debug, Default, PartialEq)]
pub enum Decimal {
    #[default]
    Point,
    Comma,
}

impl Decimal {
    pub fn sign(self) -> char {
        match self {
            Decimal::Point => '.',
            Decimal::Comma => ',',
        }
    }
}

/// How numbers are written: their decimal sign, and how many digits follow it. Without a number of digits, as many as it takes to read
/// the same bits back.
#[derive(Clone, Copy, Debug)]
pub struct Style {
    pub decimal: Decimal,
    pub digits: Option<usize>,
}

impl Style {
    /// With a decimal point, and as many digits as it takes.
    pub const EXACT: Style = Style {
        decimal: Decimal::Point,
        digits: None,
    };
}

/// Reads a finite decimal number. Rust itself would also accept `inf` and `nan`, which a cell should not contain.
pub fn read(cell: &str, sign: Decimal) -> Result<f64, String> {
    let text = cell.trim();
    let number = match sign {
        _ if !decimal(text, sign) => Ok(f64::NAN),
        Decimal::Point => text.parse(),
        Decimal::Comma => text.replace(',', ".").parse(),
    };
    let number: f64 = number.unwrap_or(f64::NAN);
    if number.is_nan() {
        Err(format!(
            "{} is not a number{}",
            quoted(text),
            hint(text, sign)
        ))
    } else if number.is_infinite() {
        Err(format!(
            "{} is too large; numbers go up to 1.79e308",
            quoted(text)
        ))
    } else {
        Ok(number)
    }
}

/// Without its sign.
pub fn unsigned(text: &str) -> &str {
    text.strip_prefix(['+', '-']).unwrap_or(text)
}

/// Whether the text is a decimal number: an optional sign, digits with an optional decimal sign, and an optional exponent.
pub fn decimal(text: &str, sign: Decimal) -> bool {
    let (front, exponent) = match text.split_once(['e', 'E']) {
        Some((front, exponent)) => (front, Some(unsigned(exponent))),
        None => (text, None),
    };
    let front = unsigned(front);
    let (whole, part) = front.split_once(sign.sign()).unwrap_or((front, ""));
    let some = whole.len() + part.len() > 0;
    let power = exponent.is_none_or(|it| !it.is_empty() && digits(it));
    some && digits(whole) && digits(part) && power
}

fn digits(text: &str) -> bool {
    text.bytes().all(|byte| byte.is_ascii_digit())
}

/// Whether a text is a number that is written otherwise: with the other decimal sign, or with thousands separators.
pub fn otherwise(text: &str, sign: Decimal) -> bool {
    !decimal(text, sign) && !hint(text, sign).is_empty()
}

/// What a text that is not a number looks like, if it looks like one that is written otherwise.
fn hint(text: &str, sign: Decimal) -> String {
    let (here, other) = match sign {
        Decimal::Point => ("point", Decimal::Comma),
        Decimal::Comma => ("comma", Decimal::Point),
    };
    if decimal(text, other) {
        format!(
            "; the decimal sign of this table is the {here}, and thousands separators are not read"
        )
    } else if let Some(plain) = without_thousands(text, sign) {
        format!(
            "; it looks like {plain} with thousands separators, which are not read: leave them out"
        )
    } else {
        String::new()
    }
}

/// The number without the separators between its thousands, if it has any.
fn without_thousands(text: &str, sign: Decimal) -> Option<String> {
    let front = unsigned(text);
    let minus = if text.starts_with('-') { "-" } else { "" };
    let separator = |letter: &char| !letter.is_ascii_digit();
    let first = front.chars().find(separator)?;
    let known = ".,'’_ \u{a0}\u{2009}\u{202f}".contains(first);
    let last = front
        .chars()
        .rfind(separator)
        .filter(|it| ".,".contains(*it));
    let (whole, part) = match last.filter(|it| *it != first) {
        Some(last) => front.split_once(last)?,
        None => (front, ""),
    };
    let mut groups = whole.split(first);
    let start = groups.next().is_some_and(|it| (1..=3).contains(&it.len()));
    let rest = groups.all(|it| it.len() == 3);
    let whole = whole.replace(first, "");
    let fraction = if part.is_empty() {
        String::new()
    } else {
        format!("{}{part}", sign.sign())
    };
    (known && start && rest && digits(&whole) && digits(part))
        .then(|| format!("{minus}{whole}{fraction}"))
}

/// A number in this style: with an exponent if there would be many digits before the decimal sign, or without a number of digits many
/// zeros behind it.
pub fn write(number: f64, style: &Style) -> String {
    let size = number.abs();
    let plain = size == 0.0 || size < 1e16 && (size >= 1e-5 || style.digits.is_some());
    let text = match (style.digits, plain) {
        (None, true) => format!("{number}"),
        (None, false) => format!("{number:e}"),
        (Some(digits), true) => format!("{number:.digits$}"),
        (Some(digits), false) => format!("{number:.digits$e}"),
    };
    let zero = style.digits.is_some() && !text.contains(|it: char| ('1'..='9').contains(&it));
    let text = if zero {
        text.trim_start_matches('-')
    } else {
        &text
    };
    text.replace('.', &style.decimal.sign().to_string())
}

/// A cell or name in quotes, shortened to fit on one line of a message.
pub fn quoted(text: &str) -> String {
    let short: String = text.chars().take(40).collect();
    let more = if short.len() < text.len() { ".." } else { "" };
    let short = short.escape_debug().to_string().replace("\\'", "'");
    format!("\"{short}{more}\"")
}

#[cfg(test)]
mod tests {
    use super::*;
    use Decimal::{Comma as COMMA, Point as POINT};
    use tailboardy::SplitMix64;

    #[test]
    fn decimals_are_read() {
        for (text, number) in [
            ("12", 12.0_f64),
            (" -7.25\t", -7.25),
            ("+.5", 0.5),
            ("3.", 3.0),
            ("1e-3", 1e-3),
            ("2.5E+2", 250.0),
            ("-0", -0.0),
            ("1e-999", 0.0),
        ] {
            let bits = Ok(number.to_bits());
            assert_eq!(read(text, POINT).map(f64::to_bits), bits, "{text}");
            let comma = text.replace('.', ",");
            assert_eq!(read(&comma, COMMA).map(f64::to_bits), bits, "{comma}");
        }
    }

    #[test]
    fn nothing_else_is() {
        for text in [
            "",
            " ",
            ".",
            "-",
            "e5",
            "1e",
            "1e+",
            "1.2.3",
            "0x10",
            "1,5",
            "12m",
            "inf",
            "NaN",
            "nan",
            "-Infinity",
            "1_000",
            "--1",
            "1e5e5",
            "٣",
            "1 2",
        ] {
            assert!(read(text, POINT).is_err(), "{text}");
        }
        assert!(read("1.5", COMMA).is_err());
        assert_eq!(
            read("1e999", POINT),
            Err("\"1e999\" is too large; numbers go up to 1.79e308".into())
        );
        assert_eq!(read("a\nb", POINT), Err("\"a\\nb\" is not a number".into()));
    }

    #[test]
    fn numbers_that_are_written_otherwise_are_told_as_that() {
        let comma =
            "; the decimal sign of this table is the point, and thousands separators are not read";
        let point = comma.replace("point", "comma");
        let plain = |it: &str| {
            format!(
                "; it looks like {it} with thousands separators, which are not read: leave them out"
            )
        };
        for (text, sign, why) in [
            ("4,25", POINT, comma.to_owned()),
            ("1,234", POINT, comma.to_owned()),
            ("4.25", COMMA, point),
            ("1.234,5", POINT, plain("1234.5")),
            ("-1.234,5", COMMA, plain("-1234,5")),
            ("1,234.5", COMMA, plain("1234,5")),
            ("12 345", POINT, plain("12345")),
            ("1\u{a0}234\u{a0}567,25", COMMA, plain("1234567,25")),
            ("1.234.567", POINT, plain("1234567")),
            ("1'234.5", POINT, plain("1234.5")),
            ("1 23", POINT, String::new()),
            ("1234 567", POINT, String::new()),
            ("1.23,4", POINT, String::new()),
            ("1.234.5", POINT, String::new()),
            ("1.234,5,6", POINT, String::new()),
            ("4 m", POINT, String::new()),
            ("low", POINT, String::new()),
        ] {
            let told = format!("{} is not a number{why}", quoted(text));
            assert_eq!(read(text, sign), Err(told));
        }
    }

    #[test]
    fn what_is_written_reads_back() {
        let mut draws = SplitMix64::new(3);
        let drawn = (0..100_000).map(|_| f64::from_bits(draws.word()));
        let edges = [
            0.0,
            -0.0,
            5e-324,
            f64::MAX,
            f64::MIN_POSITIVE,
            1e16,
            1e-5,
            0.1 + 0.2,
        ];
        for number in drawn.chain(edges).filter(|number| number.is_finite()) {
            for decimal in [POINT, COMMA] {
                let style = Style {
                    decimal,
                    digits: None,
                };
                let text = write(number, &style);
                assert_eq!(
                    read(&text, decimal).map(f64::to_bits),
                    Ok(number.to_bits()),
                    "{text}"
                );
                assert!(text.len() < 26, "{text}");
            }
        }
    }

    #[test]
    fn digits_are_as_many_as_were_asked_for() {
        for (number, digits, text) in [
            (1.2345, 2, "1,23"),
            (-7.0, 3, "-7,000"),
            (-0.004, 2, "0,00"),
            (2e-9, 1, "0,0"),
            (9.5, 0, "10"),
            (1.21e300, 1, "1,2e300"),
        ] {
            let style = Style {
                decimal: COMMA,
                digits: Some(digits),
            };
            assert_eq!(write(number, &style), text);
        }
    }
}
