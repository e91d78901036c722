//! JSON text (RFC 8259), for programs that read what the command reports.

use crate::number::{self, Style};
use std::fmt::Write;

/// A value. The members of an object keep their order.
#[derive(Debug, Clone, PartialEq)]
pub enum Json {
    Null,
    Bool(bool),
    Whole(u64),
    Number(f64),
    Text(String),
    List(Vec<Json>),
    Object(Vec<(String, Json)>),
}

impl From<bool> for Json {
    fn from(yes: bool) -> Self {
        Json::Bool(yes)
    }
}

impl From<u64> for Json {
    fn from(whole: u64) -> Self {
        Json::Whole(whole)
    }
}

impl From<usize> for Json {
    fn from(count: usize) -> Self {
        Json::Whole(count as u64)
    }
}

/// JSON has no word for a number that is not finite, so that is null.
impl From<f64> for Json {
    fn from(number: f64) -> Self {
        match number.is_finite() {
            true => Json::Number(number),
            false => Json::Null,
        }
    }
}

impl From<&str> for Json {
    fn from(text: &str) -> Self {
        Json::Text(text.to_owned())
    }
}

impl From<&String> for Json {
    fn from(text: &String) -> Self {
        Json::Text(text.clone())
    }
}

impl Json {
    pub fn list<T: Into<Json>>(values: impl IntoIterator<Item = T>) -> Self {
        Json::List(values.into_iter().map(Into::into).collect())
    }

    pub fn object<K: Into<String>>(members: impl IntoIterator<Item = (K, Json)>) -> Self {
        Json::Object(
            members
                .into_iter()
                .map(|(key, it)| (key.into(), it))
                .collect(),
        )
    }

    /// The value on a line of its own. Its numbers have so many digits after the point, or else as many as it takes to read the same bits
    /// back.
    pub fn line(&self, digits: Option<usize>) -> String {
        self.write(digits) + "\n"
    }

    fn write(&self, digits: Option<usize>) -> String {
        match self {
            Json::Null => "null".to_owned(),
            Json::Bool(yes) => yes.to_string(),
            Json::Whole(whole) => whole.to_string(),
            Json::Number(number) => {
                let style = Style {
                    digits,
                    ..Style::EXACT
                };
                number::write(*number, &style)
            }
            Json::Text(text) => quoted(text),
            Json::List(values) => {
                let values: Vec<String> = values.iter().map(|it| it.write(digits)).collect();
                format!("[{}]", values.join(", "))
            }
            Json::Object(members) => {
                let member = |(key, value): &(String, Json)| {
                    format!("{}: {}", quoted(key), value.write(digits))
                };
                let members: Vec<String> = members.iter().map(member).collect();
                format!("{{{}}}", members.join(", "))
            }
        }
    }
}

/// A text in quotes. Only quotes, backslashes and control characters need to be escaped.
fn quoted(text: &str) -> String {
    let mut all = String::from("\"");
    for letter in text.chars() {
        match letter {
            '"' | '\\' => all.extend(['\\', letter]),
            '\n' => all.push_str("\\n"),
            '\r' => all.push_str("\\r"),
            '\t' => all.push_str("\\t"),
            letter if letter < ' ' => {
                let _ = write!(all, "\\u{:04x}", u32::from(letter));
            }
            _ => all.push(letter),
        }
    }
    all + "\""
}

#[cfg(test)]
mod tests {
    use super::*;

    #[test]
    fn values_are_written() {
        for (value, text) in [
            (Json::Null, "null"),
            (true.into(), "true"),
            (120_usize.into(), "120"),
            (u64::MAX.into(), "18446744073709551615"),
            (0.1.into(), "0.1"),
            ((-0.0).into(), "-0"),
            (1e-7.into(), "1e-7"),
            (5e300.into(), "5e300"),
            (f64::NAN.into(), "null"),
            (f64::INFINITY.into(), "null"),
            (
                "say \"5\\6\"\n\r\t\u{1}\u{7f}é".into(),
                "\"say \\\"5\\\\6\\\"\\n\\r\\t\\u0001\u{7f}é\"",
            ),
            (Json::list(Vec::<usize>::new()), "[]"),
            (Json::list(["a", "b"]), "[\"a\", \"b\"]"),
            (
                Json::object([("a\"", 1_usize.into()), ("b", Json::Object(Vec::new()))]),
                "{\"a\\\"\": 1, \"b\": {}}",
            ),
        ] {
            assert_eq!(value.line(None), format!("{text}\n"));
        }
        let rounded = Json::list([0.125, -0.001, 2.0]);
        assert_eq!(rounded.line(Some(2)), "[0.12, 0.00, 2.00]\n");
    }
}
