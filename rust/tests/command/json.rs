//! A reader of JSON (RFC 8259) that accepts nothing else.

#[derive(Debug, PartialEq)]
pub(crate) enum Value {
    Null,
    Bool(bool),
    /// A number, as it is written.
    Number(String),
    Text(String),
    List(Vec<Value>),
    Object(Vec<(String, Value)>),
}

impl Value {
    /// A member of an object.
    pub(crate) fn get(&self, key: &str) -> &Value {
        let Value::Object(members) = self else {
            panic!("{self:?} is not an object");
        };
        let mut found = members.iter().filter(|(it, _)| it == key);
        let (Some((_, value)), None) = (found.next(), found.next()) else {
            panic!("{key} is not there once in {self:?}");
        };
        value
    }

    /// The texts of a list.
    pub(crate) fn texts(&self) -> Vec<&str> {
        let Value::List(values) = self else {
            panic!("{self:?} is not a list");
        };
        let texts = values.iter().map(|value| match value {
            Value::Text(text) => text.as_str(),
            other => panic!("{other:?} is not a text"),
        });
        texts.collect()
    }

    pub(crate) fn number(&self) -> &str {
        match self {
            Value::Number(number) => number,
            other => panic!("{other:?} is not a number"),
        }
    }
}

/// Reads a single value.
pub(crate) fn parse(text: &str) -> Value {
    let mut rest = text;
    let value = value(&mut rest);
    assert_eq!(rest.trim_start_matches(SPACE), "", "after {value:?}");
    value
}

const SPACE: [char; 4] = [' ', '\t', '\r', '\n'];

/// Takes a mark if it comes next.
fn take(rest: &mut &str, mark: &str) -> bool {
    let found = rest.trim_start_matches(SPACE).strip_prefix(mark);
    *rest = found.unwrap_or(rest);
    found.is_some()
}

fn value(rest: &mut &str) -> Value {
    if take(rest, "null") {
        Value::Null
    } else if take(rest, "true") {
        Value::Bool(true)
    } else if take(rest, "false") {
        Value::Bool(false)
    } else if take(rest, "\"") {
        Value::Text(text(rest))
    } else if take(rest, "[") {
        Value::List(several(rest, "]", value))
    } else if take(rest, "{") {
        Value::Object(several(rest, "}", member))
    } else {
        Value::Number(number(rest))
    }
}

fn several<T>(rest: &mut &str, end: &str, one: fn(&mut &str) -> T) -> Vec<T> {
    let mut all = Vec::new();
    while !take(rest, end) {
        assert!(all.is_empty() || take(rest, ","), "a comma before {rest}");
        all.push(one(rest));
    }
    all
}

fn member(rest: &mut &str) -> (String, Value) {
    assert!(take(rest, "\""), "a name before {rest}");
    let name = text(rest);
    assert!(take(rest, ":"), "a colon before {rest}");
    (name, value(rest))
}

/// A text, whose first quote has been taken.
fn text(rest: &mut &str) -> String {
    let mut text = String::new();
    let mut letters = rest.chars();
    loop {
        match letters.next().expect("a quote at the end") {
            '"' => break,
            '\\' => text.push(match letters.next() {
                Some(letter @ ('"' | '\\' | '/')) => letter,
                Some('n') => '\n',
                Some('r') => '\r',
                Some('t') => '\t',
                Some('u') => {
                    let digits: String = letters.by_ref().take(4).collect();
                    let code = u32::from_str_radix(&digits, 16).expect("four digits");
                    char::from_u32(code).expect("a character")
                }
                other => panic!("{other:?} after a backslash"),
            }),
            letter => {
                assert!(letter >= ' ', "{letter:?} in a text");
                text.push(letter);
            }
        }
    }
    *rest = letters.as_str();
    text
}

/// A number: no plus sign, no zeros in front, and digits on both sides of the point.
fn number(rest: &mut &str) -> String {
    let from = rest.trim_start_matches(SPACE);
    let in_number = |letter: char| letter.is_ascii_digit() || "+-.eE".contains(letter);
    let end = from.find(|letter| !in_number(letter));
    let (number, after) = from.split_at(end.unwrap_or(from.len()));
    *rest = after;
    let digits = |text: &str| !text.is_empty() && text.bytes().all(|it| it.is_ascii_digit());
    let (front, power) = number.split_once(['e', 'E']).unwrap_or((number, "0"));
    let (whole, part) = front.split_once('.').unwrap_or((front, "0"));
    let whole = whole.strip_prefix('-').unwrap_or(whole);
    let good = digits(whole)
        && (whole == "0" || !whole.starts_with('0'))
        && digits(part)
        && digits(power.strip_prefix(['+', '-']).unwrap_or(power));
    assert!(good, "{number:?} is not a number, before {after}");
    number.to_owned()
}
