//! The parts that a page is made of. Text that comes from a table goes through [`escaped`] or what uses it.

/// The longest name that is written out, in letters.
const LONG: usize = 160;

/// Text as it may stand between tags and in the value of an attribute. What HTML does not allow is replaced.
pub fn escaped(text: &str) -> String {
    let mut safe = String::with_capacity(text.len());
    for letter in text.chars() {
        match letter {
            '&' => safe.push_str("&amp;"),
            '<' => safe.push_str("&lt;"),
            '>' => safe.push_str("&gt;"),
            '"' => safe.push_str("&quot;"),
            '\'' => safe.push_str("&#39;"),
            '\t' | '\n' | '\r' => safe.push(' '),
            _ if letter.is_control() => safe.push(char::REPLACEMENT_CHARACTER),
            _ => safe.push(letter),
        }
    }
    safe
}

/// The start of a text, if it is longer than so many letters.
pub fn short(text: &str, most: usize) -> String {
    match text.char_indices().nth(most) {
        Some((end, _)) => format!("{}…", &text[..end]),
        None => text.to_owned(),
    }
}

/// A name from a table. It is set apart, since it may be written from right to left, and may be broken behind an underscore.
pub fn name(text: &str) -> String {
    let text = escaped(&short(text, LONG));
    format!("<bdi>{}</bdi>", text.replace('_', "_<wbr>"))
}

/// A number and its unit, if it has one. A unit that is a sign, such as that of degrees, follows without a space.
pub fn with_unit(number: &str, unit: &str) -> String {
    let word = unit.starts_with(char::is_alphabetic);
    let space = if word { "&nbsp;" } else { "" };
    format!("{number}{space}{}", escaped(&short(unit, LONG)))
}

/// A name and the unit of what has it, if there is one.
pub fn in_unit(text: &str, unit: &str) -> String {
    match unit {
        "" => name(text),
        _ => format!("{} in {}", name(text), escaped(&short(unit, LONG))),
    }
}

/// A part of the page, with a heading.
pub fn section(id: &str, heading: &str, body: &str) -> String {
    format!(
        "<section id=\"{id}\" aria-labelledby=\"{id}-h\">\n<h2 id=\"{id}-h\">{heading}</h2>\n{body}</section>\n"
    )
}

pub fn paragraph(text: &str) -> String {
    format!("<p>{text}</p>\n")
}

/// A heading of a column, and whether the column is of numbers.
pub type Head<'a> = (&'a str, bool);

/// A table in a frame that can be scrolled sideways. The first cell of each row says what the row is about. Columns of numbers are named
/// in the class of the table, not of each cell, since a table may be long.
pub fn table<const N: usize>(
    id: &str,
    caption: &str,
    heads: [Head; N],
    rows: impl Iterator<Item = [String; N]>,
) -> String {
    let numbers = heads.iter().zip(1..).filter(|((_, number), _)| *number);
    let classes: Vec<String> = numbers.map(|(_, column)| format!("c{column}")).collect();
    let mut text = format!(
        "<div class=\"frame\" role=\"region\" tabindex=\"0\" aria-labelledby=\"{id}-c\">\n<table class=\"{}\">\n\
         <caption id=\"{id}-c\">{caption}</caption>\n<thead><tr>",
        classes.join(" ")
    );
    for (head, _) in heads {
        text += &format!("<th scope=\"col\">{head}</th>");
    }
    text += "</tr></thead>\n<tbody>\n";
    for row in rows {
        text += "<tr>";
        for (at, cell) in row.iter().enumerate() {
            text += &match at {
                0 => format!("<th scope=\"row\">{cell}</th>"),
                _ => format!("<td>{cell}</td>"),
            };
        }
        text += "</tr>\n";
    }
    text + "</tbody>\n</table>\n</div>\n"
}

#[cfg(test)]
mod tests {
    use super::*;

    #[test]
    fn nothing_from_a_table_is_taken_for_markup() {
        assert_eq!(escaped("<b>&\"'"), "&lt;b&gt;&amp;&quot;&#39;");
        assert_eq!(escaped("a\nb\tc\0d\u{85}"), "a b c\u{fffd}d\u{fffd}");
        assert_eq!(name("</bdi>"), "<bdi>&lt;/bdi&gt;</bdi>");
        assert_eq!(name("a_b"), "<bdi>a_<wbr>b</bdi>");
        assert_eq!(with_unit("4.2", "m<"), "4.2&nbsp;m&lt;");
        assert_eq!(with_unit("4.2", "°"), "4.2°");
        assert_eq!(with_unit("4.2", ""), "4.2");
    }

    #[test]
    fn long_names_are_cut_between_letters() {
        assert_eq!(short("äöü", 3), "äöü");
        assert_eq!(short("äöü&", 2), "äö…");
        assert_eq!(name(&"ß".repeat(1000)).chars().count(), LONG + 12);
    }

    #[test]
    fn tables_have_scopes() {
        let rows = [["x".to_owned(), "1".to_owned()]];
        let table = table("x", "c", [("A", false), ("B", true)], rows.into_iter());
        assert!(table.contains("<table class=\"c2\">"));
        assert!(table.contains("<th scope=\"col\">A</th><th scope=\"col\">B</th>"));
        assert!(table.contains("<tr><th scope=\"row\">x</th><td>1</td></tr>"));
    }
}
