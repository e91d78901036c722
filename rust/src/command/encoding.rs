//! Files that are not text in UTF-8: what they seem to be, and what to do about it.

use crate::number::quoted;

const ZERO: &str = "there is a zero byte, so this is not text; save the table as CSV, in UTF-8";

/// What a file is, if its first bytes tell that it is not a table in UTF-8.
pub fn other(first: &[u8]) -> Option<String> {
    let utf16 = |form: &str| {
        let way = format!("convert it with `iconv -f {form} -t UTF-8`");
        Some(format!("the text is UTF-16; save it as UTF-8, or {way}"))
    };
    match first {
        [b'P', b'K', 3, 4, ..] | [0xd0, 0xcf, 0x11, 0xe0, ..] => Some(
            "this is not text but a spreadsheet's own format; save the table as CSV, in UTF-8"
                .into(),
        ),
        [b'R', b'G', b'F', 1, 0, ..] => {
            Some("this is a model, not a table; `tailboardy predict` takes both".into())
        }
        [0xff, 0xfe, ..] | [0xfe, 0xff, ..] => utf16("UTF-16"),
        _ => {
            let zeros = |skip| {
                first
                    .iter()
                    .skip(skip)
                    .step_by(2)
                    .filter(|it| **it == 0)
                    .count()
            };
            let (even, odd) = (zeros(0), zeros(1));
            match first.len() / 4 {
                most if odd > most && even == 0 => utf16("UTF-16LE"),
                most if even > most && odd == 0 => utf16("UTF-16BE"),
                _ if even + odd > 0 => Some(ZERO.into()),
                _ => None,
            }
        }
    }
}

/// The text of a line, or why it has none.
pub fn text(line: &[u8]) -> Result<&str, String> {
    if line.contains(&0) {
        return Err(ZERO.into());
    }
    std::str::from_utf8(line).map_err(|error| match windows(line, error.valid_up_to()) {
        Some(word) => format!(
            "the text is not UTF-8 but seems to be Windows-1252 (Latin-1), in which it has the word {}; save the table as UTF-8, \
             or convert it with `iconv -f WINDOWS-1252 -t UTF-8`",
            quoted(&word)
        ),
        None => "the text is not valid UTF-8; save the table as UTF-8".into(),
    })
}

/// What the bytes 128 to 159 stand for in Windows-1252; those that stand for nothing are spaces here.
const UPPER: &str = "€ ‚ƒ„…†‡ˆ‰Š‹Œ Ž  ‘’“”•–—˜™š›œ žŸ";

/// The word around a place of a line, read as Windows-1252. `None` if the line has bytes that no such text would have.
fn windows(line: &[u8], at: usize) -> Option<String> {
    let letter = |byte: &u8| match byte {
        b'\t' | b'\r' | b'\n' | b' '..=b'~' | 160.. => Some(char::from(*byte)),
        128..=159 => UPPER
            .chars()
            .nth(usize::from(*byte) - 128)
            .filter(|it| *it != ' '),
        _ => None,
    };
    let letters: Option<Vec<char>> = line.iter().map(letter).collect();
    let letters = letters?;
    let ends = |letter: &char| letter.is_whitespace() || ",;|\"".contains(*letter);
    let start = letters[..at].iter().rposition(ends).map_or(0, |it| it + 1);
    let word = letters[start..].iter().take_while(|it| !ends(it));
    Some(word.collect())
}

#[cfg(test)]
mod tests {
    use super::*;

    #[test]
    fn other_formats_are_known_by_their_first_bytes() {
        let utf16 = |units: &str, bytes: fn(u16) -> [u8; 2]| -> Vec<u8> {
            units.encode_utf16().flat_map(bytes).collect()
        };
        for (first, has) in [
            (b"PK\x03\x04\x14".to_vec(), "a spreadsheet's own format"),
            (
                utf16("\u{feff}fixture,x\n", u16::to_le_bytes),
                "iconv -f UTF-16 ",
            ),
            (
                utf16("\u{feff}fixture,x\n", u16::to_be_bytes),
                "iconv -f UTF-16 ",
            ),
            (
                utf16("fixture,x\nBühne,1\n", u16::to_le_bytes),
                "iconv -f UTF-16LE ",
            ),
            (
                utf16("fixture,x\nBühne,1\n", u16::to_be_bytes),
                "iconv -f UTF-16BE ",
            ),
        ] {
            let told = other(&first).unwrap();
            assert!(told.contains(has), "{told}");
        }
        for first in ["", "a", "a,b\n1,2\n", "\u{feff}a,b\n", "PK\n"] {
            assert_eq!(other(first.as_bytes()), None, "{first:?}");
        }
    }

    #[test]
    fn latin_text_is_told_by_a_word() {
        assert_eq!(text("Bühne,1\n".as_bytes()), Ok("Bühne,1\n"));
        for (line, word) in [
            (&b"B\xfchne,1\n"[..], "\"Bühne\""),
            (b"a;\"Gr\xf6\xdfe in m\";\x80", "\"Größe\""),
            (b"x\t\x93Bar\x94\r\n", "\"“Bar”\""),
        ] {
            let told = text(line).unwrap_err();
            assert!(told.contains(&format!("it has the word {word};")), "{told}");
        }
        for line in [&b"\xff\x01"[..], b"a\x81b"] {
            let told = text(line).unwrap_err();
            assert_eq!(told, "the text is not valid UTF-8; save the table as UTF-8");
        }
        assert!(text(b"a\0b").is_err());
    }
}
