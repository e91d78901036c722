//! Tables as people have them: with other separators, decimal signs, line ends and encodings, or from standard input.

use crate::{Folder, Run, command, run, show, told};
use std::fs;
use std::io::Write;
use std::process::Stdio;
use std::thread;

/// Runs `correct` on files with these texts.
pub(crate) fn corrected(old: impl AsRef<[u8]>, new: impl AsRef<[u8]>, more: &[&str]) -> Run {
    let folder = Folder::new("tables");
    let (old, new) = (folder.write("old.csv", old), folder.write("new.csv", new));
    let told = run(&[&["correct", &old, &new, "--target", "pan"], more].concat());
    Run {
        err: told.err.replace(&old, "OLD").replace(&new, "NEW"),
        ..told
    }
}

/// Runs `check` on a file with this text.
pub(crate) fn checked(text: impl AsRef<[u8]>, more: &[&str]) -> Run {
    let folder = Folder::new("table");
    let file = folder.write("show.csv", text);
    let told = run(&[&["check", &file], more].concat());
    Run {
        err: told.err.replace(&file, "SHOW"),
        out: told.out.replace(&file, "SHOW"),
        ..told
    }
}

/// Checks that a table is refused with this message.
fn refused(text: impl AsRef<[u8]>, more: &[&str], why: &str) {
    let told = checked(text, more);
    assert_eq!(told.err, format!("tailboardy: {why}\n"));
    assert_eq!((told.status, told.out.as_str()), (Some(1), ""));
}

/// The text of a file of shows/.
fn text(name: &str) -> String {
    fs::read_to_string(show(name)).unwrap()
}

/// The same table with semicolons and decimal commas.
fn semicolons(text: &str) -> String {
    text.replace(',', ";").replace('.', ",")
}

#[test]
fn semicolons_and_decimal_commas_change_no_bit() {
    let (old, new) = (
        show("old-house-semicolons.csv"),
        show("new-house-semicolons.csv"),
    );
    assert_eq!(
        fs::read_to_string(&old).unwrap(),
        semicolons(&text("old-house.csv"))
    );
    assert_eq!(
        fs::read_to_string(&new).unwrap(),
        semicolons(&text("new-house.csv"))
    );
    let told = run(&["correct", &old, &new, "--target", "pan"]);
    assert_eq!(told.status, Some(0), "{}", told.err);
    assert_eq!(told.out, semicolons(&text("new-house-corrected.csv")));
    let (plain, listing) = (show("new-house.csv"), show("old-house-listing.csv"));
    let words = ["correct", &old, &plain, "--target", "pan"];
    let told = run(&[&words[..], &["--listing", &listing]].concat());
    assert_eq!(told.out, text("new-house-corrected.csv"), "{}", told.err);
}

#[test]
fn each_show_comes_out_as_it_is_written() {
    let (old, new) = (text("old-house.csv"), text("new-house.csv"));
    let plain = text("new-house-corrected.csv");
    for (name, letter) in [
        ("comma", ","),
        ("semicolon", ";"),
        ("tab", "\t"),
        ("bar", "|"),
    ] {
        let with = |text: &str| text.replace(',', letter);
        for more in [&[][..], &["--delimiter", letter], &["--delimiter", name]] {
            let told = corrected(with(&old), with(&new), more);
            assert_eq!(told.out, with(&plain), "{}", told.err);
        }
        let told = corrected(with(&old), &new, &[]);
        assert_eq!(told.out, plain, "{}", told.err);
    }
    for ends in ["\r\n", "\r", "\n\n", "\r\n , ,\r\n"] {
        let with = |text: &str| format!("{ends}{}{ends}", text.replace('\n', ends));
        assert_eq!(corrected(with(&old), with(&new), &[]).out, plain);
    }
    // a separator at the end of each line makes a column without a name, which stays
    let with = |text: &str| text.replace('\n', ",\n");
    let told = corrected(with(&old), with(&new), &[]);
    assert_eq!(
        told.out.replace(",,", ","),
        plain.replace(",,", ","),
        "{}",
        told.err
    );
    let named = |text: &str| format!("sep=;\r\n{}", text.replace(',', ";"));
    assert_eq!(corrected(named(&old), &new, &[]).out, plain);
}

#[test]
fn decimal_signs_are_found_out() {
    let new = "fixture;x\na;1,5\n";
    for old in [
        "fixture;x;pan\na;1,5;2,25\nb;2,5;2,25\n",
        "fixture;x;pan\na;1.5;2.25\nb;2.5;2.25\n",
        "fixture,x,pan\na,\"1,5\",\"2,25\"\nb,\"2,5\",\"2,25\"\n",
    ] {
        let told = corrected(old, new, &[]);
        assert_eq!(
            told.out.lines().nth(1).unwrap()[..11],
            *"a;1,5;2,25;",
            "{}",
            told.err
        );
    }
    // quotes where the decimal sign is the separator
    let told = corrected(
        "x,pan\n\"1,5\",\"2,25\"\n\"2,5\",\"2,25\"\n",
        "x\n\"1,5\"\n",
        &[],
    );
    assert!(
        told.out.contains("\n\"1,5\",\"2,25\""),
        "{} {}",
        told.out,
        told.err
    );
    // a new show without any decimal sign takes that of the old one
    let told = corrected("x;pan\n1,5;2,25\n2,5;2,25\n", "x;y\n2;a\n", &[]);
    assert!(told.out.contains("\n2;a;2,25"), "{} {}", told.out, told.err);
}

#[test]
fn decimal_signs_that_are_unclear_have_to_be_said() {
    let thousands = "x;pan\n950;1\n1,050;2\n";
    refused(
        thousands,
        &[],
        "SHOW, line 3, column x: the comma in \"1,050\" may be the decimal sign or stand between thousands; \
         say --decimal comma, or leave out thousands separators",
    );
    for said in ["comma", ","] {
        assert_eq!(checked(thousands, &["--decimal", said]).status, Some(0));
    }
    refused(
        "x;pan\n9,5;1\n2.5;2\n",
        &[],
        "SHOW: the decimal sign is unclear: \"2.5\" in line 3, column x has a point, but \"9,5\" in line 2, column x a comma; \
         write all numbers alike, or say which sign it is with --decimal",
    );
}

const THOUSANDS: &str = "with thousands separators, which are not read: leave them out";

/// Cells that look like numbers and are none are faults, even if the whole column has no others.
#[test]
fn thousands_are_not_guessed() {
    let signs = |sign: &str| {
        format!(
            "the decimal sign of this table is the {sign}, and thousands separators are not read"
        )
    };
    let plain = |number: &str| format!("it looks like {number} {THOUSANDS}");
    for (before, cell, said, why) in [
        ("9,5", "1.050", "comma", signs("comma")),
        ("9.5", "1,050", "point", signs("point")),
        ("9,5", "1.050,5", "comma", plain("1050,5")),
        ("9.5", "1 050", "point", plain("1050")),
    ] {
        let text = format!("x;pan\n8;3\n7;4\n{before};1\n{cell};2\n");
        let told = checked(text, &["--decimal", said, "--target", "pan"]);
        let line = format!("tailboardy: SHOW, line 5, column x: \"{cell}\" is not a number; {why}");
        assert!(told.err.starts_with(&line), "{}", told.err);
        assert_eq!(told.status, Some(1));
    }
    let told = checked("x,z,pan\n\"1,050.5\",2.5,1\n\"1,150.5\",3.5,2\n", &[]);
    assert_eq!(told.status, Some(1));
    for (line, cell, number) in [(2, "1,050.5", "1050.5"), (3, "1,150.5", "1150.5")] {
        let why = format!(
            "line {line}, column x: \"{cell}\" is not a number; {}",
            plain(number)
        );
        assert!(told.err.contains(&why), "{}", told.err);
    }
}

#[test]
fn what_cannot_be_said_is_told() {
    for (option, said, why) in [
        (
            "--delimiter",
            "colon",
            "--delimiter \"colon\": comma, semicolon, tab or bar is required",
        ),
        (
            "--decimal",
            "dot",
            "--decimal \"dot\": point or comma is required",
        ),
    ] {
        let told = checked("x\n1\n", &[option, said]);
        assert_eq!(told.status, Some(2));
        assert_eq!(
            told.err.lines().next(),
            Some(format!("tailboardy: {why}").as_str())
        );
    }
}

#[test]
fn tables_that_cannot_be_split_are_told_with_their_separator() {
    let cells =
        |is, names| format!("the number of cells is {is}, but the number of columns is {names}");
    refused(
        "fixture;x;pan\na;1,5;2\nb;2\n",
        &[],
        &format!(
            "SHOW, line 3: {}; cells were split at semicolons, so an empty cell needs its semicolon too",
            cells(2, 3)
        ),
    );
    let told = checked("fixture;x;pan\na;1,5;2\nb;2;3\n", &["--delimiter", ","]);
    assert_eq!(
        told.err,
        format!(
            "tailboardy: SHOW, line 2: {}; cells were split at commas, but there are more semicolons; try --delimiter semicolon\n",
            cells(2, 1)
        )
    );
    refused(
        "fixture,x,pan\na,1,2\n",
        &["--delimiter", "tab", "--target", "pan"],
        "SHOW: there is no column of measurements besides target and weight; \
         cells were split at tabs, but there are more commas; try --delimiter comma",
    );
    refused(
        "Rig plot, Harbour\nfixture,x,pan\na,1,2\n",
        &[],
        "SHOW, line 1: the number of columns is 2, but the number of cells in each row is 3; \
         cells were split at commas, so the first line must have a name for each, and a cell with a comma in it must be in quotes",
    );
    refused(
        "x, m;y, m\n1,5;2,5\n3,5;4,5\n",
        &[],
        "SHOW: its cells could be separated by commas (3 to a row) or by semicolons (2 to a row); say which with --delimiter",
    );
}

#[test]
fn other_encodings_are_told_with_what_to_do() {
    refused(
        b"fixture,x\nB\xfchne 1,2\n",
        &[],
        "SHOW, line 2: the text is not UTF-8 but seems to be Windows-1252 (Latin-1), in which it has the word \"Bühne\"; \
         save the table as UTF-8, or convert it with `iconv -f WINDOWS-1252 -t UTF-8`",
    );
    let utf16: Vec<u8> = "\u{feff}fixture,x\na,1\n"
        .encode_utf16()
        .flat_map(u16::to_le_bytes)
        .collect();
    for (bytes, form) in [(&utf16[..], "UTF-16"), (&utf16[2..], "UTF-16LE")] {
        let why = format!(
            "SHOW: the text is UTF-16; save it as UTF-8, or convert it with `iconv -f {form} -t UTF-8`"
        );
        refused(bytes, &[], &why);
    }
    refused(
        b"PK\x03\x04\x14\x00\x06\x00",
        &[],
        "SHOW: this is not text but a spreadsheet's own format; save the table as CSV, in UTF-8",
    );
    refused(
        b"x,pan\n1,\xc3\x28\x01\n",
        &[],
        "SHOW, line 2: the text is not valid UTF-8; save the table as UTF-8",
    );
}

/// Runs the command with this text as its standard input.
fn piped(words: &[&str], text: &[u8]) -> Run {
    let mut command = command(words);
    let command = command
        .stdin(Stdio::piped())
        .stdout(Stdio::piped())
        .stderr(Stdio::piped());
    let mut child = command.spawn().unwrap();
    child.stdin.take().unwrap().write_all(text).unwrap();
    told(child.wait_with_output().unwrap())
}

#[test]
fn one_file_may_be_standard_input() {
    let (old, new) = (show("old-house.csv"), show("new-house.csv"));
    let plain = text("new-house-corrected.csv");
    let bytes = |file: &str| fs::read(file).unwrap();
    let told = piped(&["correct", "-", &new, "--target", "pan"], &bytes(&old));
    assert_eq!((told.status, &told.out), (Some(0), &plain), "{}", told.err);
    let told = piped(&["correct", &old, "-", "--target", "pan"], &bytes(&new));
    assert_eq!((told.status, &told.out), (Some(0), &plain), "{}", told.err);
    let listing = bytes(&show("old-house-listing-damaged.csv"));
    let told = piped(&["check", &old, "--listing", "-"], &listing);
    assert!(
        told.err
            .contains("standard input, line 46, column trim_height: row 13"),
        "{}",
        told.err
    );
    let told = piped(&["check", "-"], b"");
    assert_eq!(
        told.err,
        "tailboardy: standard input: the file is empty; a table has a line of column names, and a row for each fixture\n"
    );
    for words in [
        &["correct", "-", "-", "--target", "pan"][..],
        &["check", "-", "--listing", "-"],
    ] {
        let told = run(words);
        assert_eq!(told.status, Some(2));
        let why = "tailboardy: standard input, `-`, can be only one of the files\n";
        assert!(told.err.starts_with(why), "{}", told.err);
    }
}

/// A file without end is read up to the limit, or not even that far if it cannot be a table.
#[test]
fn reading_comes_to_an_end() {
    let why = "tailboardy: /dev/zero: there is a zero byte, so this is not text; save the table as CSV, in UTF-8\n";
    assert_eq!(run(&["check", "/dev/zero"]).err, why);
    let mut command = command(&["check", "-"]);
    let command = command
        .stdin(Stdio::piped())
        .stdout(Stdio::piped())
        .stderr(Stdio::piped());
    let mut child = command.spawn().unwrap();
    let mut to = child.stdin.take().unwrap();
    let endless = thread::spawn(move || {
        let part = vec![b'a'; 1 << 20];
        while to.write_all(&part).is_ok() {}
    });
    let told = told(child.wait_with_output().unwrap());
    endless.join().unwrap();
    let why = "tailboardy: standard input, line 1: there is more than 512 MiB to read, the most that a table may have; leave out what is not needed\n";
    assert_eq!((told.status, told.err.as_str()), (Some(1), why));
}
