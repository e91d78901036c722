//! Files that cannot be used: a message of one line with file, line and column, status 1, and nothing written.
//! In the expected messages OLD, NEW and LIST stand for the names of the files.

use crate::{Folder, run};

const GOOD: &str = "fixture,x,z,pan\na,1,5,0\nb,2,6,1\nc,3.5,7.5,4\n";

/// Runs `correct` on files with these texts and checks the message.
fn corrected(old: impl AsRef<[u8]>, new: impl AsRef<[u8]>, more: &[&str], why: &str) {
    let folder = Folder::new("corrected");
    let (old, new) = (folder.write("old.csv", old), folder.write("new.csv", new));
    let out = folder.path("out.csv");
    let words = ["correct", &old, &new, "--target", "pan", "--out", &out];
    let told = run(&[&words[..], more].concat());
    let why = why.replace("OLD", &old).replace("NEW", &new);
    let lines: String = why
        .lines()
        .map(|it| format!("tailboardy: {it}\n"))
        .collect();
    assert_eq!(told.err, lines);
    assert_eq!((told.status, told.out.as_str()), (Some(1), ""));
    assert_eq!(folder.files(), 2);
}

const OLD_SHOWS: &[[&str; 2]] = &[
    [
        "",
        "OLD: the file is empty; a table has a line of column names, and a row for each fixture",
    ],
    [
        "fixture,x,pan\n",
        "OLD: there are column names but no rows; a table has a row for each fixture",
    ],
    [
        "f,x\na,1\n",
        "OLD, line 1: there is no column \"pan\"; there are \"f\", \"x\"",
    ],
    [
        "x,x,pan\n1,1,1\n",
        "OLD, line 1: two columns have the name \"x\"; rename one",
    ],
    [
        "x,,pan\n1,1,1\n",
        "OLD, line 1: column 2 has no name; give it one, or take it out",
    ],
    [
        "x,pan\n1,2\n3\n",
        "OLD, line 3: the number of cells is 1, but the number of columns is 2; cells were split at commas, so an empty cell needs its comma too",
    ],
    [
        "x,pan\n1,2\n3,4,5\n",
        "OLD, line 3: the number of cells is 3, but the number of columns is 2; cells were split at commas, so a cell with a comma in it must be in quotes",
    ],
    [
        "x,pan\n1,\"2\n",
        "OLD, line 2: a quote is opened but never closed; put one at the end of the cell",
    ],
    [
        "x,pan\n1,abc\n",
        "OLD, line 2, column pan: \"abc\" is not a number",
    ],
    [
        "x,pan\n1,2\n2,NaN\n",
        "OLD, line 3, column pan: \"NaN\" is not a number; it is the only such cell of the column",
    ],
    [
        "x,pan\n1,inf\n",
        "OLD, line 2, column pan: \"inf\" is not a number",
    ],
    [
        "x,pan\n1,1e400\n",
        "OLD, line 2, column pan: \"1e400\" is too large; numbers go up to 1.79e308",
    ],
    [
        "x,pan\n1,\n",
        "OLD, line 2, column pan: the cell is empty; fill it in, or leave out such rows with --skip-incomplete",
    ],
    [
        "x,pan\n1,1\n\"a\nb\",2\n",
        "OLD, line 3, column x: \"a\\nb\" is not a number; it is the only such cell of the column; correct it, or leave the column out: --ignore x",
    ],
    [
        "x,pan\n1,1\n0x10,2\n",
        "OLD, line 3, column x: \"0x10\" is not a number; it is the only such cell of the column; correct it, or leave the column out: --ignore x",
    ],
    [
        "y,pan\nup,1\n",
        "NEW, line 1: there is no column of measurements in common with OLD; left out: \"x\", because OLD does not have it",
    ],
    [
        "x,pan\nup,1\n",
        "OLD, line 2, column x: \"up\" is not a number; correct it, or leave the column out: --ignore x",
    ],
];

#[test]
fn old_shows() {
    for [old, why] in OLD_SHOWS {
        corrected(old, "x\n1\n", &[], why);
    }
    let bytes = b"x,pan\n\xe9,1\n";
    corrected(
        bytes,
        "x\n1\n",
        &[],
        "OLD, line 2: the text is not UTF-8 but seems to be Windows-1252 (Latin-1), in which it has the word \"é\"; \
         save the table as UTF-8, or convert it with `iconv -f WINDOWS-1252 -t UTF-8`",
    );
    let huge = "x,pan\n1,1e308\n2,1e308\n3.5,1e308\n";
    let why = "OLD: refusal 100 (not finite): the value of node 0 of tree 0 is inf; \
               the targets or weights are too large, or the weights too small, to calculate with: \
               multiply or divide all of them by a constant";
    corrected(huge, "x\n1\n", &[], why);
}

#[test]
fn shows_that_are_too_large() {
    let long = "1,2\n".repeat(65_536);
    let why = |which: &str| {
        format!(
            "{which}, line 65537: there are too many rows: leave some out, the maximum is 65535"
        )
    };
    corrected(format!("x,pan\n{long}"), "x\n1\n", &[], &why("OLD"));
    corrected(GOOD, format!("x,z\n{long}"), &[], &why("NEW"));
    let names: Vec<String> = (0..1025).map(|it| format!("f{it}")).collect();
    let (names, cells) = (names.join(","), vec!["1"; 1025].join(","));
    let new = format!("{names}\n{cells}\n");
    let why = "OLD: refusal 1 (sizes): 1025 features, but 1 to 1024 are required; \
               use 1 to 65,535 rows, 1 to 1,024 features and 1 to 1,024 trees";
    corrected(format!("{names},pan\n{cells},1\n"), new, &[], why);
}

/// A measurement that one show has under another name or in another form is not ignored.
#[test]
fn shows_that_measure_otherwise() {
    let old = "trim,x,pan\n7,1,1\n8,2,2\n";
    let why = "NEW, line 1: there is no column \"trim\", which OLD has, while that file has no column \"Trim\"; \
               if they are the same measurement, give both the same name, or else name the features with --features";
    corrected(old, "Trim,x\n7,1\n", &[], why);
    let words = "trim,x,pan\nlow,1,1\nhigh,2,2\n";
    let why = "OLD, line 2, column trim: \"low\" is not a number, and neither is any other cell of the column; \
               correct it, or leave the column out: --ignore trim";
    corrected(words, "trim,x\n7,1\n", &[], why);
}

/// A listing that a fit would refuse cannot be used; without a target the columns of the listing are the features.
#[test]
fn listings_of_other_columns() {
    let folder = Folder::new("listed");
    let show = folder.write("show.csv", GOOD);
    let only = folder.write("only.csv", "x\n0\n1\n2\n");
    let check = |more: &[&str]| run(&[&["check", &show, "--listing", &only], more].concat());
    assert_eq!(check(&[]).status, Some(0));
    let line = format!("tailboardy: {only}, line 1:");
    let told = check(&["--target", "pan"]);
    assert_eq!(
        (told.status, told.err),
        (
            Some(1),
            format!("{line} there is no column \"z\"; there are \"x\"\n")
        )
    );
    let told = check(&["--weight", "x"]);
    assert_eq!(
        (told.status, told.err),
        (
            Some(1),
            format!("{line} the column \"x\" is given as not being a feature\n")
        )
    );
}

const NEW_SHOWS: &[[&str; 2]] = &[
    [
        "",
        "NEW: the file is empty; a table has a line of column names, and a row for each fixture",
    ],
    [
        "x,z\n1,2\nlow,3\n",
        "NEW, line 3, column x: \"low\" is not a number; it is the only such cell of the column; correct it, or leave the column out: --ignore x",
    ],
    [
        "x,z\n1,2\n,3\n",
        "NEW, line 3, column x: the cell is empty; fill it in, or leave out such rows with --skip-incomplete",
    ],
    [
        "x,z\n1\n",
        "NEW, line 2: the number of cells is 1, but the number of columns is 2; cells were split at commas, so an empty cell needs its comma too",
    ],
    [
        "q\nlow\n",
        "NEW, line 1: there is no column of measurements in common with OLD",
    ],
    [
        "x\n1\n\"\"\n",
        "NEW, line 3, column x: the cell is empty; fill it in, or leave out such rows with --skip-incomplete",
    ],
    [
        "x,z\n1,2\n\"\"\n",
        "NEW, line 3: the number of cells is 1, but the number of columns is 2; cells were split at commas, so an empty cell needs its comma too",
    ],
    [
        "x,z,pan_correction\n1,5,2\n",
        "NEW, line 1: there is already a column \"pan_correction\", which is added to the corrected show; give it another name or take it out",
    ],
];

#[test]
fn new_shows() {
    for [new, why] in NEW_SHOWS {
        corrected(GOOD, new, &[], why);
    }
}

const NAMED: &[[&str; 3]] = &[
    [
        "--features",
        "x,q",
        "NEW, line 1: there is no column \"q\"; there are \"fixture\", \"x\"",
    ],
    [
        "--features",
        "fixture,x",
        "NEW, line 2, column fixture: \"a\" is not a number\n\
         OLD, line 2, column fixture: \"a\" is not a number, and neither is any other cell of the column",
    ],
    [
        "--features",
        "x,z",
        "NEW, line 1: there is no column \"z\"; there are \"fixture\", \"x\"",
    ],
    [
        "--weight",
        "q",
        "OLD, line 1: there is no column \"q\"; there are \"fixture\", \"x\", \"z\", \"pan\"",
    ],
    [
        "--id",
        "z",
        "NEW, line 1: there is no column \"z\"; there are \"fixture\", \"x\"",
    ],
    [
        "--listing",
        "/nowhere",
        "/nowhere: there is no such file; check its name and folder",
    ],
];

#[test]
fn columns_that_are_named() {
    for [option, value, why] in NAMED {
        corrected(GOOD, "fixture,x\na,1\n", &[option, value], why);
    }
}

#[test]
fn weights() {
    for [old, why] in [
        [
            "x,w,pan\n1,1,1\n2,-1,2\n",
            "line 3, column w: the weight is -1; it may not be negative (refusal 3, numbers)",
        ],
        [
            "x,w,pan\n1,0,1\n2,-0,2\n",
            "column w: all weights are 0, so there is nothing to fit on",
        ],
        [
            "x,w,pan\n1,much,1\n",
            "line 2, column w: \"much\" is not a number",
        ],
    ] {
        let why = format!("OLD, {why}");
        corrected(old, "x\n1\n", &["--weight", "w"], &why);
        corrected(old, "x\n1\n", &["--weight", "w", "--no-bootstrap"], &why);
    }
}

const LISTINGS: &[[&str; 2]] = &[
    ["x,z\n0,0\n1,1\n2,2\n", ""],
    [
        "x,z\n0,0\n2,2\n",
        "LIST, column x: it ends after 2 of 3 rows, and row 1 is missing, which is line 3 of OLD (refusal 2, lengths)\n\
         LIST, column z: it ends after 2 of 3 rows, and row 1 is missing, which is line 3 of OLD (refusal 2, lengths)",
    ],
    [
        "x,z\n0,0\n2,1\n2,2\n",
        "LIST, line 4, column x: row 2 appears twice, first in line 3, and row 1 is missing, which is line 3 of OLD (refusal 12, row twice)",
    ],
    [
        "x,z\n0,0\n1,1\n2,3\n",
        "LIST, line 4, column z: there is no row 3; the last row is 2, and row 2 is missing, which is line 4 of OLD (refusal 11, no such row)",
    ],
    [
        "x\n0\n1\n2\n0\n",
        "LIST, line 5, column x: row 0 appears twice, first in line 2 (refusal 2, lengths)",
    ],
    [
        "x,z\n0,0\n1,one\n2,2\n",
        "LIST, line 3, column z: \"one\" is not a row number",
    ],
    [
        "x,z\n0,0\n1,-1\n2,2\n",
        "LIST, line 3, column z: \"-1\" is not a row number",
    ],
    [
        "x,z\n0,0\n1,\n2,2\n",
        "LIST, line 3, column z: the cell is empty; a row number is required",
    ],
    [
        "x,q\n0,0\n1,1\n2,2\n",
        "OLD, line 1: there is no column \"q\"; there are \"fixture\", \"x\", \"z\", \"pan\"",
    ],
];

#[test]
fn listings() {
    for [listing, why] in LISTINGS {
        let folder = Folder::new("listings");
        let (old, list) = (
            folder.write("old.csv", GOOD),
            folder.write("list.csv", listing),
        );
        let told = run(&["check", &old, "--listing", &list]);
        let lines: String = why
            .lines()
            .map(|it| format!("tailboardy: {it}\n"))
            .collect();
        assert_eq!(told.err, lines.replace("OLD", &old).replace("LIST", &list));
        assert_eq!(told.status, Some(i32::from(!why.is_empty())));
    }
}

#[test]
fn files_that_are_not_there() {
    for (file, why) in [
        (
            "/nowhere.csv",
            "/nowhere.csv: there is no such file; check its name and folder",
        ),
        ("/", "/: it is a folder; name a file in it"),
    ] {
        let told = run(&["check", file]);
        assert_eq!(told.err, format!("tailboardy: {why}\n"));
        assert_eq!((told.status, told.out.as_str()), (Some(1), ""));
    }
}
