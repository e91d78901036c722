//! What is told of rows and cells that cannot be used, and rows that may be left out.

use crate::tables::{checked, corrected};
use crate::{Folder, run};

#[test]
fn empty_cells_are_told_by_fixture_and_column() {
    let told = checked(
        "fixture,x,pan\nLX1,1,2\nLX2,,3\nLX3,4,\n",
        &["--target", "pan"],
    );
    assert_eq!(
        told.err,
        "tailboardy: SHOW, line 4, column pan: the cell of LX3 is empty; fill it in, or leave out such rows with --skip-incomplete\n\
         tailboardy: SHOW, line 3, column x: the cell of LX2 is empty; fill it in, or leave out such rows with --skip-incomplete\n"
    );
    let told = checked("bar,pos,x,pan\nFOH,1,5,2\nFOH,2,,3\n", &["--id", "bar,pos"]);
    assert!(
        told.err
            .contains("line 3, column x: the cell of FOH 2 is empty"),
        "{}",
        told.err
    );
}

#[test]
fn all_faults_are_told_up_to_fifty() {
    let rows = |count: usize| -> String {
        let row = |row: usize| if row % 2 == 0 { ",1,2\n" } else { "1,,2,\n" };
        (0..count).map(row).collect()
    };
    let many = format!("x,z,pan\n5,6,7\n{}", rows(120));
    let told = checked(&many, &["--target", "pan"]);
    let lines: Vec<&str> = told.err.lines().collect();
    assert_eq!((told.status, lines.len()), (Some(1), 51));
    assert_eq!(lines[50], "tailboardy: 70 more faults are not shown");
    let few = format!("x,z,pan\n5,6,7\n{}", rows(4));
    let told = checked(few, &["--target", "pan"]);
    let uneven = "the number of cells is 4, but the number of columns is 3; cells were split at commas, so a cell with a comma in it must be in quotes";
    let empty =
        "column x: the cell is empty; fill it in, or leave out such rows with --skip-incomplete";
    assert_eq!(
        told.err,
        format!(
            "tailboardy: SHOW, line 4: {uneven}\ntailboardy: SHOW, line 6: {uneven}\n\
             tailboardy: SHOW, line 3, {empty}\ntailboardy: SHOW, line 5, {empty}\n"
        )
    );
}

#[test]
fn incomplete_rows_may_be_left_out() {
    let skip = ["--skip-incomplete"];
    let old = "fixture,note,x,pan\nA,,1.5,8\nB,n,,1\nC,n,2.5,8\nD,n,3,\nE,n,3.5,8\n";
    let new = "fixture,x,seat\nF,1.5,\nG,,7\nH,3.5,9\n";
    let told = corrected(old, new, &skip);
    let lines: Vec<&str> = told.out.lines().collect();
    let rows = ["F,1.5,,8,1,", "G,,7,,,", "H,3.5,9,8,1,"];
    assert_eq!(lines[0], "fixture,x,seat,pan_correction,support,outside");
    assert_eq!(
        (told.status, &lines[1..]),
        (Some(0), &rows[..]),
        "{}",
        told.err
    );
    for note in [
        "OLD: left out 2 of 5 fixtures, because cells are empty: B (x), D (pan)\n",
        "NEW: no correction for 1 of 3 fixtures, because cells are empty: G (x)\n",
        "fixtures: 3\n",
    ] {
        assert!(told.err.contains(note), "{note} in {}", told.err);
    }
    let plain = corrected(old, new, &[]);
    assert_eq!((plain.status, plain.err.lines().count()), (Some(1), 3));

    let told = checked(old, &["--target", "pan", "--skip-incomplete"]);
    assert_eq!(told.status, Some(0), "{}", told.err);
    assert!((told.out + &told.err).contains("left out 2 of 5 fixtures"));
    let told = checked("x,z,pan\n1.5,,1\n,2.5,1\n", &skip);
    let why =
        "tailboardy: SHOW: every row has an empty cell: line 2 (z), line 3 (x); fill in some\n";
    assert_eq!((told.status, told.err.as_str()), (Some(1), why));
}

/// A listing of what is left is accepted, and one of all rows is not.
#[test]
fn listings_go_by_the_rows_that_are_left() {
    let folder = Folder::new("left");
    let show = folder.write("show.csv", "fixture,x,pan\nA,3.5,8\nB,,1\nC,2.5,9\n");
    let words = ["--target", "pan", "--skip-incomplete"];
    let told = run(&[&["list", &show][..], &words].concat());
    assert_eq!(
        (told.status, told.out.as_str()),
        (Some(0), "x\n1\n0\n"),
        "{}",
        told.err
    );
    let fit = |listing: &str| {
        let list = folder.write("list.csv", listing);
        run(&[&["fit", &show, "--listing", &list][..], &words].concat()).status
    };
    assert_eq!(fit(&told.out), Some(0));
    assert_eq!(fit("x\n2\n0\n1\n"), Some(1));
}

/// Its first fixture would be lost without a word.
#[test]
fn a_table_without_names_is_refused() {
    let told = checked("LX1,5.73,-2.5\nLX2,6.1,0\nLX3,7,2.5\n", &[]);
    assert_eq!(
        (told.status, told.err.as_str()),
        (
            Some(1),
            "tailboardy: SHOW, line 1: \"5.73\" is a number, not the name of a column; put a line of names above the rows\n"
        )
    );
    let told = checked("year,2024,x\na,yes,5.5\nb,no,6.1\nc,no,7\n", &[]);
    assert_eq!(told.status, Some(0), "{}", told.err);
}
