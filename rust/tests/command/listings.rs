//! Listings: fresh ones, and what is told of those that do not fit their show.

use crate::{Folder, Run, run, show};
use std::fs;

const SHOW: &str = "fixture,x,z,pan\na,3.5,5,0\nb,1,7,1\nc,2,6.5,4\n";

/// Runs `check` on a listing of the show above.
fn checked(listing: &str) -> (Run, String, String) {
    let folder = Folder::new("listings");
    let (show, listing) = (
        folder.write("show.csv", SHOW),
        folder.write("list.csv", listing),
    );
    let told = run(&["check", &show, "--listing", &listing]);
    (told, show, listing)
}

#[test]
fn a_show_in_place_of_a_listing_is_refused() {
    let (told, _, listing) = checked(SHOW);
    let why = format!("tailboardy: {listing}, line 2, column fixture: \"a\" is not a row number\n");
    assert_eq!((told.status, told.err), (Some(1), why));
}

/// Spreadsheets write separators for columns that they once had.
#[test]
fn a_listing_may_have_an_empty_column() {
    let (told, ..) = checked("x,z,\n1,0,\n2,2,\n0,1,\n");
    assert_eq!((told.status, told.err.as_str()), (Some(0), ""));
}

#[test]
fn a_fresh_listing_is_written() {
    let folder = Folder::new("fresh");
    let show = folder.write("show.csv", SHOW);
    let told = run(&["list", &show, "--target", "pan"]);
    assert_eq!(told.out, "x,z\n1,0\n2,2\n0,1\n");
    assert_eq!(told.status, Some(0));
    let lines = "fixtures: 3\nfeatures: x, z\ntarget: pan\nnot used: fixture\n";
    assert_eq!(told.err, lines);
    let one = run(&["list", &show, "--features", "z"]);
    assert_eq!(one.out, "z\n0\n2\n1\n");
    let told = run(&["list", &show, "--features", "fixture"]);
    assert_eq!((told.status, told.out.as_str()), (Some(1), ""));
}

/// What `list` writes, `check` and `fit` accept, and a fit goes by it as by its own sorting.
#[test]
fn a_fresh_listing_is_accepted() {
    let folder = Folder::new("accepted");
    let old = show("old-house.csv");
    let out = folder.path("listing.csv");
    let told = run(&["list", &old, "--target", "pan", "--out", &out]);
    assert_eq!((told.status, told.out.as_str()), (Some(0), ""));
    let kept = fs::read_to_string(show("old-house-listing.csv")).unwrap();
    assert_eq!(fs::read_to_string(&out).unwrap(), kept);
    let checked = run(&["check", &old, "--listing", &out]);
    assert_eq!(checked.status, Some(0), "{}", checked.err);
    let fit = ["fit", &old, "--target", "pan"];
    let listed = run(&[&fit[..], &["--listing", &out]].concat());
    assert_eq!(listed, run(&fit));

    let all = run(&["list", &old, "--out", &out]);
    assert_eq!(all.status, Some(0), "{}", all.err);
    assert_eq!(run(&["check", &old, "--listing", &out]).status, Some(0));
}

/// Listings and what is told of them. LIST and SHOW stand for the names of the files.
const TOLD: &[[&str; 2]] = &[
    [
        "x,z\n2,1\n3,3\n1,2\n",
        "LIST: row numbers are counted from 1 instead of 0; `tailboardy list` writes a fresh listing (refusal 11, no such row)",
    ],
    [
        "x,z\n3,2\n4,4\n2,3\n",
        "LIST: row numbers are counted from 2 instead of 0; `tailboardy list` writes a fresh listing (refusal 11, no such row)",
    ],
    [
        "x,z\n2,0\n3,2\n1,1\n",
        "LIST, line 3, column x: row numbers are counted from 1 instead of 0; `tailboardy list` writes a fresh listing (refusal 11, no such row)",
    ],
    [
        "x,z\n1,0\n2,1\n0,2\n",
        "LIST, line 4, column z: row 2 (6.5 in line 4 of SHOW) follows row 1 (7 in line 3 of SHOW), which is higher; \
         the listing looks like that of another version of the show; `tailboardy list` writes a fresh one (refusal 13, value falls)",
    ],
    [
        "x,z\n1,0\n0,1\n",
        "LIST: it has 2 rows, but SHOW has 3, and row 2 is missing, which is line 4 of SHOW; \
         the listing looks like that of another version of the show; `tailboardy list` writes a fresh one (refusal 2, lengths)",
    ],
    [
        "x,z\n1,0\n3,3\n2,1\n0,2\n",
        "LIST: it has 4 rows, but SHOW has 3; \
         the listing looks like that of another version of the show; `tailboardy list` writes a fresh one (refusal 2, lengths)\n\
         LIST, line 5, column z: row 2 (6.5 in line 4 of SHOW) follows row 1 (7 in line 3 of SHOW), which is higher; \
         the listing looks like that of another version of the show; `tailboardy list` writes a fresh one (refusal 2, lengths)",
    ],
    [
        "x,z\n0,0\n1,1\n1,2\n",
        "LIST, line 3, column x: row 1 (1 in line 3 of SHOW) follows row 0 (3.5 in line 2 of SHOW), which is higher, \
         and row 2 is missing, which is line 4 of SHOW (refusal 13, value falls)\n\
         LIST, line 4, column z: row 2 (6.5 in line 4 of SHOW) follows row 1 (7 in line 3 of SHOW), which is higher; \
         the listing looks like that of another version of the show; `tailboardy list` writes a fresh one (refusal 13, value falls)",
    ],
    [
        "x,z\n1,0\n1,1\n0,2\n",
        "LIST, line 3, column x: row 1 appears twice, first in line 2, and row 2 is missing, which is line 4 of SHOW (refusal 12, row twice)\n\
         LIST, line 4, column z: row 2 (6.5 in line 4 of SHOW) follows row 1 (7 in line 3 of SHOW), which is higher; \
         the listing looks like that of another version of the show; `tailboardy list` writes a fresh one (refusal 13, value falls)",
    ],
    [
        "x,z\n3,2\n2,1\n1,3\n",
        "LIST, line 2, column x: there is no row 3; the last row is 2, and row 0 is missing, which is line 2 of SHOW (refusal 11, no such row)\n\
         LIST, line 4, column z: there is no row 3; the last row is 2, and row 0 is missing, which is line 2 of SHOW (refusal 11, no such row)",
    ],
];

#[test]
fn listings_that_do_not_fit_are_explained() {
    for [listing, lines] in TOLD {
        let (told, show, list) = checked(listing);
        let line = |it: &str| format!("tailboardy: {it}\n");
        let lines: String = lines.lines().map(line).collect();
        assert_eq!(
            told.err,
            lines.replace("SHOW", &show).replace("LIST", &list)
        );
        assert_eq!((told.status, told.out.as_str()), (Some(1), ""));
    }
}

/// What programs are told of a damaged listing: each column that is wrong, whatever the lines say.
#[test]
fn damage_is_told_to_programs() {
    let folder = Folder::new("damage");
    let show = folder.write("show.csv", SHOW);
    let damage = |listing: &str| {
        let listing = folder.write("list.csv", listing);
        let words = ["--target", "pan", "--listing", &listing, "--json"];
        let [check, fit] =
            ["check", "fit"].map(|it| run(&[&[it, show.as_str()], &words[..]].concat()));
        assert_eq!((check.status, &check.out), (Some(1), &fit.out));
        let (_, damage) = check.out.split_once("], \"damage\": ").unwrap_or_default();
        damage.trim_end().to_owned()
    };
    assert_eq!(
        damage("x,z\n1,0\n1,1\n0,2\n"),
        "[{\"column\": \"x\", \"refusal\": 12, \"place\": 1, \"missing\": 2}, \
          {\"column\": \"z\", \"refusal\": 13, \"place\": 2, \"missing\": null}]}"
    );
    assert_eq!(
        damage("x,z\n2,0\n3,2\n1,1\n"),
        "[{\"column\": \"x\", \"refusal\": 11, \"place\": 1, \"missing\": 0}]}"
    );
    assert_eq!(damage("x,z\n1,0\n0,1\n"), "");
}
