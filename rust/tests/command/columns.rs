//! Which column is what: nothing is measured that only counts, no unit is lost, and what no tree knows is told.
//! In the expected messages OLD and NEW stand for the names of the files.

use crate::{Folder, Run, run, show};

pub(crate) const OLD: &str = "fixture,trim,pan\na,5.5,0\nb,6,1\nc,7,4\nd,8,2\n";

/// Runs a command on files with these texts.
fn on(command: &str, texts: &[&str], more: &[&str]) -> Run {
    let folder = Folder::new("columns");
    let names = ["OLD", "NEW"].into_iter().zip(texts);
    let files: Vec<String> = names.map(|(name, text)| folder.write(name, text)).collect();
    let mut words = vec![command];
    words.extend(files.iter().map(String::as_str));
    words.extend(more);
    let mut told = run(&words);
    let place = folder.path("");
    told.err = told.err.replace(&place, "");
    told.out = told.out.replace(&place, "");
    told
}

pub(crate) fn correct(old: &str, new: &str, more: &[&str]) -> Run {
    on(
        "correct",
        &[old, new],
        &[&["--target", "pan"], more].concat(),
    )
}

/// The lines of standard error that are notes or faults.
pub(crate) fn lines(told: &Run) -> Vec<&str> {
    let lines = told.err.lines();
    lines
        .filter_map(|it| it.strip_prefix("tailboardy: "))
        .collect()
}

/// A column that numbers fixtures is left out and told, and takes no part in the fit; the option that is told takes it.
#[test]
fn numbering_is_no_measurement() {
    let old =
        "fixture,trim,Channel,spot,pan\na,5.5,101,3,0\nb,6,205,1,1\nc,7,301,2,4\nd,8,77,4,2\n";
    let new = "fixture,trim,Channel,spot\na,6,3,1\nb,7,4,2\n";
    let notes = [
        "note: OLD, column Channel: left out, because its name says that it numbers or names fixtures; \
         to use it all the same: --features trim,Channel",
        "note: OLD, column spot: left out, because it only counts, from 1 to 4; \
         to use it all the same: --features trim,spot",
    ];
    let told = correct(old, new, &[]);
    assert_eq!((told.status, lines(&told)), (Some(0), notes.to_vec()));
    let plain = correct(old, new, &["--features", "trim"]);
    assert_eq!((&plain.out, lines(&plain).len()), (&told.out, 0));
    let lacks = correct(old, "fixture,trim,spot\na,6,1\n", &[]);
    let (note, _) = notes[0].split_once("; to use it").unwrap();
    assert_eq!(lines(&lacks)[0], note);
    let told = on("fit", &[old], &["--target", "pan"]);
    assert_eq!((told.status, lines(&told)), (Some(0), notes.to_vec()));
    let told = on("check", &[old], &["--target", "pan"]);
    assert_eq!((told.status, told.err.as_str()), (Some(0), ""));
    assert!(
        told.out.ends_with(&format!("{}\n{}\n", notes[0], notes[1])),
        "{}",
        told.out
    );
    let taken = on(
        "fit",
        &[old],
        &["--target", "pan", "--features", "trim,spot"],
    );
    assert!(taken.out.contains("features: trim, spot\n"));
    assert_eq!(lines(&taken).len(), 0);
}

#[test]
fn if_nothing_is_left_it_says_what_was_left_out() {
    let old = "no,spot,pan\n7,1,0\n9,2,1\n12,3,4\n";
    let why = "left out: \"no\", because its name says that it numbers or names fixtures; \
               \"spot\", because it only counts, from 1 to 3; to use them all the same: --features no,spot";
    let told = on("fit", &[old], &["--target", "pan"]);
    assert_eq!(told.status, Some(1));
    let line = "OLD: there is no column of measurements besides target and weight";
    assert_eq!(lines(&told), [format!("{line}; {why}")]);
    let words = "x,pan\n0x10,1\n2.5,2\n(3.5),3\n";
    let told = on("check", &[words], &["--target", "pan"]);
    let only = "left out: \"x\", because \"2.5\" is the only number in it";
    assert_eq!(lines(&told), [format!("{line}; {only}")]);
    let told = correct(old, "no,spot\n1,2\n", &[]);
    let line = "NEW, line 1: there is no column of measurements in common with OLD";
    assert_eq!(lines(&told), [format!("{line}; {why}")]);
    assert_eq!(
        correct(old, "no,spot\n8,2\n", &["--features", "no,spot"]).status,
        Some(0)
    );
}

/// `--ignore` leaves a measurement out; neither it nor `--id` decides what is written.
#[test]
fn columns_are_left_out_by_name() {
    let old = "fixture,trim,lux,pan\na,5.5,900,0\nb,6,950,1\nc,7,800,4\n";
    let new = "fixture,trim,lux\na,6,900\nb,9,850\n";
    let told = correct(old, new, &["--ignore", "lux"]);
    assert!(told.err.contains("features: trim\n"), "{}", told.err);
    assert_eq!(told.out, correct(old, new, &["--features", "trim"]).out);
    let told = correct(old, new, &["--id", "lux,fixture"]);
    assert!(
        told.err
            .contains("range of OLD, 5.5 to 7: 850 b by 2 above;"),
        "{}",
        told.err
    );
    let head = "fixture,trim,lux,pan_correction,support,outside\na,6,900,";
    assert!(told.out.starts_with(head), "{}", told.out);
    let told = correct(old, new, &["--ignore", "lumen"]);
    assert_eq!(told.status, Some(1));
    assert!(told.err.contains("there is no column \"lumen\""));
    assert_eq!(
        correct(old, new, &["--ignore", "trim", "--id", "trim"]).status,
        Some(2)
    );
}

#[test]
fn a_unit_in_every_cell_is_read() {
    let (old, new) = (show("old-house-units.csv"), show("new-house-units.csv"));
    let told = run(&["correct", &old, &new, "--target", "pan"]);
    assert_eq!(told.status, Some(0), "{}", told.err);
    let units = "units: trim_height m, truss_offset m, mounting_angle °, pan °\n";
    assert!(told.err.contains(units), "{}", told.err);
    assert!(
        told.err.contains("-6° to 6.5°: FRONT-13 by 0.5° below"),
        "{}",
        told.err
    );
    let (old, new) = (show("old-house.csv"), show("new-house.csv"));
    let plain = run(&["correct", &old, &new, "--target", "pan"]);
    let ends = |out: &str| -> Vec<String> {
        let end = |line: &str| line.splitn(7, ',').last().unwrap().to_owned();
        out.lines().map(end).collect()
    };
    assert_eq!(ends(&told.out), ends(&plain.out));
    assert!(
        told.out
            .contains("\nFRONT-01,MILL,FRONT,7.5 m,-11.63 m,6.5°,0.9")
    );
    let told = run(&["check", &show("old-house-units.csv"), "--target", "pan"]);
    assert!(told.out.contains(units), "{}", told.out);
    let told = correct("trim;pan\n4,2 m;1\n5,1m;2\n", "trim\n4.5 m\n", &[]);
    assert_eq!(
        told.out, "trim,pan_correction,support,outside\n4.5 m,1.25,1,\n",
        "{}",
        told.err
    );
}

/// Shows whose units do not go together, and what is told of them.
const UNITS: &[[&str; 3]] = &[
    [
        "trim,x,pan\n4.2 m,1,1\n430 cm,2.5,2\n",
        "trim,x\n4.2 m,1\n",
        "OLD, line 2, column trim: \"4.2 m\" is in m, but \"430 cm\" in line 3 is in cm; correct it, or leave the column out: --ignore trim",
    ],
    [
        "trim,x,pan\n4.2 m,1,1\n4.3,2.5,2\n",
        "trim,x\n4.2 m,1\n",
        "OLD, line 2, column trim: \"4.2 m\" is in m, but \"4.3\" in line 3 has no unit; correct it, or leave the column out: --ignore trim",
    ],
    [
        "trim,x,pan\n4.2 m,1,1\n4.3 m,2.5,2\n",
        "trim,x\n4200 mm,1\n",
        "NEW, line 2, column trim: \"4200 mm\" is in mm, but \"4.2 m\" in line 2 of OLD is in m; bring both to one unit",
    ],
    [
        "trim,x,pan\n4.2,1,1\n4.3,2.5,2\n",
        "trim,x\n4.2 m,1\n",
        "NEW, line 2, column trim: \"4.2 m\" is in m, but \"4.2\" in line 2 of OLD has no unit; bring both to one unit",
    ],
    [
        "trim [m],x,pan\n4.2,1,1\n4.3,2.5,2\n",
        "trim [mm],x\n4200,1\n",
        "NEW, line 1: the column \"trim [mm]\" is called \"trim [m]\" in OLD, so their units may differ; bring both to one unit under one name",
    ],
    [
        "trim,x,pan\n\"13'9\"\"\",1,1\n\"14'\",2.5,2\n",
        "trim,x\n4,1\n",
        "OLD, line 2, column trim: \"13'9\\\"\" is not one number in one unit; write it as one; correct it, or leave the column out: --ignore trim",
    ],
    [
        "trim,x,pan\n4.2,1,1 m\n4.3,2.5,2°\n",
        "trim,x\n4.2,1\n",
        "OLD, line 2, column pan: \"1 m\" is in m, but \"2°\" in line 3 is in °",
    ],
];

#[test]
fn units_that_do_not_go_together_are_refused() {
    for [old, new, why] in UNITS {
        let told = correct(old, new, &[]);
        assert_eq!((told.status, lines(&told)), (Some(1), vec![*why]));
        assert_eq!(told.out, "");
    }
    let told = on("check", &[UNITS[0][0]], &["--target", "pan"]);
    assert_eq!((told.status, lines(&told)), (Some(1), vec![UNITS[0][2]]));
}

#[test]
fn a_single_cell_of_another_kind_is_told_by_that_cell() {
    let old = "fixture,trim,pan\na,5.5,0\nb,low,1\nc,7,4\nd,8,2\n";
    let told = on("check", &[old], &["--target", "pan"]);
    assert_eq!(told.status, Some(1));
    assert_eq!(
        lines(&told),
        [
            "OLD, line 3, column trim: \"low\" is not a number; it is the only such cell of the column; \
          correct it, or leave the column out: --ignore trim"
        ]
    );
    let old = "fixture,truss,trim,pan\na,FOH,5.5,0\nb,7,6,1\nc,BOX,7,4\nd,FOH,8.5,2\n";
    let told = on("check", &[old], &["--target", "pan"]);
    let note = "OLD, line 3, column truss: left out, because \"7\" is the only number in it";
    assert_eq!(told.status, Some(0));
    assert!(told.out.contains("features: trim\n"));
    assert!(
        told.out.ends_with(&format!("note: {note}\n")),
        "{}",
        told.out
    );
    let told = on("fit", &[old], &["--target", "pan", "--features", "truss"]);
    let why = "OLD, line 3, column truss: \"7\" is the only number in the column";
    assert_eq!((told.status, lines(&told)), (Some(1), vec![why]));
}

#[test]
fn fixtures_with_the_same_name_are_told() {
    let old = "fixture,trim,pan\na,5.5,0\nb,6,1\na,7,4\n";
    let new = "fixture,trim\nb,6\nb,6.5\n";
    let why = "several fixtures have the same name: \"a\" in lines 2, 4; if other columns name the fixtures, say which with --id";
    let there = why.replace("\"a\" in lines 2, 4", "\"b\" in lines 2, 3");
    let told = on("check", &[old], &["--target", "pan"]);
    assert_eq!(told.status, Some(0));
    assert!(
        told.out.ends_with(&format!("note: OLD: {why}\n")),
        "{}",
        told.out
    );
    let told = correct(old, new, &[]);
    assert_eq!(told.status, Some(0));
    assert_eq!(
        lines(&told),
        [format!("note: OLD: {why}"), format!("note: NEW: {there}")]
    );
    let told = correct(old, new, &["--strict"]);
    assert_eq!((told.status, told.out.as_str()), (Some(1), ""));
    let refused = [
        format!("OLD: {why}; --strict refuses that"),
        format!("NEW: {there}; --strict refuses that"),
    ];
    assert_eq!(lines(&told), refused);
    assert_eq!(
        correct(old, new, &["--strict", "--id", "trim,fixture"]).status,
        Some(1)
    );
}

#[test]
fn columns_that_are_added_must_be_free() {
    for (name, more) in [
        ("outside", &[][..]),
        ("support", &[]),
        ("pan_correction", &[]),
        ("pan_low", &["--spread"]),
        ("pan_high", &["--spread"]),
    ] {
        let told = correct(OLD, &format!("trim,{name}\n6,7\n"), more);
        let why = "which is added to the corrected show; give it another name or take it out";
        let line = format!("NEW, line 1: there is already a column \"{name}\", {why}");
        assert_eq!((told.status, lines(&told)), (Some(1), vec![line.as_str()]));
    }
    assert_eq!(correct(OLD, "trim,pan_low\n6,7\n", &[]).status, Some(0));
}
