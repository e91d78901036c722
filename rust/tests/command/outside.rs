//! What no tree knows is told, and how far the trees lie apart.

use crate::columns::{OLD, correct, lines};
use crate::{Run, run, show};
use std::fs;
use tailboardy::{DenseMatrix, RandomForestRegressor, RandomForestRegressorParameters};

fn shows(new: &str, more: &[&str]) -> Run {
    let (old, new) = (show("old-house.csv"), show(new));
    run(&[&["correct", &old, &new, "--target", "pan"], more].concat())
}

#[test]
fn fixtures_outside_the_range_are_told() {
    let told = shows("new-house.csv", &[]);
    let (old, new) = (show("old-house.csv"), show("new-house.csv"));
    assert_eq!(told.status, Some(0));
    let why = format!(
        "{new}, column mounting_angle: 3 of 120 fixtures lie outside the range of {old}, -6 to 6.5: \
         FRONT-13 by 0.5 below, MID-02 by 0.5 below, MID-15 by 0.5 below"
    );
    let note = format!("note: {why}; no tree knows such values, so check these corrections");
    assert_eq!(lines(&told), [note]);
    let marked = told
        .out
        .lines()
        .filter(|it| it.ends_with(",mounting_angle"));
    let marked: Vec<&str> = marked.filter_map(|it| it.split(',').next()).collect();
    assert_eq!(marked, ["FRONT-13", "MID-02", "MID-15"]);
    let inside = told.out.lines().filter(|it| it.ends_with(','));
    assert_eq!(inside.count(), 117);

    let strict = shows("new-house.csv", &["--strict"]);
    assert_eq!((strict.status, strict.out.as_str()), (Some(1), ""));
    assert_eq!(lines(&strict), [format!("{why}; --strict refuses that")]);
}

#[test]
fn ten_fixtures_are_named_and_the_others_counted() {
    let rows: String = (0..24)
        .map(|it| format!("f{it},{}\n", 6 + it % 2 * 4))
        .collect();
    let told = correct(OLD, &format!("fixture,trim\n{rows}"), &[]);
    let names: Vec<String> = (0..10)
        .map(|it| format!("f{} by 2 above", 2 * it + 1))
        .collect();
    let list = format!("5.5 to 8: {} and 2 more; no tree", names.join(", "));
    assert!(told.err.contains(&list), "{}", told.err);
}

/// A fixture with a weight of 0 is in no tree.
#[test]
fn fixtures_that_do_not_count_do_not_widen_the_range() {
    let old = "trim,w,pan\n5,1,0\n6.5,1,1\n9,0,4\n";
    let told = correct(old, "trim\n6\n8\n", &["--weight", "w"]);
    assert_eq!(told.status, Some(0));
    assert!(
        told.err
            .contains("range of OLD, 5 to 6.5: line 3 by 1.5 above;"),
        "{}",
        told.err
    );
    assert!(told.out.ends_with(",trim\n"));
}

#[test]
fn a_whole_column_outside_is_refused() {
    let (old, new) = (show("old-house.csv"), show("new-house-millimetres.csv"));
    let told = shows("new-house-millimetres.csv", &[]);
    assert_eq!((told.status, told.out.as_str()), (Some(1), ""));
    let why = |column: &str, here: &str, there: &str| {
        format!(
            "{new}, column {column}: 120 of 120 fixtures lie outside the range of {old}: {here} here, {there} there; \
             these look like millimetres, and those of {old} like metres"
        )
    };
    let columns = [
        why("trim_height", "5600 to 8170", "5.2 to 8.74"),
        why("truss_offset", "-12810 to 13040", "-13.75 to 13.75"),
    ];
    let how = "convert the column, or let it pass with --extrapolate";
    assert_eq!(
        lines(&told),
        columns.clone().map(|it| format!("{it}; {how}"))
    );

    let told = shows("new-house-millimetres.csv", &["--extrapolate"]);
    assert_eq!(told.status, Some(0));
    for line in columns {
        assert!(
            told.err.contains(&format!("note: {line}; no tree knows")),
            "{}",
            told.err
        );
    }
    assert!(
        told.out
            .lines()
            .nth(1)
            .unwrap()
            .ends_with(",trim_height + truss_offset")
    );
    let both = shows("new-house.csv", &["--extrapolate", "--strict"]);
    assert_eq!(both.status, Some(2));
}

/// Offsets from the middle of the stage lie inside the range of those in a smaller unit.
#[test]
fn a_greater_unit_inside_the_range_is_told() {
    let old = "trim,offset,pan\n5.5,-9000,0\n6.5,200,1\n7.5,8000,2\n";
    let new = "trim,offset\n6,-8.5\n7,0.3\n6.5,8\n";
    let why = "NEW, column offset: all values lie close together within the range of OLD: -8.5 to 8 here, -9000 to 8000 there; \
               these look like metres, and those of OLD like millimetres";
    let told = correct(old, new, &[]);
    assert_eq!(told.status, Some(0));
    let note = format!("note: {why}; if so, convert the column");
    assert_eq!(lines(&told), [note]);
    let strict = correct(old, new, &["--strict"]);
    assert_eq!((strict.status, strict.out.as_str()), (Some(1), ""));
    assert_eq!(lines(&strict), [format!("{why}; --strict refuses that")]);
}

/// A measurement that cannot be used is not kept silent.
#[test]
fn a_measurement_of_the_new_show_alone_is_told() {
    let told = correct(OLD, "fixture,trim,tilt\na,6,1.5\nb,7,2\n", &[]);
    assert_eq!(told.status, Some(0));
    let note = "note: NEW, column tilt: left out, because OLD does not have it";
    assert_eq!(lines(&told), [note]);
    let ignored = correct(
        OLD,
        "fixture,trim,tilt\na,6,1.5\nb,7,2\n",
        &["--ignore", "tilt"],
    );
    assert_eq!(lines(&ignored), [""; 0]);
}

/// Nothing tells what to convert if no unit would explain it.
#[test]
fn a_higher_house_is_refused_without_a_unit() {
    let told = correct(OLD, "fixture,trim\na,8.5\nb,9\n", &[]);
    assert_eq!(told.status, Some(1));
    let why = "8.5 to 9 here, 5.5 to 8 there; check its values and their unit, or let it pass with --extrapolate";
    assert!(told.err.contains(why), "{}", told.err);
}

fn numbers(name: &str) -> Vec<Vec<f64>> {
    let text = fs::read_to_string(show(name)).unwrap();
    let cells = |line: &str| {
        line.split(',')
            .skip(3)
            .map(|it| it.parse().unwrap())
            .collect()
    };
    text.lines().skip(1).map(cells).collect()
}

/// The tenth and the ninetieth of a hundred trees, sorted.
#[test]
fn the_spread_is_that_of_the_trees() {
    let told = shows("new-house.csv", &["--spread"]);
    let mut lines = told.out.lines();
    assert!(
        lines
            .next()
            .unwrap()
            .ends_with(",mounting_angle,pan_correction,pan_low,pan_high,support,outside")
    );
    let rows = numbers("old-house.csv");
    let x: Vec<&[f64]> = rows.iter().map(|row| &row[..3]).collect();
    let y: Vec<f64> = rows.iter().map(|row| row[3]).collect();
    let x = DenseMatrix::from_2d_array(&x).unwrap();
    let new = DenseMatrix::from_2d_array(&numbers("new-house.csv")).unwrap();
    let forest = RandomForestRegressor::fit(&x, &y, RandomForestRegressorParameters::default());
    let forest = forest.unwrap();
    let trees: Vec<_> = forest
        .trees()
        .map(|tree| tree.predict(&new).unwrap())
        .collect();
    let mut told = 0;
    for (row, line) in lines.enumerate() {
        let mut predicted: Vec<f64> = trees.iter().map(|tree| tree[row]).collect();
        predicted.sort_by(f64::total_cmp);
        let cells: Vec<f64> = line
            .split(',')
            .skip(7)
            .take(2)
            .map(|it| it.parse().unwrap())
            .collect();
        assert_eq!(cells, [predicted[9], predicted[89]]);
        told += 1;
    }
    assert_eq!(told, 120);
}
