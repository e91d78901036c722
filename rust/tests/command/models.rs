//! Models: written by `fit`, told of by `model`, and refused where their file is damaged.

use crate::json::{Value, parse};
use crate::{Folder, Run, run, show};
use std::fs;
use std::os::unix::fs::{MetadataExt, PermissionsExt};
use tailboardy::RandomForestRegressor;

/// Fits a forest of ten trees on the old house and writes it to a file.
pub(crate) fn fitted(model: &str, more: &[&str]) -> Run {
    let old = show("old-house.csv");
    let words = ["fit", &old, "--target", "pan", "--n-trees", "10", "--model"];
    run(&[&words[..], &[model], more].concat())
}

#[test]
fn a_model_has_the_bits_of_the_forest() {
    let folder = Folder::new("bits");
    let model = folder.path("house.rgf");
    assert_eq!(fitted(&model, &[]).status, Some(0));
    let bytes = fs::read(&model).unwrap();
    let forest = RandomForestRegressor::from_model_bytes(&bytes).unwrap();
    assert_eq!((forest.n_trees(), forest.n_features()), (10, 3));
    assert_eq!(forest.model_bytes().unwrap(), bytes);
    let random = fitted(&folder.path("random.rgf"), &["--splitter", "random"]);
    assert_eq!(random.status, Some(0));
    assert_ne!(fs::read(folder.path("random.rgf")).unwrap(), bytes);
}

#[test]
fn the_model_of_the_old_house_stays_what_it_is() {
    let folder = Folder::new("stays");
    let model = folder.path("house.rgf");
    let old = show("old-house.csv");
    let words = ["fit", &old, "--target", "pan", "--n-trees", "21", "--model"];
    assert_eq!(run(&[&words[..], &[&model]].concat()).status, Some(0));
    let bytes = fs::read(show("old-house.rgf")).unwrap();
    assert_eq!(fs::read(&model).unwrap(), bytes);
    let cut = fs::read(show("old-house-cut.rgf")).unwrap();
    assert_eq!(cut, bytes[..1000]);
}

#[test]
fn a_fit_says_where_the_model_is() {
    let folder = Folder::new("where");
    let model = folder.path("house.rgf");
    let old = show("old-house.csv");
    let plain = run(&["fit", &old, "--target", "pan", "--n-trees", "10"]);
    let told = fitted(&model, &[]);
    let bytes = fs::metadata(&model).unwrap().len();
    let line = format!(
        "model: {model}, {bytes} bytes; it has no names of columns, so predict with --features trim_height,truss_offset,mounting_angle\n"
    );
    assert_eq!(told.out, plain.out + &line);
    assert_eq!((told.status, told.err.as_str()), (Some(0), ""));
    let json = parse(&fitted(&model, &["--json"]).out);
    assert_eq!(json.get("model").get("file"), &Value::Text(model));
    assert_eq!(json.get("model").get("bytes").number(), bytes.to_string());
}

#[test]
fn a_model_is_written_whole_or_not_at_all() {
    let folder = Folder::new("whole");
    let model = folder.write("house.rgf", "old");
    fs::set_permissions(&model, fs::Permissions::from_mode(0o604)).unwrap();
    let bad = folder.write("bad.csv", "x,pan\n1,2\n3,\n");
    let told = run(&["fit", &bad, "--target", "pan", "--model", &model]);
    assert_eq!(told.status, Some(1));
    assert_eq!(fs::read_to_string(&model).unwrap(), "old");
    assert_eq!(fitted(&model, &[]).status, Some(0));
    assert_eq!(fs::metadata(&model).unwrap().mode() & 0o7777, 0o604);
    assert_eq!(run(&["model", &model]).status, Some(0));
    assert_eq!(folder.files(), 2);
    let full = fitted("/dev/full", &["--json"]);
    assert_eq!(full.status, Some(1));
    let why =
        "No space left on device (os error 28); make room, or choose another place with --model";
    assert_eq!(full.err, format!("tailboardy: /dev/full: {why}\n"));
    assert_eq!(parse(&full.out).get("ok"), &Value::Bool(false));
}

#[test]
fn a_model_needs_a_place_of_its_own() {
    let old = show("old-house.csv");
    for (model, status, why) in [
        (
            "-",
            2,
            "--model -: standard output is for the report; name a file".to_owned(),
        ),
        (
            &old,
            2,
            format!("--model {old}: this file is also read; choose another one"),
        ),
        (
            "no-folder/x",
            1,
            "no-folder/x: there is no such folder; create it, or choose another one".into(),
        ),
        (
            "/proc/x",
            1,
            "/proc/x: No such file or directory (os error 2); choose another place with --model"
                .into(),
        ),
    ] {
        let told = fitted(model, &[]);
        assert_eq!(told.err, format!("tailboardy: {why}\n"));
        assert_eq!((told.status, told.out.as_str()), (Some(status), ""));
    }
}

#[test]
fn what_is_in_a_model_is_told() {
    let folder = Folder::new("told");
    let model = folder.path("house.rgf");
    let fit = parse(&fitted(&model, &["--json", "--digits", "3"]).out);
    let json = parse(&run(&["model", &model, "--digits", "3", "--json"]).out);
    assert_eq!(json.get("ok"), &Value::Bool(true));
    assert_eq!(json.get("model"), fit.get("model"));
    assert_eq!(json.get("n_features").number(), "3");
    let forest = |key| json.get("forest").get(key).number();
    for key in ["trees", "nodes", "depth"] {
        assert_eq!(forest(key), fit.get("forest").get(key).number());
    }
    let numbers = |key| match json.get(key) {
        Value::List(values) => values.iter().map(Value::number).collect::<Vec<_>>(),
        other => panic!("{other:?}"),
    };
    let (splits, parts) = (numbers("splits"), numbers("importances"));
    let sum: usize = splits.iter().map(|it| it.parse::<usize>().unwrap()).sum();
    assert_eq!(2 * sum + 10, forest("nodes").parse::<usize>().unwrap());
    let names = ["trim_height", "truss_offset", "mounting_angle"];
    for (part, name) in parts.iter().zip(names) {
        assert_eq!(*part, fit.get("importances").get(name).number());
    }
}

#[test]
fn trees_without_a_split_are_told() {
    let folder = Folder::new("leaves");
    let table = folder.write("show.csv", "x,pan\n1.5,2.5\n3,2.5\n2,2.5\n");
    let model = folder.path("leaves.rgf");
    let words = [
        "fit",
        &table,
        "--target",
        "pan",
        "--n-trees",
        "2",
        "--max-depth",
        "1",
    ];
    assert_eq!(
        run(&[&words[..], &["--model", &model]].concat()).status,
        Some(0)
    );
    assert_eq!(
        run(&["model", &model]).out,
        format!(
            "{model} can be used: it is a model of 41 bytes\nfeatures: 1\ntrees: 2, with 2 nodes, 0 levels deep\n\
             splits: 0; feature 0: 0\nimportances: feature 0: 0\n"
        )
    );
    let told = run(&["predict", &model, &table, "--features", "x"]);
    assert_eq!(
        told.out,
        "x,pan,correction\n1.5,2.5,2.5\n3,2.5,2.5\n2,2.5,2.5\n"
    );
}

/// How many of the first bytes are kept, where bytes are replaced and what by, and what is told.
const DAMAGED: &[(usize, usize, &[u8], &str)] = &[
    (
        0,
        0,
        b"",
        "byte 0: the file is empty; the file is cut off: copy it again, or write it again (refusal 14, file ends early)",
    ),
    (
        20,
        0,
        b"",
        "byte 13: the file ends after 20 bytes, in the middle of the value of node 0 of tree 0; the file is cut off: copy it again, or write it again (refusal 14, file ends early)",
    ),
    (
        21,
        0,
        b"",
        "byte 21: the file ends before the true child of node 0 of tree 0; the file is cut off: copy it again, or write it again (refusal 14, file ends early)",
    ),
    (
        99,
        0,
        b"RFG",
        "byte 0: the file begins with \"RFG\", not with the mark \"RGF\"; this is not a model file, or one of another version: choose another file, or write it again (refusal 15, not such a file)",
    ),
    (
        99,
        3,
        &[2],
        "byte 3: the version is 2, but only version 1 is read; this is not a model file, or one of another version: choose another file, or write it again (refusal 15, not such a file)",
    ),
    (
        99,
        5,
        &[0],
        "byte 5: the number of features is 0, but must be 1 to 1024; the file is damaged: copy it again, or write it again (refusal 16, bad field)",
    ),
    (
        99,
        8,
        &[9],
        "byte 7: the number of trees is 2314, but must be 1 to 1024; the file is damaged: copy it again, or write it again (refusal 16, bad field)",
    ),
    (
        99,
        21,
        &[0xff; 4],
        "byte 21: the true child of node 0 of tree 0 is 4294967295, but must be 1 to NODES, or 0 for a leaf; the file is damaged: copy it again, or write it again (refusal 16, bad field)",
    ),
    (
        99,
        25,
        &[3],
        "byte 25: the feature of node 0 of tree 0 is 3, but must be 0 to 2; the file is damaged: copy it again, or write it again (refusal 16, bad field)",
    ),
    (
        99,
        33,
        &[0xf8, 0xff],
        "byte 27: the threshold of node 0 of tree 0 has the bits fff8BITS, but the only NaN in a model file is 7ff8000000000000; the file is damaged: copy it again, or write it again (refusal 16, bad field)",
    ),
];

#[test]
fn a_damaged_model_is_refused_at_its_place() {
    let folder = Folder::new("damaged");
    let whole = folder.path("house.rgf");
    assert_eq!(fitted(&whole, &[]).status, Some(0));
    let whole = fs::read(whole).unwrap();
    let nodes = u32::from_le_bytes(whole[9..13].try_into().unwrap());
    let threshold = u64::from_le_bytes(whole[27..35].try_into().unwrap());
    let new = show("new-house.csv");
    for (kept, at, by, why) in DAMAGED {
        let mut bytes = whole[..*kept].to_vec();
        bytes.splice(at..&(at + by.len()), by.iter().copied());
        let file = folder.write("damaged.rgf", bytes);
        let why = why.replace("NODES", &(nodes - 2).to_string());
        let why = why.replace("BITS", &format!("{:012x}", threshold & 0xffff_ffff_ffff));
        let line = format!("{file}, {why}");
        for words in [&["model", &file][..], &["predict", &file, &new]] {
            let told = run(words);
            assert_eq!(told.err, format!("tailboardy: {line}\n"));
            assert_eq!((told.status, told.out.as_str()), (Some(1), ""));
        }
        let json = parse(&run(&["model", &file, "--json"]).out);
        assert_eq!(json.get("faults").texts(), [line]);
        let Value::List(damage) = json.get("damage") else {
            panic!("{json:?}");
        };
        let place = format!("byte {}: ", damage[0].get("place").number());
        assert!(why.starts_with(&place), "{why}");
        let number = format!("(refusal {},", damage[0].get("refusal").number());
        assert!(why.contains(&number), "{why}");
    }
}

#[test]
fn what_follows_a_model_is_told() {
    let folder = Folder::new("more");
    let whole = fs::read(show("old-house.rgf")).unwrap();
    let more = folder.write("more.rgf", [&whole[..], b"\n\n"].concat());
    let told = run(&["model", &more]);
    assert_eq!(
        told.err,
        format!(
            "tailboardy: {more}, byte {}: the last node ends here, but 2 bytes are left over; something was added to the file: copy it again, \
             or write it again (refusal 17, bytes left over)\n",
            whole.len()
        )
    );
}

#[test]
fn a_file_of_another_kind_is_told() {
    let folder = Folder::new("kinds");
    let model = folder.path("house.rgf");
    assert_eq!(fitted(&model, &[]).status, Some(0));
    let new = show("new-house.csv");
    let told = run(&["predict", &new, &model]);
    let why = "byte 0: the file begins with \"fix\", not with the mark \"RGF\"; this is not a model file, or one of another version: \
               choose another file, or write it again (refusal 15, not such a file)";
    assert_eq!(told.err, format!("tailboardy: {new}, {why}\n"));
    let told = run(&["check", &model]);
    let why = "this is a model, not a table; `tailboardy predict` takes both";
    assert_eq!(told.err, format!("tailboardy: {model}: {why}\n"));
    let told = run(&["model", &folder.path("hous.rgf")]);
    let why = format!("there is no such file; did you mean {model}?");
    assert_eq!(
        told.err,
        format!("tailboardy: {}: {why}\n", folder.path("hous.rgf"))
    );
    // what has no end is not read on
    assert_eq!(run(&["model", "/dev/zero"]).status, Some(1));
}
