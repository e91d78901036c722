//! What people expect of any command: help, suggestions, JSON, rounding, and files that are written safely.

use crate::json::{Value, parse};
use crate::{Folder, Run, command, run, show, told};
use std::fs::{self, File};
use std::io::Read;
use std::os::unix::fs::{MetadataExt, PermissionsExt};
use std::process::{Command, Stdio};

fn correct(more: &[&str]) -> Run {
    let (old, new) = (show("old-house.csv"), show("new-house.csv"));
    let words = ["correct", &old, &new, "--target", "pan"];
    run(&[&words, more].concat())
}

#[test]
fn help_and_version_are_found_where_they_are_looked_for() {
    let plain = run(&["--help"]);
    for words in [&["-h"][..], &["help"], &["help", "--help"]] {
        assert_eq!(run(words), plain);
    }
    let fit = run(&["fit", "--help"]);
    assert!(fit.out.starts_with("tailboardy fit SHOW.csv"));
    for words in [
        &["help", "fit"][..],
        &["fit", "-h"],
        &["fit", "x", "--help"],
    ] {
        assert_eq!(run(words), fit);
    }
    assert_eq!(run(&["-V"]), run(&["--version"]));
    assert!(run(&["-V"]).out.starts_with("tailboardy "));
}

/// What docs/COMMAND.md shows after a command with a dollar sign, run from the root of the repository, is what the command writes.
#[test]
fn the_page_shows_what_is_written() {
    let root = format!("{}/..", env!("CARGO_MANIFEST_DIR"));
    let page = fs::read_to_string(format!("{root}/docs/COMMAND.md")).unwrap();
    let blocks = page.split("\n    $ tailboardy ").skip(1);
    let mut runs = 0;
    for block in blocks {
        let mut lines = block.lines();
        let words: Vec<&str> = lines.next().unwrap().split(' ').collect();
        let shown = lines.map_while(|line| line.strip_prefix("    "));
        let shown: Vec<&str> = shown.take_while(|line| !line.starts_with("$ ")).collect();
        let told = told(command(&words).current_dir(&root).output().unwrap());
        let all = [told.out, told.err].concat();
        assert_eq!(all.lines().collect::<Vec<_>>(), shown, "{words:?}");
        runs += 1;
    }
    assert!(runs > 0);
}

#[test]
fn what_may_be_meant_is_suggested() {
    for (words, why) in [
        ("chek a", "there is no command chek; did you mean check?"),
        ("help ift", "there is no command ift; did you mean fit?"),
        ("frobnicate", "there is no command frobnicate"),
        (
            "fit a --targte pan",
            "there is no option --targte; did you mean --target?",
        ),
        (
            "fit a --trees=7",
            "there is no option --trees; did you mean --n-trees?",
        ),
        (
            "fit a -target pan",
            "there is no option -target; did you mean --target?",
        ),
        (
            "correct a b -o x",
            "there is no option -o; did you mean --out?",
        ),
        ("check a --frobnicate", "there is no option --frobnicate"),
    ] {
        let words: Vec<&str> = words.split(' ').collect();
        let told = run(&words);
        assert_eq!((told.status, told.out.as_str()), (Some(2), ""), "{words:?}");
        let line = format!("tailboardy: {why}");
        assert_eq!(told.err.lines().next(), Some(line.as_str()));
    }
    let folder = Folder::new("nearest");
    let there = folder.write("old-house.csv", "x\n1\n");
    let told = run(&["check", &folder.path("old_house.csv")]);
    let line = "there is no such file; did you mean";
    assert!(
        told.err.ends_with(&format!("{line} {there}?\n")),
        "{told:?}"
    );
}

/// What is reported as text, in JSON.
#[test]
fn a_fit_is_reported_in_json() {
    let old = show("old-house.csv");
    let words = ["fit", &old, "--target", "pan"];
    let text = run(&words).out;
    let told = run(&[&words[..], &["--json"]].concat());
    assert_eq!((told.status, told.err.as_str()), (Some(0), ""));
    assert_eq!(told.out.lines().count(), 1);
    let json = parse(&told.out);
    assert_eq!(json.get("ok"), &Value::Bool(true));
    assert_eq!(json.get("fixtures").number(), "120");
    let features = ["trim_height", "truss_offset", "mounting_angle"];
    assert_eq!(json.get("features").texts(), features);
    assert_eq!(json.get("target"), &Value::Text("pan".into()));
    assert_eq!(json.get("forest").get("trees").number(), "100");
    let error = json.get("out_of_bag").get("error").number();
    assert!(
        text.contains(&format!("out-of-bag error: {error} ")),
        "{text}"
    );
    let Value::Object(importances) = json.get("importances") else {
        panic!("{json:?}");
    };
    let first = format!(
        "importances: {} {},",
        importances[0].0,
        importances[0].1.number()
    );
    assert!(text.contains(&first), "{text}");

    let whole = run(&[&words[..], &["--json", "--no-bootstrap"]].concat());
    assert_eq!(parse(&whole.out).get("out_of_bag"), &Value::Null);
}

#[test]
fn a_check_is_reported_in_json() {
    let (old, listing) = (show("old-house.csv"), show("old-house-listing.csv"));
    let words = ["check", &old, "--json", "--target", "pan", "--listing"];
    let told = run(&[&words[..], &[&listing]].concat());
    assert_eq!((told.status, told.err.as_str()), (Some(0), ""));
    let json = parse(&told.out);
    assert_eq!(json.get("ok"), &Value::Bool(true));
    assert_eq!(json.get("show"), &Value::Text(old.clone()));
    assert_eq!(json.get("listing"), &Value::Text(listing));

    let damaged = show("old-house-listing-damaged.csv");
    let told = run(&[&words[..], &[&damaged]].concat());
    assert_eq!(told.status, Some(1));
    let json = parse(&told.out);
    assert_eq!(json.get("ok"), &Value::Bool(false));
    let faults = json.get("faults").texts();
    assert!(faults[0].contains("row 13 appears twice"), "{faults:?}");
    let lines = faults.iter().map(|it| format!("tailboardy: {it}\n"));
    assert_eq!(told.err, lines.collect::<String>());

    let usage = run(&["fit", &old, "--json"]);
    assert_eq!((usage.status, usage.out.as_str()), (Some(2), ""));
}

/// The names of members, and of those of objects in a list.
fn names(members: &[(String, Value)]) -> Vec<&str> {
    let mut names = Vec::new();
    for (name, value) in members {
        names.push(name.as_str());
        let Value::List(values) = value else {
            continue;
        };
        for value in values {
            if let Value::Object(members) = value {
                names.extend(members.iter().map(|(name, _)| name.as_str()));
            }
        }
    }
    names
}

/// Every member is explained in docs/COMMAND.md.
#[test]
fn members_are_on_the_page() {
    let page = format!("{}/../docs/COMMAND.md", env!("CARGO_MANIFEST_DIR"));
    let page = fs::read_to_string(page).unwrap();
    let (_, part) = page.split_once("\n### JSON\n").unwrap();
    let (part, _) = part.split_once("\n## ").unwrap();
    let folder = Folder::new("members");
    let text = "channel,x,w,pan\n1,5 m,1,0\n2,7 m,2,1\n4,6 m,1,4\n";
    let show = folder.write("show.csv", text);
    let listing = folder.write("listing.csv", "x\n0\n2\n1\n");
    let words = [&show, "--target", "pan", "--weight", "w", "--json"];
    let model = folder.path("model.rgf");
    let fit = ["fit", "--n-trees", "5", "--model", &model];
    let check = ["check", "--listing", &listing];
    let bad = ["check", &listing, "--target", "y", "--json"];
    let twice = folder.write("twice.csv", "x\n0\n2\n2\n");
    let damaged = ["check", &show, "--listing", &twice, "--json"];
    for words in [
        [&check[..], &words].concat(),
        [&fit[..], &words].concat(),
        bad.into(),
        damaged.into(),
        ["model", &model, "--json"].into(),
        ["model", &show, "--json"].into(),
    ] {
        let told = run(&words);
        let Value::Object(members) = parse(&told.out) else {
            panic!("{told:?}");
        };
        assert!(members.len() > 1);
        for name in names(&members) {
            let row = part.lines().filter(|line| line.starts_with("| `"));
            let named = |line: &str| line.contains(&format!("`{name}`"));
            assert!(row.clone().any(named), "{name}");
        }
        assert_eq!(
            told.out.contains("\"notes\": [\""),
            told.status == Some(0) && words[0] != "model",
            "{told:?}"
        );
    }
}

#[test]
fn json_survives_any_name() {
    let folder = Folder::new("names");
    let name = "say \"\"x\"\"\\ é";
    let text = format!("\"{name}\",pan\n1,2\n3,4\n");
    let told = run(&["check", &folder.write("show.csv", text), "--json"]);
    let json = parse(&told.out);
    let features = json.get("features").texts();
    assert_eq!(features[0], "say \"x\"\\ é", "{}", told.out);
}

#[test]
fn digits_are_rounded() {
    let (exact, rounded) = (correct(&[]).out, correct(&["--digits", "2"]).out);
    for (exact, rounded) in exact.lines().zip(rounded.lines()).skip(1) {
        let cell = |line: &str| line.split(',').nth(6).unwrap().to_owned();
        let (exact, rounded) = (cell(exact), cell(rounded));
        assert_eq!(
            rounded,
            format!("{:.2}", exact.parse::<f64>().unwrap()).replace("-0.00", "0.00")
        );
    }
    let old = show("old-house.csv");
    let words = ["fit", &old, "--target", "pan", "--digits", "3"];
    let told = run(&words).out;
    let digits = |text: &str| text.split_once('.').map(|it| it.1.len());
    let line = told
        .lines()
        .find(|it| it.starts_with("importances"))
        .unwrap();
    let numbers = line.split([' ', ',']).filter(|it| it.contains('.'));
    assert_eq!(
        numbers.map(digits).collect::<Vec<_>>(),
        [Some(3); 3],
        "{line}"
    );
    let json = parse(&run(&[&words[..], &["--json"]].concat()).out);
    assert_eq!(
        digits(json.get("out_of_bag").get("error").number()),
        Some(3)
    );
    for digits in ["18", "-1", "two"] {
        let told = correct(&["--digits", digits]);
        assert_eq!(told.status, Some(2));
        assert!(told.err.contains("a whole number up to 17 is required"));
    }
}

#[test]
fn a_dash_is_standard_output() {
    assert_eq!(correct(&["--out", "-"]), correct(&[]));
}

#[test]
fn standard_input_is_not_written_over() {
    let folder = Folder::new("over");
    let new = folder.write("new.csv", fs::read(show("new-house.csv")).unwrap());
    let old = show("old-house.csv");
    let words = ["correct", &old, "-", "--target", "pan", "--out", &new];
    let from = File::open(&new).unwrap();
    let told = told(command(&words).stdin(from).output().unwrap());
    let why = "this file is also read; choose another one";
    assert_eq!(told.err, format!("tailboardy: --out {new}: {why}\n"));
    assert_eq!(told.status, Some(2));
}

#[test]
fn a_files_mode_is_kept() {
    let folder = Folder::new("mode");
    let out = folder.write("out.csv", "old");
    fs::set_permissions(&out, fs::Permissions::from_mode(0o604)).unwrap();
    assert_eq!(correct(&["--out", &out]).status, Some(0));
    assert_eq!(fs::metadata(&out).unwrap().mode() & 0o7777, 0o604);
    assert_eq!(fs::read_to_string(&out).unwrap(), correct(&[]).out);
}

/// The new house a hundred times.
fn many(folder: &Folder) -> String {
    let text = fs::read_to_string(show("new-house.csv")).unwrap();
    let (names, rows) = text.split_once('\n').unwrap();
    folder.write("many.csv", format!("{names}\n{}", rows.repeat(100)))
}

/// A limit on the size of files takes the place of a full disk.
#[test]
fn a_full_disk_leaves_the_old_file() {
    let folder = Folder::new("full");
    let out = folder.write("out.csv", "old");
    let (old, new) = (show("old-house.csv"), many(&folder));
    let words = ["correct", &old, &new, "--target", "pan", "--n-trees", "3"];
    let plain = command(&[&words[..], &["--out", &out]].concat());
    let mut limited = Command::new("sh");
    limited.args(["-c", "ulimit -f 100 && exec \"$@\"", "sh"]);
    limited.arg(plain.get_program()).args(plain.get_args());
    let told = told(limited.output().unwrap());
    assert_eq!(told.status, Some(1), "{told:?}");
    let why = "File too large (os error 27); make room, or choose another place with --out";
    assert_eq!(told.err, format!("tailboardy: {out}: {why}\n"));
    assert_eq!(fs::read_to_string(&out).unwrap(), "old");
    assert_eq!(folder.files(), 2);
}

#[test]
fn a_place_that_cannot_be_written_is_told_before_a_fit() {
    let (old, new) = (show("old-house.csv"), show("new-house.csv"));
    let folder = Folder::new("places");
    let link = folder.path("link.csv");
    std::os::unix::fs::symlink("nowhere.csv", &link).unwrap();
    let broken = "it is a link to a file that does not exist; remove the link, or create the file";
    for (out, why) in [
        ("/proc/out.csv", "/proc/out.csv: No such file or directory (os error 2); choose another place with --out".to_owned()),
        (&link, format!("\"{link}\": {broken}")),
    ] {
        // a target that is not there would be told as soon as the show is read
        let told = run(&["correct", &old, &new, "--target", "none", "--out", out]);
        assert_eq!(told.err, format!("tailboardy: {why}\n"));
        assert_eq!(told.status, Some(1));
    }
}

#[test]
fn a_reader_that_stops_early_is_no_error() {
    let folder = Folder::new("early");
    let (old, new) = (show("old-house.csv"), many(&folder));
    let words = ["correct", &old, &new, "--target", "pan", "--n-trees", "3"];
    let mut child = command(&words)
        .stdout(Stdio::piped())
        .stderr(File::create(folder.path("err")).unwrap())
        .spawn()
        .unwrap();
    let mut first = [0; 7];
    child.stdout.take().unwrap().read_exact(&mut first).unwrap();
    assert_eq!(&first, b"fixture");
    assert_eq!(child.wait().unwrap().code(), Some(0));
    let err = fs::read_to_string(folder.path("err")).unwrap();
    let line = "tailboardy: note: standard output: it was closed before everything was written\n";
    assert!(err.ends_with(line), "{err}");
}

#[test]
fn a_pipe_whose_reader_stops_early_is_told() {
    let folder = Folder::new("pipe");
    let (old, new, pipe) = (show("old-house.csv"), many(&folder), folder.path("pipe"));
    let made = Command::new("mkfifo").arg(&pipe).status().unwrap();
    assert!(made.success());
    let words = ["correct", &old, &new, "--target", "pan", "--n-trees", "3"];
    let child = command(&[&words[..], &["--out", &pipe]].concat())
        .stderr(Stdio::piped())
        .spawn()
        .unwrap();
    let mut first = [0; 7];
    File::open(&pipe).unwrap().read_exact(&mut first).unwrap();
    let told = told(child.wait_with_output().unwrap());
    assert_eq!(told.status, Some(1));
    let why = "the program that reads it stopped before the end; start both again";
    assert_eq!(
        told.err,
        format!("tailboardy: {pipe}: Broken pipe (os error 32); {why}\n")
    );
}
