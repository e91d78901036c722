//! Everything public that can refuse says when, and it and every public type has an example; every public function is shown in one.
//! Examples run as tests.

use std::collections::HashSet;
use std::fs;
use std::path::{Path, PathBuf};

/// A public item: its first lines, up to the body, and the documentation before it.
struct Item {
    head: String,
    docs: String,
}

/// The public items of one file, without its tests.
fn items(source: &str) -> Vec<Item> {
    let source = source.split("#[cfg(test)]").next().unwrap_or_default();
    let (mut items, mut docs) = (Vec::new(), String::new());
    let mut lines = source.lines().map(str::trim);
    while let Some(line) = lines.next() {
        if line.starts_with("///") {
            docs += line;
            docs += "\n";
        } else if ["pub fn ", "pub struct ", "pub enum "]
            .iter()
            .any(|it| line.starts_with(it))
        {
            let mut head = line.to_string();
            while !head.ends_with(['{', ';']) {
                head += lines.next().unwrap_or(";");
            }
            let docs = std::mem::take(&mut docs);
            items.push(Item { head, docs });
        } else if !line.starts_with("#[") {
            docs.clear();
        }
    }
    items
}

/// The files of the crate, without the command's.
fn sources() -> Vec<(PathBuf, String)> {
    let folder = Path::new(env!("CARGO_MANIFEST_DIR")).join("src");
    fs::read_dir(folder)
        .unwrap()
        .map(|file| file.unwrap().path())
        .filter(|path| path.extension().is_some_and(|it| it == "rs"))
        .map(|path| (path.clone(), fs::read_to_string(path).unwrap()))
        .collect()
}

/// The words of the examples in some documentation.
fn shown(docs: &str) -> impl Iterator<Item = &str> {
    let examples = docs.split("```").skip(1).step_by(2);
    examples.flat_map(|it| it.split(|sign: char| !sign.is_alphanumeric() && sign != '_'))
}

#[test]
fn every_function_is_shown_in_an_example() {
    let sources = sources();
    let all: Vec<Item> = sources
        .iter()
        .flat_map(|(_, source)| items(source))
        .collect();
    let words: HashSet<&str> = all.iter().flat_map(|item| shown(&item.docs)).collect();
    let names = all
        .iter()
        .filter_map(|item| item.head.strip_prefix("pub fn "));
    let names = names.map(|head| head.split(['(', '<']).next().unwrap());
    // a macro's functions are named by their fields
    let missing: Vec<&str> = names
        .filter(|name| !name.starts_with('$') && !words.contains(name))
        .collect();
    assert_eq!(missing, [""; 0]);
    assert!(all.len() > 90, "{}", all.len());
}

#[test]
fn what_can_refuse_says_when_and_has_an_example() {
    let (mut types, mut refusing) = (0, 0);
    for (path, source) in sources() {
        for Item { head, docs } in items(&source) {
            let place = format!("{}: {head}", path.display());
            let refuses = head.contains("Refusal>");
            if refuses {
                refusing += 1;
                assert!(docs.contains("/// # Errors"), "{place}");
            }
            if refuses || !head.starts_with("pub fn") {
                assert!(docs.contains("/// ```"), "{place}");
            }
            types += usize::from(!head.starts_with("pub fn"));
        }
    }
    assert!(types >= 27 && refusing >= 29, "{types} {refusing}");
}
