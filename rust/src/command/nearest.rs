//! What may have been meant by a word that is misspelt.

use std::path::Path;

/// The candidate that is meant most likely, if any is like the word.
pub fn nearest<'a>(word: &str, candidates: impl IntoIterator<Item = &'a str>) -> Option<&'a str> {
    let word = plain(word);
    let candidates: Vec<(String, &str)> =
        candidates.into_iter().map(|it| (plain(it), it)).collect();
    let long = word.chars().count() > 2;
    let part = |it: &str| !word.is_empty() && it.starts_with(&word) || long && it.contains(&word);
    let whole: Vec<&str> = candidates
        .iter()
        .filter(|(it, _)| part(it))
        .map(|(_, it)| *it)
        .collect();
    if let [only] = whole[..] {
        return Some(only);
    }
    let edits = candidates
        .iter()
        .map(|(it, name)| (edits(&word, it), *name));
    let (least, name) = edits.min_by_key(|(edits, _)| *edits)?;
    (long && 3 * least < word.chars().count() + 3).then_some(name)
}

/// The file in the same folder that is meant most likely, if any is named like this one.
pub fn nearest_file(file: &str) -> Option<String> {
    let path = Path::new(file);
    let folder = path.parent().filter(|it| !it.as_os_str().is_empty());
    let entries = folder.unwrap_or(Path::new(".")).read_dir().ok()?.flatten();
    let names: Vec<String> = entries
        .flat_map(|it| it.file_name().into_string())
        .collect();
    let meant = nearest(
        path.file_name()?.to_str()?,
        names.iter().map(String::as_str),
    )?;
    Some(path.with_file_name(meant).to_string_lossy().into_owned())
}

/// A word without dashes in front, and without regard to capitals.
fn plain(word: &str) -> String {
    word.trim_start_matches('-').to_lowercase()
}

/// How many letters have to be added, left out, replaced or swapped with the next one to turn one word into another.
fn edits(one: &str, other: &str) -> usize {
    let (one, other): (Vec<char>, Vec<char>) = (one.chars().collect(), other.chars().collect());
    let mut rows: Vec<Vec<usize>> = vec![(0..=other.len()).collect()];
    for at in 0..one.len() {
        let row = next_row(&one[..=at], &other, &rows);
        rows.push(row);
    }
    rows[one.len()][other.len()]
}

/// The numbers of edits from the beginning of one word to each beginning of the other, from those for shorter beginnings.
fn next_row(one: &[char], other: &[char], rows: &[Vec<usize>]) -> Vec<usize> {
    let i = one.len();
    let mut row = vec![i];
    for j in 1..=other.len() {
        let replaced = rows[i - 1][j - 1] + usize::from(one[i - 1] != other[j - 1]);
        let least = replaced.min(rows[i - 1][j] + 1).min(row[j - 1] + 1);
        let swapped = i > 1 && j > 1 && one[i - 1] == other[j - 2] && one[i - 2] == other[j - 1];
        row.push(match swapped {
            true => least.min(rows[i - 2][j - 2] + 1),
            false => least,
        });
    }
    row
}

#[cfg(test)]
mod tests {
    use super::*;

    #[test]
    fn edits_are_counted() {
        for (one, other, count) in [
            ("", "", 0),
            ("fit", "fit", 0),
            ("fit", "", 3),
            ("chek", "check", 1),
            ("ift", "fit", 1),
            ("corect", "check", 3),
            ("tragte", "target", 2),
        ] {
            assert_eq!(
                (edits(one, other), edits(other, one)),
                (count, count),
                "{one} {other}"
            );
        }
    }

    #[test]
    fn the_nearest_is_found() {
        let options = [
            "--target",
            "--features",
            "--n-trees",
            "--m",
            "--max-depth",
            "--out",
        ];
        for (word, meant) in [
            ("--targte", Some("--target")),
            ("-target", Some("--target")),
            ("--Target", Some("--target")),
            ("--feat", Some("--features")),
            ("--trees", Some("--n-trees")),
            ("-o", Some("--out")),
            ("--depth", Some("--max-depth")),
            ("-x", None),
            ("--frobnicate", None),
            ("--", None),
        ] {
            assert_eq!(nearest(word, options), meant, "{word}");
        }
    }
}
