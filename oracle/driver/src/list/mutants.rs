//! Edits of a single operator, read from a text file and made in a copy of the sources one at a time.

/// `FILE :: OLD ==> NEW`; a line that begins with `same` is an edit that changes no result.
pub struct Mutant {
    pub same: bool,
    pub file: String,
    pub old: String,
    pub new: String,
}

pub fn parse(text: &str) -> Vec<Mutant> {
    let edits = text
        .lines()
        .filter(|line| !line.is_empty() && !line.starts_with('#'));
    edits
        .map(|line| {
            let (same, line) = match line.strip_prefix("same ") {
                Some(rest) => (true, rest),
                None => (false, line),
            };
            let (file, edit) = line.split_once(" :: ").expect("a file and an edit");
            let (old, new) = edit.split_once(" ==> ").expect("old and new");
            Mutant {
                same,
                file: file.to_string(),
                old: old.replace("\\n", "\n"),
                new: new.replace("(nothing)", "").replace("\\n", "\n"),
            }
        })
        .collect()
}

/// Makes one edit in the sources under `to`, where everything else is as under `from`.
/// The old text must occur in its file exactly once.
pub fn apply(mutants: &[Mutant], number: usize, from: &str, to: &str) {
    let mutant = &mutants[number];
    let text = read(from, &mutant.file);
    let found = text.matches(&mutant.old).count();
    assert_eq!(found, 1, "{} :: {}", mutant.file, mutant.old);
    if number > 0 {
        let before = &mutants[number - 1].file;
        write(to, before, &read(from, before));
    }
    write(to, &mutant.file, &text.replace(&mutant.old, &mutant.new));
}

fn read(under: &str, file: &str) -> String {
    std::fs::read_to_string(format!("{under}/{file}")).expect("a source file")
}

fn write(under: &str, file: &str, text: &str) {
    std::fs::write(format!("{under}/{file}"), text).expect("a source file");
}
