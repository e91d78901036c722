//! Fixtures by their names.

use crate::csv::Csv;
use crate::number::quoted;
use std::collections::HashMap;

/// How many names a message lists.
const LISTED: usize = 10;

/// Things that a message lists: the first ten, and how many more there are.
pub fn listed(things: impl Iterator<Item = String>) -> String {
    let mut things: Vec<String> = things.collect();
    let more = things.len().saturating_sub(LISTED);
    things.truncate(LISTED);
    match more {
        0 => things.join(", "),
        more => format!("{} and {more} more", things.join(", ")),
    }
}

/// Says which names several fixtures have.
pub fn twice(csv: &Csv) -> Option<String> {
    let mut lines: HashMap<String, Vec<usize>> = HashMap::new();
    let mut names = Vec::new();
    for row in 0..csv.rows() {
        let Some(name) = csv.called(row) else {
            continue;
        };
        let lines = lines.entry(name.clone()).or_default();
        lines.push(csv.line(row));
        if lines.len() == 2 {
            names.push(name);
        }
    }
    let told = names.iter().map(|name| {
        let lines = lines[name].iter().map(usize::to_string);
        format!("{} in lines {}", quoted(name), listed(lines))
    });
    let how = "if other columns name the fixtures, say which with --id";
    let told = (!names.is_empty()).then(|| listed(told));
    told.map(|told| format!("several fixtures have the same name: {told}; {how}"))
}

#[cfg(test)]
mod tests {
    use super::*;

    #[test]
    fn ten_are_listed_and_the_others_counted() {
        let numbers = |count: usize| listed((1..=count).map(|it| it.to_string()));
        assert_eq!(numbers(1), "1");
        assert_eq!(numbers(10), "1, 2, 3, 4, 5, 6, 7, 8, 9, 10");
        assert_eq!(numbers(12), "1, 2, 3, 4, 5, 6, 7, 8, 9, 10 and 2 more");
    }

    #[test]
    fn names_that_are_there_twice() {
        let twice = |text: &str| twice(&Csv::of(text));
        assert_eq!(twice("fixture,x\na,1\nb,2\n,3\n,4\n"), None);
        assert_eq!(twice("truss,x\na,1\na,2\n"), None);
        let told = twice("x,fixture\n1,a\n2,b\n3, b \n4,a\n5,a\n").unwrap();
        let names = "\"b\" in lines 3, 4, \"a\" in lines 2, 5, 6";
        assert!(
            told.contains(&format!("same name: {names}; if other")),
            "{told}"
        );
    }
}
