//! A strict reader of pages: it knows only what a page of the command may contain, and refuses the rest.

/// An element: its name, its attributes, and all text in it.
#[derive(Debug)]
pub struct Element {
    pub name: String,
    pub attributes: Vec<(String, String)>,
    pub text: String,
}

const VOID: [&str; 2] = ["meta", "wbr"];
const ENTITIES: [&str; 6] = ["&amp;", "&lt;", "&gt;", "&quot;", "&#39;", "&nbsp;"];

impl Element {
    pub fn get(&self, name: &str) -> Option<&str> {
        let found = self.attributes.iter().find(|(it, _)| it == name);
        found.map(|(_, value)| value.as_str())
    }
}

/// The elements of a page, in order, or what is wrong with it.
pub fn read(page: &str) -> Result<Vec<Element>, String> {
    let mut rest = page
        .strip_prefix("<!DOCTYPE html>\n")
        .ok_or("no document type")?;
    let (mut elements, mut open): (Vec<Element>, Vec<usize>) = (Vec::new(), Vec::new());
    while let Some((text, behind)) = rest.split_once('<') {
        let text = plain(text)?;
        for at in &open {
            elements[*at].text += &text;
        }
        if open.is_empty() && !text.trim().is_empty() {
            return Err(format!("text outside: {text}"));
        }
        let (tag, behind) = behind.split_once('>').ok_or("a tag does not end")?;
        rest = behind;
        if let Some(name) = tag.strip_prefix('/') {
            let last = open.pop().ok_or(format!("</{name}> closes nothing"))?;
            if elements[last].name != name {
                return Err(format!("</{name}> closes <{}>", elements[last].name));
            }
            continue;
        }
        let (element, closed) = element(tag)?;
        if !closed && !VOID.contains(&element.name.as_str()) {
            open.push(elements.len());
        }
        elements.push(element);
    }
    match (open.last(), rest.trim()) {
        (None, "") => Ok(elements),
        (Some(last), _) => Err(format!("<{}> is not closed", elements[*last].name)),
        (None, rest) => Err(format!("text at the end: {rest}")),
    }
}

/// An element from what is between the brackets of its tag, and whether it is closed there.
fn element(tag: &str) -> Result<(Element, bool), String> {
    let (tag, closed) = tag.strip_suffix('/').map_or((tag, false), |it| (it, true));
    let (name, mut rest) = tag.split_once(' ').unwrap_or((tag, ""));
    if name.is_empty() || !name.chars().all(|it| it.is_ascii_alphanumeric()) {
        return Err(format!("<{tag}> has no name"));
    }
    let mut attributes: Vec<(String, String)> = Vec::new();
    while !rest.is_empty() {
        let wrong = || format!("wrong attributes in <{tag}>");
        let (key, behind) = rest.split_once("=\"").ok_or_else(wrong)?;
        let (value, behind) = behind.split_once('"').ok_or_else(wrong)?;
        let letters = |it: char| it.is_ascii_alphabetic() || it.is_ascii_digit() || it == '-';
        let twice = attributes.iter().any(|(it, _)| it == key);
        if key.is_empty() || twice || !key.chars().all(letters) {
            return Err(wrong());
        }
        attributes.push((key.to_owned(), plain(value)?));
        rest = match behind.strip_prefix(' ') {
            Some(behind) => behind,
            None if behind.is_empty() => behind,
            None => return Err(wrong()),
        };
    }
    let element = Element {
        name: name.to_owned(),
        attributes,
        text: String::new(),
    };
    Ok((element, closed))
}

/// What a text says once its entities are replaced.
fn plain(text: &str) -> Result<String, String> {
    let mut plain = String::new();
    let mut rest = text;
    while let Some((before, _)) = rest.split_once('&') {
        plain += before;
        rest = &rest[before.len()..];
        let entity = ENTITIES.iter().find(|it| rest.starts_with(**it));
        let entity = entity.ok_or(format!("a bare & in {text:?}"))?;
        plain += match *entity {
            "&amp;" => "&",
            "&lt;" => "<",
            "&gt;" => ">",
            "&quot;" => "\"",
            "&nbsp;" => "\u{a0}",
            _ => "'",
        };
        rest = &rest[entity.len()..];
    }
    match text.contains(|it: char| it.is_control() && it != '\n') {
        true => Err(format!("a control character in {text:?}")),
        false => Ok(plain + rest),
    }
}

/// Checks that each id is there once, and that every id that is referred to is there.
pub fn linked(elements: &[Element]) -> Result<(), String> {
    let mut ids: Vec<&str> = elements.iter().filter_map(|it| it.get("id")).collect();
    let all = ids.len();
    ids.sort_unstable();
    ids.dedup();
    if ids.len() < all {
        return Err("an id is there twice".into());
    }
    for element in elements {
        let names = element.get("aria-labelledby").unwrap_or_default();
        let link = element.get("href");
        let inside = link.map(|it| it.strip_prefix('#').unwrap_or("not an id"));
        if let Some(name) = names
            .split(' ')
            .chain(inside)
            .find(|it| !it.is_empty() && !ids.contains(it))
        {
            return Err(format!("{name} is referred to, but not there"));
        }
    }
    Ok(())
}
