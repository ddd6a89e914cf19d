//! Names of parts, which are shown beside their numbers and decide nothing.

use crate::ending::Ending;
use crate::files::{harmless, past_mark, FileName};
use crate::numbers::{listed, number, said};
use crate::output;
use std::collections::btree_map::Entry;
use std::collections::BTreeMap;

/// The names that a file gives to part numbers; none where no file is given.
#[derive(Default)]
pub struct Names {
    names: BTreeMap<u64, String>,
}

impl Names {
    /// The names of a file, if there is one. A name for a number that is none of these parts' and not retired is said, since it may be
    /// mistyped.
    pub fn read(file: Option<&FileName>, parts: &[u64], retired: &[u64]) -> Result<Names, Ending> {
        let Some(file) = file else {
            return Ok(Names::default());
        };
        let text = file.read_text()?;
        let wrong = |(line, why)| Ending::WrongUse(format!("{file}: line {line}: {why}"));
        let names = Names::of(&text).map_err(wrong)?;
        for (part, name) in &names.names {
            if !parts.contains(part) && !retired.contains(part) {
                let (part, parts) = (said(*part), listed(parts));
                let why = format!("no part has number {part}; the parts are {parts}");
                output::say(&format!("nahokipe: {file}: {part} {name}: {why}\n"));
            }
        }
        Ok(names)
    }

    /// The names of a text, or the line that is of another form and why.
    fn of(text: &[u8]) -> Result<Names, (usize, String)> {
        let mut names = BTreeMap::new();
        for (index, line) in past_mark(text).split(|&byte| byte == b'\n').enumerate() {
            let line = line.trim_ascii();
            if line.is_empty() || line.starts_with(b"#") {
                continue;
            }
            let (part, name) = named(line).map_err(|why| (index + 1, why))?;
            match names.entry(part) {
                Entry::Vacant(free) => drop(free.insert(name)),
                Entry::Occupied(_) => {
                    return Err((index + 1, format!("number {part} has a name already")))
                }
            }
        }
        Ok(Names { names })
    }

    /// Whether there are no names.
    pub fn is_empty(&self) -> bool {
        self.names.is_empty()
    }

    /// The name of a part, empty where it has none.
    pub fn name(&self, part: u64) -> &str {
        self.names.get(&part).map_or("", String::as_str)
    }

    /// A line for each of some numbers behind a word, with the names as comments.
    pub fn lines(&self, word: &str, numbers: &[u64]) -> String {
        let digits = |number: &u64| number.to_string().len();
        let width = numbers.iter().map(digits).max().unwrap_or(0);
        let line = |&number: &u64| match self.name(number) {
            "" => format!("{word} {number}\n"),
            name => format!("{word} {number:<width$}  # {name}\n"),
        };
        numbers.iter().map(line).collect()
    }

    /// The names of several parts with commas between them, the number of one that has none.
    pub fn of_set(&self, set: &[u64]) -> String {
        let name = |part: &u64| match self.names.get(part) {
            Some(name) => name.clone(),
            None => part.to_string(),
        };
        let names: Vec<String> = set.iter().map(name).collect();
        names.join(", ")
    }
}

/// The number and the name on a line.
fn named(line: &[u8]) -> Result<(u64, String), String> {
    let Ok(line) = std::str::from_utf8(line) else {
        return Err("this is no UTF-8 text".to_string());
    };
    let other = || format!("`{}` is not a part number and a name", harmless(line));
    let (part, name) = line.split_once([' ', '\t']).ok_or_else(other)?;
    let part = number(part.as_bytes()).ok_or_else(other)?;
    let name = name.trim().replace('\t', " ");
    if name.is_empty() {
        return Err(other());
    }
    match name.chars().any(char::is_control) {
        true => Err(format!(
            "a control character stands in `{}`",
            harmless(&name)
        )),
        false => Ok((part, name)),
    }
}
