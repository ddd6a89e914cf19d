//! A source file of Rattle: the functions with their contracts, the declared types, and what its clauses bring in.

use crate::antt;
use std::collections::HashMap;

/// A function: its name with its type in front where it is a method, whether others can call it, and the words of its contract.
#[derive(Debug)]
pub struct Function {
    pub name: String,
    pub open: bool,
    pub contract: Vec<String>,
}

/// A struct or an enum: its lines and its words.
#[derive(Debug)]
pub struct Type {
    pub lines: usize,
    pub words: Vec<String>,
}

#[derive(Default)]
pub struct Source {
    pub clauses: antt::File,
    pub functions: Vec<Function>,
    pub types: HashMap<String, Type>,
    /// the constants of types, each behind its type's name
    pub constants: Vec<String>,
    /// a type's name here, and the crate that it comes from
    pub foreign: HashMap<String, String>,
}

pub fn read(text: &str) -> Source {
    let mut source = Source::default();
    let lines: Vec<&str> = text.lines().collect();
    let mut owner: Option<String> = None;
    // of the methods of a trait, which others can call: what the ghost items before them say
    let mut said: Option<Vec<String>> = None;
    for (at, line) in lines.iter().enumerate() {
        if let Some(rest) = line.strip_prefix("ghost use ") {
            antt::bring(rest, &mut source.clauses);
        } else if let Some((from, name)) = line.strip_prefix("use ").and_then(|rest| rest.trim_end_matches(';').rsplit_once("::")) {
            source.foreign.insert(name.to_string(), from.to_string());
        } else if let Some(rest) = line.strip_prefix("impl ") {
            let own = rest.rsplit(" for ").next().unwrap_or(rest);
            owner = own.split_whitespace().next().map(|name| name.split('<').next().unwrap_or(name).to_string());
            said = rest.contains(" for ").then(Vec::new);
        } else if let (Some(owner), Some(rest)) = (&owner, line.trim_start().strip_prefix("pub const ")) {
            source.constants.extend(rest.split(':').next().map(|name| format!("{owner}::{name}")));
        } else if let (Some(said), Some(rest)) = (&mut said, line.trim_start().strip_prefix("ghost ")) {
            said.extend(antt::words(rest));
        } else if *line == "}" {
            (owner, said) = (None, None);
        } else if let Some((name, open)) = function(line) {
            let name = owner.as_ref().map_or(name.clone(), |owner| format!("{owner}::{name}"));
            let words = said.iter().flatten().cloned().chain(contract(&lines, at)).collect();
            source.functions.push(Function { name, open: open || said.is_some(), contract: words });
        } else if let Some(name) = declared_type(line) {
            let lines = &lines[at..at + length(&lines, at)];
            let words = lines.iter().filter(|line| antt::is_code(line)).flat_map(|line| type_words(line)).collect();
            source.types.insert(name, Type { lines: lines.iter().filter(|line| antt::is_code(line)).count(), words });
        }
    }
    source
}

/// The name of the function that a line begins, and whether others can call it.
fn function(line: &str) -> Option<(String, bool)> {
    let text = line.trim_start();
    let open = text.starts_with("pub fn ") || text.starts_with("pub extern ");
    let rest = ["pub extern \"C\" fn ", "pub(crate) fn ", "pub fn ", "fn "].iter().find_map(|head| text.strip_prefix(head))?;
    let end = rest.find(|c: char| !(c.is_alphanumeric() || c == '_'))?;
    Some((rest[..end].to_string(), open))
}

fn declared_type(line: &str) -> Option<String> {
    let text = line.strip_prefix("pub ").unwrap_or(line);
    let rest = text.strip_prefix("struct ").or_else(|| text.strip_prefix("enum "))?;
    rest.split(|c: char| !(c.is_alphanumeric() || c == '_')).next().map(String::from)
}

/// How many lines an item has, from its first to the brace that closes it at the same depth.
fn length(lines: &[&str], at: usize) -> usize {
    let depth = lines[at].len() - lines[at].trim_start().len();
    let close = format!("{}}}", " ".repeat(depth));
    1 + lines[at + 1..].iter().position(|line| *line == close).map_or(0, |n| n + 1)
}

/// The words of a function's clauses, which stand between its first line and its body.
fn contract(lines: &[&str], at: usize) -> Vec<String> {
    let depth = lines[at].len() - lines[at].trim_start().len();
    let open = format!("{}{{", " ".repeat(depth));
    let body = lines[at..].iter().position(|line| *line == open).unwrap_or(0);
    lines[at..at + body]
        .iter()
        .filter(|line| ["requires", "ensures"].iter().any(|word| line.trim_start().starts_with(word)))
        .flat_map(|line| antt::words(line))
        .collect()
}

fn type_words(line: &str) -> Vec<String> {
    line.split(|c: char| !(c.is_alphanumeric() || c == '_')).filter(|word| !word.is_empty()).map(String::from).collect()
}

#[cfg(test)]
mod tests {
    use super::*;

    const TEXT: &str = "use answer::Refusal;\nghost use M.{f};\npub struct List {\n    pub count: usize,\n}\nimpl List {\n    pub const MOST: usize = 16;\n    \
        pub fn first(n: usize) -> List\n        ensures { result ≡ f n }\n    {\n        g(n)\n    }\n}\nfn inner(n: usize) -> Refusal {\n    n\n}\n";

    #[test]
    fn functions_with_their_contracts() {
        let source = read(TEXT);
        let names: Vec<(&str, bool)> = source.functions.iter().map(|f| (f.name.as_str(), f.open)).collect();
        assert_eq!(names, [("List::first", true), ("inner", false)]);
        assert!(source.functions[0].contract.contains(&String::from("f")));
        assert!(!source.functions[0].contract.contains(&String::from("g")));
    }

    #[test]
    fn the_methods_of_a_trait_are_open() {
        let text = "impl TryFrom<u8> for Kind {\n    ghost try_from_gives = { f };\n    fn try_from(n: u8) -> Kind {\n        g(n)\n    }\n}\nfn inner() {\n}\n";
        let source = read(text);
        let names: Vec<(&str, bool)> = source.functions.iter().map(|f| (f.name.as_str(), f.open)).collect();
        assert_eq!(names, [("Kind::try_from", true), ("inner", false)]);
        assert!(source.functions[0].contract.contains(&String::from("f")));
        assert!(source.functions[1].contract.is_empty());
    }

    #[test]
    fn types_and_constants() {
        let source = read(TEXT);
        assert_eq!(source.types["List"].lines, 3);
        assert_eq!(source.constants, ["List::MOST"]);
        assert_eq!(source.foreign["Refusal"], "answer");
    }
}
