//! A file of definitions or theorems: what it brings in by `use`, and what it declares.

use std::collections::HashMap;

/// A declaration: its name, how many lines it has, and its words.
#[derive(Clone, Debug)]
pub struct Declaration {
    pub name: String,
    /// its lines without comments and blank ones
    pub lines: usize,
    /// the words of its signature, and those of all of it
    pub signature: Vec<String>,
    pub words: Vec<String>,
    /// the constructors of a data type
    pub constructors: Vec<String>,
}

/// What a file has: names brought in (name here, module, name there), modules brought in under another name, and declarations.
#[derive(Default)]
pub struct File {
    pub brought: HashMap<String, (String, String)>,
    pub modules: HashMap<String, String>,
    pub declarations: Vec<Declaration>,
}

/// Reads a file of antt.
pub fn read(text: &str) -> File {
    let mut file = File::default();
    let lines: Vec<&str> = text.lines().collect();
    let mut scope: Vec<(usize, Vec<String>)> = Vec::new();
    let mut at = 0;
    while at < lines.len() {
        let line = lines[at];
        let depth = indent(line);
        if is_code(line) {
            scope.retain(|(outer, _)| *outer < depth);
        }
        if let Some(rest) = line.strip_prefix("use ") {
            bring(rest, &mut file);
            at += 1;
        } else if line.trim_start().starts_with("module ") {
            scope.push((depth, words(line)));
            at += 1;
        } else if let Some(name) = declared(line) {
            let end = end_of(&lines, at, depth, &name);
            file.declarations.push(declaration(&lines[at..end], depth, name, &scope));
            at = end;
        } else {
            at += 1;
        }
    }
    file
}

/// `M.{a, b as c}` or `M as m`, behind `use`.
pub fn bring(rest: &str, file: &mut File) {
    let rest = rest.trim().trim_end_matches(';');
    if let Some((module, names)) = rest.split_once(".{") {
        for item in names.trim_end_matches('}').split(',') {
            let (there, here) = item.split_once(" as ").unwrap_or((item, item));
            file.brought.insert(here.trim().to_string(), (module.to_string(), there.trim().to_string()));
        }
    } else if let Some((module, here)) = rest.split_once(" as ") {
        file.modules.insert(here.trim().to_string(), module.trim().to_string());
    }
}

fn declaration(lines: &[&str], depth: usize, name: String, scope: &[(usize, Vec<String>)]) -> Declaration {
    let code: Vec<&str> = lines.iter().copied().filter(|line| is_code(line)).collect();
    let clause = |line: &&str| indent(line) == depth && starts_with_word(line.trim_start(), &name);
    let head = code.iter().skip(1).position(|line| clause(&line) || line.trim_start().starts_with("unfolding ")).map_or(code.len(), |n| n + 1);
    let outer: Vec<String> = scope.iter().flat_map(|(_, words)| words.clone()).collect();
    let is_data = code[0].split_whitespace().any(|word| word == "data");
    Declaration {
        lines: code.len(),
        signature: outer.iter().cloned().chain(code[..head].iter().flat_map(|line| words(line))).collect(),
        words: outer.into_iter().chain(code.iter().flat_map(|line| words(line))).collect(),
        constructors: if is_data { code[1..].iter().filter_map(|line| line.trim().split(' ').next().map(String::from)).collect() } else { Vec::new() },
        name,
    }
}

/// The name that a line declares by a signature, or as a record or a data type.
fn declared(line: &str) -> Option<String> {
    let mut rest = line.trim_start();
    for mark in ["unfoldable ", "abbrev ", "pub "] {
        rest = rest.strip_prefix(mark).unwrap_or(rest);
    }
    let kind = rest.strip_prefix("record ").or_else(|| rest.strip_prefix("data "));
    let name = kind.unwrap_or(rest).split_whitespace().next()?;
    let behind = kind.unwrap_or(rest)[name.len()..].trim_start();
    let signature = behind.starts_with(": ") || behind == ":";
    let fits = !name.starts_with("--") && !name.contains(['(', ')', '{', '}', '|', '.', '=']) && name != "mod" && name != "use";
    (fits && (kind.is_some() || signature)).then(|| name.to_string())
}

/// Where the declaration that starts there ends: before the next line that is not deeper and no clause of it.
fn end_of(lines: &[&str], start: usize, depth: usize, name: &str) -> usize {
    let mut end = start + 1;
    for (at, line) in lines.iter().enumerate().skip(start + 1) {
        if !is_code(line) {
            continue;
        }
        let text = line.trim_start();
        let own = starts_with_word(text, name) && declared(line).is_none() || text.starts_with("unfolding ");
        if indent(line) <= depth && !(indent(line) == depth && own) {
            break;
        }
        end = at + 1;
    }
    end
}

fn starts_with_word(text: &str, word: &str) -> bool {
    text.strip_prefix(word).is_some_and(|rest| rest.is_empty() || rest.starts_with(' '))
}

pub fn is_code(line: &str) -> bool {
    let text = line.trim_start();
    !text.is_empty() && !text.starts_with("--") && !text.starts_with("//")
}

fn indent(line: &str) -> usize {
    line.len() - line.trim_start().len()
}

/// The words of a line: what stands between blanks, brackets and commas; no field, which has a point in front.
pub fn words(line: &str) -> Vec<String> {
    line.split(|c: char| c.is_whitespace() || "(){}[],;λ⌜⌝⟦⟧←\"".contains(c))
        .map(|word| word.trim_matches(|c| c == '«' || c == '»'))
        .filter(|word| !word.is_empty() && !word.starts_with('.'))
        .map(|word| word.trim_end_matches('.').to_string())
        .collect()
}

#[cfg(test)]
mod tests {
    use super::*;

    const TEXT: &str = "-- a file\nuse M.{a, b as c}\nuse N as n\n\n-- a list\npub data Found : Type 0 where\n  At : ℕ → Found\n  None : Found\n\n\
        unfoldable pub size : ℕ → ℕ\nsize zero = a\n\nsize (suc k) =\n    n.more k\n\nmodule _ (works : Works) where\n  law : size 0 ≡ c\n  law = refl\n";

    #[test]
    fn names_that_are_brought_in() {
        let file = read(TEXT);
        assert_eq!(file.brought["c"], (String::from("M"), String::from("b")));
        assert_eq!(file.modules["n"], "N");
    }

    #[test]
    fn declarations_with_all_their_clauses() {
        let file = read(TEXT);
        let names: Vec<&str> = file.declarations.iter().map(|d| d.name.as_str()).collect();
        assert_eq!(names, ["Found", "size", "law"]);
        assert_eq!(file.declarations[0].constructors, ["At", "None"]);
        assert_eq!(file.declarations[1].lines, 4);
        assert!(file.declarations[1].words.contains(&String::from("n.more")));
    }

    #[test]
    fn a_statement_has_the_words_of_its_section_and_not_those_of_its_proof() {
        let law = read(TEXT).declarations.pop().unwrap();
        assert!(law.signature.contains(&String::from("Works")) && law.signature.contains(&String::from("size")));
        assert!(!law.signature.contains(&String::from("refl")));
    }
}
