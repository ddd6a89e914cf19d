//! What the documents cite: links to files and lines, names in code spans, and the open functions that a claims page has to name.

use crate::believed::Shelf;
use crate::{antt, edits, tree};
use std::collections::HashSet;
use std::path::Path;

/// The documents whose names are held to the tree; a note on a change, the port among them, says what was, so that only its links are.
fn documents() -> Vec<String> {
    let mut all = tree::files("docs", &[".md"]);
    all.push(String::from("README.md"));
    all
}

fn is_note(path: &str) -> bool {
    path.starts_with("docs/changes/") || ["docs/PORT.md", "docs/DESIGN-PASS.md", "docs/LOOK-BACK.md"].contains(&path)
}

/// Every fault of every document.
pub fn faults() -> Vec<String> {
    let mut shelf = Shelf::default();
    let known = Known::gather(&mut shelf);
    let mut faults = Vec::new();
    for path in documents() {
        for (number, line) in prose(&tree::text(&path)) {
            let place = format!("{path}:{number}");
            for link in links(line) {
                faults.extend(link_fault(&path, &link).map(|fault| format!("{place}: {fault}")));
            }
            for span in spans(line).into_iter().filter(|_| !is_note(&path)) {
                if !known.has(span) {
                    faults.push(format!("{place}: `{span}` is nowhere in the tree"));
                }
            }
        }
    }
    faults.extend(tree::files("docs/claims", &[".md"]).iter().flat_map(|path| misplaced(path, &known, &mut shelf)));
    faults.extend(unnamed(&mut shelf));
    faults
}

// ---- theorems in the tables of a claims page

/// The theorems of a table's second column that none of the files in its third declares; `same` stands for the files of the row before.
fn misplaced(path: &str, known: &Known, shelf: &mut Shelf) -> Vec<String> {
    let text = tree::text(path);
    let mut files = Vec::new();
    let mut faults = Vec::new();
    for (number, line) in prose(&text) {
        let cells: Vec<&str> = line.trim().trim_matches('|').split(" | ").collect();
        let [_, statements, place] = cells[..] else { continue };
        files = files_named(place, &files);
        let proofs: Vec<&String> = files.iter().filter(|file| file.contains("/proofs/")).collect();
        for name in spans(statements).into_iter().filter(|name| known.is_law(name) && !proofs.is_empty()) {
            if !proofs.iter().any(|file| shelf.antt(file).declarations.iter().any(|d| d.name == name)) {
                faults.push(format!("{path}:{number}: `{name}` is declared in none of: {place}"));
            }
        }
    }
    faults
}

/// The files that a cell names, as `crate/src, proofs/File, Other; crate/proofs/File`: what lacks a crate or a folder has that of the one before it.
fn files_named(cell: &str, before: &[String]) -> Vec<String> {
    let (mut krate, mut folder) = (String::new(), String::new());
    let mut files = Vec::new();
    for part in cell.split([',', ';']).map(|part| part.trim().trim_end_matches('|').trim()) {
        match part.split('/').collect::<Vec<_>>()[..] {
            ["same"] => {
                files.extend(before.iter().cloned());
                continue;
            }
            [name, "src"] => krate = name.to_string(),
            [name, inner, _] => (krate, folder) = (name.to_string(), inner.to_string()),
            [inner, _] => folder = inner.to_string(),
            _ => {}
        }
        files.push(format!("crates/{krate}/{folder}/{}.antt", part.rsplit('/').next().unwrap_or("")));
    }
    files
}

/// A document brought up to date: the line of each link, where the name in the link's text decides, and in brackets behind a link to a promise
/// in BELIEVED.md how much has to be believed for it.
pub fn refreshed(path: &str, sums: &[(String, String)]) -> String {
    let mut text = tree::text(path);
    for (title, sum) in sums {
        text = with_sum(&text, &format!("](BELIEVED.md#{}) (", slug(title)), sum);
    }
    for (_, line) in prose(&text.clone()) {
        for link in links(line).iter().filter(|link| link.line.is_some()) {
            if let Some(now) = line_of(path, link) {
                let old = format!("[{}]({}#L{})", link.text, link.target, link.line.unwrap_or(0));
                text = text.replace(&old, &format!("[{}]({}#L{now})", link.text, link.target));
            }
        }
    }
    text
}

/// The text with this sum between each such beginning and the bracket that closes it.
fn with_sum(text: &str, beginning: &str, sum: &str) -> String {
    let mut parts = text.split(beginning);
    let first = parts.next().unwrap_or("").to_string();
    parts.fold(first, |done, rest| format!("{done}{beginning}{sum}{}", &rest[rest.find(')').unwrap_or(0)..]))
}

pub fn refreshable() -> Vec<String> {
    documents().into_iter().filter(|path| !is_note(path)).collect()
}

/// The lines of a document that are not in a block of code, with their numbers.
fn prose(text: &str) -> Vec<(usize, &str)> {
    let mut fenced = false;
    let mut lines = Vec::new();
    for (at, line) in text.lines().enumerate() {
        if line.starts_with("```") {
            fenced = !fenced;
        } else if !fenced && !line.starts_with("    ") {
            lines.push((at + 1, line));
        }
    }
    lines
}

// ---- links

struct Link {
    text: String,
    target: String,
    heading: Option<String>,
    line: Option<usize>,
}

fn links(line: &str) -> Vec<Link> {
    let mut found = Vec::new();
    let mut rest = line;
    while let Some(at) = rest.find("](") {
        let text = rest[..at].rfind('[').map_or("", |open| &rest[open + 1..at]);
        let behind = &rest[at + 2..];
        let end = behind.find(')').unwrap_or(behind.len());
        let (target, anchor) = behind[..end].split_once('#').unwrap_or((&behind[..end], ""));
        let line = anchor.strip_prefix('L').and_then(|n| n.parse().ok());
        let heading = (!anchor.is_empty() && line.is_none()).then(|| anchor.to_string());
        if !target.contains("://") {
            found.push(Link { text: text.to_string(), target: target.to_string(), heading, line });
        }
        rest = &behind[end..];
    }
    found
}

/// The file that a link of a document leads to, from the root.
fn led_to(document: &str, link: &Link) -> String {
    if link.target.is_empty() {
        return document.to_string();
    }
    let mut parts: Vec<&str> = document.split('/').collect();
    parts.pop();
    for part in link.target.split('/') {
        match part {
            ".." => drop(parts.pop()),
            "." => {}
            _ => parts.push(part),
        }
    }
    parts.join("/")
}

fn link_fault(document: &str, link: &Link) -> Option<String> {
    let path = led_to(document, link);
    if !Path::new(&path).exists() {
        return Some(format!("there is no {path}"));
    }
    if let Some(heading) = &link.heading {
        let there = tree::text(&path).lines().any(|line| line.starts_with('#') && slug(line) == *heading);
        return (!there).then(|| format!("{path} has no heading #{heading}"));
    }
    let line = link.line?;
    let now = line_of(document, link);
    (now != Some(line)).then(|| format!("{} is not at {path}#L{line}", link.text))
}

/// The line on which the name in a link's text is declared in the file that the link leads to.
fn line_of(document: &str, link: &Link) -> Option<usize> {
    let name = link.text.trim_matches('`').rsplit("::").next()?;
    let text = tree::text(&led_to(document, link));
    let declares = |line: &str| {
        let words = antt::words(line);
        let rust = line.contains(&format!("fn {name}(")) || line.contains(&format!("struct {name} ")) || line.contains(&format!("enum {name} "));
        let head = words.iter().position(|word| word == name);
        rust || head.is_some_and(|at| line.contains(" : ") && words[..at].iter().all(|word| ["pub", "abbrev", "unfoldable"].contains(&word.as_str())))
            || words.windows(2).any(|pair| (pair[0] == "record" || pair[0] == "data") && pair[1] == name)
    };
    text.lines().position(declares).map(|at| at + 1)
}

/// A heading as a link names it: small letters, blanks as hyphens, nothing else but letters, digits and hyphens.
fn slug(heading: &str) -> String {
    let text = heading.trim_start_matches('#').trim().to_lowercase();
    text.chars().filter(|c| c.is_alphanumeric() || *c == ' ' || *c == '-' || *c == '_').map(|c| if c == ' ' { '-' } else { c }).collect()
}

// ---- names in code spans

fn spans(line: &str) -> Vec<&str> {
    line.split('`').skip(1).step_by(2).filter(|span| !span.is_empty()).collect()
}

/// The names of the tree: words of the sources and definitions, edits, functions by crate, and what specs/ declares.
struct Known {
    words: HashSet<String>,
    functions: HashSet<String>,
    definitions: HashSet<String>,
}

impl Known {
    fn gather(shelf: &mut Shelf) -> Known {
        let mut words: HashSet<String> = tree::crates().iter().cloned().collect();
        let mut functions = HashSet::new();
        let folders = [("crates", &[".antt", ".rt", ".edit"][..]), ("host", &[".rs", ".c", ".toml"]), ("include", &[".h"]), ("pages", &[".rs", ".toml"])];
        for (folder, endings) in folders {
            for path in tree::files(folder, endings).iter().filter(|path| !path.contains("/target/")) {
                let text = tree::text(path);
                words.extend(text.lines().flat_map(antt::words));
                words.extend(text.split(|c: char| !(c.is_alphanumeric() || c == '_')).map(String::from));
                words.extend([edits::stem(path), path.rsplit('/').next().unwrap_or(""), path].map(|name| name.trim_end_matches(".antt").to_string()));
            }
        }
        for path in ["check", "crates.txt"] {
            words.extend(tree::text(path).split(|c: char| !(c.is_alphanumeric() || "_-.".contains(c))).map(String::from));
        }
        for name in tree::crates() {
            let source = shelf.source(&name);
            functions.extend(source.functions.iter().map(|f| format!("{name}::{}", f.name)));
            functions.extend(source.functions.iter().map(|f| f.name.clone()));
            functions.extend(source.types.keys().map(|t| format!("{name}::{t}")));
            functions.extend(source.constants.iter().cloned());
        }
        let mut definitions = HashSet::new();
        for path in tree::files("crates", &[".antt"]).iter().filter(|path| path.contains("/specs/")) {
            for declaration in &shelf.antt(path).declarations {
                definitions.extend(declaration.constructors.iter().chain([&declaration.name]).cloned());
            }
        }
        Known { words, functions, definitions }
    }

    fn has(&self, span: &str) -> bool {
        let plain = span.trim_start_matches("./").trim_matches(|c: char| ".,:;()=".contains(c));
        let is_sum = plain.len() == 64 && plain.chars().all(|c| c.is_ascii_hexdigit());
        if plain.contains(char::is_whitespace) || plain.len() < 3 || !plain.chars().any(char::is_alphabetic) || is_sum {
            return true;
        }
        if plain.contains("::") {
            return self.functions.contains(plain);
        }
        if plain.contains('/') {
            return self.has_path(plain);
        }
        self.words.contains(plain.trim_end_matches(".antt")) || Path::new(plain).exists() || Path::new(&format!("docs/{plain}")).exists()
    }

    /// A law's name: several small words, and neither a function's nor a definition's nor a crate's.
    fn is_law(&self, name: &str) -> bool {
        let words = name.contains('_') && name.chars().all(|c| c.is_alphanumeric() || c == '_');
        let other = self.functions.contains(name) || self.definitions.contains(name) || tree::crates().iter().any(|krate| krate == name);
        words && !other
    }

    /// A path from the root, below crates/, or the same in each crate; what is built and what the toolchain has are not in the tree.
    fn has_path(&self, path: &str) -> bool {
        let found = |path: String| Path::new(&path).exists() || Path::new(&format!("{path}.antt")).exists();
        let elsewhere = ["target/", "logic/", "antt/"].iter().any(|folder| path.starts_with(folder));
        elsewhere || found(path.to_string()) || found(format!("crates/{path}")) || tree::crates().iter().any(|name| found(format!("crates/{name}/{path}")))
    }
}

// ---- open functions

/// The functions that other crates or hosts can call and that no claims page names.
fn unnamed(shelf: &mut Shelf) -> Vec<String> {
    let pages: Vec<String> = tree::files("docs/claims", &[".md"]).iter().map(|path| tree::text(path)).collect();
    let lines: Vec<&str> = pages.iter().flat_map(|page| page.lines()).collect();
    let mut faults = Vec::new();
    for name in tree::crates() {
        for function in shelf.source(&name).functions.iter().filter(|f| f.open) {
            let whole = format!("`{name}::{}`", function.name);
            let bare = format!("`{}`", function.name);
            let method = function.name.contains("::") || function.name.starts_with("nahokipe_");
            let named = |line: &&str| line.contains(&whole) || line.contains(&bare) && (method || line.contains(&format!("`{name}::")));
            if !lines.iter().any(named) {
                faults.push(format!("docs/claims: no page names {name}::{}", function.name));
            }
        }
    }
    faults
}

#[cfg(test)]
mod tests {
    use super::*;

    #[test]
    fn a_link_by_its_text_file_and_line() {
        let link = links("see [`line_of`](../crates/x/proofs/Lines.antt#L12) there").remove(0);
        assert_eq!((link.text.as_str(), link.line), ("`line_of`", Some(12)));
        assert_eq!(led_to("docs/CLAIMS.md", &link), "crates/x/proofs/Lines.antt");
    }

    #[test]
    fn laws_and_other_names() {
        let of = |name: &str| HashSet::from([name.to_string()]);
        let known = Known { words: HashSet::new(), functions: of("take_out"), definitions: of("first_read") };
        assert!(known.is_law("first_read_lem") && known.is_law("line_of"));
        assert!(["take_out", "first_read", "alone", "codec::read_number"].iter().all(|name| !known.is_law(name)));
    }

    #[test]
    fn a_heading_as_a_link_names_it() {
        assert_eq!(slug("## The reviewer's two questions"), "the-reviewers-two-questions");
    }

    #[test]
    fn a_link_to_what_is_not_there() {
        let link = links("[x](nowhere.md)").remove(0);
        assert!(link_fault("docs/CLAIMS.md", &link).is_some());
    }

    #[test]
    fn a_sum_takes_the_place_of_the_old_one() {
        assert_eq!(with_sum("a [x](B#y) (old), b", "](B#y) (", "new"), "a [x](B#y) (new), b");
        assert_eq!(with_sum("nothing", "](B#y) (", "new"), "nothing");
    }

    #[test]
    fn the_files_of_a_cell() {
        let first = files_named("record/proofs/Whole, RoundTrip", &[]);
        assert_eq!(first, ["crates/record/proofs/Whole.antt", "crates/record/proofs/RoundTrip.antt"]);
        assert_eq!(files_named("same; record_parts/proofs/LeftOut", &first).len(), 3);
    }

    #[test]
    fn names_stand_between_backquotes_and_not_in_blocks() {
        assert_eq!(spans("a `b` c `d::e`"), ["b", "d::e"]);
        assert_eq!(prose("a\n```\nb\n```\n    c\nd").len(), 2);
    }
}
