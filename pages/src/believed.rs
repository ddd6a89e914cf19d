//! docs/BELIEVED.md: for each promise, the definitions that a reader has to believe, walked from its statement along what each file brings in.

use crate::{antt, rattle, tree};
use std::collections::{BTreeMap, BTreeSet, HashMap};

/// Something that a statement can name: a definition in a file, a declared type of a crate, or a word of the toolchain's library.
#[derive(Clone, PartialEq, Eq, PartialOrd, Ord, Debug)]
pub enum Thing {
    Definition(String, String),
    Type(String, String),
    Library(String, String),
}

/// The files that were read, by path: antt, and the sources of crates.
#[derive(Default)]
pub struct Shelf {
    antt: HashMap<String, antt::File>,
    sources: HashMap<String, rattle::Source>,
}

impl Shelf {
    pub fn antt(&mut self, path: &str) -> &antt::File {
        self.antt.entry(path.to_string()).or_insert_with(|| antt::read(&tree::text(path)))
    }

    pub fn source(&mut self, name: &str) -> &rattle::Source {
        let path = if tree::text(&format!("crates/{name}/src/lib.rt")).is_empty() { "main" } else { "lib" };
        self.sources.entry(name.to_string()).or_insert_with(|| rattle::read(&tree::text(&format!("crates/{name}/src/{path}.rt"))))
    }

    /// What a name of a module stands for.
    fn in_module(&mut self, module: &str, name: &str) -> Option<Thing> {
        let mut parts = module.split('.');
        let own = parts.next() == Some("Rattle");
        let krate = parts.next().unwrap_or("").to_string();
        if !own || !tree::crates().contains(&krate) {
            return Some(Thing::Library(module.to_string(), name.to_string()));
        }
        let folder = parts.next()?;
        let file = parts.next()?;
        if file == "declared" {
            return Some(Thing::Type(krate, parts.next()?.to_string()));
        }
        let path = format!("crates/{krate}/{folder}/{file}.antt");
        self.declared_in(&path, name)
    }

    fn declared_in(&mut self, path: &str, name: &str) -> Option<Thing> {
        let fits = |d: &&antt::Declaration| d.name == name || d.constructors.iter().any(|c| c == name);
        let found = self.antt(path).declarations.iter().find(fits)?.name.clone();
        Some(Thing::Definition(path.to_string(), found))
    }

    /// What a word stands for in a file of antt.
    fn meant(&mut self, path: &str, word: &str) -> Option<Thing> {
        let file = self.antt(path);
        let brought = file.brought.get(word).cloned().or_else(|| operator(&file.brought, word));
        let aliased = word.split_once('.').and_then(|(alias, name)| Some((file.modules.get(alias)?.clone(), name.to_string())));
        if let Some((module, name)) = brought.or(aliased) {
            return self.in_module(&module, &name);
        }
        // a field is written tight, behind what has it
        match word.split_once('.') {
            Some((owner, _)) => self.meant(path, owner),
            None => self.declared_in(path, word),
        }
    }

    /// What a word of a contract stands for.
    pub fn meant_in_clause(&mut self, name: &str, word: &str) -> Option<Thing> {
        let source = self.source(name);
        if let Some((module, there)) = source.clauses.brought.get(word).cloned().or_else(|| operator(&source.clauses.brought, word)) {
            return self.in_module(&module, &there);
        }
        let first = word.split('.').next().unwrap_or(word);
        self.type_named(name, first)
    }

    fn type_named(&mut self, name: &str, word: &str) -> Option<Thing> {
        let source = self.source(name);
        if source.types.contains_key(word) {
            return Some(Thing::Type(name.to_string(), word.to_string()));
        }
        source.foreign.get(word).map(|from| Thing::Type(from.clone(), word.to_string()))
    }

    /// What a thing names itself.
    fn named_by(&mut self, thing: &Thing) -> Vec<Thing> {
        match thing {
            Thing::Library(..) => Vec::new(),
            Thing::Type(name, word) => {
                let words = self.source(name).types.get(word).map(|t| t.words.clone()).unwrap_or_default();
                words.iter().filter_map(|word| self.type_named(name, word)).collect()
            }
            Thing::Definition(path, name) => {
                let words = self.antt(path).declarations.iter().find(|d| d.name == *name).map(|d| d.words.clone()).unwrap_or_default();
                words.iter().filter_map(|word| self.meant(path, word)).collect()
            }
        }
    }

    /// Everything that a statement rests on: a theorem's signature, or a function's contract.
    pub fn below(&mut self, path: &str, name: &str) -> Result<BTreeSet<Thing>, String> {
        let mut open: Vec<Thing> = if path.ends_with(".rt") {
            let krate = tree::crate_of(path).to_string();
            let function = self.source(&krate).functions.iter().find(|f| f.name == name);
            let words = function.map(|f| f.contract.clone()).ok_or(format!("{path} has no function {name}"))?;
            words.iter().filter_map(|word| self.meant_in_clause(&krate, word)).collect()
        } else {
            let theorem = self.antt(path).declarations.iter().find(|d| d.name == name);
            let words = theorem.map(|d| d.signature.clone()).ok_or(format!("{path} does not declare {name}"))?;
            let own = Thing::Definition(path.to_string(), name.to_string());
            words.iter().filter_map(|word| self.meant(path, word)).filter(|thing| *thing != own).collect()
        };
        let mut seen = BTreeSet::new();
        while let Some(thing) = open.pop() {
            if seen.insert(thing.clone()) {
                open.extend(self.named_by(&thing));
            }
        }
        Ok(seen)
    }

    fn lines(&mut self, thing: &Thing) -> usize {
        match thing {
            Thing::Library(..) => 0,
            Thing::Type(name, word) => self.source(name).types.get(word).map_or(0, |t| t.lines),
            Thing::Definition(path, name) => self.antt(path).declarations.iter().find(|d| d.name == *name).map_or(0, |d| d.lines),
        }
    }
}

/// An infix operator is brought in with `◌` where its arguments go.
fn operator(brought: &HashMap<String, (String, String)>, word: &str) -> Option<(String, String)> {
    brought.get(&format!("◌{word}◌")).cloned()
}

/// A promise: its title, and the statements that make it, each a file and a name.
pub struct Promise {
    pub title: String,
    pub statements: Vec<(String, String)>,
}

/// The promises of docs/promises.txt: a title behind `#`, and below it a line for each statement.
pub fn promises() -> Vec<Promise> {
    let mut all: Vec<Promise> = Vec::new();
    for line in tree::text("docs/promises.txt").lines() {
        if let Some(title) = line.strip_prefix("# ") {
            all.push(Promise { title: title.to_string(), statements: Vec::new() });
        } else if let (Some((path, name)), Some(last)) = (line.split_once(' '), all.last_mut()) {
            last.statements.push((path.to_string(), name.to_string()));
        }
    }
    all
}

pub fn page(faults: &mut Vec<String>) -> String {
    let mut shelf = Shelf::default();
    let mut page = String::from(
        "# What has to be believed, promise by promise\n\n\
         Below each promise stand the statements that make it, and every definition that they rest on, walked from the statements along what each file \
         brings in: a reader who believes that these say what the papers say knows what is promised. Types declared in the code are counted with the \
         definitions. Lines are counted without imports, comments and blank ones. Words of the toolchain's own library are listed and not counted; \
         [NOTATION.md](NOTATION.md) says what they are and where they stand.\n\n\
         This page is written by `pages` from the tree and from `docs/promises.txt`.\n",
    );
    let mut all = BTreeSet::new();
    for promise in promises() {
        let mut things = BTreeSet::new();
        page += &format!("\n## {}\n\n", promise.title);
        for (path, name) in &promise.statements {
            match shelf.below(path, name) {
                Ok(below) => things.extend(below),
                Err(fault) => faults.push(format!("docs/promises.txt: {fault}")),
            }
            page += &format!("- `{name}` in [{path}](../{path})\n");
        }
        page += &table(&mut shelf, &things);
        all.extend(things);
    }
    page += "\n## All promises together\n";
    page + &table(&mut shelf, &all)
}

/// How much has to be believed for each promise, by its title.
pub fn sums() -> Vec<(String, String)> {
    let mut shelf = Shelf::default();
    let mut all = Vec::new();
    for promise in promises() {
        let mut things = BTreeSet::new();
        for (path, name) in &promise.statements {
            things.extend(shelf.below(path, name).unwrap_or_default());
        }
        all.push((promise.title, sum(&mut shelf, &things)));
    }
    all
}

fn sum(shelf: &mut Shelf, things: &BTreeSet<Thing>) -> String {
    let believed: Vec<&Thing> = things.iter().filter(|thing| !matches!(thing, Thing::Library(..))).collect();
    let files: BTreeSet<String> = believed.iter().map(|thing| file_of(thing)).collect();
    let lines: usize = believed.iter().map(|thing| shelf.lines(thing)).sum();
    format!("{} definitions, {lines} lines, {} files", believed.len(), files.len())
}

/// The file that a definition or a type stands in.
fn file_of(thing: &Thing) -> String {
    match thing {
        Thing::Definition(path, _) => path.clone(),
        Thing::Type(krate, _) => format!("crates/{krate}/src/lib.rt"),
        Thing::Library(module, _) => module.clone(),
    }
}

/// The definitions by file, counted, and the words of the library.
fn table(shelf: &mut Shelf, things: &BTreeSet<Thing>) -> String {
    let mut files: BTreeMap<String, (Vec<String>, usize)> = BTreeMap::new();
    let mut library: BTreeSet<String> = BTreeSet::new();
    for thing in things {
        let lines = shelf.lines(thing);
        match thing {
            Thing::Library(_, name) => drop(library.insert(name.clone())),
            Thing::Definition(_, name) | Thing::Type(_, name) => {
                let entry = files.entry(file_of(thing)).or_default();
                entry.0.push(name.clone());
                entry.1 += lines;
            }
        }
    }
    let mut text = format!("\n**{}.**\n\n| file | lines | definitions |\n|---|---|---|\n", sum(shelf, things));
    for (file, (names, lines)) in &files {
        let names: Vec<String> = names.iter().map(|name| format!("`{name}`")).collect();
        text += &format!("| [{}](../{file}) | {lines} | {} |\n", file.trim_start_matches("crates/"), names.join(", "));
    }
    let library: Vec<String> = library.iter().map(|name| format!("`{}`", name.replace('|', "\\|"))).collect();
    text + &format!("\nOf the toolchain's library: {}.\n", library.join(", "))
}
