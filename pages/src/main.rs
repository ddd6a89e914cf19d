//! Writes the tables of docs/ that a program can know, and finds what the documents cite that is not in the tree.
//!
//!     pages write         docs/EDITS.md and docs/BELIEVED.md, and in the other documents the line of each link and what has to be believed
//!     pages check         says what is stale or cited and not there, and fails where there is any
//!     pages times LOG     docs/TIMES.md, from what a whole run of the check printed
//!
//! It is run in the repository's root.

mod antt;
mod believed;
mod cited;
mod edits;
mod rattle;
mod times;
mod tree;

use std::process::exit;
use std::{env, fs};

const EDITS: &str = "docs/EDITS.md";
const BELIEVED: &str = "docs/BELIEVED.md";
const TIMES: &str = "docs/TIMES.md";

fn main() {
    let words: Vec<String> = env::args().skip(1).collect();
    let faults = match words.iter().map(String::as_str).collect::<Vec<_>>()[..] {
        ["write"] => write(),
        ["check"] => check(),
        ["times", log] => put(TIMES, &times::page(&tree::text(log))),
        _ => vec![String::from("pages write | pages check | pages times LOG")],
    };
    for fault in &faults {
        eprintln!("pages: {fault}");
    }
    exit(if faults.is_empty() { 0 } else { 1 });
}

fn write() -> Vec<String> {
    let mut faults = put(EDITS, &edits::page());
    let page = believed::page(&mut faults);
    faults.extend(put(BELIEVED, &page));
    let sums = believed::sums();
    for path in cited::refreshable() {
        faults.extend(put(&path, &cited::refreshed(&path, &sums)));
    }
    faults
}

fn check() -> Vec<String> {
    let mut faults = Vec::new();
    let pages = [(EDITS, edits::page()), (BELIEVED, believed::page(&mut faults))];
    for (path, page) in pages {
        if tree::text(path) != page {
            faults.push(format!("{path} is stale: `pages write` writes it"));
        }
    }
    let sums = believed::sums();
    for path in cited::refreshable() {
        if cited::refreshed(&path, &sums) != tree::text(&path) {
            faults.push(format!("{path} is stale: `pages write` writes its lines and sums"));
        }
    }
    faults.extend(cited::faults());
    faults
}

fn put(path: &str, text: &str) -> Vec<String> {
    match fs::write(path, text) {
        Ok(()) => Vec::new(),
        Err(why) => vec![format!("{path}: {why}")],
    }
}
