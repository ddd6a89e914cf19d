//! The examples of docs/DESK.md and of README.md: every command line behind `$` is run, in order and in one folder, and prints what stands
//! there.

use crate::folder::Folder;
use std::fs;
use std::path::{Path, PathBuf};

/// A file of the repository.
fn of_repository(name: &str) -> PathBuf {
    Path::new(env!("CARGO_MANIFEST_DIR")).join("..").join(name)
}

/// The indented lines of a text, in blocks; an empty line inside a block belongs to it.
fn blocks(text: &str) -> Vec<String> {
    let mut blocks = vec![String::new()];
    for line in text.lines() {
        let last = blocks.last_mut().expect("a block");
        match line.strip_prefix("    ") {
            Some(line) => *last += &format!("{line}\n"),
            None if line.is_empty() && !last.is_empty() => last.push('\n'),
            None => blocks.push(String::new()),
        }
    }
    blocks
}

/// The command lines of a block and what each prints.
fn examples(block: &str) -> Vec<(String, String)> {
    let mut examples: Vec<(String, String)> = Vec::new();
    for line in block.lines() {
        match (line.strip_prefix("$ "), examples.last_mut()) {
            (Some(command), _) => examples.push((command.to_string(), String::new())),
            (None, Some((_, printed))) => *printed += &format!("{line}\n"),
            (None, None) => {}
        }
    }
    examples
}

/// A folder with the example files.
pub fn with_examples() -> Folder {
    let folder = Folder::new();
    for entry in fs::read_dir(of_repository("examples")).expect("the examples") {
        let path = entry.expect("an entry").path();
        let name = path.file_name().expect("a name").to_string_lossy();
        let mut ends = [".txt", ".record", ".sheet"].iter();
        if ends.any(|end| name.ends_with(end)) {
            folder.write(&name, fs::read(&path).expect("an example"));
        }
    }
    folder
}

/// Runs the examples of a document, of which there are some.
fn shows_what_is_printed(document: &str, some: usize) {
    let folder = with_examples();
    let text = fs::read_to_string(of_repository(document)).expect("the document");
    let blocks = blocks(&text);
    let examples: Vec<_> = blocks.iter().flat_map(|block| examples(block)).collect();
    for (command, printed) in &examples {
        let ran = folder.shell(&format!("exec 2>&1; {command}"));
        assert_eq!(ran.text().trim_end(), printed.trim_end(), "$ {command}");
    }
    assert!(examples.len() >= some, "{document}: {}", examples.len());
}

#[test]
fn the_manual_shows_what_the_program_prints() {
    shows_what_is_printed("docs/DESK.md", 20);
}

#[test]
fn the_first_page_shows_what_the_program_prints() {
    shows_what_is_printed("README.md", 7);
}

/// The report on the first page, behind the line that prints it.
#[test]
fn the_first_page_shows_the_report_of_the_bridge() {
    let text = fs::read_to_string(of_repository("README.md")).expect("the first page");
    let blocks = blocks(&text);
    let line = "./nahokipe report examples/bridge.record";
    let asked = blocks.iter().position(|block| block.trim() == line);
    let behind = &blocks[1 + asked.expect("the line that prints the report")..];
    let shown = behind.iter().find(|block| !block.trim().is_empty());
    let ran = with_examples().shell("nahokipe report bridge.record");
    assert_eq!(shown.expect("the report").trim_end(), ran.text().trim_end());
}
