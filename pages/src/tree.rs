//! The files of the repository: found, sorted and read. Every path is relative to the root, with `/` between its parts.

use std::fs;
use std::path::Path;
use std::sync::OnceLock;

/// The files below a folder that have one of these endings, in the order of their paths.
pub fn files(folder: &str, endings: &[&str]) -> Vec<String> {
    let mut found = Vec::new();
    gather(Path::new(folder), endings, &mut found);
    found.sort();
    found
}

fn gather(folder: &Path, endings: &[&str], found: &mut Vec<String>) {
    let Ok(entries) = fs::read_dir(folder) else { return };
    for entry in entries.flatten() {
        let path = entry.path();
        let name = path.to_string_lossy().replace('\\', "/");
        if path.is_dir() && !name.ends_with("/out") {
            gather(&path, endings, found);
        } else if endings.iter().any(|ending| name.ends_with(ending)) {
            found.push(name);
        }
    }
}

/// What stands in a file; nothing where there is no such file.
pub fn text(path: &str) -> String {
    fs::read_to_string(path).unwrap_or_default()
}

/// The crates, in the order of crates.txt; a name may have `staticlib` behind it.
pub fn crates() -> &'static [String] {
    static ALL: OnceLock<Vec<String>> = OnceLock::new();
    ALL.get_or_init(|| {
        text("crates.txt")
            .lines()
            .filter(|line| !line.starts_with('#'))
            .filter_map(|line| line.split_once(':').and_then(|(name, _)| name.split_whitespace().next().map(String::from)))
            .collect()
    })
}

/// The crate that a file belongs to.
pub fn crate_of(path: &str) -> &str {
    path.strip_prefix("crates/").and_then(|rest| rest.split('/').next()).unwrap_or("")
}
