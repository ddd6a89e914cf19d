//! docs/EDITS.md: each edit that the prover must refuse, with what it does in its own first line.

use crate::tree;

pub fn page() -> String {
    let mut page = String::from(
        "# Edits that the prover must refuse\n\n\
         Each makes one wrong program, or one wrong definition, of the crate that it stands under; `./check` tries every one of them and fails where \
         one passes. What an edit does is its own first line; the edit itself is the file of that name in the crate's folder `must-fail`. \
         A claims page says which contract rules which of them out.\n\n\
         This page is written by `pages` from the edits themselves.\n",
    );
    let mut all = 0;
    for name in tree::crates() {
        let edits = tree::files(&format!("crates/{name}/must-fail"), &[".edit"]);
        if edits.is_empty() {
            continue;
        }
        page += &format!("\n## {name}\n\n| edit | what it does |\n|---|---|\n");
        for path in &edits {
            page += &format!("| [`{}`](../{path}) | {} |\n", stem(path), first_line(path));
        }
        all += edits.len();
    }
    page + &format!("\nIn all {all} edits.\n")
}

/// An edit's name: its file without folder and ending.
pub fn stem(path: &str) -> &str {
    path.rsplit('/').next().unwrap_or(path).trim_end_matches(".edit")
}

fn first_line(path: &str) -> String {
    let text = tree::text(path);
    let line = text.lines().next().unwrap_or("");
    line.trim_start_matches('#').trim().replace('|', "\\|")
}
