//! docs/TIMES.md: the seconds of each crate, from what a whole run of `rt ci` printed.

use crate::tree;
use std::collections::BTreeMap;

pub fn page(log: &str) -> String {
    let mut proved: BTreeMap<String, usize> = BTreeMap::new();
    let mut tried: BTreeMap<String, (usize, usize)> = BTreeMap::new();
    for line in log.lines().filter_map(|line| line.strip_prefix("rt: ")) {
        let seconds = seconds(line);
        if let Some(edit) = line.strip_prefix("must-fail ").and_then(|rest| rest.split('/').next()) {
            let entry = tried.entry(edit.to_string()).or_default();
            *entry = (entry.0 + 1, entry.1 + seconds);
        } else if let Some((name, _)) = line.split_once(" proved (") {
            proved.insert(name.to_string(), seconds);
        }
    }
    let mut page = String::from(
        "# How long the check takes\n\n\
         The seconds of each crate in the last whole run, two checks at a time: to prove it once, how many edits it has, and these together. An edit checks \
         its whole crate once more. The seconds differ from machine to machine and are no test. They \
         are those of the toolchain before the present one, which prints none.\n\n\
         This page is written by `pages` from what the run printed.\n\n\
         | crate | proved | edits | edits tried |\n|---|---|---|---|\n",
    );
    let mut sum = (0, 0, 0);
    for name in tree::crates() {
        let once = proved.get(name).copied().unwrap_or(0);
        let (edits, seconds) = tried.get(name).copied().unwrap_or((0, 0));
        page += &format!("| `{name}` | {once} | {edits} | {seconds} |\n");
        sum = (sum.0 + once, sum.1 + edits, sum.2 + seconds);
    }
    page + &format!("| all | {} | {} | {} |\n", sum.0, sum.1, sum.2)
}

/// The number before ` s)` at a line's end.
fn seconds(line: &str) -> usize {
    let end = line.trim_end().trim_end_matches(" s)");
    end.rsplit(|c: char| !c.is_ascii_digit()).next().and_then(|n| n.parse().ok()).unwrap_or(0)
}

#[cfg(test)]
mod tests {
    use super::*;

    #[test]
    fn the_seconds_at_a_lines_end() {
        assert_eq!(seconds("codec proved (6 s)"), 6);
        assert_eq!(seconds("must-fail codec/six_groups: refused, as it must be (first at proofs/Window.antt:34:5; 12 s)"), 12);
    }
}
