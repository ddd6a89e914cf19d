//! Stock patterns a second time, from document 02's words alone: of one set of working parts after the other it is asked whether the machine
//! runs, going along its parts.
//!
//! Nothing here is shared with the calculator; the tests compare the two.

use crate::naive::{has, refused, table_of};
use nahokipe::{Pattern, Refusal};

/// The three patterns.
pub const PATTERNS: [Pattern; 3] = [Pattern::AtLeast, Pattern::Row, Pattern::Ring];

/// Whether a machine runs whose parts work or not, in the order of their positions.
pub fn runs(pattern: Pattern, k: usize, parts: &[bool]) -> bool {
    match pattern {
        Pattern::AtLeast => parts.iter().filter(|&&works| works).count() >= k,
        Pattern::Row => longest_failure(parts) < k,
        Pattern::Ring => longest_failure(&twice_round(parts)) < k,
    }
}

/// The most failed parts that follow each other.
fn longest_failure(parts: &[bool]) -> usize {
    let (mut longest, mut failed) = (0, 0);
    for &works in parts {
        failed = if works { 0 } else { failed + 1 };
        longest = longest.max(failed);
    }
    longest
}

/// The parts as they are met going round a ring twice from position 1: so any neighbours, up to all n, are met one behind the other.
fn twice_round(parts: &[bool]) -> Vec<bool> {
    [parts, parts].concat()
}

/// The structure of a pattern: whether the machine runs on each mask.
pub fn structure_of(pattern: Pattern, n: usize, k: usize) -> Vec<bool> {
    let runs_on = |mask| {
        let parts: Vec<bool> = (0..n).map(|i| has(mask, i)).collect();
        runs(pattern, k, &parts)
    };
    (0..1 << n).map(runs_on).collect()
}

/// The table of a pattern, or its refusal.
pub fn table_of_pattern(pattern: Pattern, n: usize, k: usize) -> Result<Vec<u8>, Refusal> {
    if !(1..=16).contains(&n) {
        return refused(1, 0);
    }
    if k < 1 || k > n {
        return refused(29, 0);
    }
    Ok(table_of(&structure_of(pattern, n, k)))
}
