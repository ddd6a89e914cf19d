//! Idle parts a second time, from document 02's words alone: a part is added to one set after the other, and each time it is seen whether the
//! machine runs.
//!
//! Nothing here is shared with the calculator; the tests compare the two. A part is the index of its bit, so it counts from 0.

use crate::naive::{has, structure_of, table_verdict};
use nahokipe::Refusal;

/// A set with a part added, which it may have already.
pub fn with(set: usize, part: usize) -> usize {
    if has(set, part) {
        set
    } else {
        set + (1 << part)
    }
}

/// Whether a part is idle, by the definition: adding it to a set never changes whether the machine runs.
pub fn is_idle(n: usize, works: &[bool], part: usize) -> bool {
    (0..1 << n).all(|set| works[with(set, part)] == works[set])
}

/// The idle parts of a structure, ascending.
pub fn idle_of(n: usize, works: &[bool]) -> Vec<usize> {
    (0..n).filter(|&part| is_idle(n, works, part)).collect()
}

/// The mask of the idle parts of a table, or the table's refusal.
pub fn idle_parts(n: usize, table: &[u8]) -> Result<u16, Refusal> {
    table_verdict(n, table)?;
    let idle = idle_of(n, &structure_of(n, table));
    Ok(idle.into_iter().map(|part| 1 << part).sum())
}
