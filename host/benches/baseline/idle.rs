//! What a good Rust program does for idle parts: the table is checked as for structures, and then the sets with a part are held against those
//! without it, 64 at a time, up to the first difference.

use super::table::{accepted, word_count, WITHOUT};
use nahokipe::Refusal;

/// The mask of the idle parts of a table.
pub fn idle_parts(n: usize, table: &[u8]) -> Result<u16, Refusal> {
    let works = accepted(n, table)?;
    let used = &works[..word_count(n)];
    let idle = (0..n).filter(|&part| is_idle(used, part));
    Ok(idle.map(|part| 1 << part).sum())
}

/// The first six parts are bits of a set's place in a word, and the others are bits of the word's index.
fn is_idle(used: &[u64], part: usize) -> bool {
    if part < 6 {
        let same = |word: &u64| (word ^ word >> (1 << part)) & WITHOUT[part] == 0;
        return used.iter().all(same);
    }
    let step = 1 << (part - 6);
    let mut blocks = used.chunks_exact(2 * step);
    blocks.all(|block| block[..step] == block[step..])
}
