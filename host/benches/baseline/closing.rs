//! Sets and those that hold them, 64 to a word.

use super::table::{word_count, Words, WITHOUT};

/// Carries each path set to the sets with one part more, part by part.
pub fn carry(n: usize, works: &mut Words) {
    let used = &mut works[..word_count(n)];
    for i in 0..n.min(6) {
        for word in used.iter_mut() {
            *word |= (*word & WITHOUT[i]) << (1 << i);
        }
    }
    for i in 6..n {
        let step = 1 << (i - 6);
        for block in used.chunks_exact_mut(2 * step) {
            let (low, high) = block.split_at_mut(step);
            for (high, low) in high.iter_mut().zip(low) {
                *high |= *low;
            }
        }
    }
}

/// The path sets that without any one part aren't one.
pub fn trimmed(n: usize, works: &Words) -> Words {
    let mut minimal = *works;
    let used = &works[..word_count(n)];
    for i in 0..n.min(6) {
        for (minimal, word) in minimal.iter_mut().zip(used) {
            *minimal &= !((word & WITHOUT[i]) << (1 << i));
        }
    }
    for i in 6..n {
        let step = 1 << (i - 6);
        let blocks = used.chunks_exact(2 * step);
        for (block, minimal) in blocks.zip(minimal.chunks_exact_mut(2 * step)) {
            for (minimal, low) in minimal[step..].iter_mut().zip(&block[..step]) {
                *minimal &= !low;
            }
        }
    }
    minimal
}

/// The bytes of a table.
pub fn store(works: &Words, table: &mut [u8]) {
    for (bytes, word) in table.chunks_mut(8).zip(works) {
        bytes.copy_from_slice(&word.to_le_bytes()[..bytes.len()]);
    }
}
