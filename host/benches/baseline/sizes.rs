//! Sets of each size, 64 to a word.

use super::table::Words;

/// For each size, the bits of the masks below 64 that have it.
pub const OF_SIZE: [u64; 7] = [
    0x0000_0000_0000_0001,
    0x0000_0001_0001_0116,
    0x0001_0116_0116_1668,
    0x0116_1668_1668_6880,
    0x1668_6880_6880_8000,
    0x6880_8000_8000_0000,
    0x8000_0000_0000_0000,
];

/// How many path sets have 0, 1, ..., 16 parts.
pub fn path_counts(works: &Words) -> [u64; 17] {
    #[cfg(target_arch = "x86_64")]
    if std::arch::is_x86_feature_detected!("popcnt") {
        // Safe, since the processor has the instruction.
        return unsafe { counted_by_instruction(works) };
    }
    counted_by_word(works)
}

#[cfg(target_arch = "x86_64")]
#[target_feature(enable = "popcnt")]
unsafe fn counted_by_instruction(works: &Words) -> [u64; 17] {
    counted_by_word(works)
}

/// A set's first six parts are bits of its place in a word, and the others are bits of the word's index.
#[inline(always)]
fn counted_by_word(works: &Words) -> [u64; 17] {
    let mut counts = [0; 17];
    for (index, word) in works.iter().enumerate() {
        let base = index.count_ones() as usize;
        for (k, of_size) in OF_SIZE.iter().enumerate() {
            counts[base + k] += (word & of_size).count_ones() as u64;
        }
    }
    counts
}
