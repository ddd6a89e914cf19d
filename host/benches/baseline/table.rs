//! A table as a good Rust program takes it: 64 sets to a word, and checked.

use nahokipe::Refusal;

/// Whether each mask is a path set, 64 masks to a word: enough for 16 parts.
pub type Words = [u64; 1024];

/// For each of the first six parts, the bits of the masks below 64 that do not have it.
pub const WITHOUT: [u64; 6] = [
    0x5555_5555_5555_5555,
    0x3333_3333_3333_3333,
    0x0F0F_0F0F_0F0F_0F0F,
    0x00FF_00FF_00FF_00FF,
    0x0000_FFFF_0000_FFFF,
    0x0000_0000_FFFF_FFFF,
];

pub fn refused<T>(number: u8, place: usize) -> Result<T, Refusal> {
    Err(Refusal { number, place })
}

pub fn table_length(n: usize) -> usize {
    ((1 << n) / 8).max(1)
}

pub fn word_count(n: usize) -> usize {
    ((1 << n) / 64).max(1)
}

/// Refusals 1 and 6 to 10, or the table's words.
pub fn accepted(n: usize, table: &[u8]) -> Result<Words, Refusal> {
    if !(1..=16).contains(&n) {
        return refused(1, 0);
    }
    if table.len() != table_length(n) {
        return refused(6, 0);
    }
    if n < 3 && table[0] >> (1 << n) != 0 {
        return refused(7, 0);
    }
    let works = load(table);
    if works[0] & 1 != 0 {
        return refused(8, 0);
    }
    let full = (1 << n) - 1;
    if works[full / 64] >> (full % 64) & 1 == 0 {
        return refused(9, 0);
    }
    if is_broken(n, &works) {
        return refused(10, first_broken(n, &works));
    }
    Ok(works)
}

/// Whether some path set with one part more isn't one.
fn is_broken(n: usize, works: &Words) -> bool {
    let used = &works[..word_count(n)];
    let mut broken = 0;
    for i in 0..n.min(6) {
        for word in used {
            broken |= word & WITHOUT[i] & !(word >> (1 << i));
        }
    }
    for i in 6..n {
        let step = 1 << (i - 6);
        for block in used.chunks_exact(2 * step) {
            let (low, high) = block.split_at(step);
            for (low, high) in low.iter().zip(high) {
                broken |= low & !high;
            }
        }
    }
    broken != 0
}

/// The smallest path set that with one part more isn't one; there is one.
fn first_broken(n: usize, works: &Words) -> usize {
    let has = |set: usize| works[set / 64] >> (set % 64) & 1 == 1;
    let fails = |set: &usize| has(*set) && (0..n).any(|i| !has(set | 1 << i));
    (0..1 << n).find(fails).unwrap_or(0)
}

fn load(table: &[u8]) -> Words {
    let mut works = [0; 1024];
    for (word, bytes) in works.iter_mut().zip(table.chunks(8)) {
        let mut eight = [0; 8];
        eight[..bytes.len()].copy_from_slice(bytes);
        *word = u64::from_le_bytes(eight);
    }
    works
}
