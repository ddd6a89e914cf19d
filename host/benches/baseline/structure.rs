//! What a good Rust program does with structures: the same answers, with 64 sets to a word.

use super::closing::{carry, store, trimmed};
use super::table::{accepted, refused, table_length, word_count, Words};
use nahokipe::Refusal;

/// The table of a list.
pub fn table_of_list(n: usize, list: &[u16], table: &mut [u8]) -> Result<usize, Refusal> {
    judge_list(n, list)?;
    let needed = table_length(n);
    if table.len() < needed {
        return refused(11, needed);
    }
    store(&closed(n, list), &mut table[..needed]);
    Ok(needed)
}

/// The sets that hold a listed one.
pub fn closed(n: usize, list: &[u16]) -> Words {
    let mut works = [0; 1024];
    for &set in list {
        works[set as usize / 64] |= 1 << (set % 64);
    }
    carry(n, &mut works);
    works
}

/// The verdict on a table.
pub fn table_verdict(n: usize, table: &[u8]) -> Result<(), Refusal> {
    accepted(n, table).map(drop)
}

/// The minimal sets of a table, ascending.
pub fn minimal_sets(n: usize, table: &[u8], sets: &mut [u16]) -> Result<usize, Refusal> {
    list_minimal(n, &accepted(n, table)?, sets)
}

/// The minimal ones among the sets of an accepted table's words, ascending.
pub fn list_minimal(n: usize, works: &Words, sets: &mut [u16]) -> Result<usize, Refusal> {
    let minimal = trimmed(n, works);
    let needed = minimal.iter().map(|word| word.count_ones() as usize).sum();
    if sets.len() < needed {
        return refused(11, needed);
    }
    list_bits(&minimal[..word_count(n)], &mut sets[..needed]);
    Ok(needed)
}

/// Refusals 1 to 5. The entries are looked at one by one only where some entry is wrong.
pub fn judge_list(n: usize, list: &[u16]) -> Result<(), Refusal> {
    if !(1..=16).contains(&n) {
        return refused(1, 0);
    }
    if list.is_empty() {
        return refused(2, 0);
    }
    if list.len() > 12_870 {
        return refused(3, 0);
    }
    let too_large = |set: u16| (set as u32) >> n != 0;
    let all = list.iter().fold(0, |all, &set| all | set);
    let least = list.iter().fold(u16::MAX, |least, &set| least.min(set));
    if !too_large(all) && least != 0 {
        return Ok(());
    }
    match list.iter().position(|&set| set == 0 || too_large(set)) {
        Some(index) => refused(if list[index] == 0 { 5 } else { 4 }, index),
        None => Ok(()),
    }
}

/// The masks whose bits are set, ascending.
fn list_bits(words: &[u64], sets: &mut [u16]) {
    let mut at = 0;
    for (index, &word) in words.iter().enumerate() {
        let mut left = word;
        while left != 0 {
            sets[at] = (64 * index) as u16 + left.trailing_zeros() as u16;
            left &= left - 1;
            at += 1;
        }
    }
}
