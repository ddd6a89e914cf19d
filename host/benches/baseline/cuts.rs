//! What a good Rust program does with cut sets: the same checks, and 64 sets turned round at a time by reversing a word's bits.

use super::closing::store;
use super::structure::{closed, judge_list, list_minimal};
use super::table::{accepted, refused, table_length, word_count, Words};
use nahokipe::Refusal;

/// The table of a list of cut sets.
pub fn table_of_cuts(n: usize, cuts: &[u16], table: &mut [u8]) -> Result<usize, Refusal> {
    judge_list(n, cuts)?;
    let needed = table_length(n);
    if table.len() < needed {
        return refused(11, needed);
    }
    store(&turned(n, &closed(n, cuts)), &mut table[..needed]);
    Ok(needed)
}

/// The minimal cut sets of a table, ascending.
pub fn minimal_cuts(n: usize, table: &[u8], cuts: &mut [u16]) -> Result<usize, Refusal> {
    list_minimal(n, &turned(n, &accepted(n, table)?), cuts)
}

/// The dual's table.
pub fn dual(n: usize, table: &[u8], dual: &mut [u8]) -> Result<usize, Refusal> {
    let works = accepted(n, table)?;
    let needed = table_length(n);
    if dual.len() < needed {
        return refused(11, needed);
    }
    store(&turned(n, &works), &mut dual[..needed]);
    Ok(needed)
}

/// Whether each set's complement is none of these: the words from the last to the first, each with its bits reversed and turned over. Fewer
/// than six parts have the bits of one word's end.
fn turned(n: usize, works: &Words) -> Words {
    let mut turned = [0; 1024];
    let used = word_count(n);
    for (turned, word) in turned.iter_mut().zip(works[..used].iter().rev()) {
        *turned = !word.reverse_bits();
    }
    if n < 6 {
        turned[0] >>= 64 - (1 << n);
    }
    turned
}
