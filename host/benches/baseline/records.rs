//! What a good Rust program does with design records: numbers are read one after the other, and whether a set holds an earlier one is
//! settled for all sets at once, with 64 sets to a word.

use super::closing::{carry, store, trimmed};
use super::editions::read_tail;
use super::numbers::number_at;
use super::table::{refused, table_length, Words};
use nahokipe::{Record, Refusal};

/// The top values: of n, a count and a set, and of the mark and a part number.
pub const SHORT: u64 = (1 << 32) - 1;
pub const LONG: u64 = (1 << 48) - 1;

/// A record that is accepted, the sets that it lists, its path sets, and its retired numbers if it is of edition 2.
pub struct Read {
    pub record: Record,
    pub listed: Box<Words>,
    pub works: Box<Words>,
    pub retired: Option<Vec<u64>>,
}

/// The record that the bytes are.
pub fn whole_record(bytes: &[u8]) -> Result<Record, Refusal> {
    read(bytes).map(|read| read.record)
}

/// The table of a record.
pub fn table_of_record(bytes: &[u8], table: &mut [u8]) -> Result<usize, Refusal> {
    let Read { record, works, .. } = read(bytes)?;
    let needed = table_length(record.numbers.len());
    if table.len() < needed {
        return refused(11, needed);
    }
    store(&works, &mut table[..needed]);
    Ok(needed)
}

/// The sets of an accepted record, one after the other.
pub fn walk(bytes: &[u8], record: &Record) -> u64 {
    let (mut at, mut sum) = (record.offset, 0);
    for _ in 0..record.sets {
        let Ok((set, next)) = number_at::<SHORT>(bytes, at) else {
            break;
        };
        (at, sum) = (next, sum + set);
    }
    sum
}

/// The record and the structure that its sets give.
pub fn read(bytes: &[u8]) -> Result<Read, Refusal> {
    let is_second = bytes.starts_with(&[0, 2]);
    let mut record = read_head(bytes, if is_second { 2 } else { 0 })?;
    let n = record.numbers.len();
    let mut listed = Box::new([0; 1024]);
    let end = mark_sets(bytes, n, &record, &mut listed);
    let mut works = listed.clone();
    carry(n, &mut works);
    if trimmed(n, &works) != *listed {
        return refused(24, first_holding(bytes, n, &record, &works));
    }
    let mut end = end?;
    record.length = end - record.offset;
    let mut retired = None;
    if is_second {
        let (numbers, behind) = read_tail(bytes, end, &record, &works)?;
        (retired, end) = (Some(numbers), behind);
    }
    if end < bytes.len() {
        return refused(25, end);
    }
    Ok(Read {
        record,
        listed,
        works,
        retired,
    })
}

/// n, the mark, the part numbers and the count of sets, from a position on.
fn read_head(bytes: &[u8], start: usize) -> Result<Record, Refusal> {
    let (n, at) = number_at::<SHORT>(bytes, start)?;
    if !(1..=16).contains(&n) {
        return refused(1, start);
    }
    let (mark, mut at) = number_at::<LONG>(bytes, at)?;
    let mut numbers = Vec::with_capacity(16);
    let mut last = 0;
    for _ in 0..n {
        let (number, next) = number_at::<LONG>(bytes, at)?;
        if number <= last || number > mark {
            return refused(23, at);
        }
        numbers.push(number);
        (last, at) = (number, next);
    }
    let (sets, offset) = number_at::<SHORT>(bytes, at)?;
    match sets {
        0 => refused(2, at),
        1..=12_870 => Ok(Record {
            mark,
            numbers,
            sets: sets as usize,
            offset,
            length: 0,
        }),
        _ => refused(3, at),
    }
}

/// Marks the sets up to the first that is refused for itself, and gives the position behind the last.
fn mark_sets(
    bytes: &[u8],
    n: usize,
    record: &Record,
    listed: &mut Words,
) -> Result<usize, Refusal> {
    let (mut at, mut last) = (record.offset, 0);
    for _ in 0..record.sets {
        let (set, next) = number_at::<SHORT>(bytes, at)?;
        if set >> n != 0 {
            return refused(4, at);
        }
        if set == 0 {
            return refused(5, at);
        }
        if set <= last {
            return refused(24, at);
        }
        listed[set as usize / 64] |= 1 << (set % 64);
        (at, last) = (next, set);
    }
    Ok(at)
}

/// Where the first set stands that holds an earlier one; there is one.
fn first_holding(bytes: &[u8], n: usize, record: &Record, works: &Words) -> usize {
    let is_path = |set: u64| works[set as usize / 64] >> (set % 64) & 1 == 1;
    let mut at = record.offset;
    while let Ok((set, next)) = number_at::<SHORT>(bytes, at) {
        if (0..n).any(|i| set >> i & 1 == 1 && is_path(set ^ 1 << i)) {
            break;
        }
        at = next;
    }
    at
}
