//! What a good Rust program does for edition 2 of a record: the numbers behind the sets are read one after the other, and path sets are
//! counted by instruction, 64 to a word.

use super::numbers::number_at;
use super::records::{LONG, SHORT};
use super::sizes::path_counts;
use super::table::{refused, Words};
use nahokipe::{Record, Refusal};

/// The most retired numbers.
const MOST: usize = 64;

/// The retired numbers at a position, and the position behind the path counts, which are those of the structure.
pub fn read_tail(
    bytes: &[u8],
    start: usize,
    record: &Record,
    works: &Words,
) -> Result<(Vec<u64>, usize), Refusal> {
    let (retired, mut at) = read_retired(bytes, start, record)?;
    for &fresh in &path_counts(works)[..=record.numbers.len()] {
        let (count, next) = number_at::<SHORT>(bytes, at)?;
        if count != fresh {
            return refused(31, at);
        }
        at = next;
    }
    Ok((retired, at))
}

/// The retired numbers at a position, and the position behind them.
fn read_retired(bytes: &[u8], start: usize, record: &Record) -> Result<(Vec<u64>, usize), Refusal> {
    let (count, mut at) = number_at::<SHORT>(bytes, start)?;
    if count > MOST as u64 {
        return refused(30, start);
    }
    let mut retired = Vec::with_capacity(MOST);
    let mut last = 0;
    for _ in 0..count {
        let (number, next) = number_at::<LONG>(bytes, at)?;
        if number <= last || number > record.mark || record.numbers.contains(&number) {
            return refused(30, at);
        }
        retired.push(number);
        (last, at) = (number, next);
    }
    Ok((retired, at))
}

/// The numbers behind the sets: how many are retired, these, and the path counts of n parts.
pub fn tail(n: usize, retired: &[u64], works: &Words) -> Vec<u64> {
    let count = [retired.len() as u64];
    let counts = &path_counts(works)[..=n];
    [&count, retired, counts].concat()
}

/// The retired numbers with those of a group's parts, of which the highest 64 stay.
pub fn filed(record: &Record, retired: &[u64], group: u16) -> Vec<u64> {
    let mut filed = retired.to_vec();
    let places = (0..record.numbers.len()).filter(|i| group >> i & 1 == 1);
    filed.extend(places.map(|i| record.numbers[i]));
    filed.sort_unstable();
    filed.split_off(filed.len().saturating_sub(MOST))
}
