//! What edition 2 of a record adds, a second time, from the words of document 02's §8 alone: the bytes 00 02 in front; behind the sets the
//! retired numbers and the path counts, which are counted afresh one set after the other; filing by sorting; and the conversions.
//!
//! Nothing here is shared with the calculator; the tests compare the two.

use crate::naive::{refused, structure_of, table_of_list};
use crate::naive_bytes::{numbers_bytes, Field};
use crate::naive_figures::size;
use crate::naive_records::{record_at, record_bytes, record_numbers, whole_record};
use crate::naive_records::{Plain, Reader, Reading};
use nahokipe::Refusal;

/// The most retired numbers that a record keeps.
pub const MOST_RETIRED: usize = 64;

// ---- reading

/// A count and as many retired numbers: 30 at a count over 64, and else at a number that is 0, does not rise, is above the mark or in use.
pub(crate) fn read_retired(reader: &mut Reader, plain: &Plain) -> Result<Vec<u64>, Refusal> {
    let (count, first) = reader.number(Field::COUNT)?;
    if count > MOST_RETIRED as u128 {
        return refused(30, first);
    }
    let mut retired: Vec<u64> = Vec::new();
    for _ in 0..count {
        let (number, first) = reader.number(Field::PART_NUMBER)?;
        let number = number as u64;
        let rises = retired.iter().all(|&earlier| earlier < number);
        let in_use = plain.numbers.contains(&number);
        if number == 0 || !rises || number > plain.mark || in_use {
            return refused(30, first);
        }
        retired.push(number);
    }
    Ok(retired)
}

/// The path counts: 31 at the first that is not the fresh count.
pub(crate) fn read_counts(reader: &mut Reader, plain: &Plain) -> Result<(), Refusal> {
    for fresh in fresh_counts(plain) {
        let (count, first) = reader.number(Field::COUNT)?;
        if count != fresh {
            return refused(31, first);
        }
    }
    Ok(())
}

/// φ(0) to φ(n), counted set by set: how many path sets have so many parts.
pub fn fresh_counts(plain: &Plain) -> Vec<u128> {
    let n = plain.numbers.len();
    let table = table_of_list(n, &plain.sets).expect("a list of n parts");
    let mut counts = vec![0; n + 1];
    for (set, works) in structure_of(n, &table).into_iter().enumerate() {
        if works {
            counts[size(set)] += 1;
        }
    }
    counts
}

/// 1 or 2, or the record's refusal.
pub fn edition(bytes: &[u8]) -> Result<u8, Refusal> {
    let retired = whole_record(bytes)?.retired;
    Ok(if retired.is_some() { 2 } else { 1 })
}

/// The retired numbers, none of edition 1, or the record's refusal.
pub fn retired(bytes: &[u8]) -> Result<Vec<u64>, Refusal> {
    Ok(whole_record(bytes)?.retired.unwrap_or_default())
}

/// Where the record at a position ends, or its refusal.
pub fn record_end(bytes: &[u8], start: usize) -> Result<usize, Refusal> {
    Ok(record_at(bytes, start)?.behind)
}

// ---- writing

/// The numbers of a record of edition 2, one behind the other, whatever it is worth: 0 and 2 take one byte each.
pub fn edition_2_numbers(plain: &Plain, retired: &[u64]) -> Vec<u128> {
    let count = [retired.len() as u128];
    let retired = retired.iter().map(|&number| number as u128);
    [0, 2]
        .into_iter()
        .chain(record_numbers(plain))
        .chain(count)
        .chain(retired)
        .chain(fresh_counts(plain))
        .collect()
}

/// The bytes of a record of edition 2.
pub fn edition_2_bytes(plain: &Plain, retired: &[u64]) -> Vec<u8> {
    numbers_bytes(edition_2_numbers(plain, retired))
}

/// The retired numbers and those that left, rising: where there are over 64, the highest 64.
pub fn filed(retired: &[u64], left: &[u64]) -> Vec<u64> {
    let mut all = [retired, left].concat();
    all.sort_unstable();
    let dropped = all.len().saturating_sub(MOST_RETIRED);
    all.split_off(dropped)
}

// ---- converting

/// The record of edition 1: the record's refusal, and then 32 if there are retired numbers.
pub fn to_edition_1(bytes: &[u8]) -> Result<Vec<u8>, Refusal> {
    let Reading { plain, retired, .. } = whole_record(bytes)?;
    match retired {
        Some(retired) if !retired.is_empty() => refused(32, 0),
        _ => Ok(record_bytes(&plain)),
    }
}

/// The record of edition 2, with the retired numbers that it has already or with none; or the record's refusal.
pub fn to_edition_2(bytes: &[u8]) -> Result<Vec<u8>, Refusal> {
    let Reading { plain, retired, .. } = whole_record(bytes)?;
    Ok(edition_2_bytes(&plain, &retired.unwrap_or_default()))
}
