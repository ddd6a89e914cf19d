//! What a good Rust program does to take parts out of a record: the record is read with 64 sets to a word, those without the parts are
//! found a word at a time, and the new record is written where it goes.

use super::closing::carry;
use super::editions::{filed, tail};
use super::numbers::{number_length, write_number};
use super::records::{read, Read};
use super::table::{refused, WITHOUT};
use nahokipe::Refusal;

/// The record without the part at a position.
pub fn take_out(bytes: &[u8], position: usize, buffer: &mut [u8]) -> Result<usize, Refusal> {
    let read = read(bytes)?;
    if !(1..=read.record.numbers.len()).contains(&position) {
        return refused(17, 0);
    }
    write_without(&read, 1 << (position - 1), buffer)
}

/// The record without the parts of a group.
pub fn take_out_group(bytes: &[u8], group: usize, buffer: &mut [u8]) -> Result<usize, Refusal> {
    let read = read(bytes)?;
    if group == 0 {
        return refused(15, 0);
    }
    if group >> read.record.numbers.len() != 0 {
        return refused(16, 0);
    }
    write_without(&read, group as u16, buffer)
}

/// Writes what is left without these parts, where a set is left and there is room for all of it.
fn write_without(read: &Read, group: u16, buffer: &mut [u8]) -> Result<usize, Refusal> {
    let sets = sets_left(read, group);
    if sets.is_empty() {
        return refused(18, 0);
    }
    let head = head_left(read, group, sets.len());
    let tail = tail_left(read, group, &sets);
    let length = |numbers: &[u64]| -> usize { numbers.iter().map(|&one| number_length(one)).sum() };
    let sets_length: usize = sets.iter().map(|&set| number_length(set as u64)).sum();
    let needed = length(&head) + sets_length + length(&tail);
    if buffer.len() < needed {
        return refused(11, needed);
    }
    let mut at = 0;
    for number in head {
        at += write_number(number, &mut buffer[at..]);
    }
    for set in sets {
        at += write_number(set as u64, &mut buffer[at..]);
    }
    for number in tail {
        at += write_number(number, &mut buffer[at..]);
    }
    Ok(needed)
}

/// Of edition 2 the retired numbers with those that leave, and the path counts of the sets that are left; of edition 1 nothing.
fn tail_left(read: &Read, group: u16, sets: &[u16]) -> Vec<u64> {
    let Some(retired) = &read.retired else {
        return Vec::new();
    };
    let n = read.record.numbers.len() - group.count_ones() as usize;
    let mut works = Box::new([0; 1024]);
    for &set in sets {
        works[set as usize / 64] |= 1 << (set % 64);
    }
    carry(n, &mut works);
    tail(n, &filed(&read.record, retired, group), &works)
}

/// Of edition 2 the numbers 0 and 2, and then the number of parts, the mark, the part numbers and the count of sets.
fn head_left(read: &Read, group: u16, sets: usize) -> Vec<u64> {
    let record = &read.record;
    let mut head = Vec::with_capacity(21);
    if read.retired.is_some() {
        head.extend([0, 2]);
    }
    head.extend([
        record.numbers.len() as u64 - group.count_ones() as u64,
        record.mark,
    ]);
    for (i, &number) in record.numbers.iter().enumerate() {
        if group >> i & 1 == 0 {
            head.push(number);
        }
    }
    head.push(sets as u64);
    head
}

/// The sets that name none of these parts, with their own moved down, which leaves the sets ascending.
fn sets_left(read: &Read, group: u16) -> Vec<u16> {
    let low_parts = (0..6).filter(|i| group >> i & 1 == 1);
    let without = low_parts.fold(u64::MAX, |without, i| without & WITHOUT[i]);
    let mut sets = Vec::with_capacity(read.record.sets);
    for (index, word) in read.listed.iter().enumerate() {
        let first = 64 * index as u16;
        if first & group != 0 {
            continue;
        }
        let mut left = word & without;
        while left != 0 {
            let set = first + left.trailing_zeros() as u16;
            sets.push(moved_down(set, group));
            left &= left - 1;
        }
    }
    sets
}

/// The set with its parts moved down past each that leaves, from the highest of these on.
#[inline(always)]
fn moved_down(set: u16, group: u16) -> u16 {
    let (mut moved, mut leaving) = (set, group);
    while leaving != 0 {
        let highest = 1 << leaving.ilog2();
        let below = highest - 1;
        moved = moved & below | moved >> 1 & !below;
        leaving ^= highest;
    }
    moved
}
