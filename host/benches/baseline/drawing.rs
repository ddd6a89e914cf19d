//! What a good Rust program does with the drawing tool's text: lines are read byte by byte, the minimal sets are found for all sets at once,
//! with 64 sets to a word, and lines are written where they go.

use super::closing::{carry, trimmed};
use super::numbers::{number_length, write_number};
use super::records::read;
use super::table::{refused, word_count, Words};
use nahokipe::Refusal;

/// The record of a text.
pub fn record_of_drawing(text: &[u8], buffer: &mut [u8]) -> Result<usize, Refusal> {
    let mut works = [0; 1024];
    let n = mark_lines(text, &mut works)?;
    carry(n, &mut works);
    let minimal = trimmed(n, &works);
    let used = &minimal[..word_count(n)];
    let count = used.iter().map(|word| word.count_ones() as usize).sum();
    let needed = 2 + n + number_length(count as u64) + sets_length(used);
    if buffer.len() < needed {
        return refused(11, needed);
    }
    write_record(n, count, used, &mut buffer[..needed]);
    Ok(needed)
}

/// The text of a record.
pub fn drawing_of_record(bytes: &[u8], buffer: &mut [u8]) -> Result<usize, Refusal> {
    let record = read(bytes)?.record;
    let n = record.numbers.len();
    let sets = &bytes[record.offset..record.offset + record.length];
    let first = format!("parts {n}\n");
    let needed = first.len() + Sets { bytes: sets }.map(line_length).sum::<usize>();
    if buffer.len() < needed {
        return refused(11, needed);
    }
    buffer[..first.len()].copy_from_slice(first.as_bytes());
    let mut at = first.len();
    for set in (Sets { bytes: sets }) {
        at += write_line(set, &mut buffer[at..]);
    }
    Ok(needed)
}

// ---- reading

/// Marks the sets of all lines, and gives the number of parts.
fn mark_lines(text: &[u8], listed: &mut Words) -> Result<usize, Refusal> {
    let mut lines = text.split_inclusive(|&byte| byte == b'\n');
    let Some(n) = lines.next().and_then(parts_on) else {
        return refused(27, 1);
    };
    if !(1..=16).contains(&n) {
        return refused(1, 1);
    }
    let mut place = 1;
    for line in lines {
        place += 1;
        if place == 12_872 {
            return refused(3, place);
        }
        match set_on(line, n) {
            Ok(set) => listed[set as usize / 64] |= 1 << (set % 64),
            Err(number) => return refused(number, place),
        }
    }
    match place {
        1 => refused(2, 1),
        _ => Ok(n),
    }
}

/// The number on the first line, if it is of that form.
fn parts_on(line: &[u8]) -> Option<usize> {
    let (number, rest) = number_before(line.strip_prefix(b"parts ")?)?;
    (rest == b"\n").then_some(number)
}

/// The set on a later line, or why there is none.
fn set_on(line: &[u8], n: usize) -> Result<u16, u8> {
    let Some(mut rest) = line.strip_prefix(b"set") else {
        return Err(27);
    };
    let (mut set, mut outside, mut twice) = (0, false, false);
    while let Some(behind) = rest.strip_prefix(b" ") {
        let Some((position, behind)) = number_before(behind) else {
            return Err(27);
        };
        if (1..=n).contains(&position) {
            let bit = 1 << (position - 1);
            twice |= set & bit != 0;
            set |= bit;
        } else {
            outside = true;
        }
        rest = behind;
    }
    let has_numbers = set != 0 || outside;
    match (rest == b"\n" && has_numbers, outside, twice) {
        (false, _, _) => Err(27),
        (true, true, _) => Err(17),
        (true, false, true) => Err(28),
        (true, false, false) => Ok(set),
    }
}

/// The number in front and what is behind it, if it has no leading zero; a very large one is the largest that there is.
#[inline(always)]
fn number_before(bytes: &[u8]) -> Option<(usize, &[u8])> {
    let (mut number, mut digits) = (0_usize, 0);
    while let Some(byte @ b'0'..=b'9') = bytes.get(digits) {
        let digit = (byte - b'0') as usize;
        number = number.saturating_mul(10).saturating_add(digit);
        digits += 1;
    }
    let is_shortest = digits == 1 || digits > 1 && bytes[0] != b'0';
    is_shortest.then(|| (number, &bytes[digits..]))
}

// ---- writing a record

/// The bytes of all sets: 64 to a word, of which all have the same length.
fn sets_length(words: &[u64]) -> usize {
    let length = |(index, word): (usize, &u64)| {
        word.count_ones() as usize * number_length(64 * index as u64)
    };
    words.iter().enumerate().map(length).sum()
}

/// n, the mark n, the part numbers 1 to n, the count and the sets, ascending.
fn write_record(n: usize, count: usize, minimal: &[u64], buffer: &mut [u8]) {
    buffer[0] = n as u8;
    buffer[1] = n as u8;
    for (cell, number) in buffer[2..].iter_mut().zip(1..=n as u8) {
        *cell = number;
    }
    let mut at = 2 + n;
    at += write_number(count as u64, &mut buffer[at..]);
    for (index, &word) in minimal.iter().enumerate() {
        let mut left = word;
        while left != 0 {
            let set = 64 * index as u64 + left.trailing_zeros() as u64;
            at += write_number(set, &mut buffer[at..]);
            left &= left - 1;
        }
    }
}

// ---- writing a text

/// The sets in the bytes of an accepted record that carry them.
struct Sets<'a> {
    bytes: &'a [u8],
}

impl Iterator for Sets<'_> {
    type Item = u16;

    #[inline(always)]
    fn next(&mut self) -> Option<u16> {
        let mut set = 0;
        for (group, &byte) in self.bytes.iter().enumerate() {
            set |= ((byte & 0x7F) as u32) << (7 * group);
            if byte < 0x80 {
                self.bytes = &self.bytes[group + 1..];
                return Some(set as u16);
            }
        }
        None
    }
}

/// `set`, a space and a digit for each position, one digit more for those from 10 on, and a line feed.
fn line_length(set: u16) -> usize {
    4 + 2 * set.count_ones() as usize + (set >> 9).count_ones() as usize
}

/// The line of a set: how many bytes it takes.
#[inline(always)]
fn write_line(set: u16, buffer: &mut [u8]) -> usize {
    let line = &mut buffer[..line_length(set)];
    line[..3].copy_from_slice(b"set");
    let (mut at, mut left) = (3, set);
    while left != 0 {
        let position = left.trailing_zeros() as u8 + 1;
        line[at] = b' ';
        at += 1;
        if position >= 10 {
            line[at] = b'1';
            at += 1;
        }
        line[at] = b'0' + position % 10;
        at += 1;
        left &= left - 1;
    }
    line[at] = b'\n';
    at + 1
}
