//! The drawing tool's text a second time, from the words of document 02's §1 alone: a reader that takes a line apart at its spaces and leaves
//! numbers as the digits that they are, and a writer that joins words.
//!
//! Nothing here is shared with the calculator; the tests compare the two.

use crate::naive::{has, refused};
use crate::naive_records::{first_record, whole_record, Plain};
use nahokipe::Refusal;
use std::collections::BTreeSet;

/// The line that is one too many, whatever stands on it.
const LINE_TOO_MANY: usize = 12_872;

// ---- reading

/// What a text says: how many parts there are, and a set for each of its set lines, in their order.
#[derive(Clone, Debug, PartialEq, Eq)]
pub struct Drawing {
    pub parts: usize,
    pub sets: Vec<u16>,
}

/// What a text says, or its first refusal, line by line.
pub fn drawing(text: &[u8]) -> Result<Drawing, Refusal> {
    let mut lines = text.split_inclusive(|&byte| byte == b'\n');
    let parts = parts_on(lines.next().unwrap_or_default())?;
    let mut sets = Vec::new();
    for (line, place) in lines.zip(2..) {
        if place == LINE_TOO_MANY {
            return refused(3, place);
        }
        sets.push(set_on(line, parts, place)?);
    }
    if sets.is_empty() {
        return refused(2, 1);
    }
    Ok(Drawing { parts, sets })
}

/// The record of a text: part numbers 1 to n, mark n, the minimal sets; or the text's refusal.
pub fn record_of_drawing(text: &[u8]) -> Result<Vec<u8>, Refusal> {
    let Drawing { parts, sets } = drawing(text)?;
    first_record(parts, &sets)
}

/// The number of parts on line 1: 27, and then 1.
fn parts_on(line: &[u8]) -> Result<usize, Refusal> {
    match numbers_behind("parts", line).as_deref() {
        Some(&[digits]) => number_up_to(16, digits).map_or(refused(1, 1), Ok),
        _ => refused(27, 1),
    }
}

/// The set on a later line: 27, 17 for all of its positions, and then 28.
fn set_on(line: &[u8], parts: usize, place: usize) -> Result<u16, Refusal> {
    let Some(numbers) = numbers_behind("set", line) else {
        return refused(27, place);
    };
    let count = numbers.len();
    let positions = numbers
        .into_iter()
        .map(|digits| number_up_to(parts, digits));
    let Some(different) = positions.collect::<Option<BTreeSet<usize>>>() else {
        return refused(17, place);
    };
    if different.len() < count {
        return refused(28, place);
    }
    Ok(different.iter().map(|position| 1 << (position - 1)).sum())
}

/// The digits of each number on a line that has a word, numbers with one space in front of each, and a line feed; none where the line
/// is of another form.
fn numbers_behind<'a>(word: &str, line: &'a [u8]) -> Option<Vec<&'a [u8]>> {
    let words = line.strip_suffix(b"\n")?;
    let numbers = words.strip_prefix(word.as_bytes())?.strip_prefix(b" ")?;
    let numbers: Vec<&[u8]> = numbers.split(|&byte| byte == b' ').collect();
    let are_numbers = numbers.iter().all(|digits| is_number(digits));
    are_numbers.then_some(numbers)
}

/// Whether this is a decimal number without a leading zero; 0 itself is one.
fn is_number(digits: &[u8]) -> bool {
    let leads_with_zero = digits.len() > 1 && digits[0] == b'0';
    !digits.is_empty() && !leads_with_zero && digits.iter().all(u8::is_ascii_digit)
}

/// The number that the digits stand for, if it is 1 to `most`, which is below 100: without a leading zero three digits or more are at
/// least 100, however many they are.
fn number_up_to(most: usize, digits: &[u8]) -> Option<usize> {
    let digit = |byte: u8| (byte - b'0') as usize;
    let number = match *digits {
        [ones] => digit(ones),
        [tens, ones] => 10 * digit(tens) + digit(ones),
        _ => return None,
    };
    (1..=most).contains(&number).then_some(number)
}

// ---- writing

/// The text of a record, or the record's refusal.
pub fn drawing_of_record(bytes: &[u8]) -> Result<Vec<u8>, Refusal> {
    let plain = whole_record(bytes)?.plain;
    Ok(text(&plain).into_bytes())
}

/// The number of parts and a line for each set. A record has its sets ascending; the positions of each are taken from the lowest up.
fn text(plain: &Plain) -> String {
    let mut text = format!("parts {}\n", plain.numbers.len());
    for &set in &plain.sets {
        let positions = (1..=16).filter(|position| has(set as usize, position - 1));
        let words: Vec<String> = positions.map(|position| position.to_string()).collect();
        text += &format!("set {}\n", words.join(" "));
    }
    text
}
