//! Sheets as people keep them: written by the library as it was, and not made anew.

use crate::naive_vectors::{Vector, TAIL};

/// A sheet's bytes, and the vector that was saved in it.
pub type Stored = (Vec<u8>, Vector);

/// The tail sheets that were written while tails were still saved as such.
pub fn tail_sheets() -> Vec<Stored> {
    let lines = include_str!("../tail_sheets.txt").lines();
    lines
        .filter(|line| !line.starts_with('#'))
        .map(stored_tail)
        .collect()
}

/// A line: the bytes in hexadecimal, and the entries behind them.
fn stored_tail(line: &str) -> Stored {
    let mut words = line.split(' ');
    let digits = words.next().expect("a sheet").as_bytes();
    let entries = words.map(|word| word.parse().expect("an entry"));
    let entries: Vec<i64> = entries.collect();
    let vector = Vector {
        kind: TAIL,
        n: entries.len() - 1,
        entries,
    };
    (digits.chunks(2).map(byte).collect(), vector)
}

/// The byte of two hexadecimal digits.
fn byte(digits: &[u8]) -> u8 {
    let digits = str::from_utf8(digits).expect("two digits");
    u8::from_str_radix(digits, 16).expect("hexadecimal digits")
}
