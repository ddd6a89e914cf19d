//! What a good Rust program does for the report: the record is read with 64 sets to a word, its figures are counted by instruction, and the
//! text is formatted where it goes.

use super::closing::store;
use super::figures::fill;
use super::records::{read, Read};
use super::table::{refused, table_length};
use nahokipe::Refusal;
use std::io::Write;

/// The text of an accepted record, and its table.
pub fn report(bytes: &[u8], table: &mut [u8], text: &mut [u8]) -> Result<usize, Refusal> {
    let read = read(bytes)?;
    let needed = table_length(read.record.numbers.len());
    if table.len() < needed {
        return refused(11, needed);
    }
    let said = said(&read);
    if text.len() < said.len() {
        return refused(11, said.len());
    }
    store(&read.works, &mut table[..needed]);
    text[..said.len()].copy_from_slice(&said);
    Ok(said.len())
}

/// What the program prints for an input.
pub fn printed(bytes: &[u8]) -> Vec<u8> {
    match read(bytes) {
        Ok(read) => said(&read),
        Err(refusal) => format!("{refusal}\n").into_bytes(),
    }
}

fn said(read: &Read) -> Vec<u8> {
    let record = &read.record;
    let n = record.numbers.len();
    let (mut counts, mut domination) = ([0; 17], [0; 17]);
    let (mut signature, mut importance) = ([0; 16], [0; 16]);
    fill(
        n,
        &read.works,
        &mut counts,
        &mut signature,
        &mut domination,
        &mut importance,
    );
    let mut text = Vec::with_capacity(4_096);
    let mut line = |words: std::fmt::Arguments| {
        // Writing to memory cannot fail.
        text.write_fmt(words).unwrap_or(());
        text.push(b'\n');
    };
    let (sets, mark) = (record.sets, record.mark);
    line(format_args!("parts {n} sets {sets} mark {mark}"));
    for k in 1..=n {
        line(format_args!("order {k} {}", signature[k - 1]));
    }
    for k in 1..=n {
        line(format_args!("dom {k} {}", domination[k]));
    }
    for (number, count) in record.numbers.iter().zip(importance) {
        line(format_args!("part {number} {count}"));
    }
    text
}
