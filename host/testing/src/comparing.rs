//! What a call leaves of a lent buffer, compared cell by cell, changes of records and saved vectors among them, and what is handed out of a
//! record.

use crate::naive;
use crate::naive_blocks::Assembly;
use crate::naive_records::{self as by_words, Change, Reading};
use crate::naive_vectors::{self, KINDS, NO_KINDS, SAVED_KINDS};
use nahokipe::lent::{add_part, add_set, add_set_of_parts, joint_signature, RecordAnswer};
use nahokipe::lent::{path_counts_of_blocks, MOST_ENTRIES, MOST_RETIRED};
use nahokipe::lent::{retired, save_sheet, save_sheet_as, whole_record_answer};
use nahokipe::lent::{table_of_pattern, take_out, take_out_group, take_out_part, take_out_parts};
use nahokipe::{edition, record_end, Pattern, Refusal};
use std::collections::BTreeSet;
use std::fmt::Debug;

/// What a call left: its answer, and the lent buffer afterwards.
pub type Left<T> = (Result<usize, Refusal>, Vec<T>);

pub fn same<T: PartialEq + Debug>(found: Left<T>, expected: Left<T>, about: impl Fn() -> String) {
    assert_eq!(found.0, expected.0, "{}", about());
    assert_eq!(found.1.len(), expected.1.len());
    let other = (0..found.1.len()).find(|&i| found.1[i] != expected.1[i]);
    if let Some(i) = other {
        let (found, expected) = (&found.1[i], &expected.1[i]);
        panic!("cell {i} is {found:?} and not {expected:?}, {}", about());
    }
}

/// Buffers that are empty, one shorter than needed, exact, and longer; around `enough` where the call is refused. Each is filled with
/// one pattern and with its opposite, so that a cell that is written shows in one of them.
pub fn buffers<T: Copy>(
    result: &Result<Vec<T>, Refusal>,
    enough: usize,
    patterns: [T; 2],
) -> Vec<Vec<T>> {
    let needed = result.as_ref().map_or(enough, Vec::len);
    let lengths = [0, needed - 1, needed, needed + 1, needed + 9];
    let filled = |length| patterns.map(|cell| vec![cell; length]);
    lengths.into_iter().flat_map(filled).collect()
}

/// What buffers of 64-bit numbers are filled with: a pattern and its opposite.
const NUMBERS: [u64; 2] = [0x5A5A_5A5A_5A5A_5A5A, !0x5A5A_5A5A_5A5A_5A5A];

/// The same for part numbers. Where none is given, a buffer without cells is long enough.
pub fn buffers_of_numbers(result: &Result<Vec<u64>, Refusal>, enough: usize) -> Vec<Vec<u64>> {
    match result {
        Ok(numbers) if numbers.is_empty() => {
            [0, 1, 9].map(|length| vec![NUMBERS[0]; length]).into()
        }
        _ => buffers(result, enough, NUMBERS),
    }
}

/// What a call leaves of buffers of every length that matters, around `enough` cells where it is refused.
fn same_in_buffers<T: Copy + PartialEq + Debug>(
    call: impl Fn(&mut [T]) -> Result<usize, Refusal>,
    expected: &Result<Vec<T>, Refusal>,
    (enough, patterns): (usize, [T; 2]),
    about: impl Fn() -> String,
) {
    for before in buffers(expected, enough, patterns) {
        let mut after = before.clone();
        let answer = call(&mut after);
        let expected = naive::delivered(expected, &before);
        same((answer, after), expected, &about);
    }
}

/// A call that makes a table of a list of sets.
pub type OfList = fn(usize, &[u16], &mut [u8]) -> Result<usize, Refusal>;

/// A call on a list, into buffers of every length that matters.
pub fn same_of_list(call: OfList, (n, list): (usize, &[u16]), expected: &Result<Vec<u8>, Refusal>) {
    let call = |table: &mut [u8]| call(n, list, table);
    same_in_buffers(call, expected, table_cells(n), || about_list(n, list));
}

/// A stock pattern of n parts with its number k, into buffers of every length that matters.
pub fn same_of_pattern(
    (pattern, n, k): (Pattern, usize, usize),
    expected: &Result<Vec<u8>, Refusal>,
) {
    let call = |table: &mut [u8]| table_of_pattern(pattern, n, k, table);
    let about = || format!("{pattern:?}, n = {n}, k = {k}");
    same_in_buffers(call, expected, table_cells(n), about);
}

/// As many bytes as a table of n parts has, and the patterns that they are filled with.
fn table_cells(n: usize) -> (usize, [u8; 2]) {
    (naive::table_length(n.min(16)), [0xA5, 0x5A])
}

/// A call that works on a table and fills one buffer.
pub type OfTable<T> = fn(usize, &[u8], &mut [T]) -> Result<usize, Refusal>;

/// A call on a table, into buffers of every length that matters.
pub fn same_of_table<T: Copy + PartialEq + Debug>(
    call: OfTable<T>,
    (n, table): (usize, &[u8]),
    expected: &Result<Vec<T>, Refusal>,
    cells: (usize, [T; 2]),
) {
    let call = |buffer: &mut [T]| call(n, table, buffer);
    same_in_buffers(call, expected, cells, || about_table(n, table));
}

/// A call that lists some sets of a table, which are at most as many as a list can have.
pub fn same_sets_of_table(
    call: OfTable<u16>,
    (n, table): (usize, &[u8]),
    expected: &Result<Vec<u16>, Refusal>,
) {
    let enough = naive::MOST_SETS.min(1 << n.min(16));
    same_of_table(call, (n, table), expected, (enough, [0xA5A5, 0x5A5A]));
}

/// A call that makes another table of a table.
pub fn same_table_of_table(
    call: OfTable<u8>,
    (n, table): (usize, &[u8]),
    expected: &Result<Vec<u8>, Refusal>,
) {
    same_of_table(call, (n, table), expected, table_cells(n));
}

/// The joint signature of two tables over n parts, into buffers of every length that matters.
pub fn same_joint_signature(
    (n, first, second): (usize, &[u8], &[u8]),
    expected: &Result<Vec<u64>, Refusal>,
) {
    let call = |cells: &mut [u64]| joint_signature(n, first, second, cells);
    let enough = n.clamp(1, 16) * n.clamp(1, 16);
    same_in_buffers(call, expected, (enough, NUMBERS), || {
        about_two_tables(n, first, second)
    });
}

/// The path counts of a machine made of blocks, into buffers of every length that matters.
pub fn same_path_counts_of_blocks(assembly: &Assembly, expected: &Result<Vec<i64>, Refusal>) {
    let Assembly {
        blocks,
        table,
        sizes,
        vectors,
    } = assembly;
    let call = |cells: &mut [i64]| path_counts_of_blocks(*blocks, table, sizes, vectors, cells);
    let cells = (MOST_ENTRIES, NUMBERS.map(|number| number as i64));
    same_in_buffers(call, expected, cells, || about_assembly(assembly));
}

/// A vector saved, and saved as each kind and as no kind, into buffers of every length that matters: what saving it gives.
pub fn same_saved(kind: u8, n: usize, entries: &[i64]) -> Result<Vec<u8>, Refusal> {
    let about = || format!("kind {kind}, n = {n}, {entries:?}");
    let expected = naive_vectors::save_sheet(kind, n, entries);
    let call = |sheet: &mut [u8]| save_sheet(kind, n, entries, sheet);
    same_sheet(call, &expected, about);
    for target in KINDS.into_iter().chain(NO_KINDS) {
        let expected = naive_vectors::save_sheet_as(kind, n, entries, target);
        let call = |sheet: &mut [u8]| save_sheet_as(kind, n, entries, target, sheet);
        same_sheet(call, &expected, || format!("{}, as {target}", about()));
    }
    expected
}

/// A sheet that a call writes, which begins with 1, 3 or 4.
fn same_sheet(
    call: impl Fn(&mut [u8]) -> Result<usize, Refusal>,
    expected: &Result<Vec<u8>, Refusal>,
    about: impl Fn() -> String,
) {
    let call = |sheet: &mut [u8]| {
        let answer = call(sheet);
        let begins = answer.is_err() || SAVED_KINDS.contains(&sheet[0]);
        assert!(begins, "{:?}, {}", sheet.first(), about());
        answer
    };
    same_in_buffers(call, expected, (20, [0xA5, 0x5A]), &about);
}

/// A call that works on bytes and writes into a buffer.
pub type Call = fn(&[u8], &mut [u8]) -> Result<usize, Refusal>;

/// A call into one buffer: the answer, and every cell afterwards.
pub fn same_into(call: Call, bytes: &[u8], expected: &Result<Vec<u8>, Refusal>, before: Vec<u8>) {
    let mut after = before.clone();
    let answer = call(bytes, &mut after);
    same((answer, after), naive::delivered(expected, &before), || {
        let front = String::from_utf8_lossy(&bytes[..bytes.len().min(80)]);
        format!("{} bytes: {front:?}, {} lent", bytes.len(), before.len())
    });
}

/// The same into buffers of every length that matters.
pub fn same_into_all(call: Call, bytes: &[u8], expected: &Result<Vec<u8>, Refusal>) {
    for before in buffers(expected, 9, [0xA5, 0x5A]) {
        same_into(call, bytes, expected, before);
    }
}

/// What a call gives with a buffer that is always enough.
pub fn given(
    call: impl Fn(&[u8], &mut [u8]) -> Result<usize, Refusal>,
    bytes: &[u8],
    enough: usize,
) -> Result<Vec<u8>, Refusal> {
    let mut buffer = vec![0xA5; enough];
    let length = call(bytes, &mut buffer)?;
    buffer.truncate(length);
    Ok(buffer)
}

/// A change of a record, by the calculator.
pub fn make(change: Change, bytes: &[u8], buffer: &mut [u8]) -> Result<usize, Refusal> {
    match change {
        Change::AddPart => add_part(bytes, buffer),
        Change::TakeOut(position) => take_out(bytes, position, buffer),
        Change::TakeOutGroup(group) => take_out_group(bytes, group, buffer),
        Change::AddSet(set) => add_set(bytes, set, buffer),
        Change::TakeOutPart(number) => take_out_part(bytes, number, buffer),
        Change::TakeOutParts(wanted) => take_out_parts(bytes, wanted, buffer),
        Change::AddSetOfParts(wanted) => add_set_of_parts(bytes, wanted, buffer),
    }
}

/// A change into one buffer: the answer, every cell afterwards, and the buffer's front if the change is given.
pub fn same_change_into(
    (bytes, change): (&[u8], Change),
    expected: &Result<Vec<u8>, Refusal>,
    before: Vec<u8>,
) -> Result<Vec<u8>, Refusal> {
    let mut after = before.clone();
    let answer = make(change, bytes, &mut after);
    let about = || format!("{change:?} of {} bytes: {:02X?}", bytes.len(), front(bytes));
    let left = (answer, after.clone());
    same(left, naive::delivered(expected, &before), about);
    answer.map(|length| after[..length].to_vec())
}

/// A change into buffers of every length that matters: the new record.
pub fn same_change(bytes: &[u8], change: Change) -> Result<Vec<u8>, Refusal> {
    let expected = by_words::changed(bytes, change);
    for before in buffers(&expected, 9, [0xA5, 0x5A]) {
        same_change_into((bytes, change), &expected, before).ok();
    }
    expected
}

/// The first cells, for a message.
pub fn front<T>(cells: &[T]) -> &[T] {
    &cells[..cells.len().min(24)]
}

/// A list, for a message.
pub fn about_list(n: usize, list: &[u16]) -> String {
    format!("n = {n}, list of {}: {:?}", list.len(), front(list))
}

/// A table, for a message.
pub fn about_table(n: usize, table: &[u8]) -> String {
    format!("n = {n}, table of {}: {:02X?}", table.len(), front(table))
}

/// Two tables, for a message.
pub fn about_two_tables(n: usize, first: &[u8], second: &[u8]) -> String {
    let [first, second] = [first, second].map(|table| about_table(n, table));
    format!("{first}, beside {second}")
}

/// What a call was told of blocks, for a message.
pub fn about_assembly(assembly: &Assembly) -> String {
    let Assembly { sizes, vectors, .. } = assembly;
    let table = about_table(assembly.blocks, &assembly.table);
    format!("{table}, sizes {sizes:?}, vectors {vectors:?}")
}

/// What is handed out: all of an accepted record, and nothing beside a refusal.
pub fn handed_out(expected: &Result<Reading, Refusal>) -> RecordAnswer {
    match expected {
        Ok(Reading {
            plain, begin, end, ..
        }) => RecordAnswer {
            number: 0,
            value: 0,
            parts: plain.numbers.len(),
            mark: plain.mark,
            numbers: std::array::from_fn(|i| plain.numbers.get(i).copied().unwrap_or(0)),
            sets: plain.sets.len(),
            offset: *begin,
            length: end - begin,
        },
        Err(refusal) => RecordAnswer {
            number: refusal.number,
            value: refusal.place,
            parts: 0,
            mark: 0,
            numbers: [0; 16],
            sets: 0,
            offset: 0,
            length: 0,
        },
    }
}

/// All that is read of some bytes: the record with every cell of its answer, its edition, its retired numbers, where it is accepted into
/// buffers of every length that matters, and where it ends, which bytes that are left do not change.
pub fn same_reading(bytes: &[u8]) -> Result<Reading, Refusal> {
    let expected = by_words::whole_record(bytes);
    let about = || format!("{} bytes: {:02X?}", bytes.len(), front(bytes));
    let found = whole_record_answer(bytes);
    assert_eq!(found, handed_out(&expected), "{}", about());
    let retired_numbers = expected.clone().map(|reading| reading.retired);
    let number = retired_numbers.clone().map(|list| 1 + list.is_some() as u8);
    assert_eq!(edition(bytes), number, "{}", about());
    let numbers = retired_numbers.map(Option::unwrap_or_default);
    let rooms = match &numbers {
        Ok(_) => buffers_of_numbers(&numbers, MOST_RETIRED),
        Err(_) => vec![vec![0x5A; MOST_RETIRED]],
    };
    for before in rooms {
        let mut after = before.clone();
        let answer = retired(bytes, &mut after);
        same((answer, after), naive::delivered(&numbers, &before), about);
    }
    let end = match &expected {
        Ok(reading) => Ok(reading.behind),
        Err(Refusal { number: 25, place }) => Ok(*place),
        Err(refusal) => Err(*refusal),
    };
    assert_eq!(record_end(bytes, 0), end, "{}", about());
    expected
}

/// Two records cut off at every byte, and with every byte changed to each other value. Each is compared, which gives the number that refuses
/// it, if any; all refusals of reading are seen.
pub fn with_every_damage(compared: impl Fn(&[u8]) -> Option<u8>) {
    let bridge = [5, 5, 1, 2, 3, 4, 5, 4, 0x09, 0x0E, 0x12, 0x15];
    let seven = [7, 0xAC, 2, 1, 2, 3, 4, 5, 6, 7, 1, 0x70];
    let mut seen = BTreeSet::new();
    for record in [bridge, seven] {
        for index in 0..record.len() {
            assert_eq!(compared(&record[..index]), Some(21));
            for byte in 0..=255 {
                let mut changed = record;
                changed[index] = byte;
                seen.extend(compared(&changed));
            }
        }
    }
    assert_eq!(seen, BTreeSet::from([1, 2, 3, 4, 5, 21, 22, 23, 24, 25]));
}
