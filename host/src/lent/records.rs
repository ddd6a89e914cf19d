//! Records into lent buffers, and what reading hands out without a vector.

use super::of_bytes;
use crate::declared::{
    nahokipe_entered_record, nahokipe_first_record, nahokipe_next_set, nahokipe_record_at,
    nahokipe_table_of_record, nahokipe_whole_record, RecordAnswer, StepAnswer,
};
use crate::Refusal;

/// The same as [`crate::whole_record`], and what is handed out beside a refusal.
pub fn whole_record_answer(bytes: &[u8]) -> RecordAnswer {
    unsafe { nahokipe_whole_record(bytes.as_ptr(), bytes.len()) }
}

/// The same as [`crate::record_at`], and what is handed out beside a refusal.
pub fn record_at_answer(bytes: &[u8], start: usize) -> RecordAnswer {
    unsafe { nahokipe_record_at(bytes.as_ptr(), bytes.len(), start) }
}

/// The same as [`crate::next_set`], and what is handed out at the end.
pub fn step_answer(bytes: &[u8], next: usize, left: usize) -> StepAnswer {
    unsafe { nahokipe_next_set(bytes.as_ptr(), bytes.len(), next, left) }
}

/// The table of a record, into `table`: the number of bytes written.
pub fn table_of_record(bytes: &[u8], table: &mut [u8]) -> Result<usize, Refusal> {
    of_bytes(nahokipe_table_of_record, bytes, table)
}

/// A first record of a list of sets, with part numbers 1 to n and mark n, into `buffer`: the number of bytes written.
pub fn first_record(n: usize, list: &[u16], buffer: &mut [u8]) -> Result<usize, Refusal> {
    let (room, length) = (buffer.as_mut_ptr(), buffer.len());
    unsafe { nahokipe_first_record(n, list.as_ptr(), list.len(), room, length) }.given()
}

/// A record of parts that have these numbers already, by position, with this mark and the minimal sets of a list of sets of positions, into
/// `buffer`: the number of bytes written.
pub fn entered_record(
    mark: u64,
    numbers: &[u64],
    list: &[u16],
    buffer: &mut [u8],
) -> Result<usize, Refusal> {
    let answer = unsafe {
        nahokipe_entered_record(
            mark,
            numbers.as_ptr(),
            numbers.len(),
            list.as_ptr(),
            list.len(),
            buffer.as_mut_ptr(),
            buffer.len(),
        )
    };
    answer.given()
}
