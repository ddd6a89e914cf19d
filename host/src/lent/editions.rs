//! Retired part numbers, and records as those of the other edition, into lent buffers.

use super::of_bytes;
use crate::declared::{nahokipe_retired, nahokipe_to_edition_1, nahokipe_to_edition_2};
use crate::Refusal;

/// The retired part numbers of a record, rising, into `numbers`: how many were written, none of edition 1.
pub fn retired(bytes: &[u8], numbers: &mut [u64]) -> Result<usize, Refusal> {
    let (room, length) = (numbers.as_mut_ptr(), numbers.len());
    unsafe { nahokipe_retired(bytes.as_ptr(), bytes.len(), room, length) }.given()
}

/// The record as one of edition 1, which has no place for retired numbers, into `buffer`: the number of bytes written. A buffer as long as
/// the record is enough.
pub fn to_edition_1(bytes: &[u8], buffer: &mut [u8]) -> Result<usize, Refusal> {
    of_bytes(nahokipe_to_edition_1, bytes, buffer)
}

/// The record as one of edition 2, into `buffer`: the number of bytes written.
pub fn to_edition_2(bytes: &[u8], buffer: &mut [u8]) -> Result<usize, Refusal> {
    of_bytes(nahokipe_to_edition_2, bytes, buffer)
}
