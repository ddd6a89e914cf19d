//! Changes of records into lent buffers.

use super::of_bytes;
use crate::declared::{
    nahokipe_add_part, nahokipe_add_set, nahokipe_add_set_of_parts, nahokipe_take_out,
    nahokipe_take_out_group, nahokipe_take_out_part, nahokipe_take_out_parts, OfWanted,
};
use crate::Refusal;

/// The record with one part more, which is in no set and has the part number above the mark, into `buffer`: the number of bytes written.
pub fn add_part(bytes: &[u8], buffer: &mut [u8]) -> Result<usize, Refusal> {
    of_bytes(nahokipe_add_part, bytes, buffer)
}

/// The record without the part that has this number, which is held failed, into `buffer`: the number of bytes written. A buffer as long as
/// the record is enough.
pub fn take_out_part(bytes: &[u8], number: u64, buffer: &mut [u8]) -> Result<usize, Refusal> {
    let (room, length) = (buffer.as_mut_ptr(), buffer.len());
    unsafe { nahokipe_take_out_part(bytes.as_ptr(), bytes.len(), number, room, length) }.given()
}

/// The record without the parts that have these numbers, which are all held failed, into `buffer`: the number of bytes written. A buffer as
/// long as the record is enough.
pub fn take_out_parts(bytes: &[u8], wanted: &[u64], buffer: &mut [u8]) -> Result<usize, Refusal> {
    of_wanted(nahokipe_take_out_parts, bytes, wanted, buffer)
}

/// The record with one path set more, that of the parts that have these numbers, into `buffer`: the number of bytes written.
pub fn add_set_of_parts(bytes: &[u8], wanted: &[u64], buffer: &mut [u8]) -> Result<usize, Refusal> {
    of_wanted(nahokipe_add_set_of_parts, bytes, wanted, buffer)
}

/// The record without the part at a position, which is held failed, into `buffer`: the number of bytes written. A position is not a part
/// number: [`take_out_part`] takes that.
pub fn take_out(bytes: &[u8], position: usize, buffer: &mut [u8]) -> Result<usize, Refusal> {
    let (room, length) = (buffer.as_mut_ptr(), buffer.len());
    unsafe { nahokipe_take_out(bytes.as_ptr(), bytes.len(), position, room, length) }.given()
}

/// The record without the parts of a group, a mask of its positions, which are all held failed, into `buffer`: the number of bytes written.
/// Positions are not part numbers: [`take_out_parts`] takes those.
pub fn take_out_group(bytes: &[u8], group: usize, buffer: &mut [u8]) -> Result<usize, Refusal> {
    let (room, length) = (buffer.as_mut_ptr(), buffer.len());
    unsafe { nahokipe_take_out_group(bytes.as_ptr(), bytes.len(), group, room, length) }.given()
}

/// The record with one path set more, a mask of its positions, into `buffer`: the number of bytes written. Positions are not part numbers:
/// [`add_set_of_parts`] takes those.
pub fn add_set(bytes: &[u8], set: u16, buffer: &mut [u8]) -> Result<usize, Refusal> {
    let (room, length) = (buffer.as_mut_ptr(), buffer.len());
    unsafe { nahokipe_add_set(bytes.as_ptr(), bytes.len(), set, room, length) }.given()
}

/// What a call writes that works on a record and wanted part numbers.
fn of_wanted(
    call: OfWanted,
    bytes: &[u8],
    wanted: &[u64],
    buffer: &mut [u8],
) -> Result<usize, Refusal> {
    let answer = unsafe {
        call(
            bytes.as_ptr(),
            bytes.len(),
            wanted.as_ptr(),
            wanted.len(),
            buffer.as_mut_ptr(),
            buffer.len(),
        )
    };
    answer.given()
}
