//! The drawing tool's texts into lent buffers.

use super::of_bytes;
use crate::declared::{nahokipe_drawing_of_record, nahokipe_record_of_drawing};
use crate::Refusal;

/// The record of a drawing tool's text, with part numbers 1 to n and mark n, into `buffer`: the number of bytes written.
pub fn record_of_drawing(text: &[u8], buffer: &mut [u8]) -> Result<usize, Refusal> {
    of_bytes(nahokipe_record_of_drawing, text, buffer)
}

/// The drawing tool's text of a record, sets and positions ascending, into `buffer`: the number of bytes written.
pub fn drawing_of_record(bytes: &[u8], buffer: &mut [u8]) -> Result<usize, Refusal> {
    of_bytes(nahokipe_drawing_of_record, bytes, buffer)
}
