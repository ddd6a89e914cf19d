//! The report on a record, and the line of a refusal, into lent buffers.

use crate::declared::{nahokipe_refused_line, nahokipe_report};
use crate::Refusal;

/// The report's text into `text`, and the record's table into `table`: how many bytes the text has.
pub fn report(bytes: &[u8], table: &mut [u8], text: &mut [u8]) -> Result<usize, Refusal> {
    let answer = unsafe {
        nahokipe_report(
            bytes.as_ptr(),
            bytes.len(),
            table.as_mut_ptr(),
            table.len(),
            text.as_mut_ptr(),
            text.len(),
        )
    };
    answer.given()
}

/// The line that tells of a refusal, into `text`: how many bytes it has.
pub fn refused_line(refusal: Refusal, text: &mut [u8]) -> Result<usize, Refusal> {
    let Refusal { number, place } = refusal;
    let (room, length) = (text.as_mut_ptr(), text.len());
    unsafe { nahokipe_refused_line(number, place, room, length) }.given()
}
