//! The drawing tool's texts.
//!
//! A text has positions and no part numbers: a record that is read from one is numbered 1 to n anew and starts another line of changes.

use crate::lent::{self, LONGEST_DRAWING, LONGEST_RECORD};
use crate::{written, Refusal};

/// The record of a drawing tool's text: part numbers 1 to n, mark n, the minimal sets.
///
/// ```
/// let pumps = nahokipe::record_of_drawing(b"parts 3\nset 1 3\nset 2 1\n")?;
/// assert_eq!(pumps, [3, 3, 1, 2, 3, 2, 0b011, 0b101]);
///
/// let refusal = nahokipe::record_of_drawing(b"parts 3\nset 1  3\n").unwrap_err();
/// assert_eq!((refusal.number, refusal.place), (27, 2));
/// # Ok::<(), nahokipe::Refusal>(())
/// ```
pub fn record_of_drawing(text: &[u8]) -> Result<Vec<u8>, Refusal> {
    written(LONGEST_RECORD, |buffer| {
        lent::record_of_drawing(text, buffer)
    })
}

/// The drawing tool's text of a record, sets and positions ascending. It has positions, and the part numbers are lost.
///
/// ```
/// let text = nahokipe::drawing_of_record(&[3, 15, 3, 7, 12, 2, 0b011, 0b101])?;
/// assert_eq!(text, b"parts 3\nset 1 2\nset 1 3\n");
/// # Ok::<(), nahokipe::Refusal>(())
/// ```
pub fn drawing_of_record(bytes: &[u8]) -> Result<Vec<u8>, Refusal> {
    written(LONGEST_DRAWING, |buffer| {
        lent::drawing_of_record(bytes, buffer)
    })
}
