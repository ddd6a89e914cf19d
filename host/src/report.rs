//! The report on a design record, and the line of a refusal.

use crate::lent::{self, ENOUGH_FOR_REFUSED_LINE, ENOUGH_FOR_REPORT, LONGEST_TABLE};
use crate::{written, Refusal};

/// The report on a record, by part numbers.
///
/// ```
/// let text = nahokipe::report(&[2, 9, 4, 8, 1, 0b11])?;
/// let lines = b"parts 2 sets 1 mark 9\norder 1 2\norder 2 0\ndom 1 0\ndom 2 1\npart 4 1\npart 8 1\n";
/// assert_eq!(text, lines);
/// # Ok::<(), nahokipe::Refusal>(())
/// ```
pub fn report(bytes: &[u8]) -> Result<Vec<u8>, Refusal> {
    let mut table = vec![0; LONGEST_TABLE];
    written(ENOUGH_FOR_REPORT, |text| {
        lent::report(bytes, &mut table, text)
    })
}

/// The line that tells of a refusal, `refused NUMBER PLACE` and a line feed.
///
/// ```
/// let refusal = nahokipe::report(&[2, 9, 4]).unwrap_err();
/// assert_eq!(nahokipe::refused_line(refusal), "refused 21 3\n");
/// ```
pub fn refused_line(refusal: Refusal) -> String {
    let line = written(ENOUGH_FOR_REFUSED_LINE, |text| {
        lent::refused_line(refusal, text)
    });
    let line = line.expect("a line has fewer bytes than this");
    String::from_utf8(line).expect("a line has letters and digits")
}
