//! Stock patterns into a lent buffer.

use crate::declared::{
    nahokipe_table_at_least, nahokipe_table_of_ring, nahokipe_table_of_row, OfPattern,
};
use crate::{Pattern, Refusal};

/// The table of a stock pattern, into `table`: the number of bytes written.
///
/// ```
/// use nahokipe::{lent::table_of_pattern, Pattern};
///
/// let mut table = [0; 2];
/// assert_eq!(table_of_pattern(Pattern::AtLeast, 3, 2, &mut table), Ok(1));
/// assert_eq!(table, [0b1110_1000, 0]);
/// ```
pub fn table_of_pattern(
    pattern: Pattern,
    n: usize,
    k: usize,
    table: &mut [u8],
) -> Result<usize, Refusal> {
    let call: OfPattern = match pattern {
        Pattern::AtLeast => nahokipe_table_at_least,
        Pattern::Row => nahokipe_table_of_row,
        Pattern::Ring => nahokipe_table_of_ring,
    };
    let (room, length) = (table.as_mut_ptr(), table.len());
    unsafe { call(n, k, room, length) }.given()
}
