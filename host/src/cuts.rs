//! Cut sets, whose joint failure stops the machine, and the dual structure, whose path sets they are.

use crate::lent::{self, LONGEST_TABLE, MOST_SETS};
use crate::{written, Refusal};

/// The table of the machine that a list of cut sets of n parts describes: it is stopped exactly if the failed parts hold a listed set. The
/// list has to be whole: failures that hold no listed set do not stop the machine. [`crate::minimal_sets`] of the table is a list for
/// [`crate::entered_record`].
///
/// ```
/// // Two parts, each of which stops the machine alone: it runs on both only.
/// assert_eq!(nahokipe::table_of_cuts(2, &[0b01, 0b10])?, [0b1000]);
/// # Ok::<(), nahokipe::Refusal>(())
/// ```
pub fn table_of_cuts(n: usize, cuts: &[u16]) -> Result<Vec<u8>, Refusal> {
    written(LONGEST_TABLE, |table| lent::table_of_cuts(n, cuts, table))
}

/// The minimal cut sets of a table, those that hold no other, ascending. Of a record's table they are masks of its positions:
/// [`crate::numbers_of`] turns one into part numbers.
///
/// ```
/// let bridge = [5, 5, 1, 2, 3, 4, 5, 4, 0x09, 0x0E, 0x12, 0x15];
/// let cuts = nahokipe::minimal_cuts(5, &nahokipe::table_of_record(&bridge)?)?;
/// assert_eq!(cuts, [0b00011, 0b01110, 0b10101, 0b11000]);
/// # Ok::<(), nahokipe::Refusal>(())
/// ```
pub fn minimal_cuts(n: usize, table: &[u8]) -> Result<Vec<u16>, Refusal> {
    written(MOST_SETS, |cuts| lent::minimal_cuts(n, table, cuts))
}

/// The table of the dual structure, whose path sets are the cut sets of the given table. The dual of the dual is that table again, and the
/// dual's signature is that of the given table reversed.
///
/// ```
/// // Two parts, either of which suffices; of the dual both are needed.
/// assert_eq!(nahokipe::dual(2, &[0b1110])?, [0b1000]);
/// assert_eq!(nahokipe::dual(2, &[0b1000])?, [0b1110]);
/// # Ok::<(), nahokipe::Refusal>(())
/// ```
pub fn dual(n: usize, table: &[u8]) -> Result<Vec<u8>, Refusal> {
    written(LONGEST_TABLE, |dual| lent::dual(n, table, dual))
}
