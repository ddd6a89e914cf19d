//! Stock patterns: machines by their shape, their number of parts and a threshold.

use crate::lent::{self, LONGEST_TABLE};
use crate::{written, Refusal};

/// The shape of a machine of n parts with a threshold k, 1 to n. Neighbours are parts at positions that follow each other, whatever their part
/// numbers are.
#[derive(Clone, Copy, Debug, PartialEq, Eq)]
pub enum Pattern {
    /// It runs exactly if at least k of its parts work: in each of the n! orders it is failure number n - k + 1 that stops it.
    AtLeast,
    /// Its parts stand in a row, and it is stopped exactly if some k neighbours have all failed, whatever else has failed with them.
    Row,
    /// The same in a ring, where the positions n and 1 are neighbours too; with k = n it is stopped exactly if all parts have failed.
    Ring,
}

/// The table of a stock pattern of n parts. k outside 1 to n is 29. [`crate::minimal_sets`] of the table is a list for
/// [`crate::first_record`], or for [`crate::entered_record`] where the parts have numbers.
///
/// ```
/// use nahokipe::{minimal_cuts, table_of_pattern, Pattern};
///
/// // Two of three parts suffice: {1,2}, {1,3} and {2,3}.
/// assert_eq!(table_of_pattern(Pattern::AtLeast, 3, 2)?, [0b1110_1000]);
///
/// // Four parts, stopped by two failed neighbours; in a ring the last part and the first are neighbours too.
/// let row = table_of_pattern(Pattern::Row, 4, 2)?;
/// assert_eq!(minimal_cuts(4, &row)?, [0b0011, 0b0110, 0b1100]);
/// let ring = table_of_pattern(Pattern::Ring, 4, 2)?;
/// assert_eq!(minimal_cuts(4, &ring)?, [0b0011, 0b0110, 0b1001, 0b1100]);
///
/// assert_eq!(table_of_pattern(Pattern::Ring, 4, 5).unwrap_err().number, 29);
/// # Ok::<(), nahokipe::Refusal>(())
/// ```
pub fn table_of_pattern(pattern: Pattern, n: usize, k: usize) -> Result<Vec<u8>, Refusal> {
    written(LONGEST_TABLE, |table| {
        lent::table_of_pattern(pattern, n, k, table)
    })
}
