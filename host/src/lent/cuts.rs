//! Cut sets and the dual structure into lent buffers.

use super::of_table;
use crate::declared::{nahokipe_dual, nahokipe_minimal_cuts, nahokipe_table_of_cuts};
use crate::Refusal;

/// The table of a list of cut sets, into `table`: the number of bytes written.
///
/// ```
/// let mut table = [0; 2];
/// assert_eq!(nahokipe::lent::table_of_cuts(2, &[0b01, 0b10], &mut table), Ok(1));
/// assert_eq!(table, [0b1000, 0]);
/// ```
pub fn table_of_cuts(n: usize, cuts: &[u16], table: &mut [u8]) -> Result<usize, Refusal> {
    let (room, length) = (table.as_mut_ptr(), table.len());
    unsafe { nahokipe_table_of_cuts(n, cuts.as_ptr(), cuts.len(), room, length) }.given()
}

/// The minimal cut sets of a table, ascending, into `cuts`: how many were written.
///
/// ```
/// let mut cuts = [0; 3];
/// assert_eq!(nahokipe::lent::minimal_cuts(2, &[0b1000], &mut cuts), Ok(2));
/// assert_eq!(cuts, [0b01, 0b10, 0]);
/// ```
pub fn minimal_cuts(n: usize, table: &[u8], cuts: &mut [u16]) -> Result<usize, Refusal> {
    of_table(nahokipe_minimal_cuts, n, table, cuts)
}

/// The dual's table of a table, into `dual`: the number of bytes written.
///
/// ```
/// let mut dual = [0; 2];
/// assert_eq!(nahokipe::lent::dual(2, &[0b1110], &mut dual), Ok(1));
/// assert_eq!(dual, [0b1000, 0]);
/// ```
pub fn dual(n: usize, table: &[u8], dual: &mut [u8]) -> Result<usize, Refusal> {
    of_table(nahokipe_dual, n, table, dual)
}
