//! Tables and minimal sets into lent buffers.

use super::of_table;
use crate::declared::{nahokipe_minimal_sets, nahokipe_table_of_list};
use crate::Refusal;

/// The table of a list of sets, into `table`: the number of bytes written.
pub fn table_of_list(n: usize, list: &[u16], table: &mut [u8]) -> Result<usize, Refusal> {
    let (room, length) = (table.as_mut_ptr(), table.len());
    unsafe { nahokipe_table_of_list(n, list.as_ptr(), list.len(), room, length) }.given()
}

/// The minimal path sets of a table, ascending, into `sets`: how many were written.
pub fn minimal_sets(n: usize, table: &[u8], sets: &mut [u16]) -> Result<usize, Refusal> {
    of_table(nahokipe_minimal_sets, n, table, sets)
}
