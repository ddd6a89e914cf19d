//! Structures: lists of sets, tables, and minimal sets.

use crate::declared::{nahokipe_list_verdict, nahokipe_table_verdict};
use crate::lent::{self, LONGEST_TABLE, MOST_SETS};
use crate::{written, Refusal};

/// The table of a list of sets of n parts: a bit for each of the 2^n masks, which is set where the mask holds a listed set. Mask A is at byte
/// A / 8, bit A % 8.
///
/// ```
/// // Two parts, either of which suffices: the masks 01, 10 and 11.
/// assert_eq!(nahokipe::table_of_list(2, &[0b01, 0b10])?, [0b1110]);
/// # Ok::<(), nahokipe::Refusal>(())
/// ```
pub fn table_of_list(n: usize, list: &[u16]) -> Result<Vec<u8>, Refusal> {
    written(LONGEST_TABLE, |table| lent::table_of_list(n, list, table))
}

/// The minimal path sets of a table, those that hold no other, ascending.
///
/// ```
/// let table = nahokipe::table_of_list(3, &[0b111, 0b110, 0b011])?;
/// assert_eq!(nahokipe::minimal_sets(3, &table)?, [0b011, 0b110]);
/// # Ok::<(), nahokipe::Refusal>(())
/// ```
pub fn minimal_sets(n: usize, table: &[u8]) -> Result<Vec<u16>, Refusal> {
    written(MOST_SETS, |sets| lent::minimal_sets(n, table, sets))
}

/// Whether a list of sets is one of n parts.
///
/// ```
/// assert_eq!(nahokipe::list_verdict(3, &[0b011, 0b101]), Ok(()));
/// let refusal = nahokipe::list_verdict(2, &[0b011, 0b101]).unwrap_err();
/// assert_eq!((refusal.number, refusal.place), (4, 1));
/// ```
pub fn list_verdict(n: usize, list: &[u16]) -> Result<(), Refusal> {
    let answer = unsafe { nahokipe_list_verdict(n, list.as_ptr(), list.len()) };
    answer.given().map(drop)
}

/// Whether a table is a semicoherent structure of n parts: every set that holds a path set is one, the empty set is none, the full set is.
///
/// ```
/// assert_eq!(nahokipe::table_verdict(2, &[0b1110]), Ok(()));
/// assert_eq!(nahokipe::table_verdict(2, &[0b1111]).unwrap_err().number, 8);
/// ```
pub fn table_verdict(n: usize, table: &[u8]) -> Result<(), Refusal> {
    let answer = unsafe { nahokipe_table_verdict(n, table.as_ptr(), table.len()) };
    answer.given().map(drop)
}
