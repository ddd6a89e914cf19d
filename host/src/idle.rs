//! Idle parts, which do nothing for the machine.

use crate::declared::nahokipe_idle_parts;
use crate::Refusal;

/// The mask of the idle parts of a table, 0 where no part is idle. A part is idle if adding it to a set never changes whether the machine
/// runs. That is so exactly if no minimal set names it, and exactly if its Barlow-Proschan count, [`crate::importance`], is 0. Of a record's
/// table the mask is one of its positions: [`crate::numbers_of`] turns it into part numbers.
///
/// ```
/// // Parts 3 and 12 suffice, and part 7, at position 2, is in no set.
/// let record = [3, 15, 3, 7, 12, 1, 0b101];
/// let idle = nahokipe::idle_parts(3, &nahokipe::table_of_record(&record)?)?;
/// assert_eq!(idle, 0b010);
/// assert_eq!(nahokipe::numbers_of(&[3, 7, 12], idle as usize)?, [7]);
///
/// // Two parts, either of which suffices: none is idle.
/// assert_eq!(nahokipe::idle_parts(2, &[0b1110])?, 0);
/// # Ok::<(), nahokipe::Refusal>(())
/// ```
pub fn idle_parts(n: usize, table: &[u8]) -> Result<u16, Refusal> {
    unsafe { nahokipe_idle_parts(n, table.as_ptr(), table.len()) }.mask()
}
