//! Part numbers and positions, each from the other.

use crate::declared::{nahokipe_mask_of, nahokipe_position_of};
use crate::lent::{self, MOST_PARTS};
use crate::{written, Refusal};

/// The one position, from 1, of the part of a record that has this number.
///
/// ```
/// let record = [3, 15, 3, 7, 12, 2, 0b011, 0b101];
/// assert_eq!(nahokipe::position_of(&record, 12), Ok(3));
/// assert_eq!(nahokipe::position_of(&record, 2).unwrap_err().number, 17);
/// ```
pub fn position_of(bytes: &[u8], number: u64) -> Result<usize, Refusal> {
    unsafe { nahokipe_position_of(bytes.as_ptr(), bytes.len(), number) }.given()
}

/// The mask of the positions of a record's part numbers that are wanted, in any order.
///
/// ```
/// let numbers = [3, 7, 12];
/// assert_eq!(nahokipe::mask_of(&numbers, &[12, 3]), Ok(0b101));
/// assert_eq!(nahokipe::mask_of(&numbers, &[12, 4]).unwrap_err().number, 17);
/// assert_eq!(nahokipe::mask_of(&numbers, &[12, 12]).unwrap_err().number, 28);
/// ```
pub fn mask_of(numbers: &[u64], wanted: &[u64]) -> Result<u16, Refusal> {
    let (wanted, length) = (wanted.as_ptr(), wanted.len());
    unsafe { nahokipe_mask_of(numbers.as_ptr(), numbers.len(), wanted, length) }.mask()
}

/// The part numbers at the positions of a mask, in their order.
///
/// ```
/// assert_eq!(nahokipe::numbers_of(&[3, 7, 12], 0b101)?, [3, 12]);
/// # Ok::<(), nahokipe::Refusal>(())
/// ```
pub fn numbers_of(numbers: &[u64], mask: usize) -> Result<Vec<u64>, Refusal> {
    written(MOST_PARTS, |cells| lent::numbers_of(numbers, mask, cells))
}
