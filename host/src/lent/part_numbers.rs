//! Part numbers into lent buffers.

use crate::declared::nahokipe_numbers_of;
use crate::Refusal;

/// The numbers at the positions of a mask, in their order, into `cells`: how many were written.
pub fn numbers_of(numbers: &[u64], mask: usize, cells: &mut [u64]) -> Result<usize, Refusal> {
    let (room, length) = (cells.as_mut_ptr(), cells.len());
    unsafe { nahokipe_numbers_of(numbers.as_ptr(), numbers.len(), mask, room, length) }.given()
}
