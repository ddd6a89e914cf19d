//! The joint signature of two machines into a lent buffer.

use crate::declared::nahokipe_joint_signature;
use crate::Refusal;

/// The joint signature of two tables over the same n parts, into `cells`: how many were written, which is n². The second table is checked
/// after the first, by the same refusals, and both before the buffer: a refusal does not tell which of the tables it is about.
///
/// ```
/// // Two parts: the first machine runs on part 1, the second on part 2. Whichever fails first stops its own machine.
/// let mut cells = [7; 5];
/// assert_eq!(nahokipe::lent::joint_signature(2, &[0b1010], &[0b1100], &mut cells), Ok(4));
/// assert_eq!(cells, [0, 1, 1, 0, 7]);
/// ```
pub fn joint_signature(
    n: usize,
    first: &[u8],
    second: &[u8],
    cells: &mut [u64],
) -> Result<usize, Refusal> {
    let answer = unsafe {
        nahokipe_joint_signature(
            n,
            first.as_ptr(),
            first.len(),
            second.as_ptr(),
            second.len(),
            cells.as_mut_ptr(),
            cells.len(),
        )
    };
    answer.given()
}
