//! The joint signature of two machines of the same parts.

use crate::lent::{self, MOST_JOINT};
use crate::{written, Refusal};

/// The joint signature of two tables over the same n parts, a square of n² cells: cell (k - 1) n + l - 1 says in how many of the n! orders
/// the k-th failure stops the first machine and the l-th the second. The cells total n!; the rows sum to the [`crate::signature`] of the
/// first machine, the columns to that of the second.
///
/// The second table is checked after the first, by the same refusals. A refusal does not tell which of the tables it is about;
/// [`crate::table_verdict`] of each does.
///
/// The machines share parts by position, and positions are not part numbers: the tables of two records belong together only where both
/// records have the same part numbers. The call takes more stack than the others; the crate's page says how much.
///
/// ```
/// use nahokipe::{joint_signature, signature, table_of_list};
///
/// // Document 004's example 2.10, out of 4! = 24: the first machine runs on parts 1 and 2, the second on 2 and 4 and on 3 and 4.
/// let first = table_of_list(4, &[0b0011])?;
/// let second = table_of_list(4, &[0b1010, 0b1100])?;
/// let square = joint_signature(4, &first, &second)?;
/// assert_eq!(square[..4], [0, 6, 6, 0]);
/// assert_eq!(square[4..8], [4, 2, 2, 0]);
/// assert_eq!(square[8..12], [2, 2, 0, 0]);
/// assert_eq!(square[12..], [0, 0, 0, 0]);
///
/// // Its rows and columns sum to the two signatures.
/// assert_eq!(signature(4, &first)?, [12, 8, 4, 0]);
/// assert_eq!(signature(4, &second)?, [6, 10, 8, 0]);
/// # Ok::<(), nahokipe::Refusal>(())
/// ```
pub fn joint_signature(n: usize, first: &[u8], second: &[u8]) -> Result<Vec<u64>, Refusal> {
    written(MOST_JOINT, |cells| {
        lent::joint_signature(n, first, second, cells)
    })
}
