//! The path counts of a machine that is made of blocks.

use crate::lent::{self, MOST_ENTRIES};
use crate::{written, Refusal};

/// The path counts of the machine that a table makes of blocks, for 0, 1, ..., n parts, n being the parts of all blocks together. The table
/// is one of `blocks` parts, each of which is a block: the machine runs on a set of its parts exactly if the blocks that run on their share
/// of it are a path set of the table. `sizes` says how many parts each block has, and `vectors` has the blocks' path counts, one block's
/// after the other's, with one entry more than its size for each. How a block is made inside need not be known.
///
/// Every machine that is assembled in this way has these path counts, whichever blocks with the given counts it is made of and wherever
/// their parts stand, as long as no part is in two blocks. For counts that no block has, the answer is what equations 12 and 13 of document
/// 003 give. [`crate::convert`] makes the signature of it.
///
/// Refused: 1 where `blocks` is not 1 to 16; 6 to 10 for the table; 12 where there are not as many sizes as blocks; 1 where a size is not 1 to 16; 12 where `vectors`
/// is not as long as all blocks' path counts together; 13 and then 14 of one vector after the other, at a size within its own block; 33
/// where the blocks have more than 16 parts in all.
///
/// ```
/// use nahokipe::{convert, path_counts_of_blocks, table_of_list, Kind};
///
/// // Two blocks in series, of three and of four parts. Their suppliers give path counts and no drawing.
/// let series = table_of_list(2, &[0b11])?;
/// let counts = path_counts_of_blocks(2, &series, &[3, 4], &[0, 0, 2, 1, 0, 0, 2, 4, 1])?;
/// assert_eq!(counts, [0, 0, 0, 0, 4, 10, 6, 1]);
///
/// // The signature, out of 7! = 5,040.
/// let signature = convert(Kind::PathCounts, 7, &counts, Kind::Signature)?;
/// assert_eq!(signature, [720, 1920, 1824, 576, 0, 0, 0]);
/// # Ok::<(), nahokipe::Refusal>(())
/// ```
pub fn path_counts_of_blocks(
    blocks: usize,
    table: &[u8],
    sizes: &[usize],
    vectors: &[i64],
) -> Result<Vec<i64>, Refusal> {
    written(MOST_ENTRIES, |cells| {
        lent::path_counts_of_blocks(blocks, table, sizes, vectors, cells)
    })
}
