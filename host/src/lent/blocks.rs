//! The path counts of a machine made of blocks into a lent buffer.

use crate::declared::nahokipe_path_counts_of_blocks;
use crate::Refusal;

/// The path counts of the machine that a table makes of blocks, into `cells`: how many were written, which is n + 1 for n parts in all. The
/// table is one of `blocks` parts, each of which is a block; `sizes` says how many parts each block has, and `vectors` has the blocks' path
/// counts, one block's after the other's.
///
/// ```
/// // Either of two blocks suffices: a single part, or two parts that are both needed.
/// let (sizes, vectors) = ([1, 2], [0, 1, 0, 0, 1]);
/// let mut cells = [7; 5];
/// let answer = nahokipe::lent::path_counts_of_blocks(2, &[0b1110], &sizes, &vectors, &mut cells);
/// assert_eq!(answer, Ok(4));
/// assert_eq!(cells, [0, 1, 3, 1, 7]);
/// ```
pub fn path_counts_of_blocks(
    blocks: usize,
    table: &[u8],
    sizes: &[usize],
    vectors: &[i64],
    cells: &mut [i64],
) -> Result<usize, Refusal> {
    let answer = unsafe {
        nahokipe_path_counts_of_blocks(
            blocks,
            table.as_ptr(),
            table.len(),
            sizes.as_ptr(),
            sizes.len(),
            vectors.as_ptr(),
            vectors.len(),
            cells.as_mut_ptr(),
            cells.len(),
        )
    };
    answer.given()
}
