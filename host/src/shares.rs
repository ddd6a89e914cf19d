//! The shares of a group of parts.
//!
//! A group is a mask of positions, which are not part numbers: [`crate::mask_of`] makes the mask of the parts that have some numbers.

use crate::lent::{self, MOST_COEFFICIENTS, MOST_PARTS};
use crate::{written, Refusal};

/// The shares of a group of m parts: in how many of the n! orders the 1st, 2nd, ..., m-th failure inside the group stops the machine, worked
/// out path set by path set. The group is a mask of positions; [`crate::mask_of`] makes it of part numbers.
///
/// ```
/// let bridge = [5, 5, 1, 2, 3, 4, 5, 4, 0x09, 0x0E, 0x12, 0x15];
/// let numbers = nahokipe::whole_record(&bridge)?.numbers;
/// let group = nahokipe::mask_of(&numbers, &[1, 2, 3])?;
/// let table = nahokipe::table_of_record(&bridge)?;
/// assert_eq!(nahokipe::shares_by_sets(5, &table, group as usize)?, [0, 44, 20]);
/// # Ok::<(), nahokipe::Refusal>(())
/// ```
pub fn shares_by_sets(n: usize, table: &[u8], group: usize) -> Result<Vec<i64>, Refusal> {
    written(MOST_PARTS, |cells| {
        lent::shares_by_sets(n, table, group, cells)
    })
}

/// The same shares, worked out from the coefficients of h(x,z).
///
/// ```
/// assert_eq!(nahokipe::shares_by_reliability(2, &[0b1110], 0b11)?, [0, 2]);
/// # Ok::<(), nahokipe::Refusal>(())
/// ```
pub fn shares_by_reliability(n: usize, table: &[u8], group: usize) -> Result<Vec<i64>, Refusal> {
    written(MOST_PARTS, |cells| {
        lent::shares_by_reliability(n, table, group, cells)
    })
}

/// The shares by the first route and by the second, which are the same.
///
/// ```
/// let (first, second) = nahokipe::shares_by_both_routes(2, &[0b1110], 0b01)?;
/// assert_eq!(first, [1]);
/// assert_eq!(first, second);
/// # Ok::<(), nahokipe::Refusal>(())
/// ```
pub fn shares_by_both_routes(
    n: usize,
    table: &[u8],
    group: usize,
) -> Result<(Vec<i64>, Vec<i64>), Refusal> {
    let mut second = vec![0; MOST_PARTS];
    let first = written(MOST_PARTS, |first| {
        lent::shares_by_both_routes(n, table, group, first, &mut second)
    })?;
    second.truncate(first.len());
    Ok((first, second))
}

/// The coefficients of h(x,z), the machine's reliability where the m parts of the group have the reliability x and the others z: that of
/// x^i z^j in cell i (n - m + 1) + j.
///
/// ```
/// // The first of two parts, either of which suffices: z + x - xz.
/// assert_eq!(nahokipe::reliability(2, &[0b1110], 0b01)?, [0, 1, 1, -1]);
/// # Ok::<(), nahokipe::Refusal>(())
/// ```
pub fn reliability(n: usize, table: &[u8], group: usize) -> Result<Vec<i64>, Refusal> {
    written(MOST_COEFFICIENTS, |cells| {
        lent::reliability(n, table, group, cells)
    })
}
