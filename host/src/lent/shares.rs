//! The shares of a group of parts into lent buffers. A group is a mask of positions; [`crate::mask_of`] makes it of part numbers.

use crate::declared::{
    nahokipe_reliability, nahokipe_shares_by_both_routes, nahokipe_shares_by_reliability,
    nahokipe_shares_by_sets, OfGroup,
};
use crate::Refusal;

/// The shares of a group, set by set, into `cells`: how many were written.
pub fn shares_by_sets(
    n: usize,
    table: &[u8],
    group: usize,
    cells: &mut [i64],
) -> Result<usize, Refusal> {
    of_group(nahokipe_shares_by_sets, n, table, group, cells)
}

/// The shares of a group through h(x,z), into `cells`: how many were written.
pub fn shares_by_reliability(
    n: usize,
    table: &[u8],
    group: usize,
    cells: &mut [i64],
) -> Result<usize, Refusal> {
    of_group(nahokipe_shares_by_reliability, n, table, group, cells)
}

/// The coefficients of h(x,z) of a group, that of x^i z^j in cell i (n-m+1) + j, into `cells`: how many were written.
pub fn reliability(
    n: usize,
    table: &[u8],
    group: usize,
    cells: &mut [i64],
) -> Result<usize, Refusal> {
    of_group(nahokipe_reliability, n, table, group, cells)
}

/// The shares of a group set by set into `first` and through h(x,z) into `second`: how many were written into either.
pub fn shares_by_both_routes(
    n: usize,
    table: &[u8],
    group: usize,
    first: &mut [i64],
    second: &mut [i64],
) -> Result<usize, Refusal> {
    let answer = unsafe {
        nahokipe_shares_by_both_routes(
            n,
            table.as_ptr(),
            table.len(),
            group,
            first.as_mut_ptr(),
            first.len(),
            second.as_mut_ptr(),
            second.len(),
        )
    };
    answer.given()
}

/// What a call writes that works on a table and a group.
fn of_group(
    call: OfGroup,
    n: usize,
    table: &[u8],
    group: usize,
    cells: &mut [i64],
) -> Result<usize, Refusal> {
    let (room, length) = (cells.as_mut_ptr(), cells.len());
    unsafe { call(n, table.as_ptr(), table.len(), group, room, length) }.given()
}
