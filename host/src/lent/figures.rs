//! The figures of a table into lent buffers.

use super::of_table;
use crate::declared::{
    nahokipe_domination, nahokipe_figures, nahokipe_importance, nahokipe_path_counts,
    nahokipe_signature, nahokipe_tail,
};
use crate::Refusal;

/// The path counts φ(0) to φ(n) of a table, into `cells`: how many were written.
pub fn path_counts(n: usize, table: &[u8], cells: &mut [i64]) -> Result<usize, Refusal> {
    of_table(nahokipe_path_counts, n, table, cells)
}

/// The tail T(0) to T(n) of a table, into `cells`: how many were written.
pub fn tail(n: usize, table: &[u8], cells: &mut [i64]) -> Result<usize, Refusal> {
    of_table(nahokipe_tail, n, table, cells)
}

/// The signature N(1) to N(n) of a table, into `cells`: how many were written.
pub fn signature(n: usize, table: &[u8], cells: &mut [i64]) -> Result<usize, Refusal> {
    of_table(nahokipe_signature, n, table, cells)
}

/// The domination d(0) to d(n) of a table, into `cells`: how many were written.
pub fn domination(n: usize, table: &[u8], cells: &mut [i64]) -> Result<usize, Refusal> {
    of_table(nahokipe_domination, n, table, cells)
}

/// The Barlow-Proschan counts of all parts of a table, by position, into `cells`: how many were written.
pub fn importance(n: usize, table: &[u8], cells: &mut [u64]) -> Result<usize, Refusal> {
    of_table(nahokipe_importance, n, table, cells)
}

/// The path counts, the signature, the domination and the importances of a table at once, with one check of the table. Room is asked
/// for in this order.
pub fn figures(
    n: usize,
    table: &[u8],
    counts: &mut [i64],
    signature: &mut [i64],
    domination: &mut [i64],
    importance: &mut [u64],
) -> Result<(), Refusal> {
    let answer = unsafe {
        nahokipe_figures(
            n,
            table.as_ptr(),
            table.len(),
            counts.as_mut_ptr(),
            counts.len(),
            signature.as_mut_ptr(),
            signature.len(),
            domination.as_mut_ptr(),
            domination.len(),
            importance.as_mut_ptr(),
            importance.len(),
        )
    };
    answer.given().map(drop)
}
