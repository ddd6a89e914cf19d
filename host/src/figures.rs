//! The figures of a table. Orders in which the n parts fail are counted, n! in all.

use crate::lent::{self, MOST_ENTRIES, MOST_PARTS};
use crate::{written, Refusal};

/// The path counts, the signature, the domination and the importances of a machine.
#[derive(Clone, Debug, PartialEq, Eq)]
pub struct Figures {
    /// How many path sets have 0, 1, ..., n parts.
    pub path_counts: Vec<i64>,
    /// In how many orders the 1st, 2nd, ..., n-th failure stops the machine.
    pub signature: Vec<i64>,
    /// The coefficients of x^0, x^1, ..., x^n in the machine's reliability polynomial.
    pub domination: Vec<i64>,
    /// In how many orders the failure of the part at position 1, 2, ..., n stops the machine.
    pub importance: Vec<u64>,
}

/// All four figures of a table, with one check of it.
///
/// ```
/// let bridge = [5, 5, 1, 2, 3, 4, 5, 4, 0x09, 0x0E, 0x12, 0x15];
/// let table = nahokipe::table_of_record(&bridge)?;
/// let figures = nahokipe::figures(5, &table)?;
/// assert_eq!(figures.path_counts, [0, 0, 2, 8, 5, 1]);
/// assert_eq!(figures.signature, [0, 24, 72, 24, 0]);
/// assert_eq!(figures.domination, [0, 0, 2, 2, -5, 2]);
/// assert_eq!(figures.importance, [28, 28, 8, 28, 28]);
/// # Ok::<(), nahokipe::Refusal>(())
/// ```
pub fn figures(n: usize, table: &[u8]) -> Result<Figures, Refusal> {
    let mut path_counts = vec![0; MOST_ENTRIES];
    let mut signature = vec![0; MOST_PARTS];
    let mut domination = vec![0; MOST_ENTRIES];
    let mut importance = vec![0; MOST_PARTS];
    lent::figures(
        n,
        table,
        &mut path_counts,
        &mut signature,
        &mut domination,
        &mut importance,
    )?;
    path_counts.truncate(n + 1);
    signature.truncate(n);
    domination.truncate(n + 1);
    importance.truncate(n);
    Ok(Figures {
        path_counts,
        signature,
        domination,
        importance,
    })
}

/// How many path sets of a table have 0, 1, ..., n parts.
///
/// ```
/// assert_eq!(nahokipe::path_counts(2, &[0b1110])?, [0, 2, 1]);
/// # Ok::<(), nahokipe::Refusal>(())
/// ```
pub fn path_counts(n: usize, table: &[u8]) -> Result<Vec<i64>, Refusal> {
    written(MOST_ENTRIES, |cells| lent::path_counts(n, table, cells))
}

/// In how many orders the machine of a table still runs after 0, 1, ..., n failures.
///
/// ```
/// assert_eq!(nahokipe::tail(2, &[0b1110])?, [2, 2, 0]);
/// # Ok::<(), nahokipe::Refusal>(())
/// ```
pub fn tail(n: usize, table: &[u8]) -> Result<Vec<i64>, Refusal> {
    written(MOST_ENTRIES, |cells| lent::tail(n, table, cells))
}

/// In how many orders the 1st, 2nd, ..., n-th failure stops the machine of a table. They total n!.
///
/// ```
/// assert_eq!(nahokipe::signature(2, &[0b1110])?, [0, 2]);
/// # Ok::<(), nahokipe::Refusal>(())
/// ```
pub fn signature(n: usize, table: &[u8]) -> Result<Vec<i64>, Refusal> {
    written(MOST_PARTS, |cells| lent::signature(n, table, cells))
}

/// The coefficients of x^0, x^1, ..., x^n in the reliability polynomial of a table's machine.
///
/// ```
/// // Two parts, either of which suffices: 2x - x².
/// assert_eq!(nahokipe::domination(2, &[0b1110])?, [0, 2, -1]);
/// # Ok::<(), nahokipe::Refusal>(())
/// ```
pub fn domination(n: usize, table: &[u8]) -> Result<Vec<i64>, Refusal> {
    written(MOST_ENTRIES, |cells| lent::domination(n, table, cells))
}

/// In how many orders the failure of the part at position 1, 2, ..., n stops the machine of a table: the Barlow-Proschan counts. They total
/// n!.
///
/// ```
/// assert_eq!(nahokipe::importance(2, &[0b1110])?, [1, 1]);
/// # Ok::<(), nahokipe::Refusal>(())
/// ```
pub fn importance(n: usize, table: &[u8]) -> Result<Vec<u64>, Refusal> {
    written(MOST_PARTS, |cells| lent::importance(n, table, cells))
}
