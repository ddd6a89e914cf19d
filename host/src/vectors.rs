//! Vectors of the four kinds, and the sheets that carry them.

use crate::lent::{self, LONGEST_SHEET, MOST_ENTRIES};
use crate::{written, Kind, Refusal};

/// Whether a vector of n parts is accepted: its path counts are possible, and their proportion of all sets never falls from one size to the
/// next.
///
/// ```
/// use nahokipe::{vector_verdict, Kind};
///
/// assert_eq!(vector_verdict(Kind::Signature, 5, &[0, 24, 72, 24, 0]), Ok(()));
/// let refusal = vector_verdict(Kind::PathCounts, 3, &[0, 3, 2, 1]).unwrap_err();
/// assert_eq!((refusal.number, refusal.place), (14, 1));
/// ```
pub fn vector_verdict(kind: Kind, n: usize, entries: &[i64]) -> Result<(), Refusal> {
    lent::vector_verdict(kind.number(), n, entries)
}

/// The vector of another kind that stands for the same path counts.
///
/// ```
/// use nahokipe::{convert, Kind};
///
/// let signature = [0, 24, 72, 24, 0];
/// let domination = convert(Kind::Signature, 5, &signature, Kind::Domination)?;
/// assert_eq!(domination, [0, 0, 2, 2, -5, 2]);
/// # Ok::<(), nahokipe::Refusal>(())
/// ```
pub fn convert(kind: Kind, n: usize, entries: &[i64], target: Kind) -> Result<Vec<i64>, Refusal> {
    written(MOST_ENTRIES, |cells| {
        lent::convert(kind.number(), n, entries, target.number(), cells)
    })
}

/// The sheet that a vector is saved as: that of its own kind, but for a tail that of the signature with the same path counts.
///
/// ```
/// use nahokipe::{read_sheet, save_sheet, Kind};
///
/// let sheet = save_sheet(Kind::Domination, 2, &[0, 2, -1])?;
/// assert_eq!(sheet, [4, 2, 0, 4, 1]);
///
/// let sheet = save_sheet(Kind::Tail, 5, &[120, 120, 96, 24, 0, 0])?;
/// assert_eq!(sheet, [3, 5, 0, 24, 72, 24, 0]);
/// let vector = read_sheet(&sheet)?;
/// assert_eq!((vector.kind, vector.n), (Kind::Signature, 5));
/// assert_eq!(vector.entries, [0, 24, 72, 24, 0]);
/// # Ok::<(), nahokipe::Refusal>(())
/// ```
pub fn save_sheet(kind: Kind, n: usize, entries: &[i64]) -> Result<Vec<u8>, Refusal> {
    written(LONGEST_SHEET, |sheet| {
        lent::save_sheet(kind.number(), n, entries, sheet)
    })
}

/// The sheet of the vector of the target kind that stands for the same path counts. No tail sheet is written any more: that target is refused
/// with 34, whatever the vector is.
///
/// ```
/// use nahokipe::{save_sheet_as, Kind, Refusal};
///
/// let signature = [0, 24, 72, 24, 0];
/// let sheet = save_sheet_as(Kind::Signature, 5, &signature, Kind::PathCounts)?;
/// assert_eq!(sheet, [1, 5, 0, 0, 2, 8, 5, 1]);
///
/// let refusal = save_sheet_as(Kind::Signature, 5, &signature, Kind::Tail).unwrap_err();
/// assert_eq!(refusal, Refusal { number: 34, place: 0 });
/// # Ok::<(), nahokipe::Refusal>(())
/// ```
pub fn save_sheet_as(
    kind: Kind,
    n: usize,
    entries: &[i64],
    target: Kind,
) -> Result<Vec<u8>, Refusal> {
    written(LONGEST_SHEET, |sheet| {
        lent::save_sheet_as(kind.number(), n, entries, target.number(), sheet)
    })
}

/// A vector, as a sheet has it.
#[derive(Clone, Debug, PartialEq, Eq)]
pub struct Vector {
    /// What the entries are.
    pub kind: Kind,
    /// The number of parts.
    pub n: usize,
    /// The entries, n for a signature and else n + 1.
    pub entries: Vec<i64>,
}

/// The vector of a sheet, a tail too: such sheets are still read, and saved again as the signature.
///
/// ```
/// use nahokipe::{read_sheet, save_sheet, Kind};
///
/// let stored = [2, 5, 120, 120, 96, 24, 0, 0];
/// let vector = read_sheet(&stored)?;
/// assert_eq!((vector.kind, vector.n), (Kind::Tail, 5));
/// assert_eq!(vector.entries, [120, 120, 96, 24, 0, 0]);
/// let sheet = save_sheet(vector.kind, vector.n, &vector.entries)?;
/// assert_eq!(sheet, [3, 5, 0, 24, 72, 24, 0]);
/// # Ok::<(), nahokipe::Refusal>(())
/// ```
pub fn read_sheet(sheet: &[u8]) -> Result<Vector, Refusal> {
    let mut entries = vec![0; MOST_ENTRIES];
    let read = lent::read_sheet(sheet, &mut entries)?;
    entries.truncate(read.entries);
    Ok(Vector {
        kind: Kind::try_from(read.kind)?,
        n: read.n,
        entries,
    })
}
