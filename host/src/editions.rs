//! Editions of records: which one a record is of, the retired part numbers of edition 2, and the same record as one of the other edition.

use crate::declared::nahokipe_edition;
use crate::lent::{self, LONGEST_RECORD, MOST_RETIRED};
use crate::{written, Refusal};

/// The edition of the record that the bytes are, 1 or 2.
///
/// ```
/// let pumps = [3, 15, 3, 7, 12, 2, 0b011, 0b101];
/// assert_eq!(nahokipe::edition(&pumps)?, 1);
/// assert_eq!(nahokipe::edition(&nahokipe::to_edition_2(&pumps)?)?, 2);
/// # Ok::<(), nahokipe::Refusal>(())
/// ```
pub fn edition(bytes: &[u8]) -> Result<u8, Refusal> {
    let edition = unsafe { nahokipe_edition(bytes.as_ptr(), bytes.len()) }.given()?;
    Ok(u8::try_from(edition).expect("edition 1 or 2"))
}

/// The retired part numbers of a record, rising, 64 at the most: those of parts that have left. A record of edition 1 has none.
///
/// ```
/// let pumps = nahokipe::to_edition_2(&[3, 15, 3, 7, 12, 2, 0b011, 0b101])?;
/// assert_eq!(nahokipe::retired(&pumps)?, []);
/// let one = nahokipe::take_out_part(&pumps, 7)?;
/// assert_eq!(nahokipe::retired(&one)?, [7]);
/// # Ok::<(), nahokipe::Refusal>(())
/// ```
pub fn retired(bytes: &[u8]) -> Result<Vec<u64>, Refusal> {
    written(MOST_RETIRED, |numbers| lent::retired(bytes, numbers))
}

/// The record as one of edition 1, which has no place for retired numbers: a record that has some is refused with 32. One of edition 1
/// comes back as it is.
///
/// ```
/// let pumps = [3, 15, 3, 7, 12, 2, 0b011, 0b101];
/// let second = nahokipe::to_edition_2(&pumps)?;
/// assert_eq!(nahokipe::to_edition_1(&second)?, pumps);
///
/// let one = nahokipe::take_out_part(&second, 7)?;
/// let refusal = nahokipe::to_edition_1(&one).unwrap_err();
/// assert_eq!((refusal.number, refusal.place), (32, 0));
/// # Ok::<(), nahokipe::Refusal>(())
/// ```
pub fn to_edition_1(bytes: &[u8]) -> Result<Vec<u8>, Refusal> {
    written(bytes.len(), |buffer| lent::to_edition_1(bytes, buffer))
}

/// The record as one of edition 2, with no retired numbers and the path counts of its sets. One of edition 2 comes back as it is, with its
/// retired numbers.
///
/// ```
/// // Behind the record: no retired numbers, and the sets of 0, 1, 2 and 3 parts that run the machine.
/// let second = nahokipe::to_edition_2(&[3, 15, 3, 7, 12, 2, 0b011, 0b101])?;
/// assert_eq!(second, [0, 2, 3, 15, 3, 7, 12, 2, 0b011, 0b101, 0, 0, 0, 2, 1]);
///
/// // Part 7 has left: it is filed, and the counts are those of two parts.
/// let one = nahokipe::take_out_part(&second, 7)?;
/// assert_eq!(one, [0, 2, 2, 15, 3, 12, 1, 0b11, 1, 7, 0, 0, 1]);
/// assert_eq!(nahokipe::to_edition_2(&one)?, one);
/// # Ok::<(), nahokipe::Refusal>(())
/// ```
pub fn to_edition_2(bytes: &[u8]) -> Result<Vec<u8>, Refusal> {
    written(LONGEST_RECORD, |buffer| lent::to_edition_2(bytes, buffer))
}
