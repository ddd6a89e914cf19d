//! Changes of records. Each reads the whole record and gives the new one, of the same edition; the bytes that are read stay as they are. In
//! edition 2 the numbers of parts that are taken out are filed among the retired ones, of which the 64 highest are kept.

use crate::lent::{self, LONGEST_RECORD};
use crate::{written, Refusal};

/// The record with one part more at position n + 1, in no set. Its number is the mark and one, and so is the new mark.
///
/// ```
/// let record = nahokipe::add_part(&[1, 9, 3, 1, 1])?;
/// assert_eq!(record, [2, 10, 3, 10, 1, 1]);
/// # Ok::<(), nahokipe::Refusal>(())
/// ```
pub fn add_part(bytes: &[u8]) -> Result<Vec<u8>, Refusal> {
    written(LONGEST_RECORD, |buffer| lent::add_part(bytes, buffer))
}

/// The record without the part that has this number. The part is held failed: sets that name it go.
///
/// ```
/// let bridge = [5, 5, 1, 2, 3, 4, 5, 4, 0x09, 0x0E, 0x12, 0x15];
/// let record = nahokipe::take_out_part(&bridge, 3)?;
/// assert_eq!(nahokipe::whole_record(&record)?.numbers, [1, 2, 4, 5]);
/// let record = nahokipe::take_out_part(&record, 4)?;
/// assert_eq!(nahokipe::whole_record(&record)?.numbers, [1, 2, 5]);
/// # Ok::<(), nahokipe::Refusal>(())
/// ```
pub fn take_out_part(bytes: &[u8], number: u64) -> Result<Vec<u8>, Refusal> {
    written(bytes.len(), |buffer| {
        lent::take_out_part(bytes, number, buffer)
    })
}

/// The record without the parts that have these numbers, in any order. All are held failed: sets that name one of them go. They leave
/// together or not at all.
///
/// ```
/// let bridge = [5, 5, 1, 2, 3, 4, 5, 4, 0x09, 0x0E, 0x12, 0x15];
/// let record = nahokipe::take_out_parts(&bridge, &[5, 3])?;
/// assert_eq!(record, [3, 5, 1, 2, 4, 1, 0b101]);
/// # Ok::<(), nahokipe::Refusal>(())
/// ```
pub fn take_out_parts(bytes: &[u8], wanted: &[u64]) -> Result<Vec<u8>, Refusal> {
    written(bytes.len(), |buffer| {
        lent::take_out_parts(bytes, wanted, buffer)
    })
}

/// The record with one path set more, that of the parts that have these numbers, in any order: the minimal sets of the old ones and the new
/// one.
///
/// ```
/// let record = nahokipe::add_set_of_parts(&[3, 15, 3, 7, 12, 1, 0b011], &[12, 3])?;
/// assert_eq!(record, [3, 15, 3, 7, 12, 2, 0b011, 0b101]);
/// # Ok::<(), nahokipe::Refusal>(())
/// ```
pub fn add_set_of_parts(bytes: &[u8], wanted: &[u64]) -> Result<Vec<u8>, Refusal> {
    written(LONGEST_RECORD, |buffer| {
        lent::add_set_of_parts(bytes, wanted, buffer)
    })
}

/// The record without the part at a position. A position is not a part number: [`take_out_part`] takes that.
///
/// ```
/// // Part number 7 stands at position 2.
/// let record = nahokipe::take_out(&[3, 15, 3, 7, 12, 2, 0b011, 0b101], 2)?;
/// assert_eq!(record, [2, 15, 3, 12, 1, 0b11]);
/// # Ok::<(), nahokipe::Refusal>(())
/// ```
pub fn take_out(bytes: &[u8], position: usize) -> Result<Vec<u8>, Refusal> {
    written(bytes.len(), |buffer| {
        lent::take_out(bytes, position, buffer)
    })
}

/// The record without the parts of a group, a mask of its positions. Positions are not part numbers: [`take_out_parts`] takes those.
///
/// ```
/// let bridge = [5, 5, 1, 2, 3, 4, 5, 4, 0x09, 0x0E, 0x12, 0x15];
/// let record = nahokipe::take_out_group(&bridge, 0b10100)?;
/// assert_eq!(record, [3, 5, 1, 2, 4, 1, 0b101]);
/// # Ok::<(), nahokipe::Refusal>(())
/// ```
pub fn take_out_group(bytes: &[u8], group: usize) -> Result<Vec<u8>, Refusal> {
    written(bytes.len(), |buffer| {
        lent::take_out_group(bytes, group, buffer)
    })
}

/// The record with one path set more, a mask of its positions. Positions are not part numbers: [`add_set_of_parts`] takes those.
///
/// ```
/// let record = nahokipe::add_set(&[3, 15, 3, 7, 12, 1, 0b011], 0b101)?;
/// assert_eq!(record, [3, 15, 3, 7, 12, 2, 0b011, 0b101]);
/// # Ok::<(), nahokipe::Refusal>(())
/// ```
pub fn add_set(bytes: &[u8], set: u16) -> Result<Vec<u8>, Refusal> {
    written(LONGEST_RECORD, |buffer| lent::add_set(bytes, set, buffer))
}
