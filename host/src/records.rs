//! Design records: made, read, walked, and turned into tables.

use crate::declared::{nahokipe_record_end, Answer, RecordAnswer, StepAnswer};
use crate::lent::{self, LONGEST_RECORD, LONGEST_TABLE};
use crate::{written, Refusal};

/// What a record of either edition says, beside its sets, and where their bytes stand.
#[derive(Clone, Debug, PartialEq, Eq)]
pub struct Record {
    /// The highest part number ever issued.
    pub mark: u64,
    /// The part numbers, by position.
    pub numbers: Vec<u64>,
    /// How many minimal sets there are.
    pub sets: usize,
    /// Where the first set's first byte is.
    pub offset: usize,
    /// How many bytes carry the sets.
    pub length: usize,
}

/// The record that the bytes are.
///
/// ```
/// let bridge = [5, 5, 1, 2, 3, 4, 5, 4, 0x09, 0x0E, 0x12, 0x15];
/// let record = nahokipe::whole_record(&bridge)?;
/// assert_eq!((record.mark, record.sets), (5, 4));
/// assert_eq!(record.numbers, [1, 2, 3, 4, 5]);
///
/// let refusal = nahokipe::whole_record(&bridge[..11]).unwrap_err();
/// assert_eq!((refusal.number, refusal.place), (21, 11));
/// # Ok::<(), nahokipe::Refusal>(())
/// ```
pub fn whole_record(bytes: &[u8]) -> Result<Record, Refusal> {
    record_of(lent::whole_record_answer(bytes))
}

/// The record that stands at a position of the bytes. What comes after it is not looked at.
///
/// ```
/// let two = [1, 1, 1, 1, 1, 2, 9, 4, 8, 1, 3];
/// let second = nahokipe::record_at(&two, nahokipe::record_end(&two, 0)?)?;
/// assert_eq!(second.numbers, [4, 8]);
/// # Ok::<(), nahokipe::Refusal>(())
/// ```
pub fn record_at(bytes: &[u8], start: usize) -> Result<Record, Refusal> {
    record_of(lent::record_at_answer(bytes, start))
}

/// The position behind the record that stands at a position of the bytes. A record of edition 2 goes on behind its sets.
///
/// ```
/// // The first record is of edition 2, with number 2 retired: its sets end at position 7, and it ends at 11.
/// let two = [0, 2, 1, 2, 1, 1, 1, 1, 2, 0, 1, 2, 9, 4, 8, 1, 3];
/// assert_eq!(nahokipe::record_end(&two, 0)?, 11);
/// assert_eq!(nahokipe::record_end(&two, 11)?, two.len());
/// # Ok::<(), nahokipe::Refusal>(())
/// ```
pub fn record_end(bytes: &[u8], start: usize) -> Result<usize, Refusal> {
    unsafe { nahokipe_record_end(bytes.as_ptr(), bytes.len(), start) }.given()
}

/// An accepted record, or the refusal.
fn record_of(answer: RecordAnswer) -> Result<Record, Refusal> {
    let RecordAnswer { number, value, .. } = answer;
    Answer { number, value }.given()?;
    Ok(Record {
        mark: answer.mark,
        numbers: answer.numbers[..answer.parts].to_vec(),
        sets: answer.sets,
        offset: answer.offset,
        length: answer.length,
    })
}

/// The bytes of a whole record that carry its sets.
///
/// ```
/// assert_eq!(nahokipe::stretch(&[2, 2, 1, 2, 2, 0b01, 0b10])?, [0b01, 0b10]);
/// # Ok::<(), nahokipe::Refusal>(())
/// ```
pub fn stretch(bytes: &[u8]) -> Result<&[u8], Refusal> {
    let record = whole_record(bytes)?;
    Ok(&bytes[record.offset..record.offset + record.length])
}

/// The minimal sets of a whole record, ascending: masks of its positions. [`crate::numbers_of`] turns one into part numbers.
///
/// ```
/// let bridge = [5, 5, 1, 2, 3, 4, 5, 4, 0x09, 0x0E, 0x12, 0x15];
/// assert_eq!(nahokipe::sets_of_record(&bridge)?, [0x09, 0x0E, 0x12, 0x15]);
/// # Ok::<(), nahokipe::Refusal>(())
/// ```
pub fn sets_of_record(bytes: &[u8]) -> Result<Vec<u16>, Refusal> {
    let narrow = |set: u64| u16::try_from(set).expect("a set of up to 16 parts");
    Ok(walk(bytes)?.map(narrow).collect())
}

/// A walk along the sets of a whole record.
///
/// ```
/// let bridge = [5, 5, 1, 2, 3, 4, 5, 4, 0x09, 0x0E, 0x12, 0x15];
/// let parts: Vec<u32> = nahokipe::walk(&bridge)?.map(u64::count_ones).collect();
/// assert_eq!(parts, [2, 3, 2, 3]);
/// # Ok::<(), nahokipe::Refusal>(())
/// ```
pub fn walk(bytes: &[u8]) -> Result<Walk<'_>, Refusal> {
    let record = whole_record(bytes)?;
    Ok(Walk {
        bytes,
        next: record.offset,
        left: record.sets,
    })
}

/// Gives the sets one after the other, from the bytes where they are.
#[derive(Clone, Debug)]
pub struct Walk<'a> {
    bytes: &'a [u8],
    next: usize,
    left: usize,
}

impl Iterator for Walk<'_> {
    type Item = u64;

    fn next(&mut self) -> Option<u64> {
        let step = next_set(self.bytes, self.next, self.left)?;
        (self.next, self.left) = (step.next, step.left);
        Some(step.set)
    }
}

/// A set, the position behind it, and how many sets are left there.
#[derive(Clone, Copy, Debug, PartialEq, Eq)]
pub struct Step {
    /// The set.
    pub set: u64,
    /// The position behind it.
    pub next: usize,
    /// How many sets are left there.
    pub left: usize,
}

/// The set at a position of which `left` are left, or none at the end.
pub fn next_set(bytes: &[u8], next: usize, left: usize) -> Option<Step> {
    let StepAnswer {
        given,
        set,
        next,
        left,
    } = lent::step_answer(bytes, next, left);
    (given == 1).then_some(Step { set, next, left })
}

/// The table of a record.
///
/// ```
/// assert_eq!(nahokipe::table_of_record(&[2, 2, 1, 2, 2, 0b01, 0b10])?, [0b1110]);
/// # Ok::<(), nahokipe::Refusal>(())
/// ```
pub fn table_of_record(bytes: &[u8]) -> Result<Vec<u8>, Refusal> {
    written(LONGEST_TABLE, |table| lent::table_of_record(bytes, table))
}

/// A first record of a list of sets of n parts: part numbers 1 to n, mark n, the minimal sets. Sets may stand in any order, repeatedly, and
/// hold others.
///
/// ```
/// let pumps = nahokipe::first_record(3, &[0b101, 0b111, 0b011])?;
/// assert_eq!(pumps, [3, 3, 1, 2, 3, 2, 0b011, 0b101]);
/// # Ok::<(), nahokipe::Refusal>(())
/// ```
pub fn first_record(n: usize, list: &[u16]) -> Result<Vec<u8>, Refusal> {
    written(LONGEST_RECORD, |buffer| lent::first_record(n, list, buffer))
}

/// A record of parts that have numbers already: `numbers` by position, rising, the mark, which is the highest number ever issued, and the
/// minimal sets of a list of sets of these positions. [`crate::mask_of`] makes such a set of part numbers.
///
/// ```
/// let pumps = nahokipe::entered_record(15, &[3, 7, 12], &[0b011, 0b101])?;
/// assert_eq!(pumps, [3, 15, 3, 7, 12, 2, 0b011, 0b101]);
///
/// // A number above the mark was never issued: the second, at index 1.
/// let refusal = nahokipe::entered_record(6, &[3, 7, 12], &[0b011]).unwrap_err();
/// assert_eq!((refusal.number, refusal.place), (23, 1));
/// # Ok::<(), nahokipe::Refusal>(())
/// ```
pub fn entered_record(mark: u64, numbers: &[u64], list: &[u16]) -> Result<Vec<u8>, Refusal> {
    written(LONGEST_RECORD, |buffer| {
        lent::entered_record(mark, numbers, list, buffer)
    })
}
