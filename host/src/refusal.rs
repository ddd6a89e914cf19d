//! Why a call is refused.

use std::error::Error;
use std::fmt;

/// Why a call was refused: its number, and the place that it reports.
///
/// The place is 0 but for these:
///
/// - 4 and 5: the index of the set in the list, from 0
/// - 10: the mask of the smallest such path set
/// - 11: the length needed, in cells; the calls at the crate's root make their buffers themselves and are never refused so
/// - 13 and 14: the smallest such size; of several blocks that within the first block that has one, whichever that is
/// - 21: the length of the input
/// - 22 to 25: the position of the number's first byte, or of the first byte left, from 0; of an [`entered_record`](crate::entered_record) 23
///   has the index of the part number, from 0, or n for the mark
/// - 27 and 28: the number of the drawing's line, from 1; where numbers are wanted by part number 28 has the place 0
/// - 30 and 31: the position of the number's first byte, from 0
///
/// A record's own n, count and sets are refused with 1 to 5 as well, and then the place is the position of the number's first byte. A
/// drawing's text is refused with 1, 2, 3 and 17 as well, and then the place is the line's number.
///
/// ```
/// use nahokipe::{take_out_part, Refusal};
///
/// let bridge = [5, 5, 1, 2, 3, 4, 5, 4, 0x09, 0x0E, 0x12, 0x15];
/// let refusal = take_out_part(&bridge, 6).unwrap_err();
/// assert_eq!(refusal, Refusal { number: 17, place: 0 });
/// assert_eq!(refusal.reason(), "no part has this position or this part number");
/// assert_eq!(refusal.to_string(), "refused 17 0: no part has this position or this part number");
/// ```
#[derive(Clone, Copy, Debug, PartialEq, Eq)]
pub struct Refusal {
    /// The number of the reason.
    pub number: u8,
    /// Where the reason was found.
    pub place: usize,
}

/// What is said of a number that no refusal has.
const NO_REFUSAL: &str = "no refusal has this number";

/// The reasons from number 1 on, in the words of include/nahokipe.h.
const REASONS: [&str; 34] = [
    "n is not 1 to 16, or the size of a block is not",
    "the list is empty",
    "the list has over 12,870 sets",
    "a listed set has bit n or above",
    "a listed set is empty",
    "the table's length is not the greater of 1 and 2^n / 8",
    "an unused bit of the table is set",
    "the empty set is a path set",
    "the full set is no path set",
    "a path set with one part more is none",
    "the buffer is shorter than needed",
    "the vector's length is not n, for the kinds 1, 2 and 4 not n + 1, or the blocks' sizes or entries are too many or too few",
    "a path count that the vector stands for is not whole, is not 0 to C(n,j), or is not 0 for size 0 or 1 for size n",
    "the path sets' proportion of all sets falls from size j to j + 1",
    "the group is empty",
    "the group has bit n or above",
    "no part has this position or this part number",
    "every set names the part, or some part of the group",
    "the record has 16 parts",
    "the record's mark is 2^48 - 1",
    "the bytes end before a number does",
    "a number is not written in its shortest form, is over its top value, or takes more bytes than that can",
    "a part number is 0, not above the one before it, or above the mark, or the mark is above 2^48 - 1",
    "a set is not above the one before it, or holds an earlier one",
    "bytes are left behind the last number",
    "the kind is not 1 to 4",
    "a line of a drawing's text is of another form",
    "a position stands twice on a line of a drawing's text, or a part number twice among those wanted",
    "k is not 1 to n",
    "a retired number is 0, not above the one before it, above the mark or in use, or there are over 64",
    "a path count is not that of the record's sets",
    "the record has retired numbers, and is to be written as one of edition 1",
    "the blocks have more than 16 parts in all",
    "a tail sheet is to be written by name",
];

impl Refusal {
    /// The reason in words. A number that no refusal has is said to be none.
    pub fn reason(self) -> &'static str {
        match (self.number as usize).checked_sub(1) {
            Some(index) if index < REASONS.len() => REASONS[index],
            _ => NO_REFUSAL,
        }
    }
}

impl fmt::Display for Refusal {
    fn fmt(&self, f: &mut fmt::Formatter<'_>) -> fmt::Result {
        let Refusal { number, place } = self;
        write!(f, "refused {number} {place}: {}", self.reason())
    }
}

impl Error for Refusal {}
