//! Records, vectors, texts and tables that are refused, with the number and the place that documents 01 and 02 give them, groups with what
//! taking them out comes to, records that are entered, changes by part numbers, records of both editions and changes of edition 2, texts with
//! their records, machines with their cut sets and with their idle parts, pairs of machines with their joint signatures, machines made of
//! blocks, and stock patterns: worked out by hand, and asked of the calculator and of the second implementation alike.

use crate::naive_records::{Change, TOP_NUMBER};
use nahokipe::Pattern::{self, AtLeast, Ring, Row};

/// Bytes, and their refusal's number and place.
pub type RefusedRecord = (&'static [u8], u8, usize);

pub const REFUSED_RECORDS: [RefusedRecord; 51] = [
    (&[3, 3, 1, 2, 3, 3, 1, 3], 24, 7),
    (&[3, 3, 1, 2, 3, 3, 1, 3, 0x80, 0], 24, 7),
    (&[2, 5, 3, 3], 23, 3),
    (&[2, 2, 1, 2, 2, 1, 0], 5, 6),
    (&[2, 2, 1, 2, 2, 2, 5], 4, 6),
    (&[0x11], 1, 0),
    (&[0, 0xFF, 0xFF, 0xFF, 0xFF, 0xFF], 1, 0),
    (&[0x91], 21, 1),
    (&[0x80, 0], 22, 0),
    (&[0xFF, 0xFF, 0xFF, 0xFF, 0x0F], 1, 0),
    (&[0x80, 0x80, 0x80, 0x80, 0x10], 22, 0),
    (&[1, 1, 1, 1, 0x80, 0x80, 0x80, 0x80, 0x08], 4, 4),
    (&[1, 1, 1, 1, 0x80, 0x80, 0x80, 0x80, 0x10], 22, 4),
    (&[1, 0xFF, 0xFF, 0xFF, 0xFF], 21, 5),
    (&[1, 0xFF, 0xFF, 0xFF, 0xFF, 0xFF], 21, 6),
    (&[1, 0xFF, 0xFF, 0xFF, 0xFF, 0x8F], 21, 6),
    (&[1, 0xFF, 0xFF, 0xFF, 0xFF, 0x8F, 1], 21, 7),
    (&[1, 0x80, 0x80, 0x80, 0x80, 0], 22, 1),
    (&[1, 0xFF, 0xFF, 0xFF, 0xFF, 0xFF, 0xFF], 21, 7),
    (&[1, 0xFF, 0xFF, 0xFF, 0xFF, 0xFF, 0xFF, 0xFF], 22, 1),
    (&[1, 0xFF, 0xFF, 0xFF, 0xFF, 0xFF, 0xFF, 0xBF, 1], 22, 1),
    (
        &[1, 0xFF, 0xFF, 0xFF, 0xFF, 0xFF, 0xFF, 0x40, 1, 1, 1],
        22,
        1,
    ),
    (&[1, 0x80, 0x80, 0x80, 0x80, 0x80, 0x80, 0], 22, 1),
    (&[1, 9, 0xFF, 0xFF, 0xFF, 0xFF, 0xFF, 0xFF], 21, 8),
    (&[1, 9, 0xFF, 0xFF, 0xFF, 0xFF, 0xFF, 0xFF, 0xFF], 22, 2),
    (&[1, 9, 0x80, 0x80, 0x80, 0x80, 0x80, 0x80, 0x20], 23, 2),
    (&[0xFF, 0xFF, 0xFF, 0xFF, 0xFF], 22, 0),
    (&[1, 1, 1, 0xFF, 0xFF, 0xFF, 0xFF, 0xFF], 22, 3),
    (&[1, 1, 1, 1, 0xFF, 0xFF, 0xFF, 0xFF, 0xFF], 22, 4),
    (&[1, 1, 1, 1, 0x80], 21, 5),
    (&[3, 3, 1, 2, 3, 3, 1, 2, 5], 24, 8),
    (&[2, 2, 1, 2, 2, 1, 1], 24, 6),
    (&[2, 2, 1, 2, 2, 2, 1], 24, 6),
    (&[1, 0, 1, 1, 1], 23, 2),
    (&[2, 5, 1, 6, 1, 3], 23, 3),
    (&[1, 5, 0, 1, 1], 23, 2),
    (&[2, 5, 3, 2, 1, 3], 23, 3),
    (&[1, 1, 1, 0], 2, 3),
    (&[1, 1, 1, 0xC7, 0x64], 3, 3),
    (&[1, 1, 1, 0xC6, 0x64], 21, 5),
    (&[2, 2, 1, 2, 2, 1], 21, 6),
    (&[2, 2, 1, 2, 1, 1, 2], 25, 6),
    (&[1, 1, 1, 1, 0x81, 0x80, 0x04], 4, 4),
    (&[1, 1, 1, 1, 1, 0], 25, 5),
    (&[], 21, 0),
    (&[1], 21, 1),
    (&[1, 1], 21, 2),
    (&[1, 1, 1], 21, 3),
    (&[1, 1, 1, 1], 21, 4),
    (&[1, 1, 1, 1, 0], 5, 4),
    (&[1, 1, 2, 1, 0], 23, 2),
];

/// A record's bytes, a group, and the bytes of the record without its parts, or the refusal's number and place.
pub type TakenOutGroup = (&'static [u8], usize, Result<&'static [u8], (u8, usize)>);

/// The bridge, whose sets are {1,4}, {2,3,4}, {2,5} and {1,3,5}.
const BRIDGE: &[u8] = &[5, 5, 1, 2, 3, 4, 5, 4, 0x09, 0x0E, 0x12, 0x15];

/// A controller with two pumps: the sets {1,2} and {1,3}.
const PUMPS: &[u8] = &[3, 3, 1, 2, 3, 2, 3, 5];

/// 15, 16 and 18, alone and before a later one, groups of one part and of several, and part numbers with gaps below a mark.
pub const TAKEN_OUT_GROUPS: [TakenOutGroup; 31] = [
    (&[1, 1, 1, 1, 1], 0, Err((15, 0))),
    (&[1, 1, 1, 1, 1], 1, Err((18, 0))),
    (&[1, 1, 1, 1, 1], 2, Err((16, 0))),
    (&[1, 1, 1, 1, 1], 3, Err((16, 0))),
    (&[1, 1, 1, 1, 1, 0], 0, Err((25, 5))),
    (&[1, 1, 1, 1, 1, 0], 1, Err((25, 5))),
    (&[1, 1, 1, 1, 1, 0], 2, Err((25, 5))),
    (BRIDGE, 0, Err((15, 0))),
    (BRIDGE, 32, Err((16, 0))),
    (BRIDGE, 32 + 20, Err((16, 0))),
    (BRIDGE, 32 + 3, Err((16, 0))),
    (BRIDGE, (1 << 16) + 20, Err((16, 0))),
    (BRIDGE, (1 << 63) + 20, Err((16, 0))),
    (BRIDGE, usize::MAX, Err((16, 0))),
    (BRIDGE, 3, Err((18, 0))),
    (BRIDGE, 24, Err((18, 0))),
    (BRIDGE, 31, Err((18, 0))),
    (BRIDGE, 20, Ok(&[3, 5, 1, 2, 4, 1, 5])),
    (BRIDGE, 5, Ok(&[3, 5, 2, 4, 5, 1, 5])),
    (BRIDGE, 13, Ok(&[2, 5, 2, 5, 1, 3])),
    (BRIDGE, 22, Ok(&[2, 5, 1, 4, 1, 3])),
    (BRIDGE, 4, Ok(&[4, 5, 1, 2, 4, 5, 2, 5, 10])),
    (BRIDGE, 16, Ok(&[4, 5, 1, 2, 3, 4, 2, 9, 14])),
    (PUMPS, 1, Err((18, 0))),
    (PUMPS, 2, Ok(&[2, 3, 1, 3, 1, 3])),
    (PUMPS, 3, Err((18, 0))),
    (PUMPS, 6, Err((18, 0))),
    (PUMPS, 7, Err((18, 0))),
    (&[3, 9, 2, 5, 7, 1, 4], 3, Ok(&[1, 9, 7, 1, 1])),
    (&[3, 9, 2, 5, 7, 2, 2, 4], 5, Ok(&[1, 9, 5, 1, 1])),
    (
        &[10, 10, 1, 2, 3, 4, 5, 6, 7, 8, 9, 10, 1, 0x81, 0x04],
        30,
        Ok(&[6, 10, 1, 6, 7, 8, 9, 10, 1, 0x21]),
    ),
];

/// A mark, part numbers and a list, and the bytes of their record, or the refusal's number and place.
pub type EnteredRecord = (
    u64,
    &'static [u64],
    &'static [u16],
    Result<&'static [u8], (u8, usize)>,
);

/// 1 to n and with gaps, numbers of up to seven bytes, and 1 to 5 and 23, alone and before a later one.
pub const ENTERED_RECORDS: [EnteredRecord; 27] = [
    (1, &[1], &[1], Ok(&[1, 1, 1, 1, 1])),
    (5, &[1, 2, 3, 4, 5], &[21, 18, 31, 14, 9], Ok(BRIDGE)),
    (15, &[3, 7, 12], &[5, 7, 3], Ok(&[3, 15, 3, 7, 12, 2, 3, 5])),
    (12, &[3, 7, 12], &[4], Ok(&[3, 12, 3, 7, 12, 1, 4])),
    (300, &[9, 300], &[2], Ok(&[2, 0xAC, 2, 9, 0xAC, 2, 1, 2])),
    (TOP_NUMBER, &[3], &[1], Ok(TOP_MARK)),
    (TOP_NUMBER, &[TOP_NUMBER], &[1], Ok(TOP_PART)),
    (0, &[], &[], Err((1, 0))),
    (9, &[], &[1], Err((1, 0))),
    (0, &[0; 17], &[], Err((1, 0))),
    (0, &[0, 0], &[], Err((2, 0))),
    (0, &[0, 0], &[1, 4], Err((4, 1))),
    (0, &[0, 0], &[1, 2, 0], Err((5, 2))),
    (15, &[0, 7, 12], &[3], Err((23, 0))),
    (15, &[3, 3, 12], &[3], Err((23, 1))),
    (15, &[3, 12, 7], &[3], Err((23, 2))),
    (15, &[3, 7, 0], &[3], Err((23, 2))),
    (11, &[3, 7, 12], &[3], Err((23, 2))),
    (6, &[3, 7, 3], &[3], Err((23, 1))),
    (0, &[1], &[1], Err((23, 0))),
    (TOP_NUMBER, &[TOP_NUMBER + 1], &[1], Err((23, 0))),
    (TOP_NUMBER + 1, &[TOP_NUMBER + 1], &[1], Err((23, 0))),
    (TOP_NUMBER + 1, &[TOP_NUMBER], &[1], Err((23, 1))),
    (TOP_NUMBER + 1, &[3, 3], &[1], Err((23, 1))),
    (TOP_NUMBER + 1, &[3, 4], &[1], Err((23, 2))),
    (u64::MAX, &[1, 2, u64::MAX], &[1], Err((23, 2))),
    (u64::MAX, &[1], &[1], Err((23, 1))),
];

/// Part number 3, and the mark 2^48-1.
const TOP_MARK: &[u8] = &[1, 0xFF, 0xFF, 0xFF, 0xFF, 0xFF, 0xFF, 0x3F, 3, 1, 1];

/// Part number and mark 2^48-1.
const TOP_PART: &[u8] = &[
    1, 0xFF, 0xFF, 0xFF, 0xFF, 0xFF, 0xFF, 0x3F, 0xFF, 0xFF, 0xFF, 0xFF, 0xFF, 0xFF, 0x3F, 1, 1,
];

/// Part numbers, those that are wanted, and the mask of their positions, or the refusal's number and place.
pub type WantedMask = (&'static [u64], &'static [u64], Result<u16, (u8, usize)>);

/// 1, 17 and 28, alone and before a later one, any order, none wanted, and numbers that stand twice.
pub const WANTED_MASKS: [WantedMask; 19] = [
    (&[3, 7, 12], &[7], Ok(0b010)),
    (&[3, 7, 12], &[12, 3], Ok(0b101)),
    (&[3, 7, 12], &[12, 7, 3], Ok(0b111)),
    (&[3, 7, 12], &[], Ok(0)),
    (&[3, 7, 12], &[8], Err((17, 0))),
    (&[3, 7, 12], &[0], Err((17, 0))),
    (&[3, 7, 12], &[3 + (1 << 32)], Err((17, 0))),
    (&[3, 7, 12], &[7, 7], Err((28, 0))),
    (&[3, 7, 12], &[7, 3, 7, 12], Err((28, 0))),
    (&[3, 7, 12], &[7, 7, 8], Err((17, 0))),
    (&[3, 7, 12], &[8, 8], Err((17, 0))),
    (&[], &[], Err((1, 0))),
    (&[], &[3], Err((1, 0))),
    (&[7; 17], &[7, 7], Err((1, 0))),
    (&[4, 4], &[4], Ok(0b11)),
    (&[4, 9, 4], &[4], Ok(0b101)),
    (&[4, 4], &[4, 4], Err((28, 0))),
    (&[0, u64::MAX], &[u64::MAX, 0], Ok(0b11)),
    (&[7; 16], &[7], Ok(0xFFFF)),
];

/// A record's bytes, a change by part numbers, and the bytes of the new record, or the refusal's number and place.
pub type ChangedByNumber = (
    &'static [u8],
    Change<'static>,
    Result<&'static [u8], (u8, usize)>,
);

/// The bridge without part 3: part 4 stands at position 3.
const FOUR: &[u8] = &[4, 5, 1, 2, 4, 5, 2, 5, 10];

/// Parts 2, 5 and 7 under the mark 9: the set {7}.
const GAPS: &[u8] = &[3, 9, 2, 5, 7, 1, 4];

/// 17, 28, 15, 5 and 18, alone and before a later one, and parts whose positions are not their numbers.
pub const CHANGED_BY_NUMBER: [ChangedByNumber; 32] = [
    (BRIDGE, Change::TakeOutPart(3), Ok(FOUR)),
    (FOUR, Change::TakeOutPart(4), Ok(&[3, 5, 1, 2, 5, 1, 6])),
    (FOUR, Change::TakeOutPart(5), Ok(&[3, 5, 1, 2, 4, 1, 5])),
    (FOUR, Change::TakeOutPart(3), Err((17, 0))),
    (BRIDGE, Change::TakeOutPart(0), Err((17, 0))),
    (BRIDGE, Change::TakeOutPart(6), Err((17, 0))),
    (BRIDGE, Change::TakeOutPart(1 + (1 << 32)), Err((17, 0))),
    (BRIDGE, Change::TakeOutPart(u64::MAX), Err((17, 0))),
    (PUMPS, Change::TakeOutPart(1), Err((18, 0))),
    (PUMPS, Change::TakeOutPart(2), Ok(&[2, 3, 1, 3, 1, 3])),
    (GAPS, Change::TakeOutPart(2), Ok(&[2, 9, 5, 7, 1, 2])),
    (GAPS, Change::TakeOutPart(3), Err((17, 0))),
    (GAPS, Change::TakeOutPart(7), Err((18, 0))),
    (
        BRIDGE,
        Change::TakeOutParts(&[5, 3]),
        Ok(&[3, 5, 1, 2, 4, 1, 5]),
    ),
    (BRIDGE, Change::TakeOutParts(&[3]), Ok(FOUR)),
    (BRIDGE, Change::TakeOutParts(&[]), Err((15, 0))),
    (BRIDGE, Change::TakeOutParts(&[3, 6]), Err((17, 0))),
    (BRIDGE, Change::TakeOutParts(&[3, 3]), Err((28, 0))),
    (BRIDGE, Change::TakeOutParts(&[3, 3, 6]), Err((17, 0))),
    (BRIDGE, Change::TakeOutParts(&[2, 1]), Err((18, 0))),
    (BRIDGE, Change::TakeOutParts(&[2, 1, 2]), Err((28, 0))),
    (GAPS, Change::TakeOutParts(&[5, 2]), Ok(&[1, 9, 7, 1, 1])),
    (GAPS, Change::TakeOutParts(&[1]), Err((17, 0))),
    (BRIDGE, Change::AddSetOfParts(&[1]), Ok(WIDER)),
    (BRIDGE, Change::AddSetOfParts(&[4, 1]), Ok(BRIDGE)),
    (BRIDGE, Change::AddSetOfParts(&[]), Err((5, 0))),
    (BRIDGE, Change::AddSetOfParts(&[6]), Err((17, 0))),
    (BRIDGE, Change::AddSetOfParts(&[1, 1]), Err((28, 0))),
    (BRIDGE, Change::AddSetOfParts(&[1, 1, 0]), Err((17, 0))),
    (
        GAPS,
        Change::AddSetOfParts(&[5]),
        Ok(&[3, 9, 2, 5, 7, 2, 2, 4]),
    ),
    (GAPS, Change::AddSetOfParts(&[7, 2]), Ok(GAPS)),
    (
        &[1, 1, 1, 1, 1, 0],
        Change::AddSetOfParts(&[]),
        Err((25, 5)),
    ),
];

/// The bridge with the set {1}.
const WIDER: &[u8] = &[5, 5, 1, 2, 3, 4, 5, 3, 1, 14, 18];

/// A first byte 00 without 02; each field of edition 2, alone and before a later one; and bytes left.
pub const REFUSED_EDITIONS: [RefusedRecord; 65] = [
    (&[0], 1, 0),
    (&[0, 0x82, 0], 1, 0),
    (&[0, 1], 1, 0),
    (&[0, 2], 21, 2),
    (&[0, 2, 0x11], 1, 2),
    (&[0, 2, 0, 2], 1, 2),
    (&[0, 2, 1, 1, 1, 1, 1, 0x41], 30, 7),
    (&[0, 2, 1, 2, 1, 1, 1, 1, 1], 30, 8),
    (&[0, 2, 1, 2, 1, 1, 1, 1, 3], 30, 8),
    (&[0, 2, 1, 1, 1, 1, 1, 0, 1], 31, 8),
    (&[0, 2, 1, 1, 1, 1, 1, 0, 0, 2], 31, 9),
    (&[0, 2, 1, 1, 1, 1, 1, 0, 0], 21, 9),
    (&[0, 0x82], 1, 0),
    (&[0, 0], 1, 0),
    (&[0, 3, 1, 1, 1, 1, 1, 0, 0, 1], 1, 0),
    (&[0, 0, 2, 1, 1, 1, 1, 1, 0, 0, 1], 1, 0),
    (&[0, 0x82, 0, 1, 1, 1, 1, 1, 0, 0, 1], 1, 0),
    (&[0x80, 0, 2, 1, 1, 1, 1, 1, 0, 0, 1], 22, 0),
    (&[2, 0, 1, 1, 1, 1, 1, 0, 0, 1], 23, 2),
    (&[0, 2, 0x80, 0], 22, 2),
    (&[0, 2, 0x91], 21, 3),
    (&[0, 2, 1], 21, 3),
    (&[0, 2, 1, 0, 1], 23, 4),
    (&[0, 2, 1, 0x80, 0], 22, 3),
    (&[0, 2, 1, 1, 2], 23, 4),
    (&[0, 2, 1, 1, 1, 0], 2, 5),
    (&[0, 2, 1, 1, 1, 0xC7, 0x64], 3, 5),
    (&[0, 2, 1, 1, 1, 1, 2], 4, 6),
    (&[0, 2, 1, 1, 1, 1, 0], 5, 6),
    (&[0, 2, 2, 2, 1, 2, 2, 1, 1], 24, 8),
    (&[0, 2, 3, 3, 1, 2, 3, 3, 1, 2, 5, 0x41], 24, 10),
    (&[0, 2, 1, 1, 1, 1, 1], 21, 7),
    (&[0, 2, 1, 1, 1, 1, 1, 0x80], 21, 8),
    (&[0, 2, 1, 1, 1, 1, 1, 0x80, 0], 22, 7),
    (&[0, 2, 1, 1, 1, 1, 1, 0x80, 0x80, 0x80, 0x80, 0x10], 22, 7),
    (&[0, 2, 1, 1, 1, 1, 1, 0xFF, 0xFF, 0xFF, 0xFF, 0xFF], 22, 7),
    (&[0, 2, 1, 1, 1, 1, 1, 0xFF, 0xFF, 0xFF, 0xFF, 0x0F], 30, 7),
    (&[0, 2, 1, 1, 1, 1, 1, 0x80, 0x01], 30, 7),
    (&[0, 2, 1, 1, 1, 1, 1, 0x41, 0x80, 0], 30, 7),
    (&[0, 2, 1, 9, 1, 1, 1, 0x40], 21, 8),
    (&[0, 2, 1, 9, 1, 1, 1, 1, 0], 30, 8),
    (&[0, 2, 1, 9, 1, 1, 1, 2, 0, 3], 30, 8),
    (&[0, 2, 1, 9, 1, 1, 1, 2, 3, 3], 30, 9),
    (&[0, 2, 1, 9, 1, 1, 1, 2, 4, 3], 30, 9),
    (&[0, 2, 1, 9, 1, 1, 1, 3, 4, 5, 3], 30, 10),
    (&[0, 2, 1, 9, 1, 1, 1, 1, 10], 30, 8),
    (&[0, 2, 1, 9, 5, 1, 1, 2, 3, 5], 30, 9),
    (&[0, 2, 2, 9, 4, 5, 1, 1, 2, 3, 5], 30, 10),
    (&[0, 2, 1, 9, 5, 1, 1, 2, 3, 5, 0x80, 0], 30, 9),
    (&[0, 2, 1, 9, 5, 1, 1, 2, 3, 0x80, 0], 22, 9),
    (&[0, 2, 1, 9, 5, 1, 1, 2, 3], 21, 9),
    (
        &[0, 2, 1, 9, 1, 1, 1, 1, 0xFF, 0xFF, 0xFF, 0xFF, 0xFF, 0xFF],
        21,
        14,
    ),
    (
        &[
            0, 2, 1, 9, 1, 1, 1, 1, 0xFF, 0xFF, 0xFF, 0xFF, 0xFF, 0xFF, 0xFF,
        ],
        22,
        8,
    ),
    (
        &[
            0, 2, 1, 9, 1, 1, 1, 1, 0xFF, 0xFF, 0xFF, 0xFF, 0xFF, 0xFF, 0x3F,
        ],
        30,
        8,
    ),
    (
        &[
            0, 2, 1, 9, 1, 1, 1, 1, 0xFF, 0xFF, 0xFF, 0xFF, 0xFF, 0xFF, 0x40,
        ],
        22,
        8,
    ),
    (&[0, 2, 1, 1, 1, 1, 1, 0, 0x80, 0], 22, 8),
    (
        &[0, 2, 1, 1, 1, 1, 1, 0, 0xFF, 0xFF, 0xFF, 0xFF, 0xFF],
        22,
        8,
    ),
    (
        &[0, 2, 1, 1, 1, 1, 1, 0, 0xFF, 0xFF, 0xFF, 0xFF, 0x0F],
        31,
        8,
    ),
    (&[0, 2, 1, 1, 1, 1, 1, 0, 1, 0x80, 0], 31, 8),
    (&[0, 2, 1, 1, 1, 1, 1, 0, 0, 0x81, 0], 22, 9),
    (&[0, 2, 1, 1, 1, 1, 1, 0, 0, 0x81, 1], 31, 9),
    (&[0, 2, 2, 2, 1, 2, 1, 1, 0, 0, 1, 2], 31, 11),
    (&[0, 2, 1, 1, 1, 1, 1, 0, 0, 2, 0], 31, 9),
    (&[0, 2, 1, 1, 1, 1, 1, 0, 0, 1, 0], 25, 10),
    (&[0, 2, 1, 9, 1, 1, 1, 1, 9, 0, 1, 0], 25, 11),
];

/// The bytes of a record of edition 1, and of the same of edition 2 with no retired numbers.
pub type BothEditions = (&'static [u8], &'static [u8]);

/// One part; two of which one is idle; the bridge, a controller with two pumps, gaps below a mark; ten parts of which any suffices, with
/// counts of two bytes.
pub const BOTH_EDITIONS: [BothEditions; 6] = [
    (&[1, 1, 1, 1, 1], &[0, 2, 1, 1, 1, 1, 1, 0, 0, 1]),
    (&[2, 2, 1, 2, 1, 1], &[0, 2, 2, 2, 1, 2, 1, 1, 0, 0, 1, 1]),
    (BRIDGE, BRIDGE_2),
    (PUMPS, &[0, 2, 3, 3, 1, 2, 3, 2, 3, 5, 0, 0, 0, 2, 1]),
    (GAPS, &[0, 2, 3, 9, 2, 5, 7, 1, 4, 0, 0, 1, 2, 1]),
    (
        &[
            10, 10, 1, 2, 3, 4, 5, 6, 7, 8, 9, 10, 10, 1, 2, 4, 8, 16, 32, 64, 0x80, 1, 0x80, 2,
            0x80, 4,
        ],
        &[
            0, 2, 10, 10, 1, 2, 3, 4, 5, 6, 7, 8, 9, 10, 10, 1, 2, 4, 8, 16, 32, 64, 0x80, 1, 0x80,
            2, 0x80, 4, 0, 0, 10, 45, 120, 0xD2, 1, 0xFC, 1, 0xD2, 1, 120, 45, 10, 1,
        ],
    ),
];

/// The bridge of edition 2, whose path counts are 0, 0, 2, 8, 5 and 1.
const BRIDGE_2: &[u8] = &[
    0, 2, 5, 5, 1, 2, 3, 4, 5, 4, 0x09, 0x0E, 0x12, 0x15, 0, 0, 0, 2, 8, 5, 1,
];

/// The bridge of edition 2 without part 3, which is filed.
const FOUR_2: &[u8] = &[0, 2, 4, 5, 1, 2, 4, 5, 2, 5, 10, 1, 3, 0, 0, 2, 4, 1];

/// The bridge of edition 2 without parts 3 and 5.
const THREE_2: &[u8] = &[0, 2, 3, 5, 1, 2, 4, 1, 5, 2, 3, 5, 0, 0, 1, 1];

/// Parts 2, 5 and 7 under the mark 9, and the retired numbers 1, 6 and 9: the set {7}.
const GAPS_2: &[u8] = &[0, 2, 3, 9, 2, 5, 7, 1, 4, 3, 1, 6, 9, 0, 1, 2, 1];

/// Every change of a record of edition 2, and refusals.
pub const CHANGED_EDITIONS: [ChangedByNumber; 20] = [
    (BRIDGE_2, Change::TakeOut(3), Ok(FOUR_2)),
    (BRIDGE_2, Change::TakeOutPart(3), Ok(FOUR_2)),
    (FOUR_2, Change::TakeOutPart(5), Ok(THREE_2)),
    (FOUR_2, Change::TakeOut(4), Ok(THREE_2)),
    (BRIDGE_2, Change::TakeOutParts(&[5, 3]), Ok(THREE_2)),
    (BRIDGE_2, Change::TakeOutGroup(20), Ok(THREE_2)),
    (
        FOUR_2,
        Change::AddPart,
        Ok(&[0, 2, 5, 6, 1, 2, 4, 5, 6, 2, 5, 10, 1, 3, 0, 0, 2, 6, 5, 1]),
    ),
    (
        BRIDGE_2,
        Change::AddSet(1),
        Ok(&[0, 2, 5, 5, 1, 2, 3, 4, 5, 3, 1, 14, 18, 0, 0, 1, 5, 9, 5, 1]),
    ),
    (BRIDGE_2, Change::AddSet(9), Ok(BRIDGE_2)),
    (FOUR_2, Change::AddSetOfParts(&[4, 1]), Ok(FOUR_2)),
    (
        GAPS_2,
        Change::TakeOutPart(5),
        Ok(&[0, 2, 2, 9, 2, 7, 1, 2, 4, 1, 5, 6, 9, 0, 1, 1]),
    ),
    (
        GAPS_2,
        Change::TakeOutParts(&[5, 2]),
        Ok(&[0, 2, 1, 9, 7, 1, 1, 5, 1, 2, 5, 6, 9, 0, 1]),
    ),
    (
        GAPS_2,
        Change::AddPart,
        Ok(&[0, 2, 4, 10, 2, 5, 7, 10, 1, 4, 3, 1, 6, 9, 0, 1, 3, 3, 1]),
    ),
    (FOUR_2, Change::TakeOutPart(3), Err((17, 0))),
    (FOUR_2, Change::TakeOut(5), Err((17, 0))),
    (FOUR_2, Change::TakeOutGroup(3), Err((18, 0))),
    (FOUR_2, Change::TakeOutGroup(0), Err((15, 0))),
    (FOUR_2, Change::TakeOutGroup(16), Err((16, 0))),
    (FOUR_2, Change::AddSetOfParts(&[1, 3]), Err((17, 0))),
    (
        &[0, 2, 1, 1, 1, 1, 1, 0, 0, 2],
        Change::TakeOut(9),
        Err((31, 9)),
    ),
];

/// Kind, n and entries, and their refusal's number and place.
pub type RefusedVector = (u8, usize, &'static [i64], u8, usize);

/// Entries far outside, faults in two places, totals that are not n!, lengths.
pub const REFUSED_VECTORS: [RefusedVector; 20] = [
    (3, 2, &[1, i64::MAX], 13, 1),
    (3, 2, &[-(i64::MAX - 2), i64::MAX], 13, 1),
    (4, 1, &[1, 0], 13, 0),
    (1, 1, &[i64::MIN, 1], 13, 0),
    (2, 5, &[120, 119, 96, 24, 1, 0], 13, 1),
    (2, 1, &[1, 1], 13, 0),
    (1, 3, &[0, 3, 2, 2], 13, 3),
    (3, 3, &[0, 0, 0], 13, 3),
    (3, 3, &[0, 6, 6], 13, 2),
    (3, 3, &[3, -3, 6], 13, 2),
    (3, 3, &[2, -2, 6], 14, 1),
    (3, 3, &[0, 6, 0, 0], 12, 0),
    (1, 3, &[0, 3, 3], 12, 0),
    (3, 17, &[0], 1, 0),
    (1, 0, &[], 1, 0),
    (0, 0, &[], 26, 0),
    (5, 1, &[0, 1], 26, 0),
    (255, 17, &[], 26, 0),
    (2, 3, &[6, 6, 6, 3], 13, 0),
    (4, 2, &[0, 3, -1], 13, 1),
];

/// A text of the drawing tool, and its refusal's number and place.
pub type RefusedDrawing = (&'static [u8], u8, usize);

/// The first line at fault, a later one, and lines with more than one fault.
pub const REFUSED_DRAWINGS: [RefusedDrawing; 100] = [
    (b"parts 17\nset x\n", 1, 1),
    (b"parts 5\nset 9 x\n", 27, 2),
    (b"parts 5\nset 1 1 9\n", 17, 2),
    (b"parts 5\nset 1 1\n", 28, 2),
    (b"parts 18446744073709551617\n", 1, 1),
    (b"parts 5\nset 4294967297\n", 17, 2),
    (b"parts 0\n", 1, 1),
    (b"parts 5\nset 0\n", 17, 2),
    (b"parts 5\nset 00\n", 27, 2),
    (b"parts 5", 27, 1),
    (b"parts 5\nset 1", 27, 2),
    (b"parts 5\n\n", 27, 2),
    (b"parts 5\nset 1\nset 2 9\n", 17, 3),
    (b"parts 05\n", 27, 1),
    (b"parts 5\nset 1  2\n", 27, 2),
    (b"parts 5 5\n", 27, 1),
    (b"parts 5\nset 1 \n", 27, 2),
    (b"parts 5\nset\n", 27, 2),
    (b"", 27, 1),
    (b"parts 5\n", 2, 1),
    (b"parts 17\n", 1, 1),
    (b"\n", 27, 1),
    (b"parts\nset 1\n", 27, 1),
    (b"parts \nset 1\n", 27, 1),
    (b"parts5\nset 1\n", 27, 1),
    (b"part 5\nset 1\n", 27, 1),
    (b"Parts 5\nset 1\n", 27, 1),
    (b"parts  5\nset 1\n", 27, 1),
    (b" parts 5\nset 1\n", 27, 1),
    (b"parts 5 \nset 1\n", 27, 1),
    (b"parts 5 5\nset 1\n", 27, 1),
    (b"parts 05\nset 1\n", 27, 1),
    (b"parts 00\nset 1\n", 27, 1),
    (b"parts +5\nset 1\n", 27, 1),
    (b"parts -5\nset 1\n", 27, 1),
    (b"parts 5.\nset 1\n", 27, 1),
    (b"parts 17x\nset 1\n", 27, 1),
    (b"set 1\n", 27, 1),
    (b"set 5\nset 1\n", 27, 1),
    (b"\nparts 5\nset 1\n", 27, 1),
    (b"parts 5\r\nset 1\r\n", 27, 1),
    (b"parts 5\rset 1\r", 27, 1),
    (b"parts\t5\nset 1\n", 27, 1),
    (b"\xEF\xBB\xBFparts 5\nset 1\n", 27, 1),
    (b"parts 5\0\nset 1\n", 27, 1),
    (b"parts \xB5\nset 1\n", 27, 1),
    (b"parts 5\x8Aset 1\n", 27, 1),
    (b"parts 5\x0Bset 1\n", 27, 1),
    (b"parts 17\n\n", 1, 1),
    (b"parts 0\nset 1", 1, 1),
    (b"parts 100\nset 1\n", 1, 1),
    (b"parts 65541\nset 1\n", 1, 1),
    (b"parts 5\nset \n", 27, 2),
    (b"parts 5\nset1\n", 27, 2),
    (b"parts 5\nsets 1\n", 27, 2),
    (b"parts 5\nse 1\n", 27, 2),
    (b"parts 5\nSET 1\n", 27, 2),
    (b"parts 5\n set 1\n", 27, 2),
    (b"parts 5\nset  1\n", 27, 2),
    (b"parts 5\nset 1  4\n", 27, 2),
    (b"parts 5\nset 1,4\n", 27, 2),
    (b"parts 5\nset 01\n", 27, 2),
    (b"parts 5\nset 1 04\n", 27, 2),
    (b"parts 5\nset +1\n", 27, 2),
    (b"parts 5\nset -1\n", 27, 2),
    (b"parts 5\nset 1-4\n", 27, 2),
    (b"parts 5\nset /\n", 27, 2),
    (b"parts 5\nset :\n", 27, 2),
    (b"parts 5\nset 1/\n", 27, 2),
    (b"parts 5\nset 1 :\n", 27, 2),
    (b"parts 5\nset 1\r\n", 27, 2),
    (b"parts 5\nset 1\r", 27, 2),
    (b"parts 5\nset\t1\n", 27, 2),
    (b"parts 5\nset 1\t4\n", 27, 2),
    (b"parts 5\nset 1\0\n", 27, 2),
    (b"parts 5\nset \xB1\n", 27, 2),
    (b"parts 5\nset\xC2\xA01\n", 27, 2),
    (b"parts 5\nparts 5\n", 27, 2),
    (b"parts 5\n\nset 1\n", 27, 2),
    (b"parts 5\nset 1\n\n", 27, 3),
    (b"parts 5\nset 1\n ", 27, 3),
    (b"parts 5\nset 1\n\0", 27, 3),
    (b"parts 5\nset 1\nset 4", 27, 3),
    (b"parts 5\nset 1\nparts 5\n", 27, 3),
    (b"parts 5\nset 1 1 x\n", 27, 2),
    (b"parts 5\nset 1\nset 6 x\nset 0\n", 27, 3),
    (b"parts 5\nset 6\n", 17, 2),
    (b"parts 5\nset 4 1 6\n", 17, 2),
    (b"parts 5\nset 9 9\n", 17, 2),
    (b"parts 1\nset 2\n", 17, 2),
    (b"parts 16\nset 17\n", 17, 2),
    (b"parts 5\nset 257\n", 17, 2),
    (b"parts 5\nset 65537\n", 17, 2),
    (b"parts 5\nset 1\nset 100000000000000000000\n", 17, 3),
    (b"parts 5\nset 0 0\n", 17, 2),
    (b"parts 5\nset 6\nset x\n", 17, 2),
    (b"parts 5\nset 3 1 3\n", 28, 2),
    (b"parts 16\nset 16 16\n", 28, 2),
    (b"parts 5\nset 1\nset 2\nset 5 5\n", 28, 4),
    (b"parts 5\nset 1 1\nset 6\n", 28, 2),
];

/// A text of the drawing tool, and the bytes of its record.
pub type ReadDrawing = (&'static [u8], &'static [u8]);

/// Lines and positions in any order, a set that holds another, and a set twice.
pub const READ_DRAWINGS: [ReadDrawing; 8] = [
    (b"parts 1\nset 1\n", &[1, 1, 1, 1, 1]),
    (b"parts 2\nset 1 2\n", &[2, 2, 1, 2, 1, 3]),
    (b"parts 3\nset 1 3\nset 2 1\n", &[3, 3, 1, 2, 3, 2, 3, 5]),
    (
        b"parts 3\nset 3 2 1\nset 2 1\nset 1 3\nset 1 2\n",
        &[3, 3, 1, 2, 3, 2, 3, 5],
    ),
    (
        b"parts 5\nset 1 4\nset 2 3 4\nset 2 5\nset 1 3 5\n",
        &[5, 5, 1, 2, 3, 4, 5, 4, 0x09, 0x0E, 0x12, 0x15],
    ),
    (
        b"parts 5\nset 5 3 1\nset 4 3 2\nset 5 2\nset 4 1\nset 5 4 3 2 1\n",
        &[5, 5, 1, 2, 3, 4, 5, 4, 0x09, 0x0E, 0x12, 0x15],
    ),
    (
        b"parts 5\nset 1\nset 2 3 4\nset 5 2\nset 3 5 1\n",
        &[5, 5, 1, 2, 3, 4, 5, 3, 0x01, 0x0E, 0x12],
    ),
    (
        b"parts 10\nset 10 1\n",
        &[10, 10, 1, 2, 3, 4, 5, 6, 7, 8, 9, 10, 1, 0x81, 0x04],
    ),
];

/// A table of n parts, the number of its refusal and the place.
pub type RefusedTable = (usize, &'static [u8], u8, usize);

/// n first, then the table's checks in their order; of two faults the earlier check speaks.
pub const REFUSED_TABLES: [RefusedTable; 12] = [
    (0, &[], 1, 0),
    (0, &[0x02], 1, 0),
    (17, &[], 1, 0),
    (3, &[], 6, 0),
    (3, &[0x80, 0x00], 6, 0),
    (1, &[0x05], 7, 0),
    (2, &[0x1E], 7, 0),
    (2, &[0x01], 8, 0),
    (2, &[0x02], 9, 0),
    (3, &[0x82], 10, 1),
    (3, &[0xC4], 10, 2),
    (5, &[0x00, 0xEA, 0xEC, 0xE6], 10, 0x0B),
];

/// A machine of n parts: its minimal path sets and its minimal cut sets, its table and the dual's.
pub type CutMachine = (usize, [&'static [u16]; 2], [&'static [u8]; 2]);

/// One part; two of which either or the first alone suffices, or both are needed; a controller with two pumps; two of three; four in a row
/// and in a ring, stopped by two failed neighbours; the bridge.
pub const CUT_MACHINES: [CutMachine; 9] = [
    (1, [&[1], &[1]], [&[0x02], &[0x02]]),
    (2, [&[1, 2], &[3]], [&[0x0E], &[0x08]]),
    (2, [&[1], &[1]], [&[0x0A], &[0x0A]]),
    (2, [&[3], &[1, 2]], [&[0x08], &[0x0E]]),
    (3, [&[3, 5], &[1, 6]], [&[0xA8], &[0xEA]]),
    (3, [&[3, 5, 6], &[3, 5, 6]], [&[0xE8], &[0xE8]]),
    (
        4,
        [&[5, 6, 10], &[3, 6, 12]],
        [&[0xE0, 0xEC], &[0xC8, 0xF8]],
    ),
    (
        4,
        [&[5, 10], &[3, 6, 9, 12]],
        [&[0xA0, 0xEC], &[0xC8, 0xFA]],
    ),
    (
        5,
        [&[9, 14, 18, 21], &[3, 14, 21, 24]],
        [&[0x00, 0xEA, 0xEC, 0xEE], &[0x88, 0xC8, 0xA8, 0xFF]],
    ),
];

/// A machine of n parts: its minimal path sets, its table and the mask of its idle parts.
pub type IdleMachine = (usize, &'static [u16], &'static [u8], u16);

/// One part; two of which one, either or both run the machine; three of which the middle one or the two others do; four in a chain of pairs,
/// of which none is idle though the last entry of the domination is 0; the bridge, also with a sixth part in no set; and of seven parts the
/// first, the sixth or the seventh alone, or the sixth with the seventh.
pub const IDLE_MACHINES: [IdleMachine; 15] = [
    (1, &[1], &[0x02], 0),
    (2, &[1], &[0x0A], 0b10),
    (2, &[2], &[0x0C], 0b01),
    (2, &[1, 2], &[0x0E], 0),
    (2, &[3], &[0x08], 0),
    (3, &[2], &[0xCC], 0b101),
    (3, &[5], &[0xA0], 0b010),
    (3, &[1, 4], &[0xFA], 0b010),
    (4, &[3, 6, 12], &[0xC8, 0xF8], 0),
    (5, &[9, 14, 18, 21], &[0x00, 0xEA, 0xEC, 0xEE], 0),
    (
        6,
        &[9, 14, 18, 21],
        &[0x00, 0xEA, 0xEC, 0xEE, 0x00, 0xEA, 0xEC, 0xEE],
        0b10_0000,
    ),
    (7, &[0x01], &[0xAA; 16], 0b111_1110),
    (
        7,
        &[0x20],
        &[
            0, 0, 0, 0, 0xFF, 0xFF, 0xFF, 0xFF, 0, 0, 0, 0, 0xFF, 0xFF, 0xFF, 0xFF,
        ],
        0b101_1111,
    ),
    (
        7,
        &[0x40],
        &[
            0, 0, 0, 0, 0, 0, 0, 0, 0xFF, 0xFF, 0xFF, 0xFF, 0xFF, 0xFF, 0xFF, 0xFF,
        ],
        0b011_1111,
    ),
    (
        7,
        &[0x60],
        &[0, 0, 0, 0, 0, 0, 0, 0, 0, 0, 0, 0, 0xFF, 0xFF, 0xFF, 0xFF],
        0b001_1111,
    ),
];

/// Two machines of the same n parts: their tables, and the square of their joint signature, row by row.
pub type JointMachines = (usize, [&'static [u8]; 2], &'static [u64]);

/// One part; two of which one, either or both run the machines; a controller with two pumps beside two of three; the middle part of three
/// beside the two others; document 004's example 2.10, which prints half of these counts out of 12, both ways round; the bridge beside itself.
pub const JOINT_MACHINES: [JointMachines; 13] = [
    (1, [&[0x02], &[0x02]], &[1]),
    (2, [&[0x0A], &[0x0A]], &[1, 0, 0, 1]),
    (2, [&[0x0A], &[0x0C]], &[0, 1, 1, 0]),
    (2, [&[0x0A], &[0x0E]], &[0, 1, 0, 1]),
    (2, [&[0x0E], &[0x0A]], &[0, 0, 1, 1]),
    (2, [&[0x0C], &[0x08]], &[1, 0, 1, 0]),
    (2, [&[0x08], &[0x0E]], &[0, 2, 0, 0]),
    (2, [&[0x0E], &[0x08]], &[0, 0, 2, 0]),
    (3, [&[0xA8], &[0xE8]], &[0, 2, 0, 0, 4, 0, 0, 0, 0]),
    (3, [&[0xCC], &[0xA0]], &[0, 2, 0, 2, 0, 0, 2, 0, 0]),
    (
        4,
        [&[0x88, 0x88], &[0x00, 0xFC]],
        &[0, 6, 6, 0, 4, 2, 2, 0, 2, 2, 0, 0, 0, 0, 0, 0],
    ),
    (
        4,
        [&[0x00, 0xFC], &[0x88, 0x88]],
        &[0, 4, 2, 0, 6, 2, 2, 0, 6, 2, 0, 0, 0, 0, 0, 0],
    ),
    (
        5,
        [&[0x00, 0xEA, 0xEC, 0xEE], &[0x00, 0xEA, 0xEC, 0xEE]],
        &[
            0, 0, 0, 0, 0, 0, 24, 0, 0, 0, 0, 0, 72, 0, 0, 0, 0, 0, 24, 0, 0, 0, 0, 0, 0,
        ],
    ),
];

/// A table over blocks, their number first, the blocks' sizes and their path counts, and the path counts of the whole.
pub type BlockMachine = (
    usize,
    &'static [u8],
    &'static [usize],
    &'static [i64],
    &'static [i64],
);

/// A block that is the whole, the bridge among them; two single parts; one of two blocks that is idle; the request's two blocks in series,
/// both ways round, and in parallel; two of three blocks; the bridge with two parts for its middle one, either of which suffices; and
/// counts that no block has, alone, in series and in parallel with a part.
pub const BLOCK_MACHINES: [BlockMachine; 15] = [
    (1, &[0x02], &[1], &[0, 1], &[0, 1]),
    (1, &[0x02], &[5], &[0, 0, 2, 8, 5, 1], &[0, 0, 2, 8, 5, 1]),
    (2, &[0x08], &[1, 1], &[0, 1, 0, 1], &[0, 0, 1]),
    (2, &[0x0E], &[1, 1], &[0, 1, 0, 1], &[0, 2, 1]),
    (2, &[0x0A], &[1, 2], &[0, 1, 0, 2, 1], &[0, 1, 2, 1]),
    (2, &[0x0C], &[1, 2], &[0, 1, 0, 0, 1], &[0, 0, 1, 1]),
    (
        2,
        &[0x08],
        &[3, 4],
        &[0, 0, 2, 1, 0, 0, 2, 4, 1],
        &[0, 0, 0, 0, 4, 10, 6, 1],
    ),
    (
        2,
        &[0x08],
        &[4, 3],
        &[0, 0, 2, 4, 1, 0, 0, 2, 1],
        &[0, 0, 0, 0, 4, 10, 6, 1],
    ),
    (
        2,
        &[0x0E],
        &[3, 4],
        &[0, 0, 2, 1, 0, 0, 2, 4, 1],
        &[0, 0, 4, 19, 31, 21, 7, 1],
    ),
    (
        3,
        &[0xE8],
        &[1, 2, 1],
        &[0, 1, 0, 0, 1, 0, 1],
        &[0, 0, 1, 4, 1],
    ),
    (
        5,
        &[0x00, 0xEA, 0xEC, 0xEE],
        &[1, 1, 2, 1, 1],
        &[0, 1, 0, 1, 0, 2, 1, 0, 1, 0, 1],
        &[0, 0, 2, 12, 13, 6, 1],
    ),
    (1, &[0x02], &[3], &[0, 1, 1, 1], &[0, 1, 1, 1]),
    (1, &[0x02], &[4], &[0, 0, 1, 1, 1], &[0, 0, 1, 1, 1]),
    (2, &[0x08], &[3, 1], &[0, 1, 1, 1, 0, 1], &[0, 0, 1, 1, 1]),
    (2, &[0x0E], &[3, 1], &[0, 1, 1, 1, 0, 1], &[0, 2, 4, 4, 1]),
];

/// A table over blocks, their number first, the blocks' sizes and their path counts, and the refusal's number and place.
pub type RefusedBlocks = (
    usize,
    &'static [u8],
    &'static [usize],
    &'static [i64],
    u8,
    usize,
);

/// Each check alone and before a later one: the table's, 12 and 1 for the sizes, 12 for the vectors' length, 13 and 14 of the first vector
/// and of the second, 33.
pub const REFUSED_BLOCKS: [RefusedBlocks; 44] = [
    (0, &[], &[], &[], 1, 0),
    (17, &[0x08], &[3], &[0], 1, 0),
    (2, &[], &[3], &[0], 6, 0),
    (
        2,
        &[0x08, 0x00],
        &[3, 4],
        &[0, 0, 2, 1, 0, 0, 2, 4, 1],
        6,
        0,
    ),
    (2, &[0x18], &[0, 4], &[0, 0, 2, 1, 0, 0, 2, 4, 1], 7, 0),
    (2, &[0x09], &[3, 4], &[0, 0, 2, 1, 0, 0, 2, 4], 8, 0),
    (2, &[0x02], &[3, 4], &[1, 0, 2, 1, 0, 0, 2, 4, 1], 9, 0),
    (3, &[0xC4], &[3, 4], &[0, 0, 2, 1, 0, 0, 2, 4, 1], 10, 2),
    (2, &[0x08], &[], &[], 12, 0),
    (2, &[0x08], &[3], &[0, 0, 2, 1], 12, 0),
    (2, &[0x08], &[0], &[0, 0, 2, 1, 0, 0, 2, 4, 1], 12, 0),
    (2, &[0x08], &[7], &[0, 0, 2, 1, 0, 0, 2, 4, 1], 12, 0),
    (2, &[0x08], &[3, 4, 0], &[0, 0, 2, 1, 0, 0, 2, 4, 1], 12, 0),
    (
        2,
        &[0x08],
        &[3, 3, 1],
        &[0, 0, 2, 1, 0, 0, 2, 1, 0, 1],
        12,
        0,
    ),
    (1, &[0x02], &[3, 4], &[0, 0, 2, 1, 0, 0, 2, 4, 1], 12, 0),
    (2, &[0x08], &[0, 4], &[0, 0, 0, 2, 4, 1], 1, 0),
    (2, &[0x08], &[3, 0], &[0, 0, 2, 1, 1], 1, 0),
    (2, &[0x08], &[3, 0], &[], 1, 0),
    (2, &[0x08], &[3, 17], &[9, 9], 1, 0),
    (2, &[0x08], &[17, 4], &[0, 0, 2, 1, 0, 0, 2, 4, 1], 1, 0),
    (2, &[0x08], &[usize::MAX, 4], &[0, 0, 2, 4, 1], 1, 0),
    (2, &[0x08], &[(1 << 32) + 1, 1], &[0, 1, 0, 1], 1, 0),
    (2, &[0x08], &[1, 257], &[0, 1, 0, 1], 1, 0),
    (2, &[0x08], &[3, 4], &[], 12, 0),
    (2, &[0x08], &[3, 4], &[0, 0, 2, 1, 0, 0, 2, 4], 12, 0),
    (2, &[0x08], &[3, 4], &[0, 0, 2, 1, 0, 0, 2, 4, 1, 0], 12, 0),
    (2, &[0x08], &[3, 4], &[9, 9, 9, 9, 9, 9, 9], 12, 0),
    (2, &[0x08], &[16, 16], &[9, 9], 12, 0),
    (2, &[0x08], &[4, 3], &[0, 0, 2, 1, 0, 0, 2, 4, 1], 13, 4),
    (2, &[0x08], &[3, 4], &[1, 0, 2, 1, 0, 0, 2, 4, 1], 13, 0),
    (2, &[0x08], &[3, 4], &[0, -1, 2, 1, 0, 0, 2, 4, 1], 13, 1),
    (2, &[0x08], &[3, 4], &[0, 0, 4, 1, 0, 0, 2, 4, 1], 13, 2),
    (2, &[0x08], &[3, 4], &[0, 0, 2, 0, 0, 0, 2, 4, 1], 13, 3),
    (2, &[0x08], &[3, 4], &[0, 0, 2, 1, 1, 0, 2, 4, 1], 13, 0),
    (2, &[0x08], &[3, 4], &[0, 0, 2, 1, 0, 5, 2, 4, 1], 13, 1),
    (2, &[0x08], &[3, 4], &[0, 0, 2, 1, 0, 0, 2, 4, 2], 13, 4),
    (2, &[0x08], &[3, 4], &[0, 3, 2, 2, 0, 0, 2, 4, 1], 13, 3),
    (2, &[0x08], &[3, 4], &[0, 3, 2, 1, 0, 0, 2, 4, 1], 14, 1),
    (2, &[0x08], &[3, 4], &[0, 0, 2, 1, 0, 0, 6, 2, 1], 14, 2),
    (2, &[0x08], &[3, 4], &[0, 3, 2, 1, 9, 0, 2, 4, 1], 14, 1),
    (2, &[0x08], &[3, 4], &[0, 3, 2, 1, 0, 4, 2, 4, 1], 14, 1),
    (
        2,
        &[0x08],
        &[9, 8],
        &[0, 0, 0, 0, 0, 0, 0, 0, 0, 1, 0, 0, 0, 0, 0, 0, 0, 0, 1],
        33,
        0,
    ),
    (
        2,
        &[0x08],
        &[9, 8],
        &[0, 0, 0, 0, 0, 0, 0, 0, 0, 1, 0, 0, 0, 0, 0, 0, 0, 0, 2],
        13,
        8,
    ),
    (
        2,
        &[0x08],
        &[9, 8],
        &[0, 0, 0, 0, 0, 0, 0, 0, 0, 1, 0, 8, 0, 0, 0, 0, 0, 0, 1],
        14,
        1,
    ),
];

/// A stock pattern, n and k, and the table.
pub type StockMachine = (Pattern, usize, usize, &'static [u8]);

/// All of up to two parts, and those of three and four in which the patterns differ; four parts in a ring with k = 4 run on any one.
pub const STOCK_MACHINES: [StockMachine; 18] = [
    (AtLeast, 1, 1, &[0x02]),
    (Row, 1, 1, &[0x02]),
    (Ring, 1, 1, &[0x02]),
    (AtLeast, 2, 1, &[0x0E]),
    (AtLeast, 2, 2, &[0x08]),
    (Row, 2, 1, &[0x08]),
    (Row, 2, 2, &[0x0E]),
    (Ring, 2, 1, &[0x08]),
    (Ring, 2, 2, &[0x0E]),
    (AtLeast, 3, 2, &[0xE8]),
    (Row, 3, 2, &[0xEC]),
    (AtLeast, 4, 2, &[0xE8, 0xFE]),
    (AtLeast, 4, 3, &[0x80, 0xE8]),
    (Row, 4, 2, &[0xE0, 0xEC]),
    (Ring, 4, 2, &[0xA0, 0xEC]),
    (Row, 4, 3, &[0xFC, 0xFE]),
    (Ring, 4, 3, &[0xE8, 0xFE]),
    (Ring, 4, 4, &[0xFE, 0xFF]),
];

/// n and k of a stock pattern, and the number of the refusal, whose place is 0.
pub type RefusedPattern = (usize, usize, u8);

/// n first, then k.
pub const REFUSED_PATTERNS: [RefusedPattern; 14] = [
    (0, 0, 1),
    (0, 1, 1),
    (17, 0, 1),
    (17, 5, 1),
    (17, 18, 1),
    (usize::MAX, 1, 1),
    (usize::MAX, usize::MAX, 1),
    (1, 0, 29),
    (1, 2, 29),
    (5, 0, 29),
    (5, 6, 29),
    (5, 256 + 5, 29),
    (16, 17, 29),
    (16, usize::MAX, 29),
];
