//! Vectors that are saved as sheets, of their own kind and of a kind that is named: the calculator against the naive implementation, answers,
//! places and every cell of the lent buffers. No tail sheet is written any more.

use nahokipe::lent::{convert, read_sheet, save_sheet, save_sheet_as, LONGEST_SHEET, MOST_ENTRIES};
use nahokipe::Refusal;
use nahokipe_testing::comparing::same_saved;
use nahokipe_testing::known::REFUSED_VECTORS;
use nahokipe_testing::making::{counts_of, random_counts};
use nahokipe_testing::naive::refused;
use nahokipe_testing::naive_bytes::numbers_bytes;
use nahokipe_testing::naive_vectors::{accepted, sheet_bytes, vector_for, Vector, KINDS, NO_KINDS};
use nahokipe_testing::naive_vectors::{DOMINATION, PATH_COUNTS, SAVED_KINDS, SIGNATURE, TAIL};
use nahokipe_testing::seeded::Seeded;
use nahokipe_testing::stored::tail_sheets;
use std::collections::BTreeSet;

// ---- the calls

/// What saving a vector gives.
fn saved(vector: &Vector) -> Vec<u8> {
    let Vector { kind, n, entries } = vector;
    written(|sheet| save_sheet(*kind, *n, entries, sheet))
}

/// What saving a vector as one of the target kind gives.
fn saved_as(vector: &Vector, target: u8) -> Vec<u8> {
    let Vector { kind, n, entries } = vector;
    written(|sheet| save_sheet_as(*kind, *n, entries, target, sheet))
}

/// The sheet that a call writes into a buffer that is always enough.
fn written(call: impl Fn(&mut [u8]) -> Result<usize, Refusal>) -> Vec<u8> {
    let mut sheet = vec![0xA5; LONGEST_SHEET];
    let length = call(&mut sheet).expect("an accepted vector");
    sheet.truncate(length);
    sheet
}

/// The vector of a sheet.
fn read(sheet: &[u8]) -> Vector {
    let mut entries = vec![99; MOST_ENTRIES];
    let read = read_sheet(sheet, &mut entries).expect("an accepted sheet");
    entries.truncate(read.entries);
    let (kind, n) = (read.kind, read.n);
    Vector { kind, n, entries }
}

/// The path counts that a vector stands for, by the calculator.
fn counts_by_calculator(vector: &Vector) -> Vec<i64> {
    let mut counts = vec![99; vector.n + 1];
    let Vector { kind, n, entries } = vector;
    let answer = convert(*kind, *n, entries, PATH_COUNTS, &mut counts);
    assert_eq!(answer, Ok(counts.len()));
    counts
}

/// The vector of a kind that stands for these path counts.
fn vector_of(kind: u8, counts: &[i128]) -> Vector {
    let n = counts.len() - 1;
    let entries = vector_for(kind, counts);
    Vector { kind, n, entries }
}

/// Accepted path counts of every n, of machines and of none.
fn some_counts(seed: u64) -> Vec<Vec<i128>> {
    let mut seeded = Seeded::new(seed);
    let all = (1..=16).flat_map(|n| [n; 20]);
    all.map(|n| random_counts(&mut seeded, n)).collect()
}

// ---- saved vectors

/// Every kind, saved and as every kind by name, against the bytes of the target's own vector.
#[test]
fn every_kind_as_every_kind() {
    for counts in some_counts(1101) {
        let n = counts.len() - 1;
        for kind in KINDS {
            let vector = vector_of(kind, &counts);
            let sheet = same_saved(kind, n, &vector.entries);
            assert_eq!(sheet, Ok(saved(&vector)));
            for target in SAVED_KINDS {
                let expected = sheet_bytes(target, n, &vector_for(target, &counts));
                assert_eq!(saved_as(&vector, target), expected, "{kind} as {target}");
            }
        }
    }
}

/// All path counts of up to four parts, and what lies beside them, in every kind: accepted ones, 13, and 14 where a proportion can fall.
#[test]
fn every_vector_of_up_to_four_parts() {
    for n in 1..=4 {
        for kind in KINDS {
            let mut seen = BTreeSet::new();
            for counts in counts_of(n) {
                let answer = same_saved(kind, n, &vector_for(kind, &counts));
                seen.insert(answer.map_or_else(|refusal| refusal.number, |_| 0));
            }
            let falling = (n > 2).then_some(14);
            let expected = [0, 13].into_iter().chain(falling).collect();
            assert_eq!(seen, expected, "kind {kind}, n = {n}");
        }
    }
}

/// A saved vector is read again as it was, but a tail as the signature; by name it is read as one of the kind that was named.
#[test]
fn read_after_saved() {
    for counts in some_counts(1102) {
        for kind in KINDS {
            let vector = vector_of(kind, &counts);
            let again = read(&saved(&vector));
            let kept = if kind == TAIL { SIGNATURE } else { kind };
            assert_eq!(again, vector_of(kept, &counts));
            assert_eq!(counts_by_calculator(&again), counts_by_calculator(&vector));
            for target in SAVED_KINDS {
                let named = read(&saved_as(&vector, target));
                assert_eq!(named, vector_of(target, &counts));
            }
        }
    }
}

/// A sheet that was read is saved byte for byte, but a tail sheet as that of the signature.
#[test]
fn saved_after_read() {
    for counts in some_counts(1103) {
        let n = counts.len() - 1;
        let sheet = |kind| sheet_bytes(kind, n, &vector_for(kind, &counts));
        for kind in SAVED_KINDS {
            assert_eq!(saved(&read(&sheet(kind))), sheet(kind));
        }
        assert_eq!(saved(&read(&sheet(TAIL))), sheet(SIGNATURE));
    }
}

/// To save a vector is to save it by the name of its own kind, and for a tail by that of the signature.
#[test]
fn saved_by_its_own_name() {
    for counts in some_counts(1104) {
        for kind in SAVED_KINDS {
            let vector = vector_of(kind, &counts);
            assert_eq!(saved(&vector), saved_as(&vector, kind));
        }
        let tail = vector_of(TAIL, &counts);
        assert_eq!(saved(&tail), saved_as(&tail, SIGNATURE));
    }
}

/// Every sheet that was stored with a tail is saved as the signature: how much the tail falls from one entry to the next. The path counts
/// are those that it was stored with, and what is saved stays as it is when it is read and saved once more.
#[test]
fn stored_tail_sheets() {
    for (stored, vector) in tail_sheets() {
        let n = vector.n;
        let falls = vector.entries.windows(2).map(|pair| pair[0] - pair[1]);
        let falls: Vec<i64> = falls.collect();
        assert_eq!(read(&stored), vector);
        let sheet = saved(&vector);
        assert_eq!(sheet, sheet_bytes(SIGNATURE, n, &falls));
        let again = read(&sheet);
        assert_eq!((again.kind, again.n, &again.entries), (3, n, &falls));
        let counts = accepted(TAIL, n, &vector.entries).expect("an accepted tail");
        assert_eq!(accepted(SIGNATURE, n, &falls), Ok(counts));
        assert_eq!(counts_by_calculator(&again), counts_by_calculator(&vector));
        assert_eq!(saved(&again), sheet);
    }
}

// ---- refused

/// A vector with the length of the buffer that is lent, and the refusal's number and place of saving it as a signature.
type Refused = (u8, usize, &'static [i64], usize, u8, usize);

/// The bridge's tail.
const TAIL_OF_BRIDGE: &[i64] = &[120, 120, 96, 24, 0, 0];

/// Each check alone, and several that would fail.
const REFUSED: [Refused; 22] = [
    (0, 5, TAIL_OF_BRIDGE, 155, 26, 0),
    (5, 5, TAIL_OF_BRIDGE, 155, 26, 0),
    (255, 5, TAIL_OF_BRIDGE, 155, 26, 0),
    (0, 0, &[], 0, 26, 0),
    (255, usize::MAX, &[i64::MIN], 0, 26, 0),
    (2, 0, TAIL_OF_BRIDGE, 155, 1, 0),
    (2, 17, TAIL_OF_BRIDGE, 155, 1, 0),
    (3, usize::MAX, &[], 155, 1, 0),
    (4, 0, &[i64::MAX; 3], 0, 1, 0),
    (2, 5, TAIL_OF_BRIDGE.split_at(5).0, 155, 12, 0),
    (3, 5, TAIL_OF_BRIDGE, 155, 12, 0),
    (1, 5, &[], 0, 12, 0),
    (2, 5, &[120, 120, 100, 24, 0, 0], 155, 13, 3),
    (1, 1, &[0, 2], 0, 13, 1),
    (4, 16, &[i64::MIN; 17], 6, 13, 0),
    (1, 3, &[0, 3, 2, 1], 155, 14, 1),
    (3, 3, &[2, -2, 6], 0, 14, 1),
    (2, 5, TAIL_OF_BRIDGE, 6, 11, 7),
    (2, 5, TAIL_OF_BRIDGE, 0, 11, 7),
    (1, 5, &[0, 0, 2, 8, 5, 1], 6, 11, 7),
    (3, 2, &[1, 1], 3, 11, 4),
    (4, 2, &[0, 2, -1], 1, 11, 4),
];

/// A tail sheet by name is 34 at place 0, whatever else would be refused, and the lent buffer stays as it was.
#[test]
fn a_tail_sheet_is_refused_first() {
    for (kind, n, entries, length, number, place) in REFUSED {
        let about = format!("kind {kind}, n = {n}, {entries:?}, {length} lent");
        for cell in [0xA5, 0x5A] {
            let mut sheet = vec![cell; length];
            let answer = save_sheet_as(kind, n, entries, SIGNATURE, &mut sheet);
            assert_eq!(answer, refused(number, place), "{about}");
            let answer = save_sheet_as(kind, n, entries, TAIL, &mut sheet);
            assert_eq!(answer, refused(34, 0), "{about}");
            assert_eq!(sheet, vec![cell; length], "{about}");
        }
    }
}

/// A target that is no kind is 26 at place 0 behind 34 and before all that is checked behind the kinds.
#[test]
fn targets_that_are_no_kind() {
    for (kind, n, entries, length, _, _) in REFUSED {
        for target in NO_KINDS {
            let mut sheet = vec![0xA5; length];
            let answer = save_sheet_as(kind, n, entries, target, &mut sheet);
            assert_eq!(answer, refused(26, 0), "kind {kind} as {target}, n = {n}");
            assert_eq!(sheet, vec![0xA5; length]);
        }
    }
}

/// Every number in the place of a kind and of a target: a tail by name is 34, what is no kind 26, and the others are given.
#[test]
fn every_number_as_a_kind_and_as_a_target() {
    for kind in 0..=255 {
        let known = KINDS.contains(&kind);
        let entries = vector_for(if known { kind } else { TAIL }, &[0, 2, 1]);
        for target in 0..=255 {
            let mut sheet = [0xA5; LONGEST_SHEET];
            let answer = save_sheet_as(kind, 2, &entries, target, &mut sheet);
            let number = answer.map_or_else(|refusal| refusal.number, |_| 0);
            let expected = match target {
                TAIL => 34,
                PATH_COUNTS | SIGNATURE | DOMINATION if known => 0,
                _ => 26,
            };
            assert_eq!(number, expected, "{kind} as {target}");
            let first = if number == 0 { target } else { 0xA5 };
            assert_eq!(sheet[0], first, "{kind} as {target}");
        }
    }
}

/// Refused vectors with their numbers and places, which are the same whether a kind is named or not.
#[test]
fn refused_vectors() {
    for (kind, n, entries, number, place) in REFUSED_VECTORS {
        let expected = refused(number, place);
        assert_eq!(same_saved(kind, n, entries), expected);
        let mut sheet = [0xA5; LONGEST_SHEET];
        let answer = save_sheet(kind, n, entries, &mut sheet);
        assert_eq!(answer, refused(number, place), "{kind}, {n}, {entries:?}");
        for target in SAVED_KINDS {
            let answer = save_sheet_as(kind, n, entries, target, &mut sheet);
            assert_eq!(answer, refused(number, place), "{kind}, {n}, {entries:?}");
        }
        assert_eq!(sheet, [0xA5; LONGEST_SHEET]);
    }
}

/// Vectors far outside what is accepted are refused, before anything is made of them.
#[test]
fn vectors_far_outside() {
    let far = [i64::MIN, i64::MAX, -(1 << 62), 1 << 62, -(1 << 62) - 1, -1];
    for n in [0, 1, 2, 5, 16, 17, usize::MAX] {
        for kind in [0, 1, 2, 3, 4, 5, 255] {
            for length in 0..=18 {
                for entry in far {
                    assert!(same_saved(kind, n, &vec![entry; length]).is_err());
                }
            }
        }
    }
}

// ---- examples

/// The bridge in the four kinds, and the sheet that each is saved as.
const BRIDGE: [(u8, &[i64], &[u8]); 4] = [
    (1, &[0, 0, 2, 8, 5, 1], &[1, 5, 0, 0, 2, 8, 5, 1]),
    (2, TAIL_OF_BRIDGE, &[3, 5, 0, 0x18, 0x48, 0x18, 0]),
    (3, &[0, 24, 72, 24, 0], &[3, 5, 0, 0x18, 0x48, 0x18, 0]),
    (4, &[0, 0, 2, 2, -5, 2], &[4, 5, 0, 0, 4, 4, 9, 4]),
];

/// The bridge, and a domination with a negative entry.
#[test]
fn sheets_byte_for_byte() {
    for (kind, entries, expected) in BRIDGE {
        let length = expected.len();
        let mut sheet = [0xA5; 12];
        assert_eq!(save_sheet(kind, 5, entries, &mut sheet), Ok(length));
        assert_eq!(sheet[..length], *expected);
        assert_eq!(sheet[length..], [0xA5; 12][length..]);
        for (target, _, expected) in BRIDGE {
            let mut named = [0x5A; 12];
            let answer = save_sheet_as(kind, 5, entries, target, &mut named);
            if target == TAIL {
                assert_eq!((answer, named), (refused(34, 0), [0x5A; 12]));
            } else {
                assert_eq!(answer, Ok(expected.len()));
                assert_eq!(named[..expected.len()], *expected);
                assert_eq!(named[expected.len()..], [0x5A; 12][expected.len()..]);
            }
        }
    }
    let mut sheet = [0xA5; 7];
    assert_eq!(save_sheet(4, 2, &[0, 2, -1], &mut sheet), Ok(5));
    assert_eq!(sheet, [4, 2, 0, 4, 1, 0xA5, 0xA5]);
}

/// The longest tail sheet, of a machine that runs as long as one of its 16 parts does, is saved as one of the shortest: its last failure
/// stops it in every order.
#[test]
fn the_longest_tail() {
    let factorial: i64 = 20_922_789_888_000;
    let mut tail = [factorial; 17];
    tail[16] = 0;
    let numbers = [[3, 16].as_slice(), &[0; 15], &[factorial as u128]].concat();
    let expected = numbers_bytes(numbers);
    assert_eq!(expected.len(), 24);
    assert_eq!(same_saved(TAIL, 16, &tail), Ok(expected.clone()));
    assert_eq!(save_sheet(TAIL, 16, &tail, &mut [0; 23]), refused(11, 24));
    assert_eq!(
        written(|sheet| save_sheet(TAIL, 16, &tail, sheet)),
        expected
    );
}
