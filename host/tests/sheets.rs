//! Sheets that are read, those that were stored with a tail among them: the calculator against the naive implementation, answers, places and
//! every cell of the lent buffers.

use nahokipe::lent::{read_sheet, sheet_answer, Sheet, SheetAnswer};
use nahokipe::Refusal;
use nahokipe_testing::comparing::{buffers, same, same_saved};
use nahokipe_testing::making::random_table;
use nahokipe_testing::naive::{self, refused, structure_of};
use nahokipe_testing::naive_bytes::{number_bytes, numbers_bytes};
use nahokipe_testing::naive_figures::{factorial, path_counts};
use nahokipe_testing::naive_vectors::{self as by_words, sheet_bytes, vector_for};
use nahokipe_testing::naive_vectors::{Vector, DOMINATION, KINDS, TAIL};
use nahokipe_testing::seeded::Seeded;
use nahokipe_testing::stored::tail_sheets;
use std::collections::BTreeSet;

/// What buffers are filled with: a pattern and its opposite.
const CELLS: [i64; 2] = [0x5A5A_5A5A_5A5A_5A5A, !0x5A5A_5A5A_5A5A_5A5A];

/// The most entries of a vector.
const MOST_ENTRIES: usize = 17;

// ---- comparing

/// A sheet's reading, into buffers of every length that matters.
fn compare_read(sheet: &[u8]) {
    let expected = by_words::read_sheet(sheet);
    let entries = expected.clone().map(|vector| vector.entries);
    for before in buffers(&entries, MOST_ENTRIES, CELLS) {
        compare_into(sheet, &expected, before);
    }
}

/// The same into one buffer that is long enough: the answer's number, 0 for an accepted sheet.
fn compare_lightly(sheet: &[u8]) -> u8 {
    let expected = by_words::read_sheet(sheet);
    compare_into(sheet, &expected, vec![CELLS[0]; MOST_ENTRIES]);
    expected.map_or_else(|refusal| refusal.number, |_| 0)
}

/// What is handed out beside the entries, and the entries.
fn compare_into(sheet: &[u8], expected: &Result<Vector, Refusal>, before: Vec<i64>) {
    let about = || format!("{sheet:02X?}");
    let entries = expected.clone().map(|vector| vector.entries);
    let delivered = naive::delivered(&entries, &before);
    let mut after = before;
    let found = sheet_answer(sheet, &mut after);
    assert_eq!(found, handed_out(&delivered.0, expected), "{}", about());
    same((delivered.0, after), delivered, about);
}

/// Kind and n of a sheet that is given, and 1 and 0 beside a refusal.
fn handed_out(answer: &Result<usize, Refusal>, expected: &Result<Vector, Refusal>) -> SheetAnswer {
    match (answer, expected) {
        (Ok(value), Ok(vector)) => SheetAnswer {
            number: 0,
            value: *value,
            kind: vector.kind,
            n: vector.n,
        },
        (Err(refusal), _) | (_, Err(refusal)) => SheetAnswer {
            number: refusal.number,
            value: refusal.place,
            kind: 1,
            n: 0,
        },
    }
}

/// A vector of a random machine of n parts.
fn random_vector(seeded: &mut Seeded, kind: u8, n: usize) -> Vec<i64> {
    let table = random_table(seeded, n);
    vector_for(kind, &path_counts(n, &structure_of(n, &table)))
}

/// Sheets of random machines of every kind and every n.
fn some_sheets(seed: u64) -> Vec<Vec<u8>> {
    let mut seeded = Seeded::new(seed);
    let of_kind = |kind| (1..=16).map(move |n| (kind, n));
    let all = KINDS.into_iter().flat_map(of_kind);
    all.map(|(kind, n)| sheet_bytes(kind, n, &random_vector(&mut seeded, kind, n)))
        .collect()
}

// ---- accepted sheets

/// That a sheet is read as this vector.
fn assert_read(sheet: &[u8], vector: &Vector) {
    compare_read(sheet);
    let mut cells = [CELLS[0]; MOST_ENTRIES];
    let count = vector.entries.len();
    let expected = Sheet {
        kind: vector.kind,
        n: vector.n,
        entries: count,
    };
    assert_eq!(read_sheet(sheet, &mut cells), Ok(expected));
    assert_eq!(cells[..count], vector.entries);
}

#[test]
fn sheets_of_machines() {
    let mut seeded = Seeded::new(130);
    for n in 1..=16 {
        for kind in KINDS {
            for _ in 0..20 {
                let entries = random_vector(&mut seeded, kind, n);
                let sheet = sheet_bytes(kind, n, &entries);
                assert_read(&sheet, &Vector { kind, n, entries });
            }
        }
    }
}

/// Every sheet that was stored with a tail is read as the tail that it was.
#[test]
fn stored_tail_sheets() {
    for (sheet, vector) in tail_sheets() {
        assert_read(&sheet, &vector);
    }
}

/// The stored sheets have every n, three or more of each from 2 parts on, the longest of each n, and the bridge.
#[test]
fn which_tail_sheets_are_stored() {
    let stored = tail_sheets();
    assert!(stored.len() > 100);
    for n in 1..=16 {
        let of_n = stored.iter().filter(|(_, vector)| vector.n == n);
        let sheets: BTreeSet<&Vec<u8>> = of_n.map(|(sheet, _)| sheet).collect();
        assert!(sheets.len() >= if n == 1 { 1 } else { 3 }, "n = {n}");
        assert!(sheets.contains(&longest_tail_sheet(n)), "n = {n}");
    }
    let bridge = vec![0x02, 0x05, 0x78, 0x78, 0x60, 0x18, 0x00, 0x00];
    assert!(stored.iter().any(|(sheet, _)| *sheet == bridge));
}

/// The longest tail sheet of n parts: the machine runs in all orders as long as one part does.
fn longest_tail_sheet(n: usize) -> Vec<u8> {
    let mut entries = vec![factorial(n) as u128; n];
    entries.push(0);
    numbers_bytes([2, n as u128].into_iter().chain(entries))
}

// ---- refused sheets

/// Every sheet cut off at every byte: 21 at the length that is left.
#[test]
fn every_truncation() {
    for sheet in some_sheets(131) {
        for length in 0..sheet.len() {
            compare_read(&sheet[..length]);
            assert_eq!(compare_lightly(&sheet[..length]), 21);
        }
    }
}

/// Every byte of a sheet changed to each other value. All numbers of refusals but 11 and 12, which cannot come from there, are seen.
#[test]
fn every_change_of_a_byte() {
    let mut seen = BTreeSet::new();
    for sheet in some_sheets(132) {
        for index in 0..sheet.len() {
            for byte in 0..=255 {
                let mut changed = sheet.clone();
                changed[index] = byte;
                seen.insert(compare_lightly(&changed));
            }
        }
    }
    assert_eq!(seen, BTreeSet::from([0, 1, 13, 14, 21, 22, 25, 26]));
}

/// One byte more or less than there are, at each place.
#[test]
fn bytes_put_in_and_left_out() {
    let mut seeded = Seeded::new(133);
    for sheet in some_sheets(134) {
        for index in 0..=sheet.len() {
            let mut longer = sheet.clone();
            longer.insert(index, seeded.number() as u8);
            compare_read(&longer);
            let mut shorter = sheet.clone();
            shorter.remove(index.min(sheet.len() - 1));
            compare_read(&shorter);
        }
    }
}

/// Bytes behind the last entry: 25 at the first of them, before 13 and 14.
#[test]
fn bytes_left_over() {
    for sheet in some_sheets(135) {
        for left in [&[0][..], &[1, 2], &[0x80], &[0xFF; 9], &[7; 200]] {
            let longer = [sheet.as_slice(), left].concat();
            compare_read(&longer);
            let place = sheet.len();
            let answer = read_sheet(&longer, &mut [0; MOST_ENTRIES]);
            assert_eq!(answer, refused(25, place));
        }
    }
}

/// Vectors that are refused, in sheets: 13 and 14 with a size as place, and entries up to the top.
#[test]
fn sheets_of_refused_vectors() {
    let mut seeded = Seeded::new(136);
    let mut seen = BTreeSet::new();
    for n in 1..=16 {
        for kind in KINDS {
            for _ in 0..60 {
                let mut entries = random_vector(&mut seeded, kind, n);
                for _ in 0..seeded.between(1, 2) {
                    let index = seeded.between(0, entries.len() - 1);
                    entries[index] = other_entry(&mut seeded, kind, entries[index]);
                }
                let sheet = sheet_bytes(kind, n, &entries);
                seen.insert(compare_lightly(&sheet));
                compare_read(&sheet);
                let verdict = by_words::verdict(kind, n, &entries);
                assert_eq!(same_saved(kind, n, &entries).map(drop), verdict);
            }
        }
    }
    assert!(seen.is_superset(&BTreeSet::from([13, 14])));
}

/// An entry that a sheet can carry: beside the old one, or as large as can be.
fn other_entry(seeded: &mut Seeded, kind: u8, entry: i64) -> i64 {
    let beside = entry.saturating_add(seeded.pick(&[-1, 1]));
    let top = if kind == DOMINATION {
        seeded.pick(&[-(1 << 62), (1 << 62) - 1])
    } else {
        i64::MAX
    };
    let any = seeded.number() as i64 >> 1;
    let entry = seeded.pick(&[beside, beside, top, top / 2, any]);
    if kind == DOMINATION {
        entry
    } else {
        entry.max(0)
    }
}

/// Every sheet of up to three bytes.
#[test]
fn every_short_sheet() {
    compare_read(&[]);
    for first in 0..=255 {
        compare_read(&[first]);
        for second in 0..=255 {
            compare_read(&[first, second]);
            for third in [0, 1, 2, 3, 4, 0x7F, 0x80, 0x81, 0xFF] {
                compare_lightly(&[first, second, third]);
            }
        }
    }
}

/// Numbers of every number of groups, at each place of a sheet: shortest or not, ended or not, with more bytes behind them or not.
#[test]
fn numbers_of_every_length() {
    for before in [&[][..], &[1], &[1, 1], &[1, 1, 0], &[4, 1, 0], &[3, 1]] {
        for groups in 0..=10 {
            for filler in [0x80, 0xFF, 0x81] {
                for last in [0x00, 0x01, 0x7F, 0x80, 0xFF] {
                    let number = [vec![filler; groups], vec![last]].concat();
                    for behind in [&[][..], &[0], &[0x80, 0x01]] {
                        compare_read(&[before, &number, behind].concat());
                    }
                    compare_read(&[before, &vec![filler; groups]].concat());
                }
            }
        }
    }
}

/// A number with one byte more than it needs is not in its shortest form.
#[test]
fn longer_forms() {
    let sheet = [1, 5, 0, 0, 2, 8, 5, 1];
    for index in 0..sheet.len() {
        let form = [sheet[index] | 0x80, 0];
        let longer = [&sheet[..index], &form, &sheet[index + 1..]].concat();
        compare_read(&longer);
        let answer = read_sheet(&longer, &mut [0; MOST_ENTRIES]);
        assert_eq!(answer, refused(22, index));
    }
}

// ---- examples

/// Document 01's examples and what follows from its table of refusals.
#[test]
fn examples() {
    let far = [&[4, 1, 0][..], &[0xFF; 8], &[0x7F]].concat();
    let cases: [(&[u8], u8, usize); 17] = [
        (&[], 21, 0),
        (&[0x80, 0x00], 22, 0),
        (&[1, 0x80, 0], 22, 1),
        (&[1], 21, 1),
        (&[5], 26, 0),
        (&[0, 0x80, 0], 26, 0),
        (&[1, 17], 1, 0),
        (&[1, 0], 1, 0),
        (&[1, 1, 0, 2], 13, 1),
        (&[1, 1, 0, 2, 7], 25, 4),
        (&[1, 3, 0, 3, 2, 1], 14, 1),
        (&[3, 2, 1, 1, 0], 25, 4),
        (&[1, 2, 0, 1], 21, 4),
        (&[0xFF; 9], 22, 0),
        (&[0xFF; 8], 21, 8),
        (&[0x81, 0x02], 26, 0),
        (&far, 13, 1),
    ];
    for (sheet, number, place) in cases {
        let answer = read_sheet(sheet, &mut [0; MOST_ENTRIES]);
        assert_eq!(answer, refused(number, place), "{sheet:02X?}");
        compare_read(sheet);
    }
}

/// The bridge's tail, and a domination with a negative entry.
#[test]
fn sheets_byte_for_byte() {
    let mut cells = [9; 8];
    let answer = read_sheet(&[2, 5, 0x78, 0x78, 0x60, 0x18, 0, 0], &mut cells);
    let expected = Sheet {
        kind: 2,
        n: 5,
        entries: 6,
    };
    assert_eq!(answer, Ok(expected));
    assert_eq!(cells, [120, 120, 96, 24, 0, 0, 9, 9]);
    let mut cells = [9; 4];
    let answer = read_sheet(&[4, 2, 0, 4, 1], &mut cells);
    let expected = Sheet {
        kind: 4,
        n: 2,
        entries: 3,
    };
    assert_eq!((answer, cells), (Ok(expected), [0, 2, -1, 9]));
}

/// The longest sheets: the tail of a machine that runs as long as one of its 16 parts does.
#[test]
fn the_longest_sheet() {
    let factorial: i64 = 20_922_789_888_000;
    let mut tail = vec![factorial; 17];
    tail[16] = 0;
    let sheet = longest_tail_sheet(16);
    assert_eq!(sheet.len(), 3 + 16 * number_bytes(factorial as u128).len());
    assert_eq!(sheet_bytes(TAIL, 16, &tail), sheet);
    let vector = Vector {
        kind: TAIL,
        n: 16,
        entries: tail,
    };
    assert_read(&sheet, &vector);
}
