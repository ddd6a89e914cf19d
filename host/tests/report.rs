//! The report: the calculator's text against one made from failure orders listed one by one for few parts, and from the formulas for
//! more; answers, places and every byte of both lent buffers.

use nahokipe::lent::{refused_line, report, ENOUGH_FOR_REPORT};
use nahokipe::Refusal;
use nahokipe_testing::comparing::front;
use nahokipe_testing::making::{damaged_record, largest_record, random_record};
use nahokipe_testing::naive::{refused, table_length};
use nahokipe_testing::naive_records::{record_bytes, whole_record, Plain, TOP_NUMBER};
use nahokipe_testing::naive_report as by_words;
use nahokipe_testing::seeded::Seeded;
use std::collections::BTreeSet;

const BRIDGE: [u8; 12] = [5, 5, 1, 2, 3, 4, 5, 4, 0x09, 0x0E, 0x12, 0x15];

// ---- comparing

/// A record's table and text, or its refusal.
type Expected = Result<(Vec<u8>, String), Refusal>;

/// What the call answers and leaves of its buffers: both results in front and the rest as it was; or a refusal, 11 for the table and
/// then for the text, and all as it was.
fn delivered(
    expected: &Expected,
    table: &[u8],
    text: &[u8],
) -> (Result<usize, Refusal>, Vec<u8>, Vec<u8>) {
    let refusal = match expected {
        Err(refusal) => Some(*refusal),
        Ok((made, _)) if table.len() < made.len() => refused::<()>(11, made.len()).err(),
        Ok((_, said)) if text.len() < said.len() => refused::<()>(11, said.len()).err(),
        Ok(_) => None,
    };
    match (refusal, expected) {
        (None, Ok((made, said))) => {
            let table = [made, &table[made.len()..]].concat();
            let text = [said.as_bytes(), &text[said.len()..]].concat();
            (Ok(said.len()), table, text)
        }
        (refusal, _) => {
            let refusal = refusal.expect("a refusal");
            (Err(refusal), table.to_vec(), text.to_vec())
        }
    }
}

/// The report into two buffers of these lengths, filled with a pattern and with its opposite.
fn compare_into(bytes: &[u8], expected: &Expected, lengths: [usize; 2]) {
    for pattern in [0xA5, 0x5A] {
        let [table, text] = lengths.map(|length| vec![pattern; length]);
        let wanted = delivered(expected, &table, &text);
        let (mut table, mut text) = (table, text);
        let answer = report(bytes, &mut table, &mut text);
        let about = || format!("{lengths:?}, {} bytes: {:02X?}", bytes.len(), front(bytes));
        assert_eq!(answer, wanted.0, "{}", about());
        assert!(table == wanted.1, "the table, {}", about());
        let (found, wanted) = (String::from_utf8_lossy(&text), wanted.2);
        assert_eq!(found, String::from_utf8_lossy(&wanted), "{}", about());
        assert!(text == wanted, "the text, {}", about());
    }
}

/// The report into buffers of every length that matters.
fn compare(bytes: &[u8]) -> Expected {
    let expected = by_words::report(bytes);
    let enough = (vec![0; 4], "enough".to_string());
    let (table, text) = expected.as_ref().unwrap_or(&enough);
    let (table, text) = (table.len(), text.len());
    for tables in [0, table - 1, table, table + 1, table + 9] {
        for texts in [0, text - 1, text, text + 1, text + 9] {
            compare_into(bytes, &expected, [tables, texts]);
        }
    }
    expected
}

// ---- accepted records

#[test]
fn reports_of_random_records() {
    let mut seeded = Seeded::new(170);
    for n in 1..=16 {
        for _ in 0..12 {
            let bytes = random_record(&mut seeded, n);
            compare(&bytes).expect("an accepted record");
        }
    }
}

/// Part numbers and marks of every number of digits, and part numbers that are no positions.
#[test]
fn numbers_of_every_length() {
    for digits in 0..10 {
        let first = u64::pow(10, digits);
        for (numbers, more) in [
            ([first, first + 1, first + 7], 0),
            ([1, first + 8, first + 9], 3),
        ] {
            let plain = Plain {
                mark: numbers[2] + more,
                numbers: numbers.to_vec(),
                sets: vec![0b011, 0b100],
            };
            compare(&record_bytes(&plain)).expect("an accepted record");
        }
    }
    let plain = Plain {
        mark: TOP_NUMBER,
        numbers: vec![1, TOP_NUMBER],
        sets: vec![0b10],
    };
    compare(&record_bytes(&plain)).expect("an accepted record");
}

/// The largest record, and the longest text: 16 parts with part numbers of fifteen digits.
#[test]
fn the_largest_record() {
    let bytes = largest_record();
    let (_, text) = compare(&bytes).expect("an accepted record");
    assert!(text.len() <= ENOUGH_FOR_REPORT);
    assert!(text.starts_with("parts 16 sets 12870 mark 281474976710655\norder 1 0\n"));
    assert!(text.contains("\norder 9 20922789888000\n"));
    assert!(text.ends_with("part 281474976710655 1307674368000\n"));
}

/// Machines that run on each number of their parts, of every size.
#[test]
fn machines_of_every_size() {
    for n in 1..=16_u64 {
        for sets in [
            vec![1],
            vec![((1_u32 << n) - 1) as u16],
            (0..n).map(|i| 1 << i).collect(),
        ] {
            let plain = Plain {
                mark: n + 3,
                numbers: (2..n + 2).collect(),
                sets,
            };
            compare(&record_bytes(&plain)).expect("an accepted record");
        }
    }
}

// ---- refused records

/// Every refusal of reading, with both buffers as they were.
#[test]
fn reports_of_damaged_records() {
    let mut seeded = Seeded::new(172);
    let mut seen = BTreeSet::new();
    for n in 1..=16 {
        for round in 0..50 {
            let bytes = match round % 5 {
                0 => [random_record(&mut seeded, n), vec![1]].concat(),
                _ => damaged_record(&mut seeded, n),
            };
            if let Err(refusal) = whole_record(&bytes) {
                compare(&bytes).expect_err("a refused record");
                seen.insert(refusal.number);
            }
        }
    }
    let expected = BTreeSet::from([1, 2, 3, 4, 5, 21, 22, 23, 24, 25]);
    assert_eq!(seen, expected);
}

#[test]
fn every_truncation() {
    let mut seeded = Seeded::new(173);
    for n in [1, 2, 5, 16] {
        let bytes = random_record(&mut seeded, n);
        for length in 0..bytes.len().min(120) {
            assert_eq!(compare(&bytes[..length]), refused(21, length));
        }
    }
}

/// A table that is too short is found before a text that is.
#[test]
fn the_table_is_asked_for_first() {
    let (mut table, mut text) = ([7; 4], [7; 200]);
    assert_eq!(report(&BRIDGE, &mut table[..3], &mut []), refused(11, 4));
    assert_eq!(report(&BRIDGE, &mut table[..3], &mut text), refused(11, 4));
    assert_eq!(report(&BRIDGE, &mut table, &mut []), refused(11, 165));
    assert_eq!((table, text), ([7; 4], [7; 200]));
    assert_eq!(table.len(), table_length(5));
}

// ---- the line of a refusal

/// Every number and places of every number of digits, into buffers of every length up to some bytes more than needed.
#[test]
fn refused_lines() {
    let powers = (0..20).map(|digits| usize::pow(10, digits));
    let places: Vec<usize> = powers
        .flat_map(|power| [power - 1, power])
        .chain([usize::MAX, 12, 40_000])
        .collect();
    for number in 0..=255 {
        for &place in &places {
            compare_line(Refusal { number, place });
        }
    }
}

fn compare_line(refusal: Refusal) {
    let expected = by_words::refused_line(refusal);
    for length in [0, expected.len() - 1, expected.len(), expected.len() + 7] {
        for pattern in [0xA5, 0x5A] {
            let mut text = vec![pattern; length];
            let answer = refused_line(refusal, &mut text);
            if length < expected.len() {
                assert_eq!(answer, refused(11, expected.len()));
                assert_eq!(text, vec![pattern; length]);
            } else {
                assert_eq!(answer, Ok(expected.len()));
                let (line, rest) = text.split_at(expected.len());
                assert_eq!(line, expected.as_bytes());
                assert!(rest.iter().all(|&byte| byte == pattern));
            }
        }
    }
}

// ---- examples

/// The report of document 01, byte for byte.
#[test]
fn the_bridge() {
    let expected = "parts 5 sets 4 mark 5\n\
        order 1 0\norder 2 24\norder 3 72\norder 4 24\norder 5 0\n\
        dom 1 0\ndom 2 2\ndom 3 2\ndom 4 -5\ndom 5 2\n\
        part 1 28\npart 2 28\npart 3 8\npart 4 28\npart 5 28\n";
    let (mut table, mut text) = ([0; 4], [0; 165]);
    assert_eq!(report(&BRIDGE, &mut table, &mut text), Ok(165));
    assert_eq!(std::str::from_utf8(&text), Ok(expected));
    assert_eq!(table, [0x00, 0xEA, 0xEC, 0xEE]);
    let refusal = Refusal {
        number: 25,
        place: 12,
    };
    let mut line = [b'-'; 16];
    assert_eq!(refused_line(refusal, &mut line), Ok(14));
    assert_eq!(&line, b"refused 25 12\n--");
}

/// A part that is in no set counts 0, and part numbers are those of the record.
#[test]
fn two_parts_of_which_one_is_idle() {
    let bytes = [2, 9, 3, 7, 1, 1];
    let (mut table, mut text) = ([0xFF; 2], [b'-'; 80]);
    let length = report(&bytes, &mut table, &mut text).expect("an accepted record");
    let expected =
        "parts 2 sets 1 mark 9\norder 1 1\norder 2 1\ndom 1 1\ndom 2 0\npart 3 2\npart 7 0\n";
    assert_eq!(std::str::from_utf8(&text[..length]), Ok(expected));
    assert!(text[length..].iter().all(|&byte| byte == b'-'));
    assert_eq!(table, [0x0A, 0xFF]);
}
