//! Records written as drawings' texts (document 02, §1): the calculator against the naive writer, answers, places and every cell of the
//! lent buffers; and from a record to its text and back.

use nahokipe::lent::{add_part, drawing_of_record, record_of_drawing, take_out};
use nahokipe::lent::{LONGEST_DRAWING, LONGEST_RECORD};
use nahokipe::Refusal;
use nahokipe_testing::comparing::{given, same_into, same_into_all};
use nahokipe_testing::known::{READ_DRAWINGS, REFUSED_RECORDS};
use nahokipe_testing::making::{drawing_of_list, largest_drawing, largest_record};
use nahokipe_testing::making::{
    minimal_of_list, random_list, random_record, sets_of_size, spoilt_record,
};
use nahokipe_testing::naive::refused;
use nahokipe_testing::naive_drawing as by_words;
use nahokipe_testing::naive_records::{record_bytes, whole_record, Plain};
use nahokipe_testing::seeded::Seeded;
use std::collections::BTreeSet;

const BRIDGE: [u8; 12] = [5, 5, 1, 2, 3, 4, 5, 4, 0x09, 0x0E, 0x12, 0x15];
const BRIDGE_TEXT: &[u8] = b"parts 5\nset 1 4\nset 2 3 4\nset 2 5\nset 1 3 5\n";

// ---- comparing

/// A record into buffers of every length that matters: its text, which is no longer than promised, or its refusal.
fn compare(bytes: &[u8]) -> Result<Vec<u8>, Refusal> {
    let expected = by_words::drawing_of_record(bytes);
    same_into_all(drawing_of_record, bytes, &expected);
    assert!(expected.as_ref().map_or(0, Vec::len) <= LONGEST_DRAWING);
    expected
}

/// The text that the calculator writes of a record.
fn written(bytes: &[u8]) -> Result<Vec<u8>, Refusal> {
    given(drawing_of_record, bytes, LONGEST_DRAWING)
}

/// The record that the calculator reads from a text.
fn read(text: &[u8]) -> Result<Vec<u8>, Refusal> {
    given(record_of_drawing, text, LONGEST_RECORD)
}

/// The record with these sets, and with the part numbers 1 to n and the mark n.
fn record_of(n: usize, sets: Vec<u16>) -> Vec<u8> {
    record_bytes(&Plain {
        mark: n as u64,
        numbers: (1..=n as u64).collect(),
        sets,
    })
}

// ---- writing

/// The bridge's text, one byte too little for it, and a record that is cut off.
#[test]
fn examples() {
    assert_eq!(written(&BRIDGE).as_deref(), Ok(BRIDGE_TEXT));
    let mut short = [7; 43];
    let answer = drawing_of_record(&BRIDGE, &mut short);
    assert_eq!((answer, short), (refused(11, 44), [7; 43]));
    assert_eq!(drawing_of_record(&BRIDGE[..11], &mut []), refused(21, 11));
    let numbered = [5, 9, 1, 2, 3, 4, 9, 2, 0x09, 0x0E];
    let text = b"parts 5\nset 1 4\nset 2 3 4\n";
    assert_eq!(written(&numbered).as_deref(), Ok(&text[..]));
}

/// Records of every n, with part numbers of any width: the text has positions and no part numbers.
#[test]
fn texts_of_random_records() {
    let mut seeded = Seeded::new(220);
    for n in 1..=16 {
        for _ in 0..16 {
            let bytes = random_record(&mut seeded, n);
            compare(&bytes).expect("an accepted record");
        }
    }
}

/// Every length of buffer from none to some bytes more than needed.
#[test]
fn every_length_of_buffer() {
    for (_, record) in READ_DRAWINGS {
        let expected = by_words::drawing_of_record(record);
        let needed = expected.as_ref().expect("an accepted record").len();
        for room in 0..needed + 4 {
            same_into(drawing_of_record, record, &expected, vec![0x5A; room]);
        }
    }
}

/// All sets of each size of 16 parts: of 8 there are the most sets, of 16 the line is the longest.
#[test]
fn texts_of_sets_of_every_size() {
    for size in 1..=16 {
        let record = record_of(16, sets_of_size(16, size));
        let text = compare(&record).expect("an accepted record");
        assert!(read(&text) == Ok(record), "sets of {size}");
    }
    let text = largest_drawing().into_bytes();
    assert!(written(&largest_record()) == Ok(text));
}

/// A record that is refused gives no text: the reader's number and place, before 11, and the buffer is as it was.
#[test]
fn no_texts_of_refused_records() {
    for (bytes, number, place) in REFUSED_RECORDS {
        assert_eq!(written(bytes), refused(number, place), "{bytes:02X?}");
        compare(bytes).expect_err("a refused record");
    }
    let mut seeded = Seeded::new(221);
    let mut seen = BTreeSet::new();
    for n in 1..=16 {
        for round in 0..60 {
            let bytes = spoilt_record(&mut seeded, n, round);
            let refusal = compare(&bytes).err();
            seen.extend(refusal.map(|refusal| refusal.number));
        }
    }
    assert_eq!(seen, BTreeSet::from([1, 2, 3, 4, 5, 21, 22, 23, 24, 25]));
}

/// Every truncation of some records: 21 at the length that is left.
#[test]
fn no_texts_of_truncated_records() {
    let mut seeded = Seeded::new(222);
    for n in [1, 3, 5, 16] {
        let bytes = random_record(&mut seeded, n);
        for length in 0..bytes.len().min(90) {
            assert_eq!(compare(&bytes[..length]), refused(21, length));
        }
    }
}

// ---- from a record to its text and back

/// A record comes back from its text with the same sets, numbered anew; one that is numbered so is the same byte for byte; and both have
/// the same text.
#[test]
fn records_come_back() {
    let mut seeded = Seeded::new(223);
    let mut others = 0;
    for n in 1..=16 {
        for _ in 0..16 {
            let bytes = random_record(&mut seeded, n);
            let plain = whole_record(&bytes).expect("an accepted record").plain;
            let anew = record_of(n, plain.sets);
            others += (anew != bytes) as usize;
            for record in [&bytes, &anew] {
                let text = written(record).expect("an accepted record");
                assert!(read(&text).as_ref() == Ok(&anew), "{n} parts");
                assert!(written(&anew) == Ok(text), "{n} parts");
            }
        }
    }
    assert!(others > 200, "{others}");
}

/// A text comes back as the text of its minimal sets, which comes back as it is.
#[test]
fn texts_come_back() {
    let mut seeded = Seeded::new(224);
    for n in 1..=16 {
        for _ in 0..12 {
            let list = random_list(&mut seeded, n);
            let text = drawing_of_list(&mut seeded, n, &list);
            let back = read(text.as_bytes()).and_then(|record| written(&record));
            let back = back.expect("an accepted text");
            let lines = back.split_inclusive(|&byte| byte == b'\n').count();
            assert_eq!(lines, 1 + minimal_of_list(n, &list).len());
            let again = read(&back).and_then(|record| written(&record));
            assert!(again == Ok(back), "{n} parts");
        }
    }
}

/// A record that is read from a text starts another line of changes: it issues a number that the other line has issued already.
#[test]
fn another_line_of_changes() {
    let mut buffer = [0xA5; 40];
    let length = take_out(&BRIDGE, 5, &mut buffer).expect("sets left");
    let four = buffer[..length].to_vec();
    let length = add_part(&four, &mut buffer).expect("a number left");
    let six = buffer[..length].to_vec();
    let numbers = |bytes: &[u8]| {
        whole_record(bytes)
            .expect("an accepted record")
            .plain
            .numbers
    };
    assert_eq!(numbers(&six), [1, 2, 3, 4, 6]);
    let text = written(&six).expect("an accepted record");
    assert_eq!(text, b"parts 5\nset 1 4\nset 2 3 4\n");
    let anew = read(&text).expect("an accepted text");
    assert_eq!(anew, [5, 5, 1, 2, 3, 4, 5, 2, 0x09, 0x0E]);
    let length = add_part(&anew, &mut buffer).expect("a number left");
    assert_eq!(numbers(&buffer[..length]), [1, 2, 3, 4, 5, 6]);
}
