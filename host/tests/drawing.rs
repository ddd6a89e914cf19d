//! Drawings' texts read into records (document 02, §1): the calculator against the naive reader, answers, places and every cell of the
//! lent buffers, on whole, cut and changed texts.

use nahokipe::lent::{first_record, record_of_drawing, LONGEST_DRAWING, LONGEST_RECORD};
use nahokipe::Refusal;
use nahokipe_testing::comparing::{front, given, same_into, same_into_all};
use nahokipe_testing::known::{READ_DRAWINGS, REFUSED_DRAWINGS};
use nahokipe_testing::making::{damaged_drawing, drawing_line, drawing_of_list, largest_drawing};
use nahokipe_testing::making::{lists_of, sets_of_size};
use nahokipe_testing::making::{minimal_of_list, random_drawing, random_list, random_set};
use nahokipe_testing::naive::{refused, MOST_SETS};
use nahokipe_testing::naive_drawing as by_words;
use nahokipe_testing::seeded::Seeded;
use std::collections::BTreeSet;

const BRIDGE_TEXT: &[u8] = b"parts 5\nset 1 4\nset 2 3 4\nset 2 5\nset 1 3 5\n";

/// Bytes that a text is made of, some that look like them, and some that other tools put there.
const BYTES: &[u8] = b"0123456789 \n\r\t\0setparxS/:+-,.#\x0B\x7F\x80\x85\x8A\xA0\xB1\xFF";

// ---- comparing

/// A text into buffers of every length that matters: its record, or its refusal.
fn compare(text: &[u8]) -> Result<Vec<u8>, Refusal> {
    let expected = by_words::record_of_drawing(text);
    same_into_all(record_of_drawing, text, &expected);
    expected
}

/// The same into one buffer, for which some records are too long: the refusal's number, 0 for an accepted text.
fn compare_lightly(text: &[u8]) -> u8 {
    let expected = by_words::record_of_drawing(text);
    same_into(record_of_drawing, text, &expected, vec![0xA5; 30]);
    expected.map_or_else(|refusal| refusal.number, |_| 0)
}

/// The record that the calculator reads from a text.
fn read(text: &[u8]) -> Result<Vec<u8>, Refusal> {
    given(record_of_drawing, text, LONGEST_RECORD)
}

/// Accepted texts of every n, short enough to change each byte of them, and the bridge's.
fn some_drawings(seed: u64) -> Vec<Vec<u8>> {
    let mut seeded = Seeded::new(seed);
    let mut drawings = Vec::new();
    for n in 1..=16 {
        while drawings.len() < 2 * n {
            let text = random_drawing(&mut seeded, n).into_bytes();
            if text.len() < 60 {
                drawings.push(text);
            }
        }
    }
    drawings.push(BRIDGE_TEXT.to_vec());
    drawings
}

// ---- examples

/// Texts with their records and with their refusals, worked out by hand.
#[test]
fn examples() {
    for (text, record) in READ_DRAWINGS {
        assert_eq!(read(text).as_deref(), Ok(record));
        compare(text).expect("an accepted text");
    }
    for (text, number, place) in REFUSED_DRAWINGS {
        let shown = String::from_utf8_lossy(text);
        assert_eq!(read(text), refused(number, place), "{shown:?}");
        compare(text).expect_err("a refused text");
    }
    let mut short = [7; 11];
    let answer = record_of_drawing(BRIDGE_TEXT, &mut short);
    assert_eq!((answer, short), (refused(11, 12), [7; 11]));
}

// ---- accepted texts

/// The record of a text is the first record of its sets.
#[test]
fn random_drawings() {
    let mut seeded = Seeded::new(210);
    for n in 1..=16 {
        for _ in 0..16 {
            let list = random_list(&mut seeded, n);
            let text = drawing_of_list(&mut seeded, n, &list);
            let record = compare(text.as_bytes()).expect("an accepted text");
            let mut first = vec![0xA5; LONGEST_RECORD];
            let length = first_record(n, &list, &mut first);
            assert_eq!(length, Ok(record.len()));
            assert!(first[..record.len()] == record);
        }
    }
}

/// Lines and positions in any order, repeats and sets that hold others: the same record as that of the minimal sets alone.
#[test]
fn lines_and_positions_in_any_order() {
    let mut seeded = Seeded::new(211);
    for n in 1..=16 {
        for _ in 0..8 {
            let mut list = random_list(&mut seeded, n);
            list.truncate(MOST_SETS - 20);
            let minimal = minimal_of_list(n, &list);
            let text = drawing_of_list(&mut seeded, n, &minimal);
            let record = read(text.as_bytes()).expect("an accepted text");
            for _ in 0..4 {
                let again = seeded.pick(&list);
                let larger = again | random_set(&mut seeded, n);
                list.extend([again, larger]);
                seeded.shuffle(&mut list);
                let text = drawing_of_list(&mut seeded, n, &list);
                assert!(read(text.as_bytes()).as_ref() == Ok(&record), "{text}");
            }
        }
    }
}

/// Every length of buffer from none to some bytes more than needed.
#[test]
fn every_length_of_buffer() {
    for text in some_drawings(212) {
        let expected = by_words::record_of_drawing(&text);
        let needed = expected.as_ref().expect("an accepted text").len();
        for room in 0..needed + 4 {
            same_into(record_of_drawing, &text, &expected, vec![0x5A; room]);
        }
    }
}

// ---- damaged texts

/// Cut off at every byte: behind a set line what is left is a text; behind line 1 it is 2; elsewhere 27 at the line that is cut.
#[test]
fn every_truncation() {
    for text in some_drawings(213) {
        for length in 0..text.len() {
            let cut = &text[..length];
            let feeds = cut.iter().filter(|&&byte| byte == b'\n').count();
            let expected = match (cut.ends_with(b"\n"), feeds) {
                (false, _) => refused(27, feeds + 1),
                (true, 1) => refused(2, 1),
                (true, _) => Ok(()),
            };
            assert_eq!(compare(cut).map(drop), expected);
        }
    }
}

/// Every byte of a text changed to each other value. All refusals are seen that one byte can make.
#[test]
fn every_change_of_a_byte() {
    let mut seen = BTreeSet::new();
    for text in some_drawings(214) {
        for index in 0..text.len() {
            for byte in 0..=255 {
                let mut changed = text.clone();
                changed[index] = byte;
                seen.insert(compare_lightly(&changed));
            }
        }
    }
    assert_eq!(seen, BTreeSet::from([0, 1, 17, 27, 28]));
}

/// Bytes put in and left out at each place.
#[test]
fn bytes_put_in_and_left_out() {
    let mut seen = BTreeSet::new();
    for text in some_drawings(215) {
        for index in 0..=text.len() {
            for &byte in BYTES {
                let mut longer = text.clone();
                longer.insert(index, byte);
                seen.insert(compare_lightly(&longer));
            }
            let mut shorter = text.clone();
            shorter.remove(index.min(text.len() - 1));
            seen.insert(compare_lightly(&shorter));
        }
    }
    assert_eq!(seen, BTreeSet::from([0, 1, 17, 27, 28]));
}

/// Texts with a line or a word moved, taken away, given twice or changed.
#[test]
fn damaged_drawings() {
    let mut seeded = Seeded::new(216);
    let mut seen = BTreeSet::new();
    for n in 1..=16 {
        for _ in 0..60 {
            let text = damaged_drawing(&mut seeded, n);
            seen.insert(compare_lightly(text.as_bytes()));
        }
    }
    assert_eq!(seen, BTreeSet::from([0, 1, 2, 17, 27, 28]));
}

/// Whatever stands behind either keyword and behind a whole text, in up to five bytes, at the end or with a line behind it.
#[test]
fn every_short_end() {
    let mut seen = BTreeSet::new();
    for end in (0..=5).flat_map(|length| lists_of(b" 017\nx", length)) {
        for before in ["parts", "parts 2\nset", "parts 2\nset 1\n"] {
            for behind in ["", "\nset 2\n"] {
                let text = [before.as_bytes(), &end, behind.as_bytes()].concat();
                seen.insert(compare_lightly(&text));
            }
        }
    }
    assert_eq!(seen, BTreeSet::from([0, 1, 2, 17, 27, 28]));
}

/// Every text of one byte is of another form at line 1.
#[test]
fn every_text_of_one_byte() {
    for byte in 0..=255 {
        assert_eq!(compare(&[byte]), refused(27, 1));
    }
}

/// First lines, each with the number that it is refused with, 0 for a good one.
const FIRST_LINES: [(&str, u8); 6] = [
    ("parts 5\n", 0),
    ("parts 17\n", 1),
    ("parts 0\n", 1),
    ("parts x\n", 27),
    ("parts 17 x\n", 27),
    ("\n", 27),
];

/// Later lines: of the faults on one of them 27 comes first, then 17, then 28, wherever they stand.
const LATER_LINES: [(&str, u8); 11] = [
    ("set 4 1\n", 0),
    ("set 2\n", 0),
    ("set x\n", 27),
    ("\n", 27),
    ("set 9\n", 17),
    ("set 1 1\n", 28),
    ("set 1 1 9\n", 17),
    ("set 0 2 2\n", 17),
    ("set 9 x\n", 27),
    ("set 1 1 x\n", 27),
    ("set 1 1 9 05\n", 27),
];

/// A first line and three others, good or at fault: the first line at fault is reported, whatever the later ones are worth.
#[test]
fn faults_on_several_lines() {
    for first in FIRST_LINES {
        for number in 0..LATER_LINES.len().pow(3) {
            let later = |i| LATER_LINES[number / LATER_LINES.len().pow(i) % LATER_LINES.len()];
            let lines = [first, later(0), later(1), later(2)];
            let text: String = lines.iter().map(|line| line.0).collect();
            let wrong = (1..).zip(lines).find(|(_, line)| line.1 != 0);
            let expected = wrong.map_or(Ok(()), |(place, line)| refused(line.1, place));
            assert_eq!(read(text.as_bytes()).map(drop), expected, "{text:?}");
            compare_lightly(text.as_bytes());
        }
    }
}

// ---- numbers of any length

/// Numbers of 1 to 41 digits, with and without leading zeros, and those of which a machine word keeps 0 to 17.
fn numbers() -> Vec<String> {
    let mut numbers = Vec::new();
    for zeros in 0..40 {
        let zeros = "0".repeat(zeros);
        let around = ["1", "9", "16"].map(|digits| digits.to_string() + &zeros);
        let leading = ["0", "1", "5", "16"].map(|digits| zeros.clone() + digits);
        numbers.extend(around.into_iter().chain(leading));
    }
    numbers.extend((1..=40).map(|digits| "9".repeat(digits)));
    for kept in 0..=17_u128 {
        let powers = [7, 8, 15, 16, 31, 32, 48, 63, 64, 65, 96, 127];
        numbers.extend(powers.map(|power| ((1_u128 << power) + kept).to_string()));
        numbers.push(format!(
            "3402823669209384634633746074317682114{}",
            56 + kept
        ));
    }
    let mut seeded = Seeded::new(217);
    for power in [8, 16, 32, 64] {
        for _ in 0..60 {
            let (times, kept) = (seeded.number() as u128 + 1, seeded.between(0, 17) as u128);
            numbers.push(((times << power) + kept).to_string());
        }
    }
    numbers
}

/// The value of a number that is well formed, if it is 1 to 16; none if it is another, or the fault if it is not well formed.
fn small(number: &str) -> Result<Option<usize>, u8> {
    if number.len() > 1 && number.starts_with('0') {
        return Err(27);
    }
    let value = number.parse::<u128>().ok();
    Ok(value
        .filter(|value| (1..=16).contains(value))
        .map(|value| value as usize))
}

/// Each of them as the number of parts: none but 1 to 16 is one, also where its lowest bits are.
#[test]
fn numbers_of_parts_of_every_length() {
    for number in numbers() {
        let text = format!("parts {number}\nset 1\n");
        let expected = match small(&number) {
            Err(fault) => refused(fault, 1),
            Ok(None) => refused(1, 1),
            Ok(Some(_)) => Ok(()),
        };
        assert_eq!(compare(text.as_bytes()).map(drop), expected, "{number}");
    }
}

/// Each of them as a position, at the front, in the middle and at the end of a line of 12 parts that has the positions 7 and 11 beside it.
#[test]
fn positions_of_every_length() {
    for number in numbers() {
        let expected = match small(&number) {
            Err(fault) => refused(fault, 3),
            Ok(None | Some(13..)) => refused(17, 3),
            Ok(Some(7 | 11)) => refused(28, 3),
            Ok(Some(_)) => Ok(()),
        };
        for line in ["set N 7 11", "set 7 N 11", "set 11 7 N"] {
            let line = line.replace('N', &number);
            let text = format!("parts 12\nset 12\n{line}\nset 1 2\n");
            assert_eq!(read(text.as_bytes()).map(drop), expected, "{line}");
            compare_lightly(text.as_bytes());
        }
    }
}

/// More positions than there are parts, and numbers and words of very many bytes: 17 or 28, or 27 if the last byte is at fault.
#[test]
fn lines_of_any_length() {
    for count in [1, 16, 17, 255, 256, 257, 65_536, 65_537, 100_000] {
        let twice = if count == 1 { Ok(()) } else { refused(28, 2) };
        let lines = [
            (format!("set{}\n", " 3".repeat(count)), twice),
            (format!("set 1 2{}\n", " 2".repeat(count)), refused(28, 2)),
            (format!("set{} 17\n", " 3".repeat(count)), refused(17, 2)),
            (format!("set 1{}\n", "0".repeat(count + 1)), refused(17, 2)),
            (format!("set{} x\n", " 3".repeat(count)), refused(27, 2)),
            (format!("set 1{}x\n", "0".repeat(count)), refused(27, 2)),
            (format!("set {}\n", "0".repeat(count + 1)), refused(27, 2)),
            ("x".repeat(count), refused(27, 2)),
        ];
        for (line, expected) in lines {
            let text = format!("parts 16\n{line}");
            let found = read(text.as_bytes()).map(drop);
            assert_eq!(found, expected, "{count}, {:02X?}", front(line.as_bytes()));
            compare_lightly(text.as_bytes());
        }
    }
}

// ---- many lines

/// So many lines in all, the first of which gives 16 parts, with some end behind them.
fn many_lines(lines: usize, end: &str) -> Vec<u8> {
    let text = "parts 16\n".to_string() + &"set 3 11\n".repeat(lines - 1) + end;
    text.into_bytes()
}

/// 12,871 lines are accepted, all of them the same set; of line 12,872 not a byte may stand, whatever it is and whatever comes after it.
#[test]
fn the_last_line() {
    let record = [&[16, 16], &Vec::from_iter(1..=16)[..], &[1, 0x84, 0x08]].concat();
    for lines in [2, 12_870, 12_871] {
        assert_eq!(compare(&many_lines(lines, "")).as_ref(), Ok(&record));
        assert_eq!(read(&many_lines(lines, "")).as_ref(), Ok(&record));
    }
    let lines = [
        "set 3 11\n",
        "set 3 11",
        "set 17\n",
        "set 3 3\n",
        "set x\n",
        "\n",
        "\r\n",
    ];
    let bytes = ["s", "x", " ", "\0", "\u{FEFF}"];
    let more = "set 3 11\n".repeat(20_000);
    for end in lines.into_iter().chain(bytes).chain([more.as_str()]) {
        let text = many_lines(12_871, end);
        let shown = front(end.as_bytes());
        assert_eq!(read(&text), refused(3, 12_872), "{shown:02X?}");
        compare(&text).expect_err("a line too many");
    }
}

/// A fault on an earlier line comes before 3, and on the last line that may stand.
#[test]
fn a_fault_before_the_line_too_many() {
    let faults = [
        ("set 3 x\n", 27),
        ("\n", 27),
        ("set 17\n", 17),
        ("set 3 3\n", 28),
    ];
    for (line, number) in faults {
        for place in [2, 3, 6_000, 12_870, 12_871] {
            let mut text = many_lines(place - 1, line);
            text.extend("set 3 11\n".repeat(12_873 - place).bytes());
            assert_eq!(read(&text), refused(number, place), "{line:?}");
            compare_lightly(&text);
        }
    }
    assert_eq!(read(&many_lines(12_870, "set 3 11")), refused(27, 12_871));
    assert_eq!(read(&many_lines(12_870, "x")), refused(27, 12_871));
    let behind = "set 3 11\n".repeat(13_000);
    for (first, number) in [("parts 17\n", 1), ("parts 016\n", 27)] {
        let text = first.to_string() + &behind;
        assert_eq!(read(text.as_bytes()), refused(number, 1));
    }
}

// ---- the largest texts

/// All sets of 8 of 16 parts, ascending and in any order: one record.
#[test]
fn the_most_sets() {
    let mut seeded = Seeded::new(218);
    let text = largest_drawing();
    let record = compare(text.as_bytes()).expect("an accepted text");
    assert_eq!((text.len(), record.len()), (302_454, 35_627));
    let mut sets = sets_of_size(16, 8);
    seeded.shuffle(&mut sets);
    let other = drawing_of_list(&mut seeded, 16, &sets);
    assert!(other != text && compare(other.as_bytes()) == Ok(record));
    let longer = other + "set 1 2 3 4 5 6 7 8\n";
    assert_eq!(read(longer.as_bytes()), refused(3, 12_872));
}

/// The longest text that is accepted: 12,870 times the set of all 16 parts.
#[test]
fn the_longest_text() {
    let line = drawing_line("set", (1..=16).rev());
    let text = drawing_line("parts", [16]) + &line.repeat(12_870);
    assert_eq!(text.len(), LONGEST_DRAWING);
    let record = [&[16, 16], &Vec::from_iter(1..=16)[..], &[1, 0xFF, 0xFF, 3]].concat();
    assert_eq!(compare(text.as_bytes()), Ok(record));
}

/// A byte of the largest text changed, here and there.
#[test]
fn the_largest_text_damaged() {
    let mut seeded = Seeded::new(219);
    let text = largest_drawing().into_bytes();
    let mut seen = BTreeSet::new();
    for _ in 0..120 {
        let mut changed = text.clone();
        let index = seeded.between(0, text.len() - 1);
        changed[index] = seeded.pick(BYTES);
        let expected = by_words::record_of_drawing(&changed);
        let enough = vec![0xA5; LONGEST_RECORD];
        same_into(record_of_drawing, &changed, &expected, enough);
        seen.insert(expected.map_or_else(|refusal| refusal.number, |_| 0));
    }
    assert!(
        seen.is_superset(&BTreeSet::from([0, 17, 27, 28])),
        "{seen:?}"
    );
}
