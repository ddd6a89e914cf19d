//! The naive reader and writer of drawings' texts against texts worked out by hand, against lists of numbers written one by one, and
//! against each other: what the other tests compare with must be right.

use nahokipe::lent::LONGEST_DRAWING;
use nahokipe_testing::known::{READ_DRAWINGS, REFUSED_DRAWINGS};
use nahokipe_testing::making::{drawing_line, drawing_of_list, largest_drawing, minimal_of_list};
use nahokipe_testing::making::{lists_of, random_list, random_plain, sets_of_size};
use nahokipe_testing::naive::refused;
use nahokipe_testing::naive_drawing::*;
use nahokipe_testing::naive_records::{record_bytes, whole_record, Plain};
use nahokipe_testing::seeded::Seeded;
use std::collections::BTreeSet;

fn shown(text: &[u8]) -> String {
    format!("{:?}", String::from_utf8_lossy(text))
}

// ---- reading

/// Each text gives its record, or is refused with its number at its place.
#[test]
fn known_texts() {
    for (text, record) in READ_DRAWINGS {
        let found = record_of_drawing(text);
        assert_eq!(found.as_deref(), Ok(record), "{}", shown(text));
    }
    for (text, number, place) in REFUSED_DRAWINGS {
        assert_eq!(drawing(text), refused(number, place), "{}", shown(text));
    }
}

/// The sets stand as the lines have them, with repeats and sets that hold others.
#[test]
fn sets_in_the_order_of_lines() {
    let text = b"parts 16\nset 16 1\nset 2\nset 10 2 16\nset 2\n";
    let sets = vec![0x8001, 0x0002, 0x8202, 0x0002];
    assert_eq!(drawing(text), Ok(Drawing { parts: 16, sets }));
}

/// Whatever stands behind a keyword, in up to seven bytes: 27 exactly where it is no list of numbers, and for `parts` no list of one.
#[test]
fn every_end_of_a_line() {
    let lists = lists_of_numbers(7);
    let mut met = 0;
    for end in (0..=7).flat_map(|length| lists_of(b" 01x", length)) {
        let is_list = lists.contains(&end);
        let spaces = end.iter().filter(|&&byte| byte == b' ').count();
        let first = [b"parts", end.as_slice(), b"\nset 1\n"].concat();
        let other_form = drawing(&first) == refused(27, 1);
        assert_eq!(other_form, !is_list || spaces != 1, "{}", shown(&first));
        let later = [b"parts 9\nset", end.as_slice(), b"\n"].concat();
        let other_form = drawing(&later) == refused(27, 2);
        assert_eq!(other_form, !is_list, "{}", shown(&later));
        met += is_list as usize;
    }
    assert_eq!(met, lists.len());
}

/// The lists of one or more numbers, a space in front of each, that have up to so many bytes, spaces, zeros and ones alone.
fn lists_of_numbers(most: usize) -> BTreeSet<Vec<u8>> {
    let numbers = (0..=111_111).map(|number| format!(" {number}").into_bytes());
    let has_others = |number: &[u8]| number.iter().any(|byte| !b" 01".contains(byte));
    let numbers: Vec<Vec<u8>> = numbers.filter(|number| !has_others(number)).collect();
    let mut lists = BTreeSet::new();
    let mut last: Vec<Vec<u8>> = vec![Vec::new()];
    while let Some(list) = last.pop() {
        let longer = numbers.iter().map(|number| [&list[..], number].concat());
        let longer: Vec<Vec<u8>> = longer.filter(|list| list.len() <= most).collect();
        lists.extend(longer.iter().cloned());
        last.extend(longer);
    }
    lists
}

/// Line 12,871 is the last that may stand; of the next not even one byte may, and faults of earlier lines come first.
#[test]
fn the_last_line() {
    let text = |sets: usize, end: &str| "parts 3\n".to_string() + &"set 2\n".repeat(sets) + end;
    let sets = |text: String| drawing(text.as_bytes()).map(|drawing| drawing.sets.len());
    assert_eq!(sets(text(12_869, "")), Ok(12_869));
    assert_eq!(sets(text(12_870, "")), Ok(12_870));
    for end in [
        "set 2\n",
        "set 2",
        "x",
        "\n",
        "\0",
        "set 9\n",
        "set 2\nset 2\n",
    ] {
        assert_eq!(sets(text(12_870, end)), refused(3, 12_872), "{end:?}");
    }
    assert_eq!(sets(text(12_869, "x")), refused(27, 12_871));
    assert_eq!(sets(text(12_869, "set 4\nset 2\n")), refused(17, 12_871));
    assert_eq!(sets(text(12_869, "set 2 2\nx")), refused(28, 12_871));
}

// ---- writing, and from one form to the other

/// The bridge's text, and that of a record whose part numbers are no positions.
#[test]
fn written_texts() {
    let bridge = [5, 5, 1, 2, 3, 4, 5, 4, 0x09, 0x0E, 0x12, 0x15];
    let text = b"parts 5\nset 1 4\nset 2 3 4\nset 2 5\nset 1 3 5\n";
    assert_eq!(drawing_of_record(&bridge).as_deref(), Ok(&text[..]));
    let plain = Plain {
        mark: 90,
        numbers: (60..76).collect(),
        sets: vec![0x0001, 0x0300, 0x8400],
    };
    let text = b"parts 16\nset 1\nset 9 10\nset 11 16\n";
    let written = drawing_of_record(&record_bytes(&plain));
    assert_eq!(written.as_deref(), Ok(&text[..]));
    assert_eq!(drawing_of_record(&bridge[..11]), refused(21, 11));
}

/// A list comes back from its text set by set, and a record from the text that is written of it with the same sets.
#[test]
fn texts_come_back() {
    let mut seeded = Seeded::new(200);
    for n in 1..=16 {
        for _ in 0..8 {
            let sets = random_list(&mut seeded, n);
            let text = drawing_of_list(&mut seeded, n, &sets);
            let minimal = minimal_of_list(n, &sets);
            let parts = n;
            assert!(drawing(text.as_bytes()) == Ok(Drawing { parts, sets }));
            let record = record_of_drawing(text.as_bytes()).expect("an accepted text");
            let plain = whole_record(&record).expect("an accepted record").plain;
            assert_eq!((plain.mark, plain.numbers.len()), (n as u64, n));
            assert!(plain.sets == minimal && drawing_of_record(&record).is_ok());
            let plain = random_plain(&mut seeded, n);
            let text = drawing_of_record(&record_bytes(&plain)).expect("an accepted record");
            let sets = plain.sets;
            assert!(drawing(&text) == Ok(Drawing { parts, sets }));
        }
    }
}

/// The longest first line has 9 bytes and the longest set line 43, so a text of 12,871 lines has 553,419 at the most; that of the most sets
/// has fewer.
#[test]
fn the_longest_texts() {
    let (first, longest) = (drawing_line("parts", [16]), drawing_line("set", 1..=16));
    assert_eq!((first.len(), longest.len()), (9, 43));
    let text = first + &longest.repeat(12_870);
    assert_eq!(text.len(), LONGEST_DRAWING);
    let sets = vec![0xFFFF; 12_870];
    assert!(drawing(text.as_bytes()) == Ok(Drawing { parts: 16, sets }));
    let largest = largest_drawing();
    assert_eq!(largest.len(), 302_454);
    let sets = sets_of_size(16, 8);
    assert!(drawing(largest.as_bytes()) == Ok(Drawing { parts: 16, sets }));
}
