//! Records of edition 2 (document 02, §8): every call that reads one against the naive reader, answers, places, the sets where they stand and
//! every cell of the lent buffers; records at a position; conversions; and that records of edition 1 are read as before.

use nahokipe::lent::{self, record_at_answer, table_of_record, whole_record_answer};
use nahokipe::{drawing_of_record, next_set, record_at, record_end, report, sets_of_record};
use nahokipe::{edition, position_of, retired, stretch, to_edition_1, to_edition_2, whole_record};
use nahokipe::{Record, Refusal};
use nahokipe_testing::comparing::{front, handed_out, same_into, same_into_all, same_reading};
use nahokipe_testing::known::{BOTH_EDITIONS, REFUSED_EDITIONS, REFUSED_RECORDS};
use nahokipe_testing::making::{damaged_edition_2, damaged_record, random_edition_2};
use nahokipe_testing::making::{every_plain, lists_of, random_retired};
use nahokipe_testing::making::{largest_edition_2, largest_record, random_plain, random_record};
use nahokipe_testing::naive::{self, refused};
use nahokipe_testing::naive_bytes::{number_bytes, numbers_bytes};
use nahokipe_testing::naive_editions::{self as by_words, edition_2_bytes, fresh_counts};
use nahokipe_testing::naive_records::TOP_NUMBER;
use nahokipe_testing::naive_records::{self, edition_1_record, record_bytes, Plain, Reading};
use nahokipe_testing::seeded::Seeded;
use nahokipe_testing::{naive_drawing, naive_report};
use std::collections::BTreeSet;

/// Every refusal of reading.
const READING: [u8; 12] = [1, 2, 3, 4, 5, 21, 22, 23, 24, 25, 30, 31];

// ---- comparing

/// All that is read of some bytes, and the table into one buffer, for which that of many parts is too long: the answer's number.
fn compare(bytes: &[u8]) -> u8 {
    let reading = same_reading(bytes);
    let number = reading
        .as_ref()
        .map_or_else(|refusal| refusal.number, |_| 0);
    same_into(table_of_record, bytes, &table_of(reading), vec![0xA5; 40]);
    number
}

/// The same of an accepted record: its table into buffers of every length that matters, and its sets where they stand.
fn compare_accepted(bytes: &[u8]) {
    let reading = same_reading(bytes);
    same_into_all(table_of_record, bytes, &table_of(reading.clone()));
    let reading = reading.expect("an accepted record");
    let sets = reading.plain.sets;
    let carried = numbers_bytes(sets.iter().map(|&set| set as u128));
    assert!(stretch(bytes) == Ok(&carried), "{:02X?}", front(bytes));
    assert!(sets_of_record(bytes) == Ok(sets), "{:02X?}", front(bytes));
    assert_eq!(next_set(bytes, reading.end, 0), None);
}

/// The table of what is read, or its refusal.
fn table_of(reading: Result<Reading, Refusal>) -> Result<Vec<u8>, Refusal> {
    let plain = reading?.plain;
    naive::table_of_list(plain.numbers.len(), &plain.sets)
}

/// The record at a position of some bytes, and where it ends.
fn compare_at(bytes: &[u8], start: usize) -> u8 {
    let expected = naive_records::record_at(bytes, start);
    let found = record_at_answer(bytes, start);
    let about = || format!("at {start}, {:02X?}", front(bytes));
    assert_eq!(found, handed_out(&expected), "{}", about());
    let end = expected.map(|reading| reading.behind);
    assert_eq!(record_end(bytes, start), end, "{}", about());
    found.number
}

/// Records of edition 2 of so many parts, short enough to change each byte of them; two of three have retired numbers.
fn some_records(seed: u64, parts: std::ops::RangeInclusive<usize>, each: usize) -> Vec<Vec<u8>> {
    let mut seeded = Seeded::new(seed);
    let mut records = Vec::new();
    for n in parts {
        let before = records.len();
        while records.len() < before + each {
            let record = random_edition_2(&mut seeded, n);
            let numbers = by_words::retired(&record).expect("an accepted record");
            let wanted = records.len() % 3 == 0 || !numbers.is_empty();
            if record.len() < 90 && wanted {
                records.push(record);
            }
        }
    }
    records
}

/// A record of two parts under the mark 127 with so many retired numbers of one byte.
fn record_with(count: usize) -> Vec<u8> {
    let plain = Plain {
        mark: 127,
        numbers: vec![40, 90],
        sets: vec![0b01, 0b10],
    };
    let unused = (1..=127).filter(|number| !plain.numbers.contains(number));
    let retired: Vec<u64> = unused.take(count).collect();
    edition_2_bytes(&plain, &retired)
}

// ---- examples

/// What document 02 says and what follows from it, worked out by hand.
#[test]
fn examples() {
    for (bytes, number, place) in REFUSED_EDITIONS {
        assert_eq!(whole_record(bytes), refused(number, place), "{bytes:02X?}");
        assert_eq!(edition(bytes), refused(number, place), "{bytes:02X?}");
        assert_eq!(to_edition_1(bytes), refused(number, place), "{bytes:02X?}");
        assert_eq!(compare(bytes), number);
    }
    for (first, second) in BOTH_EDITIONS {
        assert_eq!((edition(first), edition(second)), (Ok(1), Ok(2)));
        assert_eq!(to_edition_2(first).as_deref(), Ok(second));
        assert_eq!(to_edition_1(second).as_deref(), Ok(first));
        compare_accepted(first);
        compare_accepted(second);
    }
}

/// The bridge with number 7 retired: what is handed out, the stretch of its sets, and where it ends.
#[test]
fn the_bridge() {
    let bytes = [
        0, 2, 5, 9, 1, 2, 3, 4, 5, 4, 0x09, 0x0E, 0x12, 0x15, 1, 7, 0, 0, 2, 8, 5, 1,
    ];
    let record = Record {
        mark: 9,
        numbers: vec![1, 2, 3, 4, 5],
        sets: 4,
        offset: 10,
        length: 4,
    };
    assert_eq!(whole_record(&bytes), Ok(record));
    assert_eq!(stretch(&bytes), Ok(&[0x09, 0x0E, 0x12, 0x15][..]));
    assert_eq!((edition(&bytes), record_end(&bytes, 0)), (Ok(2), Ok(22)));
    assert_eq!(retired(&bytes), Ok(vec![7]));
    assert_eq!(
        (position_of(&bytes, 5), position_of(&bytes, 7)),
        (Ok(5), refused(17, 0))
    );
    assert_eq!(to_edition_1(&bytes), refused(32, 0));
    compare_accepted(&bytes);
}

// ---- whole records

#[test]
fn random_records() {
    let mut seeded = Seeded::new(410);
    for n in 1..=16 {
        for _ in 0..12 {
            compare_accepted(&random_edition_2(&mut seeded, n));
        }
    }
    for count in 0..=64 {
        compare_accepted(&record_with(count));
    }
}

/// Cut off at every byte: 21 at the length that is left, but for the one byte 00, which is n = 0.
#[test]
fn every_truncation() {
    let long = [record_with(64), largest_edition_2()[..200].to_vec()];
    for record in some_records(411, 1..=16, 3).into_iter().chain(long) {
        for length in 0..record.len() {
            let expected = match length {
                1 => refused(1, 0),
                _ => refused(21, length),
            };
            compare(&record[..length]);
            assert_eq!(whole_record(&record[..length]), expected);
        }
    }
}

/// Every byte of a record of few parts changed to each other value, and of one with the most retired numbers. All refusals of reading are
/// seen but 25, since a number that is missing in front makes a path count wrong.
#[test]
fn every_change_of_a_byte() {
    let mut seen = BTreeSet::new();
    let most = [record_with(64)];
    for record in some_records(412, 1..=6, 4).into_iter().chain(most) {
        for index in 0..record.len() {
            for byte in 0..=255 {
                let mut changed = record.clone();
                changed[index] = byte;
                seen.insert(compare(&changed));
            }
        }
    }
    let reading = READING.into_iter().filter(|&number| number != 25);
    assert_eq!(seen, reading.chain([0]).collect());
}

/// Every byte of records of more parts with one of its bits turned over, and set to the lowest and the highest value.
#[test]
fn every_byte_of_larger_records() {
    for record in some_records(413, 7..=16, 3) {
        for index in 0..record.len() {
            let bits = (0..8).map(|bit| record[index] ^ 1 << bit);
            for byte in bits.chain([0, 0xFF]) {
                let mut changed = record.clone();
                changed[index] = byte;
                compare(&changed);
            }
        }
    }
}

/// Bytes put in and left out at each place.
#[test]
fn bytes_put_in_and_left_out() {
    let mut seeded = Seeded::new(414);
    for record in some_records(415, 1..=9, 4) {
        for index in 0..=record.len() {
            for byte in [0, 1, 0x80, seeded.number() as u8] {
                let mut longer = record.clone();
                longer.insert(index, byte);
                compare(&longer);
            }
            let mut shorter = record.clone();
            shorter.remove(index.min(record.len() - 1));
            compare(&shorter);
        }
    }
}

/// Records with one number changed, most of them behind the sets.
#[test]
fn damaged_records() {
    let mut seeded = Seeded::new(416);
    let mut seen = BTreeSet::new();
    for n in 1..=16 {
        for _ in 0..80 {
            seen.insert(compare(&damaged_edition_2(&mut seeded, n)));
        }
    }
    let expected = BTreeSet::from([0, 1, 2, 3, 4, 5, 22, 23, 24, 30, 31]);
    assert!(seen.is_superset(&expected), "{seen:?}");
}

/// Bytes behind the last path count: 25 at the first of them, whatever they are.
#[test]
fn bytes_left_over() {
    for record in some_records(417, 1..=16, 2) {
        for left in [
            &[0][..],
            &[1, 2],
            &[0x80],
            &[0xFF; 6],
            &[0, 2, 1],
            &[7; 300],
        ] {
            let longer = [record.as_slice(), left].concat();
            compare(&longer);
            assert_eq!(whole_record(&longer), refused(25, record.len()));
        }
    }
}

/// All bytes behind 00, and all short ones behind 00 02.
#[test]
fn every_short_record() {
    for second in 0..=255 {
        compare(&[0, second]);
        for third in 0..=255 {
            compare(&[0, second, third]);
            compare(&[0, 2, 1, second, third]);
            compare(&[0, 2, 1, 1, 1, 1, 1, second, third]);
            compare(&[0, 2, 1, 3, 3, 1, 1, 1, second, third]);
        }
    }
    for tail in lists_of(&[0, 1, 2, 3, 4], 5) {
        compare(&[&[0, 2, 1, 3, 2, 1, 1][..], &tail].concat());
    }
}

// ---- the numbers behind the sets

/// Numbers of every number of groups where the count of retired numbers, a retired number and a path count stand: shortest or not, ended or
/// not, with more bytes behind them or not.
#[test]
fn numbers_of_every_length() {
    let top = number_bytes(TOP_NUMBER as u128);
    let count = [&[0, 2, 1][..], &top, &[1, 1, 1]].concat();
    let number = [&count[..], &[2, 3]].concat();
    let path_count = [&count[..], &[0]].concat();
    let lasts = [
        0x00, 0x01, 0x07, 0x08, 0x0F, 0x10, 0x3F, 0x40, 0x41, 0x7F, 0x80, 0x8F, 0xBF, 0xFF,
    ];
    for before in [count, number, path_count] {
        for groups in 0..=8 {
            for filler in [0x80, 0xFF, 0x81] {
                for last in lasts {
                    let number = [vec![filler; groups], vec![last]].concat();
                    for behind in [&[][..], &[0, 1], &[0x80, 0x01]] {
                        compare(&[&before, &number, behind].concat());
                    }
                }
                compare(&[before.as_slice(), &vec![filler; groups]].concat());
            }
        }
    }
}

/// The count of retired numbers at its edges, with fewer, as many and more numbers behind it: over 64 is refused before any of them is read.
#[test]
fn counts_of_retired_numbers() {
    let front = [0, 2, 1, 127, 100, 1, 1];
    let few = [0, 1, 63, 64, 65, 66, 127];
    let many = [7, 8, 14, 16, 31].map(|bit| 1 + (1 << bit));
    for count in few.into_iter().chain(many).chain([(1 << 32) - 1]) {
        for present in [0, 1, 63, 64, 65, 66] {
            let numbers = (1..=present).collect::<Vec<u8>>();
            for behind in [&[0, 1][..], &[], &[0x80, 0]] {
                let bytes = [&front[..], &number_bytes(count), &numbers, behind].concat();
                compare(&bytes);
                if count > 64 {
                    assert_eq!(whole_record(&bytes), refused(30, 7));
                }
            }
        }
    }
    assert_eq!(compare(&record_with(64)), 0);
    assert_eq!(whole_record(&record_with(65)), refused(30, 9));
}

/// Each path count wrong by one and in its higher groups, alone and before a later one: 31 at the first.
#[test]
fn wrong_path_counts() {
    let mut seeded = Seeded::new(418);
    for n in 1..=12 {
        let plain = random_plain(&mut seeded, n);
        let front = edition_2_bytes(&plain, &[]);
        let counts = fresh_counts(&plain);
        let length = front.len() - numbers_bytes(counts.clone()).len();
        for j in 0..=n {
            let higher = [0, 7, 8, 14, 16, 21, 28, 31].map(|bit| counts[j] + (1 << bit));
            let mut wrong = higher.to_vec();
            wrong.extend(counts[j].checked_sub(1));
            for wrong in wrong {
                let mut others = counts.clone();
                others[j] = wrong;
                let place = length + numbers_bytes(others[..j].to_vec()).len();
                for later in [others[n], others[n] + 5] {
                    others[n] = if j < n { later } else { wrong };
                    let bytes = [&front[..length], &numbers_bytes(others.clone())].concat();
                    compare(&bytes);
                    assert_eq!(whole_record(&bytes), refused(31, place), "{n}, {j}");
                }
            }
        }
    }
}

/// A retired number that is in use, for each part; the mark, and one above it; and two that do not rise.
#[test]
fn wrong_retired_numbers() {
    let mut seeded = Seeded::new(419);
    for n in 1..=16 {
        let mut plain = random_plain(&mut seeded, n);
        plain.sets.truncate(9);
        plain.mark = plain.mark.clamp(plain.numbers[n - 1] + 1, TOP_NUMBER - 1);
        let refusal = |retired: &[u64]| {
            let bytes = edition_2_bytes(&plain, retired);
            compare(&bytes);
            whole_record(&bytes).err().map(|refusal| refusal.number)
        };
        for &number in &plain.numbers {
            assert_eq!(refusal(&[number]), Some(30));
        }
        assert_eq!(refusal(&[plain.mark]), None);
        assert_eq!(refusal(&[plain.mark + 1]), Some(30));
        assert_eq!(refusal(&[plain.mark, plain.mark]), Some(30));
        assert_eq!(refusal(&[0, plain.mark]), Some(30));
        let free = (1..=plain.mark).find(|number| !plain.numbers.contains(number));
        let free = free.expect("a number not in use");
        assert_eq!(refusal(&[plain.mark, free]), Some(30));
    }
}

/// A number that differs from a part's in one bit is not in use.
#[test]
fn retired_numbers_like_those_in_use() {
    let plain = Plain {
        mark: TOP_NUMBER,
        numbers: vec![5, 1 << 20, 3 << 33],
        sets: vec![1],
    };
    for number in &plain.numbers {
        for other in (0..48).map(|bit| number ^ 1 << bit) {
            let expected = if other == 0 { 30 } else { 0 };
            assert_eq!(compare(&edition_2_bytes(&plain, &[other])), expected);
        }
    }
}

// ---- the largest record

#[test]
fn the_largest_record() {
    let bytes = largest_edition_2();
    assert_eq!(bytes.len(), 36_203);
    compare_accepted(&bytes);
    for length in [1, 124, 35_000, 35_731, 35_732, 36_202] {
        compare(&bytes[..length]);
    }
    assert_eq!(compare(&[bytes.as_slice(), &[0]].concat()), 25);
    assert_eq!(compare(&[bytes.clone(), vec![0xFF; 40_000]].concat()), 25);
    let mut seeded = Seeded::new(420);
    for round in 0..60 {
        let mut changed = bytes.clone();
        let first = if round % 3 == 0 { 0 } else { 35_731 };
        let index = seeded.between(first, bytes.len() - 1);
        changed[index] = seeded.number() as u8;
        compare(&changed);
    }
}

// ---- a record among other bytes

/// A record with bytes before and behind it: places, the stretch and the end are counted from the first byte of all, and what is behind is
/// not looked at.
#[test]
fn a_record_among_other_bytes() {
    let mut seeded = Seeded::new(421);
    for record in some_records(422, 1..=16, 2) {
        for (before, behind) in [(0, 0), (1, 0), (2, 3), (7, 5), (300, 1), (0, 90)] {
            let mut around = |length| (0..length).map(|_| seeded.number() as u8).collect();
            let (front, back): (Vec<u8>, Vec<u8>) = (around(before), around(behind));
            let bytes = [front.as_slice(), &record, &back].concat();
            assert_eq!(compare_at(&bytes, before), 0);
            let whole = whole_record(&record).expect("an accepted record");
            let offset = whole.offset + before;
            assert_eq!(record_at(&bytes, before), Ok(Record { offset, ..whole }));
            assert_eq!(record_end(&bytes, before), Ok(before + record.len()));
        }
    }
}

/// The rule for 00 speaks from the record's first byte, and n of edition 2 has its own.
#[test]
fn refusals_at_a_position() {
    for before in [0, 1, 5, 200] {
        for (bytes, number, place) in REFUSED_EDITIONS {
            if number == 25 {
                continue;
            }
            let moved = [vec![0; before].as_slice(), bytes].concat();
            let expected = Refusal {
                number,
                place: place + before,
            };
            assert_eq!(record_at(&moved, before), Err(expected), "{bytes:02X?}");
            assert_eq!(record_end(&moved, before), Err(expected), "{bytes:02X?}");
            compare_at(&moved, before);
        }
    }
}

/// Records of both editions one behind the other: each ends where the next begins.
#[test]
fn one_record_behind_the_other() {
    let mut seeded = Seeded::new(423);
    for _ in 0..12 {
        let records: Vec<Vec<u8>> = (0..9)
            .map(|_| match seeded.between(0, 1) {
                0 => random_record(&mut seeded, 5),
                _ => random_edition_2(&mut seeded, 5),
            })
            .collect();
        let bytes = records.concat();
        let mut start = 0;
        for record in records {
            let at = record_at(&bytes, start).expect("an accepted record");
            let whole = whole_record(&record).expect("an accepted record");
            let offset = whole.offset + start;
            assert_eq!(at, Record { offset, ..whole });
            start = record_end(&bytes, start).expect("an accepted record");
            assert!(bytes[..start].ends_with(&record));
        }
        assert_eq!(start, bytes.len());
        assert_eq!(record_end(&bytes, start), refused(21, start));
    }
}

/// Damaged records behind some bytes, and every position of all of them, also behind the end.
#[test]
fn every_position() {
    let mut seeded = Seeded::new(424);
    for n in 1..=16 {
        for before in 0..12 {
            let record = damaged_edition_2(&mut seeded, n);
            let bytes = [vec![0; before], record].concat();
            compare_at(&bytes, before);
            let bytes = &bytes[..bytes.len().min(300)];
            for start in 0..=bytes.len() + 2 {
                compare_at(bytes, start);
            }
        }
    }
    let (_, bridge) = BOTH_EDITIONS[2];
    for start in [
        bridge.len(),
        bridge.len() + 1,
        1 << 32,
        usize::MAX - 1,
        usize::MAX,
    ] {
        compare_at(bridge, start);
        assert_eq!(record_end(bridge, start), refused(21, bridge.len()));
        compare_at(&[], start);
    }
}

// ---- conversions

/// Both conversions of some bytes, into buffers of every length that matters.
fn compare_conversions(bytes: &[u8]) {
    let expected = by_words::to_edition_1(bytes);
    same_into_all(lent::to_edition_1, bytes, &expected);
    assert!(to_edition_1(bytes) == expected, "{:02X?}", front(bytes));
    let expected = by_words::to_edition_2(bytes);
    same_into_all(lent::to_edition_2, bytes, &expected);
    assert!(to_edition_2(bytes) == expected, "{:02X?}", front(bytes));
}

/// There and back: a record of edition 1 is the same again, and one that is of the edition asked for comes back as it is.
#[test]
fn there_and_back() {
    let mut seeded = Seeded::new(425);
    let random = (1..=16).flat_map(|n| [n; 8]);
    let random = random.map(|n| random_plain(&mut seeded, n));
    let few = (1..=4).flat_map(every_plain);
    for plain in few.chain(random.collect::<Vec<Plain>>()) {
        let first = record_bytes(&plain);
        let second = to_edition_2(&first).expect("an accepted record");
        assert!(second == edition_2_bytes(&plain, &[]));
        assert!(to_edition_1(&second).as_ref() == Ok(&first));
        assert!(to_edition_1(&first).as_ref() == Ok(&first));
        assert!(to_edition_2(&second).as_ref() == Ok(&second));
        assert_eq!((edition(&first), edition(&second)), (Ok(1), Ok(2)));
        assert_eq!(retired(&first), Ok(vec![]));
        compare_conversions(&first);
        compare_conversions(&second);
    }
}

/// A record with retired numbers comes back unchanged as one of edition 2, and is refused as one of edition 1: 32, before 11.
#[test]
fn retired_numbers_stay() {
    let mut seeded = Seeded::new(426);
    let mut refusals = 0;
    for n in (1..=16).flat_map(|n| [n; 8]) {
        let bytes = random_edition_2(&mut seeded, n);
        compare_conversions(&bytes);
        assert!(to_edition_2(&bytes).as_ref() == Ok(&bytes));
        if retired(&bytes) != Ok(vec![]) {
            refusals += 1;
            for room in [0, 1, bytes.len() - 2, bytes.len(), bytes.len() + 9] {
                let mut buffer = vec![0x5A; room];
                assert_eq!(lent::to_edition_1(&bytes, &mut buffer), refused(32, 0));
                assert!(buffer.iter().all(|&cell| cell == 0x5A));
            }
        }
    }
    assert!(refusals > 60, "{refusals}");
}

/// Every length of buffer from none to some bytes more than needed, for both conversions and for the retired numbers.
#[test]
fn every_length_of_buffer() {
    let (first, second) = BOTH_EDITIONS[2];
    for bytes in [first, second] {
        for room in 0..bytes.len() + 20 {
            let expected = by_words::to_edition_1(bytes);
            same_into(lent::to_edition_1, bytes, &expected, vec![0x5A; room]);
            let expected = by_words::to_edition_2(bytes);
            same_into(lent::to_edition_2, bytes, &expected, vec![0x5A; room]);
        }
        assert_eq!(lent::to_edition_1(bytes, &mut [0; 11]), refused(11, 12));
        assert_eq!(lent::to_edition_2(bytes, &mut [0; 20]), refused(11, 21));
    }
    for count in [1, 2, 64] {
        let bytes = record_with(count);
        for room in 0..count {
            let mut cells = vec![7; room];
            assert_eq!(lent::retired(&bytes, &mut cells), refused(11, count));
            assert_eq!(cells, vec![7; room]);
        }
        let mut cells = vec![0; lent::MOST_RETIRED + 2];
        cells[count] = u64::MAX;
        assert_eq!(lent::retired(&bytes, &mut cells), Ok(count));
        assert_eq!(Ok(cells[..count].to_vec()), by_words::retired(&bytes));
        assert_eq!(cells[count], u64::MAX);
    }
}

/// A record that is not one is refused as reading it is, by both conversions, before 32 and 11.
#[test]
fn conversions_of_damaged_records() {
    let mut seeded = Seeded::new(427);
    let mut seen = BTreeSet::new();
    for n in 1..=12 {
        for round in 0..60 {
            let bytes = match round % 4 {
                0 => [random_edition_2(&mut seeded, n), vec![1]].concat(),
                1 => damaged_record(&mut seeded, n),
                _ => damaged_edition_2(&mut seeded, n),
            };
            if let Err(refusal) = whole_record(&bytes) {
                seen.insert(refusal.number);
                assert_eq!(lent::to_edition_1(&bytes, &mut []), Err(refusal));
                assert_eq!(lent::to_edition_2(&bytes, &mut []), Err(refusal));
                assert_eq!(lent::retired(&bytes, &mut []), Err(refusal));
            }
            compare_conversions(&bytes);
        }
    }
    assert_eq!(seen, READING.into());
}

/// The longest records of both editions, into buffers of the length that is always enough.
#[test]
fn conversions_of_the_largest_records() {
    for bytes in [largest_record(), largest_edition_2()] {
        compare_conversions(&bytes);
    }
}

// ---- what does not tell the editions apart

/// The report, the drawing's text and positions are the same for both editions, and say nothing of edition or retired numbers.
#[test]
fn reports_and_texts_of_both_editions() {
    let mut seeded = Seeded::new(428);
    for n in (1..=16).flat_map(|n| [n; 4]) {
        let plain = random_plain(&mut seeded, n);
        let numbers = random_retired(&mut seeded, &plain);
        let [first, second, filed] = [
            record_bytes(&plain),
            edition_2_bytes(&plain, &[]),
            edition_2_bytes(&plain, &numbers),
        ];
        let text = report(&first).expect("an accepted record");
        assert_eq!(naive_report::printed(&filed).as_bytes(), text);
        let drawing = drawing_of_record(&first);
        assert!(naive_drawing::drawing_of_record(&filed) == drawing);
        for other in [&second, &filed] {
            assert!(report(other).as_ref() == Ok(&text));
            assert!(drawing_of_record(other) == drawing);
            for (&number, position) in plain.numbers.iter().zip(1..) {
                assert_eq!(position_of(other, number), Ok(position));
            }
            for &number in &numbers {
                assert_eq!(position_of(other, number), refused(17, 0));
            }
        }
    }
}

/// Damaged records of edition 2 have no report and no drawing's text: the reader's refusal, with the buffers as they were.
#[test]
fn no_reports_and_texts_of_damaged_records() {
    let mut seeded = Seeded::new(429);
    for n in (1..=10).flat_map(|n| [n; 20]) {
        let bytes = damaged_edition_2(&mut seeded, n);
        let text = naive_drawing::drawing_of_record(&bytes);
        same_into_all(lent::drawing_of_record, &bytes, &text);
        let expected = naive_report::report(&bytes).map(|(_, text)| text.into_bytes());
        assert!(report(&bytes) == expected, "{:02X?}", front(&bytes));
        if let Err(refusal) = expected {
            let (mut table, mut text) = ([7; 9], [7; 9]);
            let answer = lent::report(&bytes, &mut table, &mut text);
            assert_eq!((answer, table, text), (Err(refusal), [7; 9], [7; 9]));
            assert_eq!(position_of(&bytes, 1), Err(refusal));
        }
    }
}

// ---- records of edition 1

/// Bytes that do not begin with 00 02 are read as they were while there was edition 1 alone: the answer's number.
fn reads_as_before(bytes: &[u8]) -> u8 {
    let then = edition_1_record(bytes);
    let now = whole_record_answer(bytes);
    if bytes.starts_with(&[0, 2]) {
        assert_eq!(then, refused(1, 0));
        return now.number;
    }
    assert_eq!(now, handed_out(&then), "{:02X?}", front(bytes));
    if then.is_ok() {
        assert_eq!((edition(bytes), retired(bytes)), (Ok(1), Ok(vec![])));
        assert_eq!(record_end(bytes, 0), Ok(bytes.len()));
        assert!(to_edition_1(bytes).as_deref() == Ok(bytes));
    }
    now.number
}

/// Whole, damaged and known records of edition 1, and all of up to three bytes.
#[test]
fn records_of_edition_1() {
    let mut seeded = Seeded::new(430);
    for n in 1..=16 {
        for _ in 0..40 {
            assert_eq!(reads_as_before(&random_record(&mut seeded, n)), 0);
            reads_as_before(&damaged_record(&mut seeded, n));
        }
    }
    for (bytes, number, place) in REFUSED_RECORDS {
        assert_eq!(whole_record(bytes), refused(number, place), "{bytes:02X?}");
        assert_eq!(reads_as_before(bytes), number);
    }
    for plain in (1..=4).flat_map(every_plain) {
        assert_eq!(reads_as_before(&record_bytes(&plain)), 0);
    }
    reads_as_before(&largest_record());
    for first in 0..=255 {
        for second in 0..=255 {
            reads_as_before(&[first, second]);
            reads_as_before(&[first, 1, second]);
            reads_as_before(&[1, first, second]);
        }
    }
}

/// Every change of a byte of the bridge of edition 1: none makes a record of edition 2.
#[test]
fn the_bridge_of_edition_1_damaged() {
    let (bridge, _) = BOTH_EDITIONS[2];
    for index in 0..bridge.len() {
        for byte in 0..=255 {
            let mut changed = bridge.to_vec();
            changed[index] = byte;
            reads_as_before(&changed);
            compare(&changed);
        }
    }
}
