//! Records: the calculator against the naive implementation, answers, places, the stretch and the walk, and every cell of the lent
//! buffers.

use nahokipe::lent::{first_record, table_of_list, table_of_record, RecordAnswer, StepAnswer};
use nahokipe::lent::{record_at_answer, step_answer, whole_record_answer};
use nahokipe::{next_set, record_at, stretch, walk, whole_record, Record, Refusal};
use nahokipe_testing::comparing::{buffers, front, handed_out, same};
use nahokipe_testing::known::REFUSED_RECORDS;
use nahokipe_testing::making::{damaged_record, largest_record, minimal_of_list, random_list};
use nahokipe_testing::making::{random_record, random_set, sets_of_size, table_of_sets};
use nahokipe_testing::naive::{self, refused, table_length, MOST_SETS};
use nahokipe_testing::naive_bytes::{number_bytes, numbers_bytes};
use nahokipe_testing::naive_records::{self as by_words, record_bytes, Plain, Reading, TOP_NUMBER};
use nahokipe_testing::seeded::Seeded;
use std::collections::BTreeSet;

const BRIDGE: [u8; 12] = [5, 5, 1, 2, 3, 4, 5, 4, 0x09, 0x0E, 0x12, 0x15];

// ---- comparing

/// All that is read from a record, and its table into buffers of every length that matters: the answer's number, 0 for an accepted one.
fn compare(bytes: &[u8]) -> u8 {
    let expected = by_words::whole_record(bytes);
    let table = table_of(&expected);
    for before in buffers(&table, 9, [0xA5, 0x5A]) {
        compare_table(bytes, &table, before);
    }
    compare_read(bytes, expected)
}

/// The same with the table into one buffer, for which some tables are too long. Tables of many parts are left to the other tests.
fn compare_lightly(bytes: &[u8]) -> u8 {
    let expected = by_words::whole_record(bytes);
    let many = |reading: &Reading| reading.plain.numbers.len() > 7;
    if !expected.as_ref().is_ok_and(many) {
        compare_table(bytes, &table_of(&expected), vec![0xA5; 13]);
    }
    compare_read(bytes, expected)
}

fn table_of(expected: &Result<Reading, Refusal>) -> Result<Vec<u8>, Refusal> {
    let plain = &expected.as_ref().map_err(|&refusal| refusal)?.plain;
    naive::table_of_list(plain.numbers.len(), &plain.sets)
}

fn compare_table(bytes: &[u8], expected: &Result<Vec<u8>, Refusal>, before: Vec<u8>) {
    let mut after = before.clone();
    let answer = table_of_record(bytes, &mut after);
    same((answer, after), naive::delivered(expected, &before), || {
        format!("{} bytes: {:02X?}", bytes.len(), front(bytes))
    });
}

/// The whole record's answer with every cell of it, and the sets where it says that they stand.
fn compare_read(bytes: &[u8], expected: Result<Reading, Refusal>) -> u8 {
    let found = whole_record_answer(bytes);
    let about = || format!("{} bytes: {:02X?}", bytes.len(), front(bytes));
    assert_eq!(found, handed_out(&expected), "{}", about());
    if let Ok(reading) = expected {
        compare_sets(bytes, &found, &reading.plain.sets);
    }
    found.number
}

/// The stretch carries the sets and nothing else, and a walk meets them one after the other.
fn compare_sets(bytes: &[u8], found: &RecordAnswer, sets: &[u16]) {
    let carried = numbers_bytes(sets.iter().map(|&set| set as u128));
    let stretch = &bytes[found.offset..found.offset + found.length];
    assert!(stretch == carried, "{:02X?}", front(bytes));
    let (mut next, mut left) = (found.offset, found.sets);
    for &set in sets {
        let step = next_set(bytes, next, left).expect("a set");
        assert_eq!(step.set, set as u64, "{:02X?}", front(bytes));
        (next, left) = (step.next, step.left);
    }
    assert_eq!((next, left), (found.offset + found.length, 0));
    assert_eq!(next_set(bytes, next, left), None);
}

/// The record at a position of some bytes.
fn compare_at(bytes: &[u8], start: usize) -> u8 {
    let expected = by_words::record_at(bytes, start);
    let found = record_at_answer(bytes, start);
    let about = || format!("{} bytes: {:02X?}", bytes.len(), front(bytes));
    assert_eq!(found, handed_out(&expected), "at {start}, {}", about());
    found.number
}

/// Records of every n, short enough to change each byte of them.
fn some_records(seed: u64) -> Vec<Vec<u8>> {
    let mut seeded = Seeded::new(seed);
    let mut records = Vec::new();
    for n in 1..=16 {
        while records.len() < 2 * n {
            let record = random_record(&mut seeded, n);
            if record.len() < 60 {
                records.push(record);
            }
        }
    }
    records
}

// ---- whole records

#[test]
fn random_records() {
    let mut seeded = Seeded::new(140);
    for n in 1..=16 {
        for _ in 0..16 {
            let bytes = random_record(&mut seeded, n);
            assert_eq!(compare(&bytes), 0);
        }
    }
}

/// Every record cut off at every byte: 21 at the length that is left.
#[test]
fn every_truncation() {
    for record in some_records(141) {
        for length in 0..record.len() {
            let cut = &record[..length];
            assert_eq!(compare(cut), 21);
            assert_eq!(whole_record(cut), refused(21, length));
        }
    }
}

/// Every byte of a record changed to each other value. All refusals of reading are seen.
#[test]
fn every_change_of_a_byte() {
    let mut seen = BTreeSet::new();
    for record in some_records(142) {
        for index in 0..record.len() {
            for byte in 0..=255 {
                let mut changed = record.clone();
                changed[index] = byte;
                seen.insert(compare_lightly(&changed));
            }
        }
    }
    let expected = BTreeSet::from([0, 1, 2, 3, 4, 5, 21, 22, 23, 24, 25]);
    assert_eq!(seen, expected);
}

/// Bytes put in and left out at each place.
#[test]
fn bytes_put_in_and_left_out() {
    let mut seeded = Seeded::new(143);
    for record in some_records(144) {
        for index in 0..=record.len() {
            let mut longer = record.clone();
            longer.insert(index, seeded.number() as u8);
            compare_lightly(&longer);
            let mut shorter = record.clone();
            shorter.remove(index.min(record.len() - 1));
            compare_lightly(&shorter);
        }
    }
}

/// Records with one number changed, which shifts no other number's fields.
#[test]
fn damaged_records() {
    let mut seeded = Seeded::new(145);
    let mut seen = BTreeSet::new();
    for n in 1..=16 {
        for _ in 0..60 {
            seen.insert(compare_lightly(&damaged_record(&mut seeded, n)));
        }
    }
    let expected = BTreeSet::from([0, 1, 2, 3, 4, 5, 21, 22, 23, 24, 25]);
    assert!(seen.is_superset(&expected), "{seen:?}");
}

/// A set that holds one read long before, at each distance.
#[test]
fn a_set_that_holds_an_earlier_one() {
    for n in 3..=16 {
        let mut sets: Vec<u16> = (0..n - 1).map(|i| 1 << i).collect();
        sets.push(1 << (n - 1));
        for held in 0..n - 1 {
            sets[n - 1] = 1 << (n - 1) | 1 << held;
            let bytes = record_of(n, &sets);
            assert_eq!(compare(&bytes), 24);
            let last = bytes.len() - number_bytes(sets[n - 1] as u128).len();
            assert_eq!(whole_record(&bytes), refused(24, last));
        }
    }
}

/// A record with the part numbers 1 to n, whatever its sets are worth.
fn record_of(n: usize, sets: &[u16]) -> Vec<u8> {
    record_bytes(&Plain {
        mark: n as u64,
        numbers: (1..=n as u64).collect(),
        sets: sets.to_vec(),
    })
}

/// Numbers of every number of groups at each place of a record: shortest or not, ended or not, with more bytes behind them or not.
#[test]
fn numbers_of_every_length() {
    let fronts: [&[u8]; 6] = [&[], &[1], &[1, 9], &[1, 9, 3], &[1, 9, 3, 1], &[2, 9, 3]];
    for before in fronts {
        for groups in 0..=8 {
            for filler in [0x80, 0xFF, 0x81] {
                for last in [
                    0x00, 0x01, 0x07, 0x08, 0x0F, 0x10, 0x3F, 0x40, 0x7F, 0x80, 0x8F, 0xBF, 0xFF,
                ] {
                    let number = [vec![filler; groups], vec![last]].concat();
                    for behind in [&[][..], &[1], &[0x80, 0x01]] {
                        compare(&[before, &number, behind].concat());
                    }
                    compare(&[before, &vec![filler; groups]].concat());
                }
            }
        }
    }
}

/// Every record of up to three bytes, and all of five bytes for one part that have small numbers.
#[test]
fn every_short_record() {
    compare(&[]);
    for first in 0..=255 {
        compare(&[first]);
        for second in 0..=255 {
            compare_lightly(&[first, second]);
            compare_lightly(&[1, first, second]);
        }
    }
    for number in 0..u32::pow(5, 5) {
        let digit = |i| (number / u32::pow(5, i) % 5) as u8;
        compare_lightly(&[digit(0), digit(1), digit(2), digit(3), digit(4)]);
    }
}

/// Bytes behind the last set: 25 at the first of them.
#[test]
fn bytes_left_over() {
    for record in some_records(146) {
        for left in [&[0][..], &[1, 2], &[0x80], &[0xFF; 6], &[7; 300]] {
            let longer = [record.as_slice(), left].concat();
            compare(&longer);
            assert_eq!(whole_record(&longer), refused(25, record.len()));
        }
    }
}

/// The count of sets at its edges, with no sets behind it and with as many as can be.
#[test]
fn counts_of_sets() {
    let tops = [(1 << 32) - 1, 1 << 32, TOP_NUMBER];
    for count in [0, 1, 12_869, 12_870, 12_871, 1 << 14]
        .into_iter()
        .chain(tops)
    {
        let head = numbers_bytes([16, 16].into_iter().chain(1..=16).chain([count as u128]));
        compare(&head);
        let sets = sets_of_size(16, 8);
        let sets = numbers_bytes(sets.into_iter().map(|set| set as u128));
        compare(&[head, sets].concat());
    }
}

// ---- the largest record

#[test]
fn the_largest_record() {
    let bytes = largest_record();
    assert_eq!((bytes.len(), compare(&bytes)), (35_729, 0));
    let record = whole_record(&bytes).expect("an accepted record");
    assert_eq!((record.sets, record.length), (MOST_SETS, 35_607));
    let lengths = [1, 122, 35_000, 35_728];
    assert!(lengths
        .iter()
        .all(|&length| compare(&bytes[..length]) == 21));
    assert_eq!(compare(&[bytes.as_slice(), &[0]].concat()), 25);
    assert_eq!(compare(&[bytes, vec![0xFF; 40_000]].concat()), 25);
}

/// A byte of it changed, here and there.
#[test]
fn the_largest_record_damaged() {
    let mut seeded = Seeded::new(147);
    let bytes = largest_record();
    for _ in 0..60 {
        let mut changed = bytes.clone();
        let index = seeded.between(0, bytes.len() - 1);
        changed[index] = seeded.number() as u8;
        compare_lightly(&changed);
    }
}

/// The sets of 8 of 16 parts up to some set, and then one that holds some of them, or one that holds none.
#[test]
fn a_set_that_holds_one_of_very_many() {
    let sets = sets_of_size(16, 8);
    for (last, number) in [(0xFF80, 24), (0xFFFF, 24), (0xFE01, 0), (0xFC01, 0)] {
        let below = sets[1..].iter().copied().filter(|&set| set < last);
        let list: Vec<u16> = below.chain([last]).collect();
        assert_eq!(compare(&record_of(16, &list)), number, "{last:04X}");
    }
}

// ---- a record among other bytes

/// A record with bytes before and behind it: places and the stretch are counted from the first byte of all, and what is behind is not
/// looked at.
#[test]
fn a_record_among_other_bytes() {
    let mut seeded = Seeded::new(148);
    for record in some_records(149) {
        for (before, behind) in [(0, 0), (1, 0), (7, 5), (300, 1), (0, 90)] {
            let mut around = |length| (0..length).map(|_| seeded.number() as u8).collect();
            let (front, back): (Vec<u8>, Vec<u8>) = (around(before), around(behind));
            let bytes = [front.as_slice(), &record, &back].concat();
            assert_eq!(compare_at(&bytes, before), 0);
            let whole = whole_record(&record).expect("an accepted record");
            let moved = Record {
                offset: whole.offset + before,
                ..whole
            };
            assert_eq!(record_at(&bytes, before), Ok(moved));
        }
    }
}

/// Damaged records and every position of all of them, also behind the end.
#[test]
fn every_position() {
    let mut seeded = Seeded::new(150);
    let mut seen = BTreeSet::new();
    for n in 1..=16 {
        for _ in 0..25 {
            let record = damaged_record(&mut seeded, n);
            let record = &record[..record.len().min(400)];
            for start in 0..=record.len() + 2 {
                seen.insert(compare_at(record, start));
            }
        }
    }
    assert!(
        seen.is_superset(&BTreeSet::from([0, 1, 21, 22, 23])),
        "{seen:?}"
    );
    for start in [12, 13, 1 << 32, usize::MAX - 1, usize::MAX] {
        compare_at(&BRIDGE, start);
        assert_eq!(record_at(&BRIDGE, start), refused(21, 12));
        compare_at(&[], start);
    }
}

// ---- walks

/// A step from every position with any number of sets left, on records and on bytes of any kind.
#[test]
fn steps_from_every_position() {
    let mut seeded = Seeded::new(151);
    for round in 0..400 {
        let bytes = match round % 2 {
            0 => random_record(&mut seeded, 1 + round % 9),
            _ => (0..round % 30)
                .map(|_| seeded.number() as u8 | 0x80 * (round % 4 == 1) as u8)
                .collect(),
        };
        let far = [usize::MAX - 4, usize::MAX - 1, usize::MAX, 1 << 32];
        for next in (0..bytes.len().min(200) + 3).chain(far) {
            for left in [0, 1, 2, 12_870, usize::MAX] {
                compare_step(&bytes, next, left);
            }
        }
    }
}

fn compare_step(bytes: &[u8], next: usize, left: usize) {
    let expected = match by_words::step_at(bytes, next, left) {
        Some((set, next, left)) => StepAnswer {
            given: 1,
            set,
            next,
            left,
        },
        None => StepAnswer {
            given: 0,
            set: 0,
            next: 0,
            left: 0,
        },
    };
    let about = || format!("at {next}, {left} left, {:02X?}", front(bytes));
    assert_eq!(step_answer(bytes, next, left), expected, "{}", about());
}

/// The walk and the stretch as a Rust program takes them.
#[test]
fn a_walk_along_the_bridge() {
    let record = whole_record(&BRIDGE).expect("an accepted record");
    assert_eq!((record.offset, record.sets), (8, 4));
    let met: Vec<u64> = walk(&BRIDGE).expect("an accepted record").collect();
    assert_eq!(met, [0x09, 0x0E, 0x12, 0x15]);
    assert_eq!(stretch(&BRIDGE), Ok(&[0x09, 0x0E, 0x12, 0x15][..]));
    assert_eq!(stretch(&BRIDGE[..11]), refused(21, 11));
    assert_eq!(walk(&BRIDGE[..11]).err(), refused::<()>(21, 11).err());
}

// ---- first records

/// A first record into buffers of every length that matters.
fn compare_first(n: usize, list: &[u16]) {
    let expected = by_words::first_record(n, list);
    for before in buffers(&expected, 9, [0xA5, 0x5A]) {
        let mut after = before.clone();
        let answer = first_record(n, list, &mut after);
        same(
            (answer, after),
            naive::delivered(&expected, &before),
            || format!("n = {n}, list of {}: {:?}", list.len(), front(list)),
        );
    }
}

/// Its table is that of the list, and it is a record.
#[test]
fn first_records_of_random_lists() {
    let mut seeded = Seeded::new(152);
    for n in 1..=16 {
        for _ in 0..16 {
            let list = random_list(&mut seeded, n);
            compare_first(n, &list);
            let mut buffer = vec![0xA5; 35_729];
            let length = first_record(n, &list, &mut buffer).expect("an accepted list");
            let (mut first, mut second) = (vec![0; table_length(n)], vec![1; table_length(n)]);
            assert_eq!(table_of_list(n, &list, &mut first), Ok(first.len()));
            let answer = table_of_record(&buffer[..length], &mut second);
            assert_eq!(answer, Ok(second.len()));
            assert!(first == second && first == table_of_sets(n, &list));
            let met: Vec<u16> = walk(&buffer[..length])
                .expect("an accepted record")
                .map(|set| set as u16)
                .collect();
            assert!(met == minimal_of_list(n, &list), "n = {n}");
        }
    }
}

/// Wrong numbers of parts, no sets, too many, and a set with a wrong bit or without any at each index: 1 to 5, before 11.
#[test]
fn first_records_of_refused_lists() {
    for n in (0..=18).chain([32, 1 << 32, usize::MAX]) {
        compare_first(n, &[]);
        compare_first(n, &[1]);
        compare_first(n, &vec![1; MOST_SETS]);
        compare_first(n, &vec![1; MOST_SETS + 1]);
        for index in 0..4 {
            for wrong in [0, 1 << n.min(15), 0x8000] {
                let mut list = [1; 4];
                list[index] = wrong;
                compare_first(n, &list);
            }
        }
    }
    let answers = [
        (0, &[][..], refused(1, 0)),
        (3, &[], refused(2, 0)),
        (3, &[1; MOST_SETS + 1], refused(3, 0)),
        (3, &[1, 8], refused(4, 1)),
        (3, &[1, 2, 0], refused(5, 2)),
        (3, &[1, 2], refused(11, 8)),
    ];
    for (n, list, expected) in answers {
        assert_eq!(first_record(n, list, &mut [0; 7]), expected);
    }
}

#[test]
fn first_records_of_long_lists() {
    let mut seeded = Seeded::new(153);
    for n in 11..=16 {
        for length in [4_000, MOST_SETS] {
            let list: Vec<u16> = (0..length).map(|_| random_set(&mut seeded, n)).collect();
            compare_first(n, &list);
        }
    }
    let mut list = sets_of_size(16, 8);
    seeded.shuffle(&mut list);
    compare_first(16, &list);
}

// ---- examples

/// Document 01's examples and what follows from its table of refusals.
#[test]
fn examples() {
    for (bytes, number, place) in REFUSED_RECORDS {
        assert_eq!(whole_record(bytes), refused(number, place), "{bytes:02X?}");
        compare(bytes);
    }
    let old_top = [1, 0xFF, 0xFF, 0xFF, 0xFF, 0x0F, 1, 1, 1];
    for bytes in [&[1, 5, 5, 1, 1][..], &[1, 9, 3, 1, 1], &old_top] {
        assert_eq!(compare(bytes), 0);
    }
}
