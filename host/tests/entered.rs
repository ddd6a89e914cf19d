//! Records of parts that have numbers already: the calculator against the words, answers, places and every cell of the lent buffers; what is
//! entered is read back, and no number up to the mark is issued.

use nahokipe::lent::{self, LONGEST_RECORD};
use nahokipe::{add_part, entered_record, first_record, record_at, sets_of_record, whole_record};
use nahokipe::{take_out, Refusal};
use nahokipe_testing::comparing::{buffers, front, same};
use nahokipe_testing::known::ENTERED_RECORDS;
use nahokipe_testing::making::{
    every_plain, largest_record, lists_of, minimal_of_list, random_list,
};
use nahokipe_testing::making::{random_plain, sets_of_size, unknown_number};
use nahokipe_testing::naive::{self, refused, MOST_SETS};
use nahokipe_testing::naive_records::{self as by_words, record_bytes, Plain, TOP_NUMBER};
use nahokipe_testing::seeded::Seeded;
use std::collections::BTreeSet;

// ---- comparing

/// A mark, part numbers and a list, into one buffer: the answer, and every cell afterwards.
fn compare_into(
    (mark, numbers, list): (u64, &[u64], &[u16]),
    expected: &Result<Vec<u8>, Refusal>,
    before: Vec<u8>,
) {
    let mut after = before.clone();
    let answer = lent::entered_record(mark, numbers, list, &mut after);
    same((answer, after), naive::delivered(expected, &before), || {
        let (room, sets) = (before.len(), front(list));
        format!("mark {mark}, parts {numbers:?}, sets {sets:?}, {room} lent")
    });
}

/// The same into buffers of every length that matters, and with nothing lent: the record.
fn compare(mark: u64, numbers: &[u64], list: &[u16]) -> Result<Vec<u8>, Refusal> {
    let expected = by_words::entered_record(mark, numbers, list);
    for before in buffers(&expected, 9, [0xA5, 0x5A]) {
        compare_into((mark, numbers, list), &expected, before);
    }
    let found = entered_record(mark, numbers, list);
    assert!(found == expected, "mark {mark}, parts {numbers:?}");
    expected
}

// ---- examples

/// What is worked out by hand, byte for byte.
#[test]
fn examples() {
    for (mark, numbers, list, expected) in ENTERED_RECORDS {
        let expected = expected.or_else(|(number, place)| refused(number, place));
        let found = compare(mark, numbers, list);
        assert_eq!(found, expected.map(<[u8]>::to_vec), "{mark}, {numbers:?}");
    }
}

// ---- all of few parts

/// Every order of small, large and wrong numbers under every such mark, with lists that are accepted and lists that are not.
#[test]
fn all_numbers_and_marks_of_up_to_three_parts() {
    let numbers = [0, 1, 2, 3, TOP_NUMBER, TOP_NUMBER + 1];
    let marks = [
        0,
        1,
        2,
        3,
        TOP_NUMBER - 1,
        TOP_NUMBER,
        TOP_NUMBER + 1,
        u64::MAX,
    ];
    let lists: [&[u16]; 7] = [
        &[1],
        &[1, 1, 1],
        &[],
        &[0],
        &[1, 0],
        &[1, 8],
        &[1, 0x8000, 0],
    ];
    let mut seen = BTreeSet::new();
    for numbers in (0..=3).flat_map(|length| lists_of(&numbers, length)) {
        for mark in marks {
            for list in lists {
                let answer = compare(mark, &numbers, list);
                seen.insert(
                    answer.map_or_else(|refusal| (refusal.number, refusal.place), |_| (0, 0)),
                );
            }
        }
    }
    let wrong_numbers = [(23, 0), (23, 1), (23, 2), (23, 3)];
    let others = [(0, 0), (1, 0), (2, 0), (4, 1), (5, 0), (5, 1)];
    assert_eq!(seen, wrong_numbers.into_iter().chain(others).collect());
}

/// All machines of up to four parts, from lists with every set that holds a minimal one, in any order: read back as given.
#[test]
fn all_machines_of_up_to_four_parts() {
    let mut seeded = Seeded::new(300);
    for plain in (1..=4).flat_map(every_plain) {
        let n = plain.numbers.len();
        let works = naive::path_sets(n, &plain.sets);
        let mut list: Vec<u16> = (0..1 << n).filter(|&set| works[set as usize]).collect();
        seeded.shuffle(&mut list);
        let record = compare(plain.mark, &plain.numbers, &list);
        reads_back(&record.expect("an accepted record"), &plain);
    }
}

/// The record has this mark, these part numbers and these minimal sets.
fn reads_back(record: &[u8], plain: &Plain) {
    let read = whole_record(record).expect("an accepted record");
    assert_eq!((read.mark, &read.numbers), (plain.mark, &plain.numbers));
    assert!(sets_of_record(record).expect("an accepted record") == plain.sets);
    assert!(record == record_bytes(plain));
}

// ---- all n

/// Machines of every n, their lists with repeats and with sets that hold others: read back as given.
#[test]
fn random_machines() {
    let mut seeded = Seeded::new(301);
    for n in 1..=16 {
        for _ in 0..12 {
            let mut plain = random_plain(&mut seeded, n);
            let list = random_list(&mut seeded, n);
            plain.sets = minimal_of_list(n, &list);
            let record = compare(plain.mark, &plain.numbers, &list);
            reads_back(&record.expect("an accepted record"), &plain);
        }
    }
}

/// One number of an accepted record changed to one that it has not, or exchanged with another; or the mark set to a number beside.
#[test]
fn wrong_numbers_of_random_machines() {
    let mut seeded = Seeded::new(302);
    let mut seen = [0; 2];
    for n in 1..=16 {
        for round in 0..40 {
            let mut plain = random_plain(&mut seeded, n);
            plain.sets.truncate(9);
            let place = seeded.between(0, n - 1);
            let other = seeded.between(0, n - 1);
            match round % 3 {
                0 => plain.numbers[place] = unknown_number(&mut seeded, &plain.numbers),
                1 => plain.numbers.swap(place, other),
                _ => plain.mark = unknown_number(&mut seeded, &plain.numbers),
            }
            let answer = compare(plain.mark, &plain.numbers, &plain.sets);
            seen[answer.is_ok() as usize] += 1;
        }
    }
    assert!(seen.iter().all(|&times| times > 60), "{seen:?}");
}

/// The numbers 1 to n and the mark n: the first record, or its refusal.
#[test]
fn a_first_record() {
    let mut seeded = Seeded::new(303);
    for n in 0..=18 {
        let numbers: Vec<u64> = (1..=n as u64).collect();
        for _ in 0..6 {
            let mut list = random_list(&mut seeded, n.clamp(1, 16));
            let first = first_record(n, &list);
            assert_eq!(first.is_ok(), (1..=16).contains(&n));
            assert!(compare(n as u64, &numbers, &list) == first);
            list.push(seeded.pick(&[0, 1, u16::MAX]));
            assert!(compare(n as u64, &numbers, &list) == first_record(n, &list));
        }
    }
}

/// All sets of 8 of 16 parts with the longest numbers, from a list in any order; with one set more there are too many.
#[test]
fn the_largest_record() {
    let mut seeded = Seeded::new(304);
    let numbers: Vec<u64> = (TOP_NUMBER - 15..=TOP_NUMBER).collect();
    let mut list = sets_of_size(16, 8);
    seeded.shuffle(&mut list);
    let record = compare(TOP_NUMBER, &numbers, &list);
    assert!(record == Ok(largest_record()));
    assert_eq!(list.len(), MOST_SETS);
    list.push(1);
    assert_eq!(compare(TOP_NUMBER, &numbers, &list), refused(3, 0));
    assert_eq!(compare(0, &[], &list), refused(1, 0));
}

/// Every length of buffer from none to some bytes more than needed, and the longest.
#[test]
fn every_length_of_buffer() {
    let mut seeded = Seeded::new(305);
    for n in 1..=16 {
        let mut plain = random_plain(&mut seeded, n);
        plain.sets.truncate(20);
        let Plain {
            mark,
            numbers,
            sets,
        } = &plain;
        let expected = by_words::entered_record(*mark, numbers, sets);
        let needed = expected.as_ref().expect("an accepted record").len();
        for room in (0..needed + 4).chain([LONGEST_RECORD]) {
            compare_into((*mark, numbers, sets), &expected, vec![0x5A; room]);
        }
    }
}

// ---- lines from it

/// Along a line from an entered record the next numbers are those above the mark, though parts leave in between; at the top there is none.
#[test]
fn no_number_up_to_the_mark_is_issued() {
    for mark in [12, 15, (1 << 32) - 1, TOP_NUMBER - 3] {
        let mut record = entered_record(mark, &[3, 7, 12], &[1]).expect("an accepted record");
        for next in mark + 1..=mark + 3 {
            record = add_part(&record).expect("a number left");
            assert_eq!(record_at(&record, 0).map(|read| read.mark), Ok(next));
            let numbers = whole_record(&record).expect("an accepted record").numbers;
            assert_eq!(numbers.last(), Some(&next));
            record = take_out(&record, numbers.len()).expect("a part to take out");
        }
        let end = add_part(&record);
        assert_eq!(end == refused(20, 0), mark + 3 == TOP_NUMBER);
    }
}
