//! Part numbers and positions, and changes by part numbers: the calculator against the words, against its own calls by positions, and on all
//! small machines with every list of wanted numbers; answers, places and every cell of the lent buffers.

use nahokipe::lent;
use nahokipe::{mask_of, numbers_of, position_of, take_out_part, whole_record, Refusal};
use nahokipe_testing::comparing::{buffers_of_numbers, with_every_damage};
use nahokipe_testing::comparing::{front, make, same, same_change, same_change_into};
use nahokipe_testing::known::{CHANGED_BY_NUMBER, REFUSED_RECORDS, WANTED_MASKS};
use nahokipe_testing::making::{every_plain, largest_record, lists_of, random_plain};
use nahokipe_testing::making::{random_record, random_wanted, spoilt_record, unknown_number};
use nahokipe_testing::naive::{self, refused};
use nahokipe_testing::naive_records::{self as by_words, record_bytes, Change, TOP_NUMBER};
use nahokipe_testing::seeded::Seeded;
use std::collections::BTreeSet;

const BRIDGE: [u8; 12] = [5, 5, 1, 2, 3, 4, 5, 4, 0x09, 0x0E, 0x12, 0x15];

// ---- comparing

/// The mask of wanted numbers as the words have it.
fn compare_mask(numbers: &[u64], wanted: &[u64]) -> Result<u16, Refusal> {
    let expected = by_words::mask_of(numbers, wanted);
    let about = || format!("{:?} among {numbers:?}", front(wanted));
    assert_eq!(mask_of(numbers, wanted), expected, "{}", about());
    expected
}

/// The numbers of a mask, into buffers of every length that matters and with nothing lent.
fn compare_numbers(numbers: &[u64], mask: usize) -> Result<Vec<u64>, Refusal> {
    let expected = by_words::numbers_of(numbers, mask);
    let about = || format!("mask {mask:#b} of {:?}", front(numbers));
    for before in buffers_of_numbers(&expected, 16) {
        let mut after = before.clone();
        let answer = lent::numbers_of(numbers, mask, &mut after);
        same((answer, after), naive::delivered(&expected, &before), about);
    }
    assert_eq!(numbers_of(numbers, mask), expected, "{}", about());
    expected
}

/// The position of a number in some bytes, as the words have it.
fn compare_position(bytes: &[u8], number: u64) -> Result<usize, Refusal> {
    let expected = by_words::position_of(bytes, number);
    let about = || format!("{number} in {:02X?}", front(bytes));
    assert_eq!(position_of(bytes, number), expected, "{}", about());
    expected
}

/// A change by part numbers is the change by positions that its numbers come to, or is refused with 17 or 28 where they come to none.
fn is_by_positions(bytes: &[u8], change: Change) {
    let numbers = whole_record(bytes).expect("an accepted record").numbers;
    let by_positions = match change {
        Change::TakeOutPart(number) => position_of(bytes, number).map(Change::TakeOut),
        Change::TakeOutParts(wanted) => {
            mask_of(&numbers, wanted).map(|mask| Change::TakeOutGroup(mask as usize))
        }
        Change::AddSetOfParts(wanted) => mask_of(&numbers, wanted).map(Change::AddSet),
        _ => panic!("{change:?} is by positions"),
    };
    let outcome = |change| {
        let mut buffer = vec![0xA5; bytes.len() + 20];
        make(change, bytes, &mut buffer).map(|length| buffer[..length].to_vec())
    };
    let expected = by_positions.and_then(outcome);
    assert!(
        outcome(change) == expected,
        "{change:?}, {:02X?}",
        front(bytes)
    );
}

/// A change by part numbers, as the words have it and as the change by positions: the new record.
fn compare_change(bytes: &[u8], change: Change) -> Result<Vec<u8>, Refusal> {
    is_by_positions(bytes, change);
    same_change(bytes, change)
}

/// All lists of up to so many of these numbers, with repeats.
fn lists_up_to(numbers: &[u64], most: u32) -> impl Iterator<Item = Vec<u64>> + '_ {
    (0..=most).flat_map(|length| lists_of(numbers, length))
}

// ---- examples

/// What is worked out by hand.
#[test]
fn examples() {
    for (numbers, wanted, expected) in WANTED_MASKS {
        let expected = expected.or_else(|(number, place)| refused(number, place));
        assert_eq!(compare_mask(numbers, wanted), expected);
    }
    for (bytes, change, expected) in CHANGED_BY_NUMBER {
        let expected = expected.or_else(|(number, place)| refused(number, place));
        let found = same_change(bytes, change);
        let about = format!("{change:?} of {bytes:02X?}");
        assert_eq!(found, expected.map(<[u8]>::to_vec), "{about}");
    }
}

/// Part 4 is taken out after part 3 has left, and part 4 is what leaves, though part 5 stands at position 4 by then.
#[test]
fn the_part_that_is_named_leaves() {
    let without_three = take_out_part(&BRIDGE, 3).expect("a set left");
    assert_eq!(position_of(&without_three, 4), Ok(3));
    assert_eq!(position_of(&without_three, 5), Ok(4));
    let without_four = take_out_part(&without_three, 4).expect("a set left");
    let numbers = whole_record(&without_four)
        .expect("an accepted record")
        .numbers;
    assert_eq!(numbers, [1, 2, 5]);
    assert_eq!(take_out_part(&without_four, 4), refused(17, 0));
}

// ---- numbers and masks

/// Every list of up to four numbers, rising or not and with repeats, and every list of up to three that are wanted of it.
#[test]
fn all_masks_of_few_numbers() {
    let mut seen = BTreeSet::new();
    let few = [0, 1, 1 << 48, u64::MAX];
    let more = [0, 1, 1 << 48, u64::MAX, 2];
    let wanted: Vec<Vec<u64>> = lists_up_to(&more, 3).collect();
    for numbers in lists_up_to(&few, 4) {
        for wanted in &wanted {
            let mask = compare_mask(&numbers, wanted);
            seen.insert(mask.map_or_else(|refusal| refusal.number, |_| 0));
        }
        for mask in 0..4 << numbers.len() {
            compare_numbers(&numbers, mask).ok();
        }
    }
    assert_eq!(seen, BTreeSet::from([0, 1, 17, 28]));
}

/// Every mask of part numbers as a record has them, for every n: its numbers have this mask again, in any order.
#[test]
fn masks_and_numbers_are_inverse() {
    let mut seeded = Seeded::new(310);
    for n in 1..=16 {
        let numbers = random_plain(&mut seeded, n).numbers;
        for mask in 0..1 << n {
            let mut wanted = numbers_of(&numbers, mask).expect("a mask of these parts");
            assert_eq!(wanted.len(), mask.count_ones() as usize);
            seeded.shuffle(&mut wanted);
            assert_eq!(mask_of(&numbers, &wanted), Ok(mask as u16));
            wanted.sort_unstable();
            assert_eq!(numbers_of(&numbers, mask), Ok(wanted));
        }
    }
}

/// Lists of wanted numbers for every n; with one that is no part's it is 17, wherever it stands and whatever else is wrong.
#[test]
fn random_masks() {
    let mut seeded = Seeded::new(311);
    let mut seen = BTreeSet::new();
    for n in 1..=16 {
        for _ in 0..80 {
            let numbers = random_plain(&mut seeded, n).numbers;
            let mut wanted = random_wanted(&mut seeded, &numbers);
            let mask = compare_mask(&numbers, &wanted);
            seen.insert(mask.map_or_else(|refusal| refusal.number, |_| 0));
            wanted.push(unknown_number(&mut seeded, &numbers));
            wanted.extend(numbers.first());
            seeded.shuffle(&mut wanted);
            assert_eq!(compare_mask(&numbers, &wanted), refused(17, 0));
        }
    }
    assert_eq!(seen, BTreeSet::from([0, 17, 28]));
}

/// No part numbers and over 16: 1, whatever is asked. Sixteen are accepted.
#[test]
fn how_many_numbers() {
    for length in [0, 16, 17, 18, 64, 1_000] {
        let numbers: Vec<u64> = (1..=length).collect();
        let accepted = length == 16;
        for wanted in [&[][..], &[1], &[1, 1], &[0]] {
            let mask = compare_mask(&numbers, wanted);
            assert_eq!(mask == refused(1, 0), !accepted);
        }
        for mask in [0, 1, 1 << 15, 1 << 16, usize::MAX] {
            let found = compare_numbers(&numbers, mask);
            assert_eq!(found == refused(1, 0), !accepted);
        }
    }
}

/// A bit above the last part, up to the highest of a machine word: 16, alone and beside all parts.
#[test]
fn masks_of_parts_that_are_not_there() {
    for n in 1..=16 {
        let numbers: Vec<u64> = (1..=n).map(|number| number << 43).collect();
        let all = (1 << n) - 1;
        assert_eq!(compare_numbers(&numbers, all), Ok(numbers.clone()));
        for bit in n..64 {
            for mask in [1 << bit, all + (1 << bit), usize::MAX << bit] {
                assert_eq!(compare_numbers(&numbers, mask), refused(16, 0));
            }
        }
    }
}

/// Many more wanted numbers than there are parts: one stands twice, or is no part's.
#[test]
fn long_lists_of_wanted_numbers() {
    let numbers: Vec<u64> = (1..=16).collect();
    for length in [17, 65, 70_000] {
        let mut wanted: Vec<u64> = numbers.iter().copied().cycle().take(length).collect();
        assert_eq!(compare_mask(&numbers, &wanted), refused(28, 0));
        wanted[length - 1] = 17;
        assert_eq!(compare_mask(&numbers, &wanted), refused(17, 0));
    }
}

// ---- positions

/// The numbers from 0 to two above the mark, the same with higher bits, and the highest, on all machines of up to four parts: each part's
/// number has the position at which it stands, and no other has one.
#[test]
fn all_positions_of_up_to_four_parts() {
    for plain in (1..=4).flat_map(every_plain) {
        let bytes = record_bytes(&plain);
        let near = plain
            .numbers
            .iter()
            .flat_map(|number| number - 1..=number + 1);
        let higher = plain
            .numbers
            .iter()
            .flat_map(|number| [16, 32, 48, 63].map(|bit| number ^ 1 << bit));
        let far = [
            0,
            plain.mark,
            plain.mark + 1,
            plain.mark + 2,
            TOP_NUMBER,
            u64::MAX,
        ];
        for number in near.chain(higher).chain(far) {
            let answer = compare_position(&bytes, number);
            match plain.numbers.contains(&number) {
                true => assert_eq!(plain.numbers[answer.expect("a position") - 1], number),
                false => assert_eq!(answer, refused(17, 0)),
            }
        }
    }
}

/// Every part of records of every n, numbers that they have not, and the largest record.
#[test]
fn positions_in_random_records() {
    let mut seeded = Seeded::new(312);
    let random = (1..=16).map(|n| record_bytes(&random_plain(&mut seeded, n)));
    let records: Vec<Vec<u8>> = random.chain([largest_record()]).collect();
    for bytes in records {
        let numbers = whole_record(&bytes).expect("an accepted record").numbers;
        for (place, &number) in numbers.iter().enumerate() {
            assert_eq!(compare_position(&bytes, number), Ok(place + 1));
            let unknown = unknown_number(&mut seeded, &numbers);
            assert_eq!(compare_position(&bytes, unknown), refused(17, 0));
        }
    }
}

// ---- changes

/// Every list of up to n + 1 wanted numbers, of those in use and of two others, with repeats, on every machine.
#[test]
fn every_wanted_list_of_machines_of_up_to_three_parts() {
    let mut seen = BTreeSet::new();
    for plain in (1..=3).flat_map(every_plain) {
        let bytes = record_bytes(&plain);
        let n = plain.numbers.len();
        let others = [plain.mark + 1, plain.numbers[n - 1] ^ 1 << 32];
        let choices = [plain.numbers.as_slice(), &others].concat();
        for wanted in lists_up_to(&choices, n as u32 + 1) {
            for change in [
                Change::TakeOutParts(&wanted),
                Change::AddSetOfParts(&wanted),
            ] {
                let answer = compare_change(&bytes, change);
                seen.extend(answer.err().map(|refusal| refusal.number));
            }
        }
        for number in choices {
            compare_change(&bytes, Change::TakeOutPart(number)).ok();
        }
    }
    assert_eq!(seen, BTreeSet::from([5, 15, 17, 18, 28]));
}

/// Every set of parts of every machine of four parts, in one order and the other.
#[test]
fn every_set_of_machines_of_four_parts() {
    for plain in every_plain(4) {
        let bytes = record_bytes(&plain);
        for mask in 0..16 {
            let mut wanted = numbers_of(&plain.numbers, mask).expect("a mask of these parts");
            for _ in 0..2 {
                compare_change(&bytes, Change::TakeOutParts(&wanted)).ok();
                compare_change(&bytes, Change::AddSetOfParts(&wanted)).ok();
                wanted.reverse();
            }
        }
    }
}

#[test]
fn random_changes_of_random_records() {
    let mut seeded = Seeded::new(313);
    let mut seen = BTreeSet::new();
    for n in 1..=16 {
        for _ in 0..12 {
            let bytes = random_record(&mut seeded, n);
            let numbers = whole_record(&bytes).expect("an accepted record").numbers;
            let wanted = random_wanted(&mut seeded, &numbers);
            let known = seeded.pick(&numbers);
            let unknown = unknown_number(&mut seeded, &numbers);
            let changes = [
                Change::TakeOutPart(known),
                Change::TakeOutPart(unknown),
                Change::TakeOutParts(&wanted),
                Change::AddSetOfParts(&wanted),
            ];
            for change in changes {
                let answer = compare_change(&bytes, change);
                seen.insert(answer.map_or_else(|refusal| refusal.number, |_| 0));
            }
        }
    }
    assert_eq!(seen, BTreeSet::from([0, 5, 15, 17, 18, 28]));
}

/// All sets of 8 of 16 parts, whose numbers are the highest there are.
#[test]
fn changes_of_the_largest_record() {
    let bytes = largest_record();
    let top =
        |below: &[u64]| -> Vec<u64> { below.iter().map(|below| TOP_NUMBER - below).collect() };
    for below in [
        &[0][..],
        &[15],
        &[3, 9, 0],
        &[0, 1, 2, 3, 4, 5, 6, 7, 8],
        &[16],
    ] {
        let wanted = top(below);
        compare_change(&bytes, Change::TakeOutParts(&wanted)).ok();
        compare_change(&bytes, Change::AddSetOfParts(&wanted)).ok();
        compare_change(&bytes, Change::TakeOutPart(wanted[0])).ok();
    }
}

// ---- refusals

/// Each refusal stands before those behind it: the record's own, 17, 28, 15 or 5, 18, 11.
#[test]
fn refusals_in_their_order() {
    let made = |bytes: &[u8], change| make(change, bytes, &mut []);
    let longer = [&BRIDGE[..], &[0]].concat();
    let (out, add) = (Change::TakeOutParts, Change::AddSetOfParts);
    for wanted in [&[][..], &[6], &[1, 1], &[1, 2], &[3]] {
        for change in [out(wanted), add(wanted)] {
            assert_eq!(made(&longer, change), refused(25, 12));
        }
    }
    assert_eq!(made(&longer, Change::TakeOutPart(6)), refused(25, 12));
    for change in [out(&[1, 1, 6]), add(&[6, 1, 1]), Change::TakeOutPart(6)] {
        assert_eq!(made(&BRIDGE, change), refused(17, 0));
    }
    for change in [out(&[1, 2, 1]), add(&[1, 2, 1])] {
        assert_eq!(made(&BRIDGE, change), refused(28, 0));
    }
    assert_eq!(made(&BRIDGE, out(&[])), refused(15, 0));
    assert_eq!(made(&BRIDGE, add(&[])), refused(5, 0));
    assert_eq!(made(&BRIDGE, out(&[1, 2])), refused(18, 0));
    let alone = [1, 1, 1, 1, 1];
    assert_eq!(made(&alone, Change::TakeOutPart(1)), refused(18, 0));
    assert_eq!(made(&BRIDGE, out(&[5, 3])), refused(11, 7));
    assert_eq!(made(&BRIDGE, add(&[1])), refused(11, 11));
    assert_eq!(made(&BRIDGE, Change::TakeOutPart(3)), refused(11, 9));
}

/// Every length of buffer from none to some bytes more than needed.
#[test]
fn every_length_of_buffer() {
    let mut seeded = Seeded::new(314);
    for n in 2..=16 {
        let mut plain = random_plain(&mut seeded, n);
        plain.sets = vec![1];
        let bytes = record_bytes(&plain);
        let last = plain.numbers[n - 1];
        let changes = [
            Change::TakeOutPart(last),
            Change::TakeOutParts(&plain.numbers[1..]),
            Change::AddSetOfParts(&plain.numbers[n - 1..]),
        ];
        for change in changes {
            let expected = by_words::changed(&bytes, change);
            let needed = expected.as_ref().expect("a set left").len();
            for room in 0..needed + 4 {
                same_change_into((&bytes, change), &expected, vec![0x5A; room]).ok();
            }
        }
    }
}

/// Bytes that are no record are refused as reading them is, whatever is asked of them: the refusal's number.
fn compare_read(bytes: &[u8]) -> Option<u8> {
    let wrong = whole_record(bytes).err();
    for number in [0, 1, 300, u64::MAX] {
        let position = compare_position(bytes, number);
        let changes = [
            Change::TakeOutPart(number),
            Change::TakeOutParts(&[number, number]),
            Change::AddSetOfParts(&[number]),
            Change::AddSetOfParts(&[]),
        ];
        for change in changes {
            let expected = by_words::changed(bytes, change);
            let before = vec![0xA5; bytes.len()];
            let answer = same_change_into((bytes, change), &expected, before);
            if wrong.is_some() {
                assert_eq!(position.err(), wrong, "{number} in {bytes:02X?}");
                assert_eq!(answer.err(), wrong, "{change:?} of {bytes:02X?}");
            }
        }
    }
    wrong.map(|refusal| refusal.number)
}

/// Records cut off at every byte, and with every byte changed to each other value. All refusals of reading are seen.
#[test]
fn damaged_records() {
    with_every_damage(compare_read);
}

#[test]
fn refused_records() {
    for (bytes, number, _) in REFUSED_RECORDS {
        assert_eq!(compare_read(bytes), Some(number));
    }
}

#[test]
fn spoilt_records() {
    let mut seeded = Seeded::new(315);
    for n in 1..=16 {
        for round in 0..30 {
            compare_read(&spoilt_record(&mut seeded, n, round));
        }
    }
}
