//! The naive records, changes and reports against document 01's examples and against each other: what the other tests compare with must
//! be right.

use nahokipe::Refusal;
use nahokipe_testing::known::{CHANGED_BY_NUMBER, ENTERED_RECORDS, WANTED_MASKS};
use nahokipe_testing::known::{REFUSED_RECORDS, TAKEN_OUT_GROUPS};
use nahokipe_testing::making::{largest_record, random_group, random_record, sets_of_size};
use nahokipe_testing::naive::{has, holds, refused};
use nahokipe_testing::naive_records::*;
use nahokipe_testing::naive_report::{printed, refused_line};
use nahokipe_testing::seeded::Seeded;

const BRIDGE: [u8; 12] = [5, 5, 1, 2, 3, 4, 5, 4, 0x09, 0x0E, 0x12, 0x15];

/// The mark 2^32-1, where part numbers once ended.
const OLD_TOP: [u8; 9] = [0x01, 0xFF, 0xFF, 0xFF, 0xFF, 0x0F, 0x01, 0x01, 0x01];

/// The mark 2^48-1.
const TOP: [u8; 11] = [1, 0xFF, 0xFF, 0xFF, 0xFF, 0xFF, 0xFF, 0x3F, 1, 1, 1];

#[test]
fn the_bridge_is_read() {
    let plain = Plain {
        mark: 5,
        numbers: vec![1, 2, 3, 4, 5],
        sets: vec![0x09, 0x0E, 0x12, 0x15],
    };
    assert_eq!(record_bytes(&plain), BRIDGE);
    let reading = Reading {
        plain,
        begin: 8,
        end: 12,
        retired: None,
        behind: 12,
    };
    assert_eq!(whole_record(&BRIDGE), Ok(reading));
    let table = table_of_record(&BRIDGE);
    assert_eq!(table, Ok(vec![0x00, 0xEA, 0xEC, 0xEE]));
    let first = first_record(5, &[0x15, 0x0E, 0x1F, 0x12, 0x09, 0x15]);
    assert_eq!(first.as_deref(), Ok(&BRIDGE[..]));
}

#[test]
fn accepted_records() {
    let accepted: [&[u8]; 6] = [
        &[1, 5, 5, 1, 1],
        &[1, 9, 3, 1, 1],
        &[1, 0x80, 0x80, 0x80, 0x80, 0x10, 1, 1, 1],
        &OLD_TOP,
        &TOP,
        &[2, 2, 1, 2, 1, 1],
    ];
    for bytes in accepted {
        assert!(whole_record(bytes).is_ok(), "{bytes:02X?}");
    }
}

#[test]
fn refused_records() {
    for (bytes, number, place) in REFUSED_RECORDS {
        assert_eq!(whole_record(bytes), refused(number, place), "{bytes:02X?}");
    }
}

#[test]
fn examples_of_changes() {
    let take_out = |position| Change::TakeOut(position);
    let cases: [(&[u8], Change, Result<&[u8], (u8, usize)>); 20] = [
        (&[1, 1, 1, 1, 1], take_out(1), Err((18, 0))),
        (&[3, 3, 1, 2, 3, 2, 3, 5], take_out(1), Err((18, 0))),
        (&[2, 2, 1, 2, 1, 1], take_out(2), Ok(&[1, 2, 1, 1, 1])),
        (&BRIDGE, take_out(5), Ok(&[4, 5, 1, 2, 3, 4, 2, 9, 14])),
        (&BRIDGE, take_out(3), Ok(&[4, 5, 1, 2, 4, 5, 2, 5, 10])),
        (
            &[4, 5, 1, 2, 3, 4, 2, 9, 14],
            Change::AddPart,
            Ok(&[5, 6, 1, 2, 3, 4, 6, 2, 9, 14]),
        ),
        (&[1, 9, 3, 1, 1], Change::AddPart, Ok(&[2, 10, 3, 10, 1, 1])),
        (
            &OLD_TOP,
            Change::AddPart,
            Ok(&[
                2, 0x80, 0x80, 0x80, 0x80, 0x10, 1, 0x80, 0x80, 0x80, 0x80, 0x10, 1, 1,
            ]),
        ),
        (&TOP, Change::AddPart, Err((20, 0))),
        (&[1, 1, 1, 1, 1], take_out(0), Err((17, 0))),
        (&[1, 1, 1, 1, 1], take_out(2), Err((17, 0))),
        (&[1, 1, 1, 1, 1], take_out(usize::MAX), Err((17, 0))),
        (&BRIDGE, Change::AddSet(9), Ok(&BRIDGE)),
        (&BRIDGE, Change::AddSet(31), Ok(&BRIDGE)),
        (
            &BRIDGE,
            Change::AddSet(1),
            Ok(&[5, 5, 1, 2, 3, 4, 5, 3, 1, 14, 18]),
        ),
        (&[1, 1, 1, 1, 1], Change::AddSet(0), Err((5, 0))),
        (&[1, 1, 1, 1, 1], Change::AddSet(2), Err((4, 0))),
        (&[1, 1, 1, 1, 1, 0], take_out(9), Err((25, 5))),
        (&[1, 1, 1, 1, 1, 0], Change::AddSet(0), Err((25, 5))),
        (&[1, 1, 1, 1, 1, 0], Change::AddPart, Err((25, 5))),
    ];
    for (bytes, change, expected) in cases {
        changes_to(bytes, change, expected);
    }
}

#[test]
fn examples_of_groups() {
    for (bytes, group, expected) in TAKEN_OUT_GROUPS {
        changes_to(bytes, Change::TakeOutGroup(group), expected);
    }
}

#[test]
fn examples_by_part_numbers() {
    for (bytes, change, expected) in CHANGED_BY_NUMBER {
        changes_to(bytes, change, expected);
    }
    for (numbers, wanted, expected) in WANTED_MASKS {
        let expected = expected.or_else(|(number, place)| refused(number, place));
        let about = format!("{wanted:?} among {numbers:?}");
        assert_eq!(mask_of(numbers, wanted), expected, "{about}");
    }
    for (mark, numbers, list, expected) in ENTERED_RECORDS {
        let expected = expected.or_else(|(number, place)| refused(number, place));
        let found = entered_record(mark, numbers, list);
        assert_eq!(found, expected.map(<[u8]>::to_vec), "{mark}, {numbers:?}");
    }
}

/// A change by part numbers is the change by the positions at which they stand.
#[test]
fn numbers_stand_at_positions() {
    let mut seeded = Seeded::new(113);
    for n in 1..=16 {
        for _ in 0..12 {
            let bytes = random_record(&mut seeded, n);
            let numbers = whole_record(&bytes)
                .expect("an accepted record")
                .plain
                .numbers;
            let group = random_group(&mut seeded, n);
            let wanted = numbers_of(&numbers, group).expect("a group of these parts");
            assert_eq!(mask_of(&numbers, &wanted), Ok(group as u16));
            let together = changed(&bytes, Change::TakeOutGroup(group));
            assert!(changed(&bytes, Change::TakeOutParts(&wanted)) == together);
            let with_set = changed(&bytes, Change::AddSet(group as u16));
            assert!(changed(&bytes, Change::AddSetOfParts(&wanted)) == with_set);
            let position = position_of(&bytes, wanted[0]).expect("a part's number");
            let single = changed(&bytes, Change::TakeOut(position));
            assert!(changed(&bytes, Change::TakeOutPart(wanted[0])) == single);
        }
    }
}

fn changes_to(bytes: &[u8], change: Change, expected: Result<&[u8], (u8, usize)>) {
    let expected = expected
        .map(<[u8]>::to_vec)
        .map_err(|(number, place)| Refusal { number, place });
    assert_eq!(changed(bytes, change), expected, "{bytes:02X?}, {change:?}");
}

/// A group is its parts singly, from the last position to the first so that none of them moves.
#[test]
fn groups_are_their_parts_singly() {
    let mut seeded = Seeded::new(112);
    for n in 1..=16 {
        for _ in 0..12 {
            let bytes = random_record(&mut seeded, n);
            let design = Design::of(&whole_record(&bytes).expect("an accepted record").plain);
            let group = random_group(&mut seeded, n);
            let mut positions = (1..=n).rev().filter(|&i| has(group, i - 1));
            let singly = positions.try_fold(design.clone(), Design::take_out);
            assert!(design.take_out_group(group) == singly, "{group:#b} of {n}");
        }
    }
}

/// Both ways to know whether a set holds an earlier one.
#[test]
fn a_long_record_is_judged_as_a_short_one() {
    let mut seeded = Seeded::new(110);
    for n in 1..=8 {
        for _ in 0..20 {
            let (mut short, mut long) = (Earlier::new(n, 1), Earlier::new(n, 1_000));
            for _ in 0..seeded.between(0, 9) {
                let set = seeded.between(1, (1 << n) - 1) as u16;
                short.push(set);
                long.push(set);
            }
            for set in 1..1_u32 << n {
                let set = set as u16;
                assert_eq!(short.are_held_by(set), long.are_held_by(set), "{n}, {set}");
            }
        }
    }
}

/// What is read is written again byte for byte, and no set holds another.
#[test]
fn records_come_back() {
    let mut seeded = Seeded::new(111);
    for n in 1..=16 {
        for _ in 0..8 {
            let bytes = random_record(&mut seeded, n);
            let plain = whole_record(&bytes).expect("an accepted record").plain;
            assert!(record_bytes(&plain) == bytes);
            assert_eq!(Design::of(&plain).plain(), plain);
            let few = &plain.sets[..plain.sets.len().min(60)];
            for (i, &a) in few.iter().enumerate() {
                let earlier = few[..i].iter().any(|&b| holds(a as usize, b as usize));
                assert!(!earlier, "{few:?}");
            }
        }
    }
}

#[test]
fn the_largest_record() {
    let bytes = largest_record();
    assert_eq!(bytes.len(), 35_729);
    let plain = whole_record(&bytes).expect("an accepted record").plain;
    assert_eq!(plain.sets, sets_of_size(16, 8));
    let less = changed(&bytes, Change::AddSet(0x7F)).expect("an accepted change");
    let plain = whole_record(&less).expect("an accepted record").plain;
    assert_eq!(plain.sets.len(), 12_862);
}

/// The report of document 01.
#[test]
fn the_bridges_report() {
    let expected = "parts 5 sets 4 mark 5\n\
        order 1 0\norder 2 24\norder 3 72\norder 4 24\norder 5 0\n\
        dom 1 0\ndom 2 2\ndom 3 2\ndom 4 -5\ndom 5 2\n\
        part 1 28\npart 2 28\npart 3 8\npart 4 28\npart 5 28\n";
    assert_eq!(printed(&BRIDGE), expected);
    assert_eq!(printed(&[1, 1, 1, 0xC7, 0x64]), "refused 3 3\n");
    let line = refused_line(Refusal {
        number: 255,
        place: usize::MAX,
    });
    assert_eq!(line, "refused 255 18446744073709551615\n");
}
