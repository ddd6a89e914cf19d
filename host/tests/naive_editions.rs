//! The naive records of edition 2 against document 02's examples and against each other: what the other tests compare with must be right.

use nahokipe_testing::known::{BOTH_EDITIONS, CHANGED_EDITIONS, REFUSED_EDITIONS};
use nahokipe_testing::making::{largest_edition_2, largest_record, random_edition_2, random_plain};
use nahokipe_testing::making::{random_group, random_record, random_retired};
use nahokipe_testing::naive::{path_sets, refused, table_of_list};
use nahokipe_testing::naive_editions::*;
use nahokipe_testing::naive_figures::{figures, size};
use nahokipe_testing::naive_records::{changed, named, whole_record, Change};
use nahokipe_testing::seeded::Seeded;

/// Document 02's §8 and what follows from it, byte for byte.
#[test]
fn examples() {
    for (bytes, number, place) in REFUSED_EDITIONS {
        assert_eq!(whole_record(bytes), refused(number, place), "{bytes:02X?}");
        assert_eq!(edition(bytes), refused(number, place), "{bytes:02X?}");
        assert_eq!(to_edition_2(bytes), refused(number, place), "{bytes:02X?}");
    }
    for (first, second) in BOTH_EDITIONS {
        assert_eq!((edition(first), edition(second)), (Ok(1), Ok(2)));
        assert_eq!(to_edition_2(first).as_deref(), Ok(second));
        assert_eq!(to_edition_1(second).as_deref(), Ok(first));
        assert_eq!(retired(second), Ok(vec![]));
        assert_eq!(record_end(second, 0), Ok(second.len()));
    }
    for (bytes, change, expected) in CHANGED_EDITIONS {
        let expected = expected.or_else(|(number, place)| refused(number, place));
        let found = changed(bytes, change);
        let about = format!("{change:?} of {bytes:02X?}");
        assert_eq!(found, expected.map(<[u8]>::to_vec), "{about}");
    }
}

/// The bridge of edition 2 with a retired number: where its sets stand, and where it ends.
#[test]
fn the_bridge_is_read() {
    let bytes = [
        0, 2, 5, 9, 1, 2, 3, 4, 5, 4, 0x09, 0x0E, 0x12, 0x15, 1, 7, 0, 0, 2, 8, 5, 1,
    ];
    let reading = whole_record(&bytes).expect("an accepted record");
    assert_eq!((reading.begin, reading.end, reading.behind), (10, 14, 22));
    assert_eq!(reading.retired, Some(vec![7]));
    assert_eq!(reading.plain.sets, [0x09, 0x0E, 0x12, 0x15]);
    assert_eq!(to_edition_1(&bytes), refused(32, 0));
    assert_eq!(to_edition_2(&bytes).as_deref(), Ok(&bytes[..]));
}

/// Fresh counts by the definition of a path set, and those of the figures.
#[test]
fn counts_are_those_of_the_figures() {
    let mut seeded = Seeded::new(400);
    for n in 1..=16 {
        for _ in 0..6 {
            let plain = random_plain(&mut seeded, n);
            let counts: Vec<i64> = fresh_counts(&plain)
                .into_iter()
                .map(|count| count as i64)
                .collect();
            let table = table_of_list(n, &plain.sets).expect("an accepted list");
            let figures = figures(n, &table).expect("an accepted table");
            assert_eq!(counts, figures.counts);
            if n <= 8 {
                let works = path_sets(n, &plain.sets);
                let of_size = |j: usize| (0..1 << n).filter(move |&set| size(set) == j);
                let count = |j| of_size(j).filter(|&set| works[set]).count() as i64;
                assert_eq!(counts, (0..=n).map(count).collect::<Vec<i64>>());
            }
        }
    }
}

/// What is read is written again byte for byte.
#[test]
fn records_come_back() {
    let mut seeded = Seeded::new(401);
    let random = (1..=16).flat_map(|n| [n; 8]);
    let random = random.map(|n| random_edition_2(&mut seeded, n));
    for bytes in random.chain([largest_edition_2()]) {
        let reading = whole_record(&bytes).expect("an accepted record");
        let retired = reading.retired.expect("edition 2");
        assert!(edition_2_bytes(&reading.plain, &retired) == bytes);
        assert_eq!(reading.behind, bytes.len());
    }
}

/// Where there is room, a number is put in its place; where 65 would stand there, the lowest goes, even the one just filed.
#[test]
fn filing() {
    assert_eq!(filed(&[], &[7]), [7]);
    assert_eq!(filed(&[3, 9], &[7]), [3, 7, 9]);
    assert_eq!(filed(&[3, 9], &[12, 1]), [1, 3, 9, 12]);
    let full: Vec<u64> = (101..=164).collect();
    assert_eq!(filed(&full[1..], &[101]), full);
    assert_eq!(filed(&full, &[100]), full);
    assert_eq!(filed(&full, &[165]), (102..=165).collect::<Vec<u64>>());
    let between = filed(&full, &[300, 100]);
    assert_eq!((between[0], between[63]), (102, 300));
}

/// Numbers filed together are those filed one after the other, in any order.
#[test]
fn filing_in_any_order() {
    let mut seeded = Seeded::new(402);
    for n in [16; 200] {
        let plain = random_plain(&mut seeded, n);
        let retired = random_retired(&mut seeded, &plain);
        let group = random_group(&mut seeded, n) as u16;
        let mut left: Vec<u64> = named(&plain.numbers, group).into_iter().collect();
        let together = filed(&retired, &left);
        assert!(together.len() <= MOST_RETIRED);
        for _ in 0..4 {
            seeded.shuffle(&mut left);
            let singly = left
                .iter()
                .fold(retired.clone(), |retired, &one| filed(&retired, &[one]));
            assert_eq!(singly, together);
        }
    }
}

/// A part that is added may be in a path set or not: φ'(j) = φ(j) + φ(j-1).
#[test]
fn counts_of_a_part_more() {
    let mut seeded = Seeded::new(403);
    for n in 1..=15 {
        let plain = random_plain(&mut seeded, n);
        let counts = fresh_counts(&plain);
        let more = changed(&edition_2_bytes(&plain, &[]), Change::AddPart);
        if let Ok(more) = more {
            let more = whole_record(&more).expect("an accepted record").plain;
            let before = |j: usize| counts.get(j).copied().unwrap_or(0);
            let sum = |j: usize| before(j) + if j == 0 { 0 } else { before(j - 1) };
            let expected: Vec<u128> = (0..=n + 1).map(sum).collect();
            assert_eq!(fresh_counts(&more), expected);
        }
    }
}

/// The longest numbers and the most of them.
#[test]
fn the_largest_record() {
    let bytes = largest_edition_2();
    assert_eq!(bytes.len(), 36_203);
    assert_eq!(retired(&bytes).map(|numbers| numbers.len()), Ok(64));
    let second = to_edition_2(&largest_record()).expect("an accepted record");
    assert_eq!(second.len(), 35_729 + 2 + 1 + 23);
}

/// Records of edition 1 are turned into the other edition and back.
#[test]
fn there_and_back() {
    let mut seeded = Seeded::new(404);
    for n in 1..=16 {
        for _ in 0..8 {
            let first = random_record(&mut seeded, n);
            let second = to_edition_2(&first).expect("an accepted record");
            assert!(to_edition_1(&second).as_ref() == Ok(&first));
            assert!(to_edition_2(&second).as_ref() == Ok(&second));
            assert!(to_edition_1(&first).as_ref() == Ok(&first));
        }
    }
}
