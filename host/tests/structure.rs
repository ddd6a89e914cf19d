//! Structures, by path sets and by cut sets: the calculator against the naive implementation, answers, places and every cell of the lent
//! buffers.

use nahokipe::lent::{dual, minimal_cuts, minimal_sets, table_of_cuts, table_of_list};
use nahokipe::{list_verdict, table_verdict};
use nahokipe_testing::comparing::{about_list, about_table};
use nahokipe_testing::comparing::{same_of_list, same_sets_of_table, same_table_of_table};
use nahokipe_testing::making::{damaged_list, flipped, lists_of, random_list, random_set};
use nahokipe_testing::making::{random_table, sets_of_size, tables_turned_over};
use nahokipe_testing::naive::{self, refused, table_length, MOST_SETS};
use nahokipe_testing::naive_cuts as by_failures;
use nahokipe_testing::seeded::Seeded;

// ---- comparing

/// A list's verdict, and its tables as path sets and as cut sets, into buffers of every length that matters.
fn compare_list(n: usize, list: &[u16]) {
    let verdict = naive::list_verdict(n, list);
    assert_eq!(list_verdict(n, list), verdict, "{}", about_list(n, list));
    same_of_list(table_of_list, (n, list), &naive::table_of_list(n, list));
    let stopped = by_failures::table_of_cuts(n, list);
    same_of_list(table_of_cuts, (n, list), &stopped);
}

/// A table's verdict, its minimal sets, its minimal cut sets and its dual, into buffers of every length that matters.
fn compare_table(n: usize, table: &[u8]) {
    let verdict = naive::table_verdict(n, table);
    assert_eq!(
        table_verdict(n, table),
        verdict,
        "{}",
        about_table(n, table)
    );
    same_sets_of_table(minimal_sets, (n, table), &naive::minimal_sets(n, table));
    let cuts = by_failures::minimal_cuts(n, table);
    same_sets_of_table(minimal_cuts, (n, table), &cuts);
    same_table_of_table(dual, (n, table), &by_failures::dual(n, table));
}

// ---- tables

#[test]
fn every_byte_of_one_and_two_parts() {
    for n in [1, 2] {
        for byte in 0..=255 {
            compare_table(n, &[byte]);
        }
    }
}

#[test]
fn every_table_of_three_parts() {
    for byte in 0..=255 {
        compare_table(3, &[byte]);
    }
}

#[test]
fn every_table_of_four_parts() {
    for number in 0..=u16::MAX {
        compare_table(4, &number.to_le_bytes());
    }
}

/// 1 for every number of parts that is none of 1 to 16, and then 6 for every length but the right one.
#[test]
fn every_length_around_the_right_one() {
    for n in 0..=18 {
        for around in 0..=18 {
            let right = table_length(around);
            for length in right.saturating_sub(2)..=right + 2 {
                length_is_judged(n, length);
            }
        }
    }
}

fn length_is_judged(n: usize, length: usize) {
    let number = if !(1..=16).contains(&n) {
        1
    } else if length != table_length(n) {
        6
    } else {
        return;
    };
    for byte in [0x00, 0x80, 0xFF] {
        let table = vec![byte; length];
        assert_eq!(table_verdict(n, &table), refused(number, 0));
        compare_table(n, &table);
    }
}

#[test]
fn numbers_of_parts_far_outside() {
    let table = [0x80; 8192];
    for n in [31, 32, 64, 80, 1 << 32, (1 << 32) + 3, usize::MAX] {
        assert_eq!(list_verdict(n, &[1]), refused(1, 0));
        compare_list(n, &[1]);
        for length in [0, 1, 8, 8192] {
            assert_eq!(table_verdict(n, &table[..length]), refused(1, 0));
            compare_table(n, &table[..length]);
        }
    }
}

/// A valid table with one bit turned over: 8, 9, 10 at its place, or another valid table.
#[test]
fn tables_with_one_bit_turned_over() {
    let mut seeded = Seeded::new(10);
    for n in 1..=16 {
        for _ in 0..8 {
            for table in tables_turned_over(&mut seeded, n) {
                compare_table(n, &table);
            }
        }
    }
}

/// From a structure in which every set but the empty one is a path set, a set of two parts is taken away: the first of them fails.
#[test]
fn a_step_by_each_part_can_fail() {
    for n in 3..=16 {
        let every: Vec<bool> = (0..1 << n).map(|set| set != 0).collect();
        let table = naive::table_of(&every);
        for high in 1..n {
            for low in 0..high {
                let broken = flipped(&table, (1 << high) + (1 << low));
                assert_eq!(table_verdict(n, &broken), refused(10, 1 << low));
                compare_table(n, &broken);
            }
        }
    }
}

/// With two sets broken, the smaller one is the place.
#[test]
fn the_smallest_broken_set_is_the_place() {
    let mut seeded = Seeded::new(11);
    for n in 3..=16 {
        for _ in 0..20 {
            let table = random_table(&mut seeded, n);
            let (a, b) = (
                seeded.between(1, (1 << n) - 2),
                seeded.between(1, (1 << n) - 2),
            );
            compare_table(n, &flipped(&flipped(&table, a), b));
        }
    }
}

#[test]
fn tables_of_random_bytes() {
    let mut seeded = Seeded::new(12);
    for n in 1..=16 {
        for _ in 0..20 {
            let mut table: Vec<u8> = (0..table_length(n))
                .map(|_| seeded.number() as u8)
                .collect();
            compare_table(n, &table);
            let full = (1 << n) - 1;
            table[0] &= 0xFE;
            table[full / 8] |= 1 << (full % 8);
            compare_table(n, &table);
        }
    }
}

// ---- lists

/// Every list of up to four sets of one and two parts and up to three of three parts, sets with wrong bits among them.
#[test]
fn every_short_list_of_few_parts() {
    for (n, masks, longest) in [(1, 5, 4), (2, 9, 4), (3, 17, 3)] {
        let masks: Vec<u16> = (0..masks).collect();
        for length in 0..=longest {
            for list in lists_of(&masks, length) {
                compare_list(n, &list);
            }
        }
    }
}

#[test]
fn random_lists_of_up_to_sixteen_parts() {
    let mut seeded = Seeded::new(20);
    for n in 1..=16 {
        for _ in 0..250 {
            let list = random_list(&mut seeded, n);
            compare_list(n, &list);
        }
    }
}

#[test]
fn damaged_lists_of_up_to_sixteen_parts() {
    let mut seeded = Seeded::new(21);
    for n in 1..=16 {
        for _ in 0..250 {
            let list = damaged_list(&mut seeded, n);
            assert!(list_verdict(n, &list).is_err());
            compare_list(n, &list);
        }
    }
}

/// A bit n or above, for each such bit and at each index of a list: 4, and mask 0: 5.
#[test]
fn one_wrong_set_at_each_index() {
    for n in 1..=16 {
        for index in 0..6 {
            for part in n..16 {
                let mut list = [1; 6];
                list[index] |= 1 << part;
                assert_eq!(list_verdict(n, &list), refused(4, index));
                compare_list(n, &list);
            }
            let mut list = [1; 6];
            list[index] = 0;
            assert_eq!(list_verdict(n, &list), refused(5, index));
            compare_list(n, &list);
        }
    }
}

#[test]
fn lists_of_no_and_of_too_many_sets() {
    for n in 0..=18 {
        compare_list(n, &[]);
        compare_list(n, &vec![1; MOST_SETS]);
        compare_list(n, &vec![1; MOST_SETS + 1]);
        compare_list(n, &vec![0; MOST_SETS + 1]);
        let mut last_is_wrong = vec![1; MOST_SETS];
        last_is_wrong[MOST_SETS - 1] = 0;
        compare_list(n, &last_is_wrong);
    }
    assert_eq!(list_verdict(16, &vec![1; 12_870]), Ok(()));
    assert_eq!(list_verdict(16, &vec![1; 12_871]), refused(3, 0));
    assert_eq!(list_verdict(1, &[]), refused(2, 0));
    assert_eq!(list_verdict(0, &[]), refused(1, 0));
}

#[test]
fn long_random_lists() {
    let mut seeded = Seeded::new(22);
    for n in 11..=16 {
        for length in [4_000, MOST_SETS - 1, MOST_SETS, MOST_SETS + 1] {
            let list: Vec<u16> = (0..length).map(|_| random_set(&mut seeded, n)).collect();
            compare_list(n, &list);
        }
    }
}

// ---- from one form to the other

/// List, table, minimal sets, the same table; and the order of the list, its repeats and its nested sets do not matter.
#[test]
fn there_and_back() {
    let mut seeded = Seeded::new(30);
    for n in 1..=16 {
        for _ in 0..100 {
            let list = random_list(&mut seeded, n);
            let table = given_table(n, &list);
            let minimal = given_sets(n, &table);
            assert!(minimal.windows(2).all(|pair| pair[0] < pair[1]));
            assert!(given_table(n, &minimal) == table, "n = {n}");
            compare_table(n, &table);
        }
    }
}

/// A rising list of sets none of which holds another comes back as it was. Among these machines are the one with the most sets, 8 of 16
/// parts, and the one with the most cut sets, 9 of 16.
#[test]
fn all_sets_of_one_size_come_back() {
    for n in 1..=16 {
        for size in 1..=n {
            let list = sets_of_size(n, size as u32);
            compare_list(n, &list);
            let table = given_table(n, &list);
            assert!(given_sets(n, &table) == list, "{size} of {n}");
            compare_table(n, &table);
        }
    }
    assert_eq!(sets_of_size(16, 8).len(), 12_870);
}

/// Machines that a random list of cut sets stops: they have few cut sets and many path sets, where a random list of path sets has it the
/// other way round.
#[test]
fn machines_of_random_cut_sets() {
    let mut seeded = Seeded::new(31);
    for n in 1..=16 {
        for _ in 0..25 {
            let cuts = random_list(&mut seeded, n);
            let table = by_failures::table_of_cuts(n, &cuts);
            compare_table(n, &table.expect("an accepted list"));
        }
    }
}

fn given_table(n: usize, list: &[u16]) -> Vec<u8> {
    let mut table = vec![0xA5; table_length(n)];
    assert_eq!(table_of_list(n, list, &mut table), Ok(table_length(n)));
    assert_eq!(table_verdict(n, &table), Ok(()));
    table
}

fn given_sets(n: usize, table: &[u8]) -> Vec<u16> {
    let mut sets = vec![0xA5A5; MOST_SETS];
    let count = minimal_sets(n, table, &mut sets).expect("an accepted table");
    sets.truncate(count);
    sets
}

// ---- examples

/// Document 01's examples of this layer.
#[test]
fn examples_of_the_paper() {
    assert_eq!(table_verdict(2, &[0x0A]), Ok(()));
    assert_eq!(table_verdict(2, &[0x02]), refused(9, 0));
    assert_eq!(table_verdict(3, &[0x82]), refused(10, 1));
    let sixteen = naive::table_of(&naive::path_sets_rising(16, &[0xFFFF]));
    assert_eq!(table_verdict(16, &sixteen), Ok(()));
    assert_eq!(table_verdict(17, &sixteen), refused(1, 0));
}

/// The bridge of five parts.
#[test]
fn the_bridge() {
    let sets = [0x09, 0x0E, 0x12, 0x15];
    let table = given_table(5, &[0x15, 0x0E, 0x09, 0x1F, 0x12, 0x09]);
    assert_eq!(table, [0x00, 0xEA, 0xEC, 0xEE]);
    assert_eq!(given_sets(5, &table), sets);
}

/// n first, then the table's checks in their order.
#[test]
fn examples_of_the_order_of_checks() {
    assert_eq!(table_verdict(17, &[]), refused(1, 0));
    assert_eq!(table_verdict(0, &[]), refused(1, 0));
    assert_eq!(table_verdict(3, &[0x80, 0x00]), refused(6, 0));
    assert_eq!(table_verdict(5, &[0x00, 0x00, 0x00]), refused(6, 0));
    assert_eq!(table_verdict(1, &[0x05]), refused(7, 0));
    assert_eq!(table_verdict(2, &[0x01]), refused(8, 0));
    assert_eq!(table_verdict(2, &[0x02]), refused(9, 0));
    assert_eq!(table_verdict(3, &[0x02]), refused(9, 0));
    assert_eq!(table_verdict(3, &[0x82]), refused(10, 1));
    assert_eq!(table_verdict(3, &[0xC4]), refused(10, 2));
}

/// One byte is written whole for one and two parts, and 11 names the length that is needed.
#[test]
fn examples_of_lent_buffers() {
    let mut table = [0xFF; 3];
    assert_eq!(table_of_list(1, &[1], &mut table), Ok(1));
    assert_eq!(table, [0x02, 0xFF, 0xFF]);
    let mut table = [0xFF; 3];
    assert_eq!(table_of_list(2, &[2, 1], &mut table), Ok(1));
    assert_eq!(table, [0x0E, 0xFF, 0xFF]);
    assert_eq!(table_of_list(5, &[1], &mut table), refused(11, 4));
    assert_eq!(table, [0x0E, 0xFF, 0xFF]);
    let mut sets = [0xFFFF; 2];
    assert_eq!(minimal_sets(3, &[0xE8], &mut sets), refused(11, 3));
    assert_eq!(sets, [0xFFFF; 2]);
    assert_eq!(minimal_sets(2, &[0x0E], &mut sets), Ok(2));
    assert_eq!(sets, [1, 2]);
}
