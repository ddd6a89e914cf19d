//! Idle parts (document 02, §9): the calculator against the naive search over all sets, against its own importances and minimal sets, and on
//! machines whose idle parts are known; what the domination and the dual tell of them; records that idle parts leave; and refusals.

use nahokipe::{add_part, domination, dual, idle_parts, importance, minimal_sets, numbers_of};
use nahokipe::{table_of_list, table_of_record, table_verdict, take_out_part, take_out_parts};
use nahokipe::{whole_record, Refusal};
use nahokipe_testing::comparing::about_table;
use nahokipe_testing::known::{IDLE_MACHINES, REFUSED_TABLES};
use nahokipe_testing::making::{every_and_random_machines, every_plain, flipped, machines};
use nahokipe_testing::making::{minimal_of_list, random_list_over, random_plain, random_table};
use nahokipe_testing::making::{sets_of_size, table_of_sets, tables_turned_over};
use nahokipe_testing::naive::{has, refused, table_length};
use nahokipe_testing::naive_figures::size;
use nahokipe_testing::naive_idle as by_adding;
use nahokipe_testing::naive_records::{self as by_words, record_bytes, Design, Plain};
use nahokipe_testing::seeded::Seeded;
use std::collections::BTreeSet;

/// The mask of all of n parts.
fn all_parts(n: usize) -> u16 {
    u16::MAX >> (16 - n)
}

// ---- comparing

/// The parts whose failure stops the machine in no order, by the calculator's importances.
fn without_importance(n: usize, table: &[u8]) -> Result<u16, Refusal> {
    let counts = importance(n, table)?;
    Ok((0..n).filter(|&i| counts[i] == 0).map(|i| 1 << i).sum())
}

/// The parts that none of the calculator's minimal sets names.
fn in_no_minimal_set(n: usize, table: &[u8]) -> Result<u16, Refusal> {
    let sets = minimal_sets(n, table)?;
    let in_none = |i: &usize| !sets.iter().any(|&set| has(set as usize, *i));
    Ok((0..n).filter(in_none).map(|i| 1 << i).sum())
}

/// The idle parts of a table, as each of the ways to them gives them; where it is refused, the refusal of the verdict on it.
fn compare(n: usize, table: &[u8]) -> Result<u16, Refusal> {
    let found = idle_parts(n, table);
    let ways = [
        ("set by set", by_adding::idle_parts(n, table)),
        ("importance", without_importance(n, table)),
        ("minimal sets", in_no_minimal_set(n, table)),
    ];
    for (way, expected) in ways {
        assert_eq!(found, expected, "{way}, {}", about_table(n, table));
    }
    assert_eq!(found.map(drop), table_verdict(n, table));
    found
}

/// The idle parts of an accepted table.
fn given(n: usize, table: &[u8]) -> u16 {
    idle_parts(n, table).expect("an accepted table")
}

// ---- every table of few parts, random ones of many

/// Every byte, and for four parts every two bytes, accepted or refused; each refusal that these can have is seen.
#[test]
fn every_table_of_up_to_four_parts() {
    for (n, refusals) in [
        (1, &[7, 8, 9][..]),
        (2, &[7, 8, 9]),
        (3, &[8, 9, 10]),
        (4, &[8, 9, 10]),
    ] {
        let mut seen = BTreeSet::new();
        for number in 0..1_u32 << (8 * table_length(n)) {
            let table = &number.to_le_bytes()[..table_length(n)];
            seen.extend(compare(n, table).err().map(|refusal| refusal.number));
        }
        assert_eq!(Vec::from_iter(seen), refusals, "n = {n}");
    }
}

/// 1, 2, 9 and 114 machines of one to four parts have no idle part, as many as there are monotone functions that depend on all of 1 to 4
/// variables. With given idle parts there are as many as the other parts make without an idle one, and in none are all parts idle.
#[test]
fn how_many_machines_have_which_idle_parts() {
    let without_idle = [0, 1, 2, 9, 114];
    for n in 1..=4 {
        let mut found = vec![0; 1 << n];
        for table in machines(n) {
            found[given(n, &table) as usize] += 1;
        }
        let expected: Vec<usize> = (0..1 << n)
            .map(|idle| without_idle[n - size(idle)])
            .collect();
        assert_eq!(found, expected, "n = {n}");
    }
}

#[test]
fn random_machines_of_up_to_sixteen_parts() {
    let mut seeded = Seeded::new(360);
    for n in 1..=16 {
        for _ in 0..20 {
            assert!(compare(n, &random_table(&mut seeded, n)).is_ok());
        }
    }
}

/// Some of n parts, with each choice among those at positions 1, 6, 7 and 16: the ends of a word's bits, of its index and of the parts.
fn parts_to_need(seeded: &mut Seeded, n: usize) -> Vec<u16> {
    let ends = [1, 6, 7, 16].map(|position| 1_u16 << (position - 1));
    let between = !ends.iter().sum::<u16>();
    let chosen = |choice| (0..4).filter(|&i| has(choice, i)).map(|i| ends[i]).sum();
    let mut choices: Vec<u16> = (0..16).map(chosen).collect();
    for choice in &mut choices {
        *choice |= seeded.number() as u16 & between;
        *choice &= all_parts(n);
    }
    choices.retain(|&parts| parts != 0);
    choices
}

/// Machines whose sets name some of the parts only: all others are idle.
#[test]
fn machines_that_need_some_of_their_parts() {
    let mut seeded = Seeded::new(361);
    for n in 1..=16 {
        for parts in parts_to_need(&mut seeded, n) {
            let table = table_of_sets(n, &random_list_over(&mut seeded, parts));
            let others = all_parts(n) & !parts;
            let idle = compare(n, &table).expect("an accepted table");
            assert_eq!(idle & others, others, "{parts:#b} of {n}");
        }
    }
}

// ---- known machines

#[test]
fn known_machines() {
    for (n, sets, table, idle) in IDLE_MACHINES {
        assert_eq!(compare(n, table), Ok(idle), "{sets:?} of {n}");
    }
}

/// All but the one part that runs the machine are idle.
#[test]
fn one_part_decides_alone() {
    for n in 1..=16 {
        for part in 0..n {
            let table = table_of_sets(n, &[1 << part]);
            let others = all_parts(n) - (1 << part);
            assert_eq!(compare(n, &table), Ok(others), "part {part} of {n}");
        }
    }
}

/// Some parts, all of which are needed or each of which suffices: every set of up to twelve parts, and random sets of up to sixteen.
#[test]
fn some_parts_in_series_or_in_parallel() {
    let mut seeded = Seeded::new(362);
    for n in 1..=16 {
        let sets: Vec<u16> = match n {
            1..=12 => (1..=all_parts(n)).collect(),
            _ => (0..250)
                .map(|_| seeded.between(1, (1 << n) - 1) as u16)
                .collect(),
        };
        for parts in sets {
            let each: Vec<u16> = (0..n)
                .map(|i| 1 << i)
                .filter(|part| parts & part != 0)
                .collect();
            for list in [&[parts], &each[..]] {
                let table = table_of_list(n, list).expect("an accepted list");
                assert_eq!(given(n, &table), all_parts(n) - parts, "{list:?} of {n}");
            }
        }
    }
}

#[test]
fn any_m_of_n_parts() {
    for n in 1..=16 {
        for m in 1..=n {
            let table = table_of_sets(n, &sets_of_size(n, m as u32));
            assert_eq!(compare(n, &table), Ok(0), "{m} of {n}");
        }
    }
}

/// Any m of all parts but one: that one is idle, at each position.
#[test]
fn any_m_of_n_parts_and_one_more() {
    for n in 2..=16 {
        for idle in 0..n {
            let below = (1 << idle) - 1;
            let apart = |set: u16| (set & below) + ((set & !below) << 1);
            let sets = sets_of_size(n - 1, n.div_ceil(3) as u32);
            let table = table_of_sets(n, &sets.into_iter().map(apart).collect::<Vec<u16>>());
            assert_eq!(compare(n, &table), Ok(1 << idle), "part {idle} of {n}");
        }
    }
}

// ---- the domination and the dual

/// Where d(n) is not 0 no part is idle, and so where some part is idle d(n) is 0; machines of both kinds are met. Of d(n) = 0 alone nothing
/// follows, as the next test shows.
#[test]
fn no_part_is_idle_where_the_last_domination_is_not_0() {
    let mut met = BTreeSet::new();
    for (n, table) in every_and_random_machines(363) {
        let last = domination(n, &table).expect("an accepted table")[n];
        let idle = given(n, &table);
        assert!(last == 0 || idle == 0, "{}", about_table(n, &table));
        met.insert((last != 0, idle != 0));
    }
    assert!(met.contains(&(true, false)) && met.contains(&(false, true)));
}

/// {1,2}, {2,3} and {3,4} of four parts.
#[test]
fn no_part_may_be_idle_where_the_last_domination_is_0() {
    let table = table_of_list(4, &[0b0011, 0b0110, 0b1100]).expect("an accepted list");
    assert_eq!(domination(4, &table), Ok(vec![0, 0, 3, -2, 0]));
    assert_eq!(compare(4, &table), Ok(0));
}

#[test]
fn the_dual_has_the_same_idle_parts() {
    let mut seeded = Seeded::new(364);
    let mut tables = every_and_random_machines(365);
    for n in 1..=16 {
        let parts = parts_to_need(&mut seeded, n);
        let lists = parts
            .into_iter()
            .map(|parts| random_list_over(&mut seeded, parts));
        tables.extend(lists.map(|list| (n, table_of_sets(n, &list))));
    }
    for (n, table) in tables {
        let turned = dual(n, &table).expect("an accepted table");
        let idle = given(n, &table);
        assert_eq!(compare(n, &turned), Ok(idle), "{}", about_table(n, &table));
    }
}

// ---- records

/// The part numbers of the idle parts of a record.
fn idle_numbers(bytes: &[u8]) -> Vec<u64> {
    let numbers = whole_record(bytes).expect("an accepted record").numbers;
    let table = table_of_record(bytes).expect("an accepted record");
    let idle = given(numbers.len(), &table);
    numbers_of(&numbers, idle as usize).expect("a mask of the parts")
}

/// A record by part numbers, its sets too.
fn named(bytes: &[u8]) -> Design {
    let read = by_words::whole_record(bytes).expect("an accepted record");
    Design::of(&read.plain)
}

/// A record by part numbers without some of its parts, its sets and its mark being as they were.
fn without(mut design: Design, gone: &[u64]) -> Design {
    design.numbers.retain(|number| !gone.contains(number));
    design
}

/// Every machine of up to four parts in two numberings, and random ones of up to sixteen whose sets name some of the parts only.
fn records(seed: u64) -> Vec<Vec<u8>> {
    let mut seeded = Seeded::new(seed);
    let mut plains: Vec<Plain> = (1..=4).flat_map(every_plain).collect();
    for n in 1..=16 {
        for parts in parts_to_need(&mut seeded, n) {
            let list = random_list_over(&mut seeded, parts);
            let sets = minimal_of_list(n, &list);
            plains.push(Plain {
                sets,
                ..random_plain(&mut seeded, n)
            });
        }
    }
    plains.iter().map(record_bytes).collect()
}

/// The added part is idle beside those that were, and taking it out leaves the parts and the sets that were there before; the mark stays.
#[test]
fn an_added_part_is_idle_and_can_leave() {
    let mut added = 0;
    for before in records(366) {
        let Ok(after) = add_part(&before) else {
            continue;
        };
        let number = named(&after).mark;
        let expected = [idle_numbers(&before), vec![number]].concat();
        assert_eq!(idle_numbers(&after), expected);
        let left = take_out_part(&after, number).expect("no refusal");
        assert_eq!(named(&left), without(named(&after), &[number]));
        assert_eq!(named(&left).sets, named(&before).sets);
        added += 1;
    }
    assert!(added > 500, "{added} records");
}

/// The idle parts of a record leave together: the sets, by part numbers, are as they were, and of the parts left none is idle.
#[test]
fn idle_parts_leave_together() {
    let mut left_in = BTreeSet::new();
    for before in records(367) {
        let idle = idle_numbers(&before);
        if idle.is_empty() {
            continue;
        }
        let after = take_out_parts(&before, &idle).expect("no refusal");
        assert_eq!(named(&after), without(named(&before), &idle));
        assert_eq!(idle_numbers(&after), []);
        left_in.insert((named(&before).numbers.len(), idle.len()));
    }
    assert!(
        left_in.contains(&(16, 8)) && left_in.len() > 40,
        "{left_in:?}"
    );
}

/// Of every machine of up to four parts each part leaves alone. The sets stay as they were exactly if it is idle; else some set goes with it,
/// or it cannot leave.
#[test]
fn sets_stay_exactly_if_the_part_is_idle() {
    for plain in (1..=4).flat_map(every_plain) {
        let bytes = record_bytes(&plain);
        let (before, idle) = (named(&bytes), idle_numbers(&bytes));
        for number in &plain.numbers {
            let after = take_out_part(&bytes, *number);
            let stayed = after.is_ok_and(|after| named(&after).sets == before.sets);
            assert_eq!(stayed, idle.contains(number), "part {number} of {plain:?}");
        }
    }
}

// ---- refusals

/// n first, then the table's checks in their order.
#[test]
fn examples_of_the_order_of_checks() {
    for (n, table, number, place) in REFUSED_TABLES {
        assert_eq!(compare(n, table), refused(number, place), "n = {n}");
    }
}

/// 1 for every number of parts that is none of 1 to 16, whatever the table is; among them those that would be 0 to 16 if higher bits were lost.
#[test]
fn wrong_numbers_of_parts() {
    let tables = (0..=16).map(|n| table_of_sets(n.max(1), &[1]));
    let tables: Vec<Vec<u8>> = tables.chain([vec![], vec![0xFF; 16_384]]).collect();
    let far = [31, 32, 63, 64, 65, 80, usize::MAX - 1, usize::MAX];
    let higher = (0..=16).flat_map(|n| [8, 16, 32, 63].map(|bit| n + (1 << bit)));
    for n in [0].into_iter().chain(17..=20).chain(far).chain(higher) {
        for table in &tables {
            assert_eq!(compare(n, table), refused(1, 0), "n = {n}");
        }
    }
}

/// 6 for every length but the right one, whatever stands in the table.
#[test]
fn wrong_lengths() {
    for n in 1..=16 {
        let around = (1..=17).map(table_length);
        let lengths = around.flat_map(|right| right - 1..=right + 1);
        for length in lengths.filter(|&length| length != table_length(n)) {
            for byte in [0x00, 0x80, 0xFF] {
                let table = vec![byte; length];
                assert_eq!(compare(n, &table), refused(6, 0), "{length} for {n}");
            }
        }
    }
}

/// Machines with one and with two bits turned over: 8, 9 and 10 at its place, or another machine.
#[test]
fn tables_that_may_be_broken() {
    let mut seeded = Seeded::new(368);
    let mut seen = BTreeSet::new();
    for n in 1..=16 {
        for once in tables_turned_over(&mut seeded, n) {
            let twice = flipped(&once, seeded.between(0, (1 << n) - 1));
            let answers = [compare(n, &once), compare(n, &twice)];
            seen.extend(answers.map(|answer| answer.err().map(|refusal| refusal.number)));
        }
    }
    assert_eq!(seen, BTreeSet::from([None, Some(8), Some(9), Some(10)]));
}

#[test]
fn tables_of_random_bytes() {
    let mut seeded = Seeded::new(369);
    for n in 1..=16 {
        for _ in 0..20 {
            let bytes = (0..table_length(n)).map(|_| seeded.number() as u8);
            let mut table: Vec<u8> = bytes.collect();
            compare(n, &table).ok();
            let full = (1 << n) - 1;
            table[0] &= 0xFE;
            table[full / 8] |= 1 << (full % 8);
            compare(n, &table).ok();
        }
    }
}
