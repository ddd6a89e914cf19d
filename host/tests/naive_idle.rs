//! The naive idle parts against machines worked out by hand, against failure orders and minimal sets, and a second way on any set function:
//! what the other tests compare with must be right.

use nahokipe_testing::known::{IDLE_MACHINES, REFUSED_TABLES};
use nahokipe_testing::making::{machines, random_table};
use nahokipe_testing::naive::{has, minimal_of, path_sets, refused, structure_of, table_of};
use nahokipe_testing::naive_figures::{failure_orders, stops};
use nahokipe_testing::naive_idle::*;
use nahokipe_testing::seeded::Seeded;

#[test]
fn known_machines() {
    for (n, sets, table, idle) in IDLE_MACHINES {
        let works = path_sets(n, sets);
        assert_eq!(table_of(&works), table, "{sets:?}");
        assert_eq!(idle_parts(n, table), Ok(idle), "{sets:?}");
        let places: Vec<usize> = (0..n).filter(|&i| has(idle as usize, i)).collect();
        assert_eq!(idle_of(n, &works), places, "{sets:?}");
    }
}

#[test]
fn a_part_added_to_a_set() {
    assert_eq!(
        [0b00, 0b01, 0b10, 0b11].map(|set| with(set, 0)),
        [1, 1, 3, 3]
    );
    assert_eq!(
        [0b00, 0b01, 0b10, 0b11].map(|set| with(set, 1)),
        [2, 3, 2, 3]
    );
    assert_eq!(with(0x7FFF, 15), 0xFFFF);
}

/// The same a second way: the machine with the part held failed and the machine with it held working run on the same sets of the others.
fn makes_no_difference(n: usize, works: &[bool], part: usize) -> bool {
    let held = |working| -> Vec<bool> {
        let sets = (0..1 << n).filter(|&set| has(set, part) == working);
        sets.map(|set| works[set]).collect()
    };
    held(false) == held(true)
}

/// A set without the part at bit i, the parts behind it moved down.
fn closed_up(set: usize, i: usize) -> usize {
    set % (1 << i) + (set >> (i + 1) << i)
}

/// Any set function of n parts with one part more, put in at some place: it is idle there, and of the others those that were.
#[test]
fn both_ways_agree_on_any_set_function() {
    let mut seeded = Seeded::new(370);
    for round in 0..1_000 {
        let n = 1 + round % 7;
        let one_in = seeded.between(2, 40);
        let works: Vec<bool> = (0..1 << n)
            .map(|_| seeded.between(1, one_in) != 1)
            .collect();
        let place = seeded.between(0, n);
        let wider: Vec<bool> = (0..2 << n)
            .map(|set| works[closed_up(set, place)])
            .collect();
        let moved = |part: usize| part + (part >= place) as usize;
        let were = idle_of(n, &works).into_iter().map(moved);
        let mut expected: Vec<usize> = were.chain([place]).collect();
        expected.sort_unstable();
        let parts = 0..=n;
        let second: Vec<usize> = parts
            .filter(|&part| makes_no_difference(n + 1, &wider, part))
            .collect();
        let about = format!("part {place} in {works:?}");
        assert_eq!(idle_of(n + 1, &wider), expected, "{about}");
        assert_eq!(second, expected, "{about}");
    }
}

/// Parts whose failure stops the machine in none of these orders.
fn never_stopping(works: &[bool], orders: &[Vec<usize>]) -> Vec<usize> {
    let n = orders[0].len();
    let stops_in =
        |order: &Vec<usize>, part| (0..n).any(|k| order[k] == part && stops(works, order, k));
    let never = |part: &usize| !orders.iter().any(|order| stops_in(order, *part));
    (0..n).filter(never).collect()
}

/// A part is idle exactly if its failure stops the machine in no order: every machine of up to four parts, and random ones of up to six.
#[test]
fn failures_that_stop_the_machine_in_no_order() {
    let mut seeded = Seeded::new(371);
    for n in 1..=6 {
        let orders = failure_orders(n);
        let tables = match n {
            1..=4 => machines(n),
            _ => (0..40).map(|_| random_table(&mut seeded, n)).collect(),
        };
        for table in tables {
            let works = structure_of(n, &table);
            let expected = never_stopping(&works, &orders);
            assert_eq!(idle_of(n, &works), expected, "n = {n}, {table:02X?}");
        }
    }
}

/// A part is idle exactly if no minimal set names it.
#[test]
fn parts_that_no_minimal_set_names() {
    for n in 1..=4 {
        for table in machines(n) {
            let works = structure_of(n, &table);
            let sets = minimal_of(n, &works);
            let unnamed = |&part: &usize| !sets.iter().any(|&set| has(set as usize, part));
            let expected: Vec<usize> = (0..n).filter(unnamed).collect();
            assert_eq!(idle_of(n, &works), expected, "n = {n}, {table:02X?}");
        }
    }
}

#[test]
fn refusals_of_tables() {
    for (n, table, number, place) in REFUSED_TABLES {
        assert_eq!(idle_parts(n, table), refused(number, place), "n = {n}");
    }
}
