//! The naive joint signature against squares worked out by hand, both ways against each other, and against failure orders and signatures that
//! are listed elsewhere: what the other tests compare with must be right.

use nahokipe_testing::known::{JOINT_MACHINES, REFUSED_TABLES};
use nahokipe_testing::making::{every_pair, random_pair, table_of_sets};
use nahokipe_testing::naive::{holds, path_sets, refused, structure_of, table_length};
use nahokipe_testing::naive_figures::{factorial, failure_orders, figures_of, stops};
use nahokipe_testing::naive_joint::*;
use nahokipe_testing::seeded::Seeded;

#[test]
fn known_machines() {
    for (n, tables, square) in JOINT_MACHINES {
        let [first, second] = tables.map(|table| structure_of(n, table));
        assert_eq!(listed(n, &first, &second), square, "{tables:02X?}");
        assert_eq!(by_pairs(n, &first, &second), square, "{tables:02X?}");
        let found = joint_signature(n, tables[0], tables[1]);
        assert_eq!(found.as_deref(), Ok(square), "{tables:02X?}");
    }
}

/// Document 004's example 2.10: the tails that it prints out of 12, and the square that they give. The machines of its example 1.2 run on
/// parts 1 and 2, and on 4 with 2 or 3.
#[test]
fn the_tails_of_the_paper() {
    let printed = [
        [12, 9, 4, 0, 0],
        [6, 3, 1, 0, 0],
        [2, 1, 0, 0, 0],
        [0; 5],
        [0; 5],
    ];
    let [first, second] = [&[0b0011][..], &[0b1010, 0b1100]].map(|list| path_sets(4, list));
    let tails = tails(4, &first, &second);
    assert_eq!(tails, printed.map(|row| row.map(|orders| 2 * orders)));
    let square = [[0, 3, 3, 0], [2, 1, 1, 0], [1, 1, 0, 0], [0; 4]];
    let square = square.concat().into_iter().map(|orders| 2 * orders);
    assert!(by_pairs(4, &first, &second).into_iter().eq(square));
}

/// Document 01: for n = 2 with {1}, order 1, 2 stops at its first entry and order 2, 1 at its second.
#[test]
fn an_order_stops_where_the_paper_says() {
    let works = path_sets(2, &[0b01]);
    assert_eq!(stopping_failure(&works, &[0b11, 0b10, 0]), 1);
    assert_eq!(stopping_failure(&works, &[0b11, 0b01, 0]), 2);
}

#[test]
fn every_set_inside_a_set() {
    for n in 0..=8 {
        for set in 0..1 << n {
            let held: Vec<usize> = (0..1 << n).rev().filter(|&b| holds(set, b)).collect();
            assert!(sets_inside(set).eq(held), "{set:#b}");
        }
    }
}

/// A square from a list of orders that another program makes, entry by entry: the entries that stop the first machine, and those that stop
/// the second.
fn from_orders(first: &[bool], second: &[bool], orders: &[Vec<usize>]) -> Vec<u64> {
    let n = orders[0].len();
    let mut square = vec![0; n * n];
    for order in orders {
        for k in (0..n).filter(|&entry| stops(first, order, entry)) {
            for l in (0..n).filter(|&entry| stops(second, order, entry)) {
                square[k * n + l] += 1;
            }
        }
    }
    square
}

/// Every pair of machines of up to three parts, and random pairs of up to eight.
#[test]
fn both_ways_and_the_list_of_orders_agree() {
    let mut seeded = Seeded::new(380);
    for n in 1..=8 {
        let orders = failure_orders(n);
        let pairs: Vec<[Vec<u8>; 2]> = match n {
            1..=3 => every_pair(n),
            _ => (0..12).map(|_| random_pair(&mut seeded, n)).collect(),
        };
        for tables in pairs {
            let [first, second] = [&tables[0], &tables[1]].map(|table| structure_of(n, table));
            let square = listed(n, &first, &second);
            let about = format!("n = {n}, {tables:02X?}");
            assert_eq!(by_pairs(n, &first, &second), square, "{about}");
            assert_eq!(from_orders(&first, &second, &orders), square, "{about}");
        }
    }
}

/// By pairs for more parts than can be listed: the total, rows and columns are what the formulas for one machine give.
#[test]
fn rows_and_columns_of_up_to_sixteen_parts() {
    let mut seeded = Seeded::new(381);
    for n in 9..=16 {
        let [first, second] = random_pair(&mut seeded, n).map(|table| structure_of(n, &table));
        let square = by_pairs(n, &first, &second);
        let rows = square.chunks_exact(n).map(|row| row.iter().sum::<u64>());
        let column = |l: usize| square.iter().skip(l).step_by(n).sum::<u64>();
        let signature = |works: &[bool]| figures_of(n, works).signature.into_iter();
        assert!(rows.eq(signature(&first).map(|orders| orders as u64)));
        assert!((0..n)
            .map(column)
            .eq(signature(&second).map(|orders| orders as u64)));
        assert_eq!(square.iter().sum::<u64>() as i128, factorial(n));
    }
}

/// n first, then the first table, then the second, each by its own checks.
#[test]
fn refusals_of_tables() {
    for (n, table, number, place) in REFUSED_TABLES {
        let machine = table_of_sets(n.clamp(1, 16), &[1]);
        let found = [(table, &machine[..]), (&machine, table), (table, table)]
            .map(|(first, second)| joint_signature(n, first, second));
        assert_eq!(found, [(); 3].map(|_| refused(number, place)), "n = {n}");
    }
    let broken = [0xC4];
    assert_eq!(joint_signature(3, &broken, &[0x01]), refused(10, 2));
    assert_eq!(joint_signature(3, &[0x01], &broken), refused(8, 0));
    assert_eq!(joint_signature(3, &broken, &[]), refused(10, 2));
    let long = vec![0xFF; table_length(4)];
    assert_eq!(joint_signature(3, &long, &broken), refused(6, 0));
}
