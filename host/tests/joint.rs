//! The joint signature of two machines of the same parts (document 02, §5): the calculator against failure orders listed one by one and
//! against 004's formula; what totals, rows and columns come to, what exchanging the machines and taking their duals does, and pairs whose
//! square is known; refusals in their order, with every cell of the lent buffers.

use nahokipe::lent::MOST_JOINT;
use nahokipe::{dual, joint_signature, lent, signature, table_verdict, Refusal};
use nahokipe_testing::comparing::{about_two_tables, same_joint_signature};
use nahokipe_testing::known::{JOINT_MACHINES, REFUSED_TABLES};
use nahokipe_testing::making::{every_pair, flipped, moved, random_pair, random_set};
use nahokipe_testing::making::{random_table, sets_of_size, table_of_sets, tables_turned_over};
use nahokipe_testing::naive::{refused, structure_of, table_length};
use nahokipe_testing::naive_figures::{factorial, size};
use nahokipe_testing::naive_joint as by_orders;
use nahokipe_testing::seeded::Seeded;
use std::collections::BTreeSet;

/// Two machines of n parts, by their tables.
type Pair = (usize, [Vec<u8>; 2]);

/// The square of two accepted tables.
fn given(n: usize, first: &[u8], second: &[u8]) -> Vec<u64> {
    joint_signature(n, first, second).expect("accepted tables")
}

/// The signature of an accepted table, as counts.
fn orders_of(n: usize, table: &[u8]) -> Vec<u64> {
    let orders = signature(n, table).expect("an accepted table");
    orders.into_iter().map(|orders| orders as u64).collect()
}

/// A square of n rows from what stands in row k and column l, both from 1.
fn square_of(n: usize, cell: impl Fn(usize, usize) -> u64) -> Vec<u64> {
    let row = |k| (1..=n).map(move |l| (k, l));
    (1..=n).flat_map(row).map(|(k, l)| cell(k, l)).collect()
}

/// What stands in row k and column l of a square of n rows, both from 1.
fn at(square: &[u64], n: usize, k: usize, l: usize) -> u64 {
    square[(k - 1) * n + l - 1]
}

fn orders_in_all(n: usize) -> u64 {
    factorial(n) as u64
}

// ---- comparing

/// Both tables into buffers of every length that matters; the square that is expected, or the refusal.
fn compare(n: usize, first: &[u8], second: &[u8]) -> Result<Vec<u64>, Refusal> {
    let expected = by_orders::joint_signature(n, first, second);
    same_joint_signature((n, first, second), &expected);
    expected
}

/// Two accepted tables, each cell confirmed by listing all failure orders.
fn compare_listed(n: usize, first: &[u8], second: &[u8]) {
    let [one, other] = [first, second].map(|table| structure_of(n, table));
    let listed = by_orders::listed(n, &one, &other);
    let about = || about_two_tables(n, first, second);
    assert_eq!(given(n, first, second), listed, "{}", about());
}

// ---- against failure orders

/// Every pair of accepted tables, into buffers of every length that matters.
#[test]
fn every_pair_of_machines_of_up_to_three_parts() {
    for (n, count) in [(1, 1), (2, 16), (3, 324)] {
        let pairs = every_pair(n);
        assert_eq!(pairs.len(), count);
        for [first, second] in pairs {
            compare_listed(n, &first, &second);
            assert!(compare(n, &first, &second).is_ok());
        }
    }
}

#[test]
fn orders_of_every_pair_of_machines_of_four_parts() {
    for [first, second] in every_pair(4) {
        compare_listed(4, &first, &second);
    }
}

/// As many random pairs of each number of parts as their orders allow; of ten parts there are 3,628,800.
#[test]
fn orders_of_random_pairs_of_up_to_ten_parts() {
    let mut seeded = Seeded::new(382);
    for (n, rounds) in [(4, 60), (5, 60), (6, 60), (7, 40), (8, 20), (9, 4), (10, 1)] {
        for _ in 0..rounds {
            let [first, second] = random_pair(&mut seeded, n);
            compare_listed(n, &first, &second);
        }
    }
}

// ---- against the formula

/// Every cell for as many parts as there can be, into buffers of every length that matters.
#[test]
fn random_pairs_of_up_to_sixteen_parts() {
    let mut seeded = Seeded::new(383);
    for n in 1..=16 {
        for _ in 0..if n <= 12 { 8 } else { 2 } {
            let [first, second] = random_pair(&mut seeded, n);
            assert!(compare(n, &first, &second).is_ok());
        }
    }
}

// ---- totals, rows and columns

/// Random pairs of every number of parts, the second in every third pair being close to the first: with one set more.
fn random_pairs(seed: u64) -> Vec<Pair> {
    let mut seeded = Seeded::new(seed);
    let sizes = (1..=16).flat_map(|n| [n; 6]);
    let pair = |(round, n): (usize, usize)| {
        let first = random_table(&mut seeded, n);
        let second = match round % 3 {
            0 => with_set(n, &first, random_set(&mut seeded, n)),
            _ => random_table(&mut seeded, n),
        };
        (n, [first, second])
    };
    sizes.enumerate().map(pair).collect()
}

/// The table of a machine that runs on a set more, and on all that hold it.
fn with_set(n: usize, table: &[u8], set: u16) -> Vec<u8> {
    either(table, &table_of_sets(n, &[set]))
}

/// The table of the machine that runs where either of two does.
fn either(first: &[u8], second: &[u8]) -> Vec<u8> {
    let bytes = first.iter().zip(second);
    bytes.map(|(first, second)| first | second).collect()
}

/// The table of the machine that runs where both of two do.
fn both(first: &[u8], second: &[u8]) -> Vec<u8> {
    let bytes = first.iter().zip(second);
    bytes.map(|(first, second)| first & second).collect()
}

/// All cells total n!, the rows sum to the first signature and the columns to the second.
#[test]
fn totals_rows_and_columns() {
    for (n, [first, second]) in random_pairs(384) {
        let square = given(n, &first, &second);
        assert_eq!(square.len(), n * n);
        assert_eq!(square.iter().sum::<u64>(), orders_in_all(n), "n = {n}");
        let rows: Vec<u64> = square.chunks_exact(n).map(|row| row.iter().sum()).collect();
        assert_eq!(rows, orders_of(n, &first), "n = {n}");
        let column = |l: usize| square.iter().skip(l).step_by(n).sum();
        let columns: Vec<u64> = (0..n).map(column).collect();
        assert_eq!(columns, orders_of(n, &second), "n = {n}");
    }
}

// ---- two squares of one pair

#[test]
fn the_machines_exchanged() {
    for (n, [first, second]) in random_pairs(385) {
        let square = given(n, &first, &second);
        let turned = square_of(n, |k, l| at(&square, n, l, k));
        assert_eq!(given(n, &second, &first), turned, "n = {n}");
    }
}

/// An order turned round stops the duals at the places counted from its other end: cell (k,l) of the duals is cell (n+1-k, n+1-l).
#[test]
fn the_duals_of_both() {
    for (n, [first, second]) in random_pairs(386) {
        let mut square = given(n, &first, &second);
        let [first, second] =
            [first, second].map(|table| dual(n, &table).expect("an accepted table"));
        square.reverse();
        assert_eq!(given(n, &first, &second), square, "n = {n}");
    }
}

/// The positions do not matter as long as they are the same in both machines.
#[test]
fn the_parts_at_other_positions() {
    let mut seeded = Seeded::new(387);
    for (n, [first, second]) in random_pairs(388) {
        let mut to: Vec<usize> = (0..n).collect();
        seeded.shuffle(&mut to);
        let square = given(n, &first, &second);
        let [first, second] = [first, second].map(|table| moved(n, &table, &to));
        assert_eq!(given(n, &first, &second), square, "n = {n}, {to:?}");
    }
}

/// The square of n rows with one part more that is idle in both machines: it fails behind any number of the others, and each stop that it
/// comes before is one failure later.
fn with_idle_part(n: usize, square: &[u64]) -> Vec<u64> {
    let mut wider = vec![0; (n + 1) * (n + 1)];
    for (cell, orders) in square.iter().enumerate() {
        let stops = [cell / n + 1, cell % n + 1];
        for behind in 0..=n {
            let [k, l] = stops.map(|stop| stop + (behind < stop) as usize);
            wider[(k - 1) * (n + 1) + l - 1] += orders;
        }
    }
    wider
}

#[test]
fn one_idle_part_more() {
    for (n, [first, second]) in random_pairs(389) {
        if !(3..16).contains(&n) {
            continue;
        }
        let wider = with_idle_part(n, &given(n, &first, &second));
        let [first, second] = [first, second].map(|table| table.repeat(2));
        assert_eq!(given(n + 1, &first, &second), wider, "n = {n}");
    }
}

// ---- machines of which one runs where the other does

/// Each order stops both at the same failure: the signature stands on the diagonal and 0 elsewhere.
#[test]
fn a_machine_beside_itself() {
    for (n, tables) in random_pairs(390) {
        for table in tables {
            let orders = orders_of(n, &table);
            let diagonal = square_of(n, |k, l| if k == l { orders[k - 1] } else { 0 });
            assert_eq!(given(n, &table, &table), diagonal, "n = {n}");
        }
    }
}

/// Where the first machine runs wherever the second does, it is never stopped before it: the cells with k < l are 0.
#[test]
fn a_machine_that_runs_wherever_the_other_does() {
    for (n, [one, other]) in random_pairs(391) {
        let smaller = both(&one, &other);
        assert_eq!(table_verdict(n, &smaller), Ok(()));
        for larger in [&one, &other, &either(&one, &other)] {
            let square = given(n, larger, &smaller);
            let never = |k, l| k >= l || at(&square, n, k, l) == 0;
            assert!((1..=n).all(|k| (1..=n).all(|l| never(k, l))), "n = {n}");
        }
    }
}

/// The machine that runs where either does is stopped with the later of the two, the one that needs both with the earlier.
#[test]
fn either_beside_both() {
    for (n, [first, second]) in random_pairs(392) {
        let square = given(n, &first, &second);
        let expected = square_of(n, |k, l| match k.cmp(&l) {
            std::cmp::Ordering::Less => 0,
            std::cmp::Ordering::Equal => at(&square, n, k, k),
            std::cmp::Ordering::Greater => at(&square, n, k, l) + at(&square, n, l, k),
        });
        let found = given(n, &either(&first, &second), &both(&first, &second));
        assert_eq!(found, expected, "n = {n}");
    }
}

// ---- known pairs

/// Document 004's example among them.
#[test]
fn known_machines() {
    for (n, [first, second], square) in JOINT_MACHINES {
        let found = compare(n, first, second);
        assert_eq!(found.as_deref(), Ok(square), "{first:02X?}, {second:02X?}");
    }
}

/// Machines that run on any i and on any j of their n parts: all orders stop them at the same two failures. Of 16 parts the most nested pairs
/// of path sets are met, 2,018,016 of 11 and 6 parts.
#[test]
fn any_i_and_any_j_of_n_parts() {
    for n in 1..=16 {
        let any: Vec<Vec<u8>> = (1..=n)
            .map(|m| table_of_sets(n, &sets_of_size(n, m as u32)))
            .collect();
        for i in 1..=n {
            for j in 1..=n {
                let stopped = (n - i + 1, n - j + 1);
                let all = |k, l| (stopped == (k, l)) as u64 * orders_in_all(n);
                let found = given(n, &any[i - 1], &any[j - 1]);
                assert_eq!(found, square_of(n, all), "{i} and {j} of {n}");
            }
        }
    }
}

/// Beside a machine that runs on any m parts, whose stop is always the same failure, the other's signature fills that row or column.
#[test]
fn any_m_of_n_parts_beside_another_machine() {
    let mut seeded = Seeded::new(393);
    for n in 1..=16 {
        let m = seeded.between(1, n);
        let any = table_of_sets(n, &sets_of_size(n, m as u32));
        let other = random_table(&mut seeded, n);
        let (orders, stop) = (orders_of(n, &other), n - m + 1);
        let row = square_of(n, |k, l| if k == stop { orders[l - 1] } else { 0 });
        assert_eq!(given(n, &any, &other), row, "{m} of {n}");
        let column = square_of(n, |k, l| if l == stop { orders[k - 1] } else { 0 });
        assert_eq!(given(n, &other, &any), column, "{m} of {n}");
    }
}

/// Two machines that run exactly while one part each does: two different parts fail at each two times equally often, and never together.
#[test]
fn one_part_decides_each() {
    for n in 2..=16 {
        let parts = BTreeSet::from([0, n / 3, n / 2, n - 2, n - 1]);
        for &one in &parts {
            for &other in parts.iter().filter(|&&other| other != one) {
                let [first, second] = [one, other].map(|part| table_of_sets(n, &[1 << part]));
                let cell = |k, l| if k == l { 0 } else { orders_in_all(n - 2) };
                let found = given(n, &first, &second);
                assert_eq!(found, square_of(n, cell), "{one} and {other} of {n}");
            }
        }
    }
}

/// The orders in which the first failures, one fewer than `stop`, are all of `m` parts, and the next one is of the others, of `n` in all.
fn orders_up_to(n: usize, m: usize, stop: usize) -> u64 {
    let before: u64 = (0..stop - 1).map(|i| m.saturating_sub(i) as u64).product();
    before * (n - m) as u64 * orders_in_all(n - stop)
}

/// The first machine needs all parts of a group, and the second all others: one is stopped by the first failure, and the other by the first
/// that is of its own parts.
#[test]
fn a_group_in_series_beside_the_others_in_series() {
    let mut seeded = Seeded::new(394);
    for n in 2..=16 {
        for _ in 0..6 {
            let all = (1 << n) - 1;
            let group = seeded.between(1, all - 1);
            let parts = [group, all - group];
            let [first, second] = parts.map(|parts| table_of_sets(n, &[parts as u16]));
            let m = size(group);
            let cell = |k, l| match (k, l) {
                (1, 1) => 0,
                (1, l) => orders_up_to(n, m, l),
                (k, 1) => orders_up_to(n, n - m, k),
                _ => 0,
            };
            let found = given(n, &first, &second);
            assert_eq!(found, square_of(n, cell), "{group:#b} of {n}");
        }
    }
}

// ---- refusals

/// A refused table on either side of a machine, and on both: n first, then the first table's checks, then the second's.
#[test]
fn examples_of_the_order_of_checks() {
    for (n, table, number, place) in REFUSED_TABLES {
        let machine = table_of_sets(n.clamp(1, 16), &[1]);
        for (first, second) in [(table, &machine[..]), (&machine, table), (table, table)] {
            assert_eq!(compare(n, first, second), refused(number, place), "n = {n}");
        }
    }
}

/// Where both tables are refused the first one's refusal is told, also where the second's is an earlier check.
#[test]
fn the_first_table_speaks_before_the_second() {
    for (n, first, number, place) in REFUSED_TABLES {
        for (_, second, ..) in REFUSED_TABLES.into_iter().filter(|other| other.0 == n) {
            assert_eq!(compare(n, first, second), refused(number, place), "n = {n}");
        }
        let others: [&[u8]; 4] = [&[], &[0x00], &[0xFF], &[0xFF; 8192]];
        for second in others {
            assert_eq!(compare(n, first, second), refused(number, place), "n = {n}");
        }
    }
}

/// Every two bytes as the tables of one, two and three parts; each refusal that these can have is seen of either table.
#[test]
fn every_pair_of_tables_of_up_to_three_parts() {
    for (n, refusals) in [(1, [7, 8, 9]), (2, [7, 8, 9]), (3, [8, 9, 10])] {
        let mut seen = [BTreeSet::new(), BTreeSet::new()];
        for first in 0..=255 {
            for second in 0..=255 {
                let (first, second) = ([first], [second]);
                let found = joint_signature(n, &first, &second);
                let expected = by_orders::joint_signature(n, &first, &second);
                assert_eq!(found, expected, "n = {n}, {first:?}, {second:?}");
                let refused_first = table_verdict(n, &first).is_err() as usize;
                seen[1 - refused_first].extend(found.err().map(|refusal| refusal.number));
            }
        }
        assert_eq!(seen.map(Vec::from_iter), [refusals; 2], "n = {n}");
    }
}

/// A machine with one bit turned over, each bit of up to eight parts, beside one as it was, on either side: 8, 9 and 10 at its place, or
/// another machine.
#[test]
fn tables_with_one_bit_turned_over() {
    let mut seeded = Seeded::new(395);
    let mut seen = BTreeSet::new();
    for n in 1..=16 {
        let machine = random_table(&mut seeded, n);
        for turned in tables_turned_over(&mut seeded, n) {
            let verdict = table_verdict(n, &turned);
            seen.insert(verdict.err().map(|refusal| refusal.number));
            let found = [
                joint_signature(n, &turned, &machine).map(drop),
                joint_signature(n, &machine, &turned).map(drop),
            ];
            assert_eq!(found, [verdict; 2], "n = {n}");
        }
    }
    assert_eq!(seen, BTreeSet::from([None, Some(8), Some(9), Some(10)]));
}

/// The same where both are damaged, into buffers of every length that matters.
#[test]
fn two_damaged_tables() {
    let mut seeded = Seeded::new(396);
    for n in 1..=10 {
        for _ in 0..12 {
            let mut damaged = || {
                let table = random_table(&mut seeded, n);
                flipped(&table, seeded.between(0, (1 << n) - 1))
            };
            let (first, second) = (damaged(), damaged());
            compare(n, &first, &second).ok();
        }
    }
}

/// 1 for every number of parts that is none of 1 to 16, whatever the tables are; among them those that would be 0 to 16 if higher bits were
/// lost.
#[test]
fn wrong_numbers_of_parts() {
    let machines = [1, 3, 16].map(|n| table_of_sets(n, &[1]));
    let far = [31, 32, 63, 64, 65, 80, usize::MAX - 1, usize::MAX];
    let higher = (0..=16).flat_map(|n| [8, 16, 32, 63].map(|bit| n + (1 << bit)));
    for n in [0].into_iter().chain(17..=20).chain(far).chain(higher) {
        for first in &machines {
            for second in [first, &vec![], &vec![0xFF; 16_384]] {
                assert_eq!(compare(n, first, second), refused(1, 0), "n = {n}");
                assert_eq!(compare(n, second, first), refused(1, 0), "n = {n}");
            }
        }
    }
}

/// 6 for every length but the right one, of either table, whatever stands in it.
#[test]
fn wrong_lengths() {
    for n in 1..=16 {
        let machine = table_of_sets(n, &[1]);
        let around = (1..=17).map(table_length);
        let lengths = around.flat_map(|right| right - 1..=right + 1);
        for length in lengths.filter(|&length| length != table_length(n)) {
            for byte in [0x00, 0x80, 0xFF] {
                let wrong = vec![byte; length];
                for (first, second) in [(&wrong, &machine), (&machine, &wrong)] {
                    let found = joint_signature(n, first, second);
                    assert_eq!(found, refused(6, 0), "{length} for {n}");
                }
            }
        }
    }
}

/// 11 at n² comes behind the checks of both tables, and a short buffer stays as it was, to its last cell.
#[test]
fn short_buffers() {
    for n in 1..=16 {
        let machine = table_of_sets(n, &[1]);
        let broken = flipped(&machine, (1 << n) - 1);
        for length in [0, 1, n, n * n / 2, n * n - 1] {
            let before = vec![0x5A5A; length.min(n * n - 1)];
            for (second, refusal) in [(&machine, refused(11, n * n)), (&broken, refused(9, 0))] {
                let mut after = before.clone();
                let answer = lent::joint_signature(n, &machine, second, &mut after);
                assert_eq!((answer, &after), (refusal, &before), "{length} for {n}");
                let answer = lent::joint_signature(n, second, &machine, &mut after);
                assert_eq!((answer, &after), (refusal, &before), "{length} for {n}");
            }
        }
    }
}

/// In a buffer of the most cells that a square can have, the first n² are written and the others stay.
#[test]
fn cells_behind_the_square() {
    let mut seeded = Seeded::new(397);
    for n in 1..=16 {
        let [first, second] = random_pair(&mut seeded, n);
        let square = given(n, &first, &second);
        for pattern in [0, u64::MAX] {
            let mut cells = [pattern; MOST_JOINT + 1];
            let answer = lent::joint_signature(n, &first, &second, &mut cells);
            assert_eq!(answer, Ok(n * n));
            let (front, behind) = cells.split_at(n * n);
            assert_eq!(front, square, "n = {n}");
            assert!(behind.iter().all(|&cell| cell == pattern), "n = {n}");
        }
    }
}
