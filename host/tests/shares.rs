//! Shares of groups: the calculator by both routes against failure orders listed one by one, against 001's eq. 1, and h(x,z) against its
//! definition; answers, places and every cell of the lent buffers.

use nahokipe::lent::{reliability, shares_by_both_routes, shares_by_reliability, shares_by_sets};
use nahokipe::Refusal;
use nahokipe_testing::comparing::{buffers, front, same};
use nahokipe_testing::making::{flipped, machines, random_table, sets_of_size, table_of_sets};
use nahokipe_testing::naive::{self, structure_of};
use nahokipe_testing::naive_figures::{factorial, failure_orders, figures_of};
use nahokipe_testing::naive_shares as by_formulas;
use nahokipe_testing::seeded::Seeded;

/// What buffers are filled with: a pattern and its opposite.
const PATTERNS: [i64; 2] = [0x5A5A_5A5A_5A5A_5A5A, !0x5A5A_5A5A_5A5A_5A5A];

type Call = fn(usize, &[u8], usize, &mut [i64]) -> Result<usize, Refusal>;

/// A call on a table and a group, into buffers of every length that matters.
fn compare_call(
    (n, table, group): (usize, &[u8], usize),
    call: Call,
    expected: &Result<Vec<i64>, Refusal>,
) {
    let about = || format!("n = {n}, group {group}, table {:02X?}", front(table));
    for before in buffers(expected, 16, PATTERNS) {
        let mut after = before.clone();
        let answer = call(n, table, group, &mut after);
        same((answer, after), naive::delivered(expected, &before), about);
    }
}

/// Both routes at once, into buffers around the length needed: a short one leaves both alone.
fn compare_both((n, table, group): (usize, &[u8], usize), expected: &Result<Vec<i64>, Refusal>) {
    let needed = expected.as_ref().map_or(16, Vec::len);
    for (one, other) in [(0, 0), (1, 9), (-1, 0), (0, -1), (-1, -1)] {
        let lengths = [one, other].map(|more| (needed as isize + more) as usize);
        let before = [vec![PATTERNS[0]; lengths[0]], vec![PATTERNS[1]; lengths[1]]];
        let [mut first, mut second] = before.clone();
        let answer = shares_by_both_routes(n, table, group, &mut first, &mut second);
        let expected = match expected {
            Ok(shares) if lengths.iter().all(|&length| length >= needed) => {
                let filled = |buffer: &[i64]| [shares, &buffer[needed..]].concat();
                (Ok(needed), before.map(|buffer| filled(&buffer)))
            }
            Ok(_) => (
                Err(Refusal {
                    number: 11,
                    place: needed,
                }),
                before,
            ),
            Err(refusal) => (Err(*refusal), before),
        };
        assert_eq!(
            (answer, [first, second]),
            expected,
            "n = {n}, group {group}"
        );
    }
}

/// All calls on a table and a group; the shares that are expected.
fn compare(n: usize, table: &[u8], group: usize) -> Result<Vec<i64>, Refusal> {
    let at = (n, table, group);
    let expected = by_formulas::shares(n, table, group);
    compare_call(at, shares_by_sets, &expected);
    compare_call(at, shares_by_reliability, &expected);
    compare_both(at, &expected);
    compare_call(at, reliability, &by_formulas::reliability(n, table, group));
    expected
}

/// Every group of a table of at most 8 parts, against all failure orders as well.
fn compare_listed(n: usize, table: &[u8], orders: &[Vec<usize>]) {
    let works = structure_of(n, table);
    for group in 1..1 << n {
        let listed = by_formulas::listed(&works, orders, group);
        assert_eq!(
            compare(n, table, group),
            Ok(listed),
            "n = {n}, group {group}"
        );
    }
}

#[test]
fn every_group_of_every_structure_of_up_to_four_parts() {
    for n in 1..=4 {
        let orders = failure_orders(n);
        let machines = machines(n);
        // The monotone set functions less the two constant ones.
        assert_eq!(machines.len(), [1, 4, 18, 166][n - 1]);
        for table in machines {
            compare_listed(n, &table, &orders);
        }
    }
}

#[test]
fn every_group_of_random_structures_of_up_to_eight_parts() {
    let mut seeded = Seeded::new(51);
    for (n, rounds) in [(5, 20), (6, 8), (7, 2), (8, 1)] {
        let orders = failure_orders(n);
        for _ in 0..rounds {
            compare_listed(n, &random_table(&mut seeded, n), &orders);
        }
    }
}

#[test]
fn random_groups_of_random_structures_of_up_to_sixteen_parts() {
    let mut seeded = Seeded::new(52);
    for round in 0..24 {
        let n = 9 + round % 8;
        let table = random_table(&mut seeded, n);
        let group = seeded.between(1, (1 << n) - 1);
        let shares = compare(n, &table, group).expect("an accepted table and group");
        let importance = figures_of(n, &structure_of(n, &table)).importance;
        let parts = (0..n).filter(|&i| naive::has(group, i));
        let total: i64 = parts.map(|i| importance[i] as i64).sum();
        assert_eq!(shares.iter().sum::<i64>(), total, "n = {n}, group {group}");
    }
}

#[test]
fn groups_of_every_size_of_machines_that_need_so_many_of_their_parts() {
    for n in [1, 2, 3, 6, 11, 16] {
        for needed in 1..=n {
            let table = table_of_sets(n, &sets_of_size(n, needed as u32));
            for m in 1..=n {
                let group = (1 << m) - 1;
                let shares = compare(n, &table, group).expect("an accepted table and group");
                // The failure that stops the machine is that of any of its parts alike.
                let total: i128 = shares.iter().map(|&share| share as i128).sum();
                assert_eq!(total, factorial(n) / n as i128 * m as i128);
            }
        }
    }
}

#[test]
fn the_bridge_with_positions_one_two_and_three() {
    let bridge = [0x00, 0xEA, 0xEC, 0xEE];
    let mut shares = [0; 3];
    assert_eq!(shares_by_sets(5, &bridge, 7, &mut shares), Ok(3));
    assert_eq!(shares, [0, 44, 20]);
    let mut cells = [0; 12];
    assert_eq!(reliability(5, &bridge, 7, &mut cells), Ok(12));
    // 2xz + 2x²z - 2x³z - 3x²z² + 2x³z²
    assert_eq!(cells, [0, 0, 0, 0, 2, 0, 0, 2, -3, 0, -2, 2]);
}

#[test]
fn refusals_in_their_order() {
    let bridge = [0x00, 0xEA, 0xEC, 0xEE];
    let refusal = |number, place| Err(Refusal { number, place });
    assert_eq!(compare(5, &bridge, 0), refusal(15, 0));
    assert_eq!(compare(5, &bridge, 32), refusal(16, 0));
    assert_eq!(compare(5, &bridge, usize::MAX), refusal(16, 0));
    assert_eq!(compare(0, &bridge, 0), refusal(1, 0));
    assert_eq!(compare(17, &bridge, 0), refusal(1, 0));
    assert_eq!(compare(5, &bridge[..3], 0), refusal(6, 0));
    assert_eq!(compare(5, &flipped(&bridge, 0), 0), refusal(8, 0));
    assert_eq!(compare(5, &flipped(&bridge, 31), 32), refusal(9, 0));
    assert_eq!(compare(5, &flipped(&bridge, 11), 0), refusal(10, 9));
}
