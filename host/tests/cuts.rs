//! Cut sets and the dual: what the dual does to sets and figures, lists of cut sets there and back, and examples. tests/structure.rs has the
//! comparison with the naive search over failures.

use nahokipe::lent::{dual, minimal_cuts, table_of_cuts};
use nahokipe::{minimal_sets, shares_by_sets, table_of_list, table_verdict, Figures};
use nahokipe_testing::known::{CUT_MACHINES, REFUSED_TABLES};
use nahokipe_testing::making::{every_and_random_machines, minimal_of_list, random_group};
use nahokipe_testing::making::{random_list, sets_of_size};
use nahokipe_testing::naive::refused;
use nahokipe_testing::naive_figures::{binomial, factorial};
use nahokipe_testing::seeded::Seeded;

/// The dual of an accepted table, which is accepted itself.
fn given_dual(n: usize, table: &[u8]) -> Vec<u8> {
    let dual = nahokipe::dual(n, table).expect("an accepted table");
    assert_eq!(table_verdict(n, &dual), Ok(()));
    dual
}

/// The table of an accepted list of cut sets, which is accepted itself.
fn given_table(n: usize, cuts: &[u16]) -> Vec<u8> {
    let table = nahokipe::table_of_cuts(n, cuts).expect("an accepted list");
    assert_eq!(table_verdict(n, &table), Ok(()));
    table
}

fn given_cuts(n: usize, table: &[u8]) -> Vec<u16> {
    nahokipe::minimal_cuts(n, table).expect("an accepted table")
}

// ---- from one form to the other

/// All sets of 8 of 16 parts: the most cut sets that a list and a machine can have, and one more is refused.
#[test]
fn the_largest_list() {
    let mut cuts = sets_of_size(16, 8);
    assert_eq!(cuts.len(), 12_870);
    let table = given_table(16, &cuts);
    assert!(table == table_of_list(16, &sets_of_size(16, 9)).expect("an accepted list"));
    assert!(given_cuts(16, &table) == cuts);
    cuts.push(1);
    assert_eq!(nahokipe::table_of_cuts(16, &cuts), refused(3, 0));
}

#[test]
fn the_dual_taken_twice_is_the_same_table() {
    for (n, table) in every_and_random_machines(334) {
        assert!(given_dual(n, &given_dual(n, &table)) == table, "n = {n}");
    }
}

/// The cut sets are the path sets of the dual, and the path sets are its cut sets.
#[test]
fn the_dual_exchanges_path_sets_and_cut_sets() {
    for (n, table) in every_and_random_machines(335) {
        let dual = given_dual(n, &table);
        assert!(
            minimal_sets(n, &dual) == Ok(given_cuts(n, &table)),
            "n = {n}"
        );
        assert!(
            minimal_sets(n, &table) == Ok(given_cuts(n, &dual)),
            "n = {n}"
        );
    }
}

/// Table, minimal cut sets, the same table; they rise, and none holds another.
#[test]
fn there_and_back() {
    for (n, table) in every_and_random_machines(336) {
        let cuts = given_cuts(n, &table);
        assert!(cuts.windows(2).all(|pair| pair[0] < pair[1]));
        assert!(minimal_of_list(n, &cuts) == cuts);
        assert!(given_table(n, &cuts) == table, "n = {n}");
    }
}

/// Read as cut sets a list gives the dual of what it gives read as path sets, and of it the minimal ones come back.
#[test]
fn one_list_read_both_ways() {
    let mut seeded = Seeded::new(337);
    for n in 1..=16 {
        for _ in 0..40 {
            let list = random_list(&mut seeded, n);
            let table = given_table(n, &list);
            let paths = table_of_list(n, &list).expect("an accepted list");
            assert!(table == given_dual(n, &paths), "n = {n}");
            assert!(given_cuts(n, &table) == minimal_of_list(n, &list));
        }
    }
}

/// A rising list of sets none of which holds another comes back as it was.
#[test]
fn all_sets_of_one_size_come_back() {
    for n in 1..=16 {
        for size in 1..=n {
            let cuts = sets_of_size(n, size as u32);
            assert!(
                given_cuts(n, &given_table(n, &cuts)) == cuts,
                "{size} of {n}"
            );
        }
    }
}

// ---- figures of the dual

/// The figures of a machine and of its dual.
fn both_figures(n: usize, table: &[u8]) -> [Figures; 2] {
    let figures = |table: &[u8]| nahokipe::figures(n, table).expect("an accepted table");
    [figures(table), figures(&given_dual(n, table))]
}

fn reversed<T: Clone>(cells: &[T]) -> Vec<T> {
    cells.iter().rev().cloned().collect()
}

/// 000, eq. 37: the signature reversed.
#[test]
fn signature_of_the_dual() {
    for (n, table) in every_and_random_machines(338) {
        let [machine, dual] = both_figures(n, &table);
        assert_eq!(dual.signature, reversed(&machine.signature), "n = {n}");
    }
}

/// Of the sets of j parts those are path sets of the dual whose n - j other parts are no path set: C(n,j) - φ(n-j).
#[test]
fn path_counts_of_the_dual() {
    for (n, table) in every_and_random_machines(339) {
        let [machine, dual] = both_figures(n, &table);
        let left = |j: usize| binomial(n, j) as i64 - machine.path_counts[n - j];
        let expected: Vec<i64> = (0..=n).map(left).collect();
        assert_eq!(dual.path_counts, expected, "n = {n}");
    }
}

/// 000, eq. 36, times n!: n! - T(n-k).
#[test]
fn tail_of_the_dual() {
    for (n, table) in every_and_random_machines(340) {
        let tail = |table: &[u8]| nahokipe::tail(n, table).expect("an accepted table");
        let left = |orders: &i64| factorial(n) as i64 - orders;
        let expected: Vec<i64> = tail(&table).iter().rev().map(left).collect();
        assert_eq!(tail(&given_dual(n, &table)), expected, "n = {n}");
    }
}

/// 000, eq. 34: the dual's d(k) is δ(k,0) - (-1)^k times the sum of C(j,k) × d(j) over j from k on.
#[test]
fn domination_of_the_dual() {
    for (n, table) in every_and_random_machines(341) {
        let [machine, dual] = both_figures(n, &table);
        let term = |j: usize, k: usize| binomial(j, k) * machine.domination[j] as i128;
        for k in 0..=n {
            let sum: i128 = (k..=n).map(|j| term(j, k)).sum();
            let expected = (k == 0) as i128 - if k % 2 == 1 { -sum } else { sum };
            assert_eq!(dual.domination[k] as i128, expected, "n = {n}, k = {k}");
        }
    }
}

/// They stay: a part's failure stops the dual in an order exactly if it stops the machine in the order turned round.
#[test]
fn importances_of_the_dual() {
    for (n, table) in every_and_random_machines(342) {
        let [machine, dual] = both_figures(n, &table);
        assert_eq!(dual.importance, machine.importance, "n = {n}");
    }
}

/// Reversed, for the same reason: of m parts of a group the k-th to fail is the (m-k+1)-th in the order turned round.
#[test]
fn shares_of_a_group_in_the_dual() {
    let mut seeded = Seeded::new(343);
    for (n, table) in every_and_random_machines(344) {
        let dual = given_dual(n, &table);
        let groups: Vec<usize> = match n {
            1..=4 => (1..1 << n).collect(),
            _ => vec![random_group(&mut seeded, n)],
        };
        for group in groups {
            let shares = |table: &[u8]| shares_by_sets(n, table, group).expect("an accepted group");
            assert_eq!(
                shares(&dual),
                reversed(&shares(&table)),
                "{group:#x} of {n}"
            );
        }
    }
}

// ---- examples

#[test]
fn known_machines() {
    for (n, [paths, cuts], [table, dual]) in CUT_MACHINES {
        assert_eq!(minimal_sets(n, table).as_deref(), Ok(paths));
        assert_eq!(given_cuts(n, table), cuts);
        assert_eq!(given_table(n, cuts), table);
        assert_eq!(given_dual(n, table), dual);
    }
}

/// n first, then the list's checks, entry by entry.
#[test]
fn examples_of_the_order_of_checks_of_a_list() {
    let cases: [(usize, &[u16], u8, usize); 9] = [
        (0, &[], 1, 0),
        (17, &[0], 1, 0),
        (5, &[], 2, 0),
        (2, &[0; 12_871], 3, 0),
        (5, &[3, 32], 4, 1),
        (5, &[32, 0], 4, 0),
        (5, &[0, 32], 5, 0),
        (5, &[3, 14, 0], 5, 2),
        (1, &[1, 2], 4, 1),
    ];
    for (n, cuts, number, place) in cases {
        let mut table = [0xA5; 4];
        assert_eq!(table_of_cuts(n, cuts, &mut table), refused(number, place));
        assert_eq!(table_of_cuts(n, cuts, &mut []), refused(number, place));
        assert_eq!(table, [0xA5; 4]);
    }
}

/// n first, then the table's checks in their order.
#[test]
fn examples_of_the_order_of_checks_of_a_table() {
    for (n, table, number, place) in REFUSED_TABLES {
        let mut cuts = [0xA5A5; 4];
        assert_eq!(minimal_cuts(n, table, &mut cuts), refused(number, place));
        assert_eq!(minimal_cuts(n, table, &mut []), refused(number, place));
        assert_eq!(cuts, [0xA5A5; 4]);
        let mut bytes = [0xA5; 4];
        assert_eq!(dual(n, table, &mut bytes), refused(number, place));
        assert_eq!(dual(n, table, &mut []), refused(number, place));
        assert_eq!(bytes, [0xA5; 4]);
    }
}

/// One byte is written whole for one and two parts, and 11 names the length that is needed.
#[test]
fn examples_of_lent_buffers() {
    let mut bytes = [0xFF; 3];
    assert_eq!(table_of_cuts(2, &[2, 1], &mut bytes), Ok(1));
    assert_eq!(bytes, [0x08, 0xFF, 0xFF]);
    let mut bytes = [0xFF; 3];
    assert_eq!(dual(1, &[0x02], &mut bytes), Ok(1));
    assert_eq!(bytes, [0x02, 0xFF, 0xFF]);
    assert_eq!(table_of_cuts(5, &[1], &mut bytes), refused(11, 4));
    assert_eq!(
        dual(5, &[0x00, 0xEA, 0xEC, 0xEE], &mut bytes),
        refused(11, 4)
    );
    assert_eq!(bytes, [0x02, 0xFF, 0xFF]);
    let mut cuts = [0xFFFF; 3];
    assert_eq!(
        minimal_cuts(5, &[0x00, 0xEA, 0xEC, 0xEE], &mut cuts),
        refused(11, 4)
    );
    assert_eq!(cuts, [0xFFFF; 3]);
    assert_eq!(minimal_cuts(2, &[0x08], &mut cuts), Ok(2));
    assert_eq!(cuts, [1, 2, 0xFFFF]);
}
