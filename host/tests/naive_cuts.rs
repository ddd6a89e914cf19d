//! The naive cut sets against machines worked out by hand, against each other and against path sets: what the other tests compare with must
//! be right.

use nahokipe_testing::known::CUT_MACHINES;
use nahokipe_testing::making::{machines, random_list};
use nahokipe_testing::naive::{self, path_sets, refused, structure_of, table_of};
use nahokipe_testing::naive_cuts::*;
use nahokipe_testing::seeded::Seeded;

#[test]
fn known_machines() {
    for (n, [paths, cuts], [table, dual_table]) in CUT_MACHINES {
        assert_eq!(table_of(&path_sets(n, paths)), table, "{paths:?}");
        assert_eq!(table_of_cuts(n, cuts).as_deref(), Ok(table), "{cuts:?}");
        assert_eq!(minimal_cuts(n, table).as_deref(), Ok(cuts), "{paths:?}");
        assert_eq!(dual(n, table).as_deref(), Ok(dual_table), "{paths:?}");
    }
}

/// Repeats, sets that hold others, and any order change nothing.
#[test]
fn lists_in_other_words() {
    let bridge = [0x00, 0xEA, 0xEC, 0xEE];
    let cuts = [24, 3, 21, 31, 14, 3, 27];
    assert_eq!(table_of_cuts(5, &cuts).as_deref(), Ok(&bridge[..]));
}

/// All sets of the bridge whose failure stops it: those that hold {1,2}, {2,3,4}, {1,3,5} or {4,5}.
#[test]
fn every_cut_set_of_the_bridge() {
    let works = path_sets(5, &[9, 14, 18, 21]);
    let cuts = [3, 7, 11, 14, 15, 19, 21, 23, 24, 25, 26, 27, 28, 29, 30, 31];
    assert_eq!(cut_sets(5, &works), cuts);
    assert!((0..32).all(|failed| is_cut(5, &works, failed) == cuts.contains(&failed)));
}

#[test]
fn what_a_set_lacks() {
    assert_eq!([0, 1, 2, 3].map(|set| lacking(2, set)), [3, 2, 1, 0]);
    assert_eq!(lacking(5, 0x0E), 0x11);
    assert_eq!(lacking(16, 0x8001), 0x7FFE);
}

#[test]
fn both_ways_from_a_list_agree() {
    let mut seeded = Seeded::new(350);
    for round in 0..1_000 {
        let n = 1 + round % 10;
        let cuts = random_list(&mut seeded, n);
        let works = left_by_cuts(n, &cuts);
        assert_eq!(left_by_cuts_falling(n, &cuts), works, "n = {n}, {cuts:?}");
    }
}

/// And the minimal path sets of the dual are the same.
#[test]
fn both_ways_to_the_minimal_cuts_agree_on_any_set_function() {
    let mut seeded = Seeded::new(351);
    for round in 0..1_000 {
        let n = 1 + round % 8;
        let one_in = seeded.between(2, 40);
        let works: Vec<bool> = (0..1 << n)
            .map(|_| seeded.between(1, one_in) != 1)
            .collect();
        let minimal = minimal_of(n, &works);
        assert_eq!(minimal_of_rising(n, &works), minimal, "n = {n}, {works:?}");
        let of_dual = naive::minimal_of(n, &dual_of(n, &works));
        assert_eq!(of_dual, minimal, "n = {n}, {works:?}");
    }
}

/// A set is a cut set exactly if it takes a part from every path set.
#[test]
fn cut_sets_meet_every_path_set() {
    for n in 1..=4 {
        for table in machines(n) {
            let works = structure_of(n, &table);
            let meets_all = |failed| (0..1 << n).all(|path| !works[path] || path & failed != 0);
            let meeting: Vec<usize> = (0..1 << n).filter(|&failed| meets_all(failed)).collect();
            assert_eq!(cut_sets(n, &works), meeting, "n = {n}, {table:02X?}");
        }
    }
}

#[test]
fn refusals_of_lists_and_tables() {
    assert_eq!(table_of_cuts(0, &[]), refused(1, 0));
    assert_eq!(table_of_cuts(2, &[]), refused(2, 0));
    assert_eq!(table_of_cuts(2, &[1; 12_871]), refused(3, 0));
    assert_eq!(table_of_cuts(2, &[1, 4, 0]), refused(4, 1));
    assert_eq!(table_of_cuts(2, &[1, 0, 4]), refused(5, 1));
    for (n, byte, number, place) in [(17, 2, 1, 0), (2, 0x1E, 7, 0), (3, 0xC4, 10, 2)] {
        assert_eq!(minimal_cuts(n, &[byte]), refused(number, place));
        assert_eq!(dual(n, &[byte]), refused(number, place));
    }
}
