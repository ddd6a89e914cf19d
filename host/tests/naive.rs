//! The naive implementation against itself and against document 01's own words: what the other tests compare with must be right.

use nahokipe_testing::naive::*;
use nahokipe_testing::seeded::Seeded;

#[test]
fn both_ways_to_the_path_sets_agree() {
    let mut seeded = Seeded::new(1);
    for round in 0..2_000 {
        let n = 1 + round % 10;
        let list = random_list(&mut seeded, n);
        let works = path_sets(n, &list);
        assert_eq!(path_sets_rising(n, &list), works, "n = {n}, list {list:?}");
    }
}

#[test]
fn both_ways_to_the_minimal_sets_agree_on_any_set_function() {
    let mut seeded = Seeded::new(2);
    for round in 0..1_000 {
        let n = 1 + round % 8;
        let one_in = seeded.between(2, 40);
        let works: Vec<bool> = (0..1 << n)
            .map(|_| seeded.between(1, one_in) == 1)
            .collect();
        let minimal = minimal_of(n, &works);
        assert_eq!(minimal_of_rising(n, &works), minimal, "n = {n}, {works:?}");
    }
}

#[test]
fn a_table_is_accepted_exactly_if_it_is_semicoherent() {
    for n in 1..=4 {
        for number in 0..1_u32 << (1 << n) {
            let works: Vec<bool> = (0..1 << n).map(|set| has(number as usize, set)).collect();
            let accepted = table_verdict(n, &table_of(&works)).is_ok();
            assert_eq!(accepted, is_semicoherent(&works), "n = {n}, {works:?}");
        }
    }
}

/// Dedekind's numbers without the two structures that never and always run.
#[test]
fn there_are_as_many_structures_as_dedekind_counted() {
    for (n, count) in [(1, 1), (2, 4), (3, 18), (4, 166)] {
        let accepted = (0..1_u32 << (1 << n))
            .filter(|number| is_semicoherent_number(n, *number as usize))
            .count();
        assert_eq!(accepted, count, "n = {n}");
    }
}

/// Document 01: every set holding a path set is one, the empty set isn't and the full set is.
fn is_semicoherent(works: &[bool]) -> bool {
    let sets = works.len();
    let rises = |a: usize| !works[a] || (0..sets).all(|b| works[b] || !holds(b, a));
    (0..sets).all(rises) && !works[0] && works[sets - 1]
}

fn is_semicoherent_number(n: usize, number: usize) -> bool {
    let works: Vec<bool> = (0..1 << n).map(|set| has(number, set)).collect();
    table_verdict(n, &table_of(&works)).is_ok()
}

fn random_list(seeded: &mut Seeded, n: usize) -> Vec<u16> {
    let length = seeded.between(1, 12);
    (0..length)
        .map(|_| seeded.between(1, (1 << n) - 1) as u16)
        .collect()
}
