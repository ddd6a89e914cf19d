//! Stock patterns: the calculator against the naive walk along the parts, on every set of every pattern; what is known of their figures, path
//! sets and cut sets; and refusals, with every cell of the lent buffers.

use nahokipe::lent::{self, LONGEST_TABLE};
use nahokipe::{dual, figures, minimal_cuts, minimal_sets, table_of_pattern, table_verdict, tail};
use nahokipe::{Figures, Pattern};
use nahokipe_testing::comparing::same_of_pattern;
use nahokipe_testing::known::{REFUSED_PATTERNS, STOCK_MACHINES};
use nahokipe_testing::making::{sets_of_size, table_of_sets};
use nahokipe_testing::naive::{refused, table_length};
use nahokipe_testing::naive_figures::figures_of_any;
use nahokipe_testing::naive_patterns::{self as by_parts, PATTERNS};

/// Every n and k that a pattern can have.
fn every_size() -> impl Iterator<Item = (usize, usize)> {
    (1..=16).flat_map(|n| (1..=n).map(move |k| (n, k)))
}

/// The table of a pattern whose n and k are accepted.
fn given(pattern: Pattern, n: usize, k: usize) -> Vec<u8> {
    table_of_pattern(pattern, n, k).expect("an accepted pattern")
}

// ---- tables

/// Whole tables, so every set of parts, into buffers of every length that matters.
#[test]
fn every_pattern_of_every_size() {
    for (n, k) in every_size() {
        for pattern in PATTERNS {
            let expected = by_parts::table_of_pattern(pattern, n, k);
            assert!(expected.is_ok());
            same_of_pattern((pattern, n, k), &expected);
        }
    }
}

#[test]
fn every_table_is_semicoherent() {
    for (n, k) in every_size() {
        for pattern in PATTERNS {
            let verdict = table_verdict(n, &given(pattern, n, k));
            assert_eq!(verdict, Ok(()), "{pattern:?}, n = {n}, k = {k}");
        }
    }
}

#[test]
fn examples() {
    for (pattern, n, k, table) in STOCK_MACHINES {
        assert_eq!(given(pattern, n, k), table, "{pattern:?}, n = {n}, k = {k}");
    }
}

// ---- at least k of n

/// All n! orders are at N(n-k+1).
#[test]
fn figures_of_at_least_k_of_n() {
    for (n, k) in every_size() {
        let table = given(Pattern::AtLeast, n, k);
        let known = figures_of_any(k, n);
        assert_eq!(tail(n, &table), Ok(known.tail), "{k} of {n}");
        let known = Figures {
            path_counts: known.counts,
            signature: known.signature,
            domination: known.domination,
            importance: known.importance,
        };
        assert_eq!(figures(n, &table), Ok(known), "{k} of {n}");
    }
}

/// All sets of k parts suffice, and all sets of n-k+1 parts stop the machine.
#[test]
fn minimal_sets_and_cuts_of_at_least_k_of_n() {
    for (n, k) in every_size() {
        let table = given(Pattern::AtLeast, n, k);
        let (paths, cuts) = (minimal_sets(n, &table), minimal_cuts(n, &table));
        assert!(paths == Ok(sets_of_size(n, k as u32)), "{k} of {n}");
        let others = (n - k + 1) as u32;
        assert!(cuts == Ok(sets_of_size(n, others)), "{k} of {n}");
    }
}

/// At least n-k+1 of n.
#[test]
fn the_dual_of_at_least_k_of_n() {
    for (n, k) in every_size() {
        let turned = dual(n, &given(Pattern::AtLeast, n, k));
        let others = given(Pattern::AtLeast, n, n - k + 1);
        assert!(turned == Ok(others), "{k} of {n}");
    }
}

// ---- neighbours

/// The sets of k neighbours of n, ascending and each once: in a row they begin at each position that has k - 1 behind it, in a ring at each
/// position.
fn neighbours(pattern: Pattern, n: usize, k: usize) -> Vec<u16> {
    let beginnings = match pattern {
        Pattern::Ring => n,
        _ => n - k + 1,
    };
    let from = |first| (first..first + k).map(|at| 1_u16 << (at % n)).sum();
    let mut sets: Vec<u16> = (0..beginnings).map(from).collect();
    sets.sort_unstable();
    sets.dedup();
    sets
}

/// In a ring with k = n that is one set.
#[test]
fn minimal_cuts_are_the_sets_of_k_neighbours() {
    for (n, k) in every_size() {
        for pattern in [Pattern::Row, Pattern::Ring] {
            let cuts = minimal_cuts(n, &given(pattern, n, k));
            let about = format!("{pattern:?}, n = {n}, k = {k}");
            assert_eq!(cuts, Ok(neighbours(pattern, n, k)), "{about}");
        }
    }
}

/// Four parts, stopped by two neighbours.
#[test]
fn two_neighbours_of_four() {
    let cuts = |pattern| minimal_cuts(4, &given(pattern, 4, 2)).expect("an accepted table");
    assert_eq!(cuts(Pattern::Row), [3, 6, 12]);
    assert_eq!(cuts(Pattern::Ring), [3, 6, 9, 12]);
}

/// All parts are needed: at least n of them, or none may fail.
#[test]
fn parts_in_series() {
    for n in 1..=16 {
        let series = table_of_sets(n, &sets_of_size(n, n as u32));
        for (pattern, k) in [(Pattern::AtLeast, n), (Pattern::Row, 1), (Pattern::Ring, 1)] {
            assert!(given(pattern, n, k) == series, "{pattern:?} of {n}");
        }
    }
}

/// Any part suffices: at least one of them, or not all may fail.
#[test]
fn parts_in_parallel() {
    for n in 1..=16 {
        let parallel = table_of_sets(n, &sets_of_size(n, 1));
        for (pattern, k) in [(Pattern::AtLeast, 1), (Pattern::Row, n), (Pattern::Ring, n)] {
            assert!(given(pattern, n, k) == parallel, "{pattern:?} of {n}");
        }
    }
}

// ---- refusals

/// A number that loses its higher bits where it is cut to 8, 16, 32 or 63 of them.
fn with_higher_bits(number: usize) -> [usize; 4] {
    [8, 16, 32, 63].map(|bit| number + (1 << bit))
}

/// 1 for every number of parts that is none of 1 to 16, whatever k is and whatever is lent.
#[test]
fn wrong_numbers_of_parts() {
    let near = [0, 17, 18, 31, 32, 63, 64, 65, usize::MAX - 1, usize::MAX];
    for n in (1..=16).flat_map(with_higher_bits).chain(near) {
        for k in [0, 1, 2, 16, 17, n.wrapping_sub(1), n, usize::MAX] {
            for pattern in PATTERNS {
                same_of_pattern((pattern, n, k), &refused(1, 0));
            }
        }
    }
}

/// 29 for every k that is none of 1 to n, whatever is lent.
#[test]
fn wrong_thresholds() {
    for n in 1..=16 {
        let far = [31, 32, 63, 64, 65, usize::MAX - 1, usize::MAX];
        let near = [0].into_iter().chain(n + 1..=n + 17);
        let cut = (0..=n).flat_map(with_higher_bits);
        for k in near.chain(far).chain(cut) {
            for pattern in PATTERNS {
                same_of_pattern((pattern, n, k), &refused(29, 0));
            }
        }
    }
}

/// n first, then k, then the buffer.
#[test]
fn examples_of_the_order_of_checks() {
    for pattern in PATTERNS {
        for (n, k, number) in REFUSED_PATTERNS {
            let mut table = [0xA5; 4];
            for lent in [&mut table[..], &mut []] {
                let answer = lent::table_of_pattern(pattern, n, k, lent);
                assert_eq!(answer, refused(number, 0), "{pattern:?}, n = {n}, k = {k}");
            }
            assert_eq!(table, [0xA5; 4]);
        }
        assert_eq!(
            lent::table_of_pattern(pattern, 5, 5, &mut []),
            refused(11, 4)
        );
    }
}

/// 11 with the length needed, for every length below it, and nothing is written.
#[test]
fn every_short_buffer() {
    for (n, k) in every_size() {
        let needed = table_length(n);
        for pattern in PATTERNS {
            let mut table = [0xA5; LONGEST_TABLE];
            for length in 0..needed {
                let answer = lent::table_of_pattern(pattern, n, k, &mut table[..length]);
                assert_eq!(answer, refused(11, needed), "{length} for {n} parts");
            }
            assert!(table == [0xA5; LONGEST_TABLE], "{pattern:?}, {k} of {n}");
        }
    }
}
