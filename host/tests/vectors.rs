//! Vectors: the calculator against the naive implementation, answers, places and every cell of the lent buffers.

use nahokipe::lent::{convert, vector_verdict};
use nahokipe::Refusal;
use nahokipe_testing::comparing::{buffers, same};
use nahokipe_testing::known::REFUSED_VECTORS;
use nahokipe_testing::making::{counts_of, random_counts};
use nahokipe_testing::naive::{self, refused};
use nahokipe_testing::naive_figures::{factorial, pascal};
use nahokipe_testing::naive_vectors::{self as by_words, entries_of, vector_for, KINDS, NO_KINDS};
use nahokipe_testing::naive_vectors::{DOMINATION, PATH_COUNTS, SIGNATURE, TAIL};
use nahokipe_testing::seeded::Seeded;
use std::collections::BTreeSet;

/// What buffers are filled with: a pattern and its opposite.
const CELLS: [i64; 2] = [0x5A5A_5A5A_5A5A_5A5A, !0x5A5A_5A5A_5A5A_5A5A];

// ---- comparing

/// A vector's verdict and its conversions to each kind and to no kind, into buffers of every length that matters: the verdict.
fn compare(kind: u8, n: usize, entries: &[i64]) -> Result<(), Refusal> {
    for target in KINDS.into_iter().chain(NO_KINDS) {
        let expected = by_words::convert(kind, n, entries, target);
        let around = buffers(&expected, entries_of(target, n.min(16)).max(1), CELLS);
        compare_into((kind, n, entries), target, &expected, around);
    }
    compare_verdict(kind, n, entries)
}

/// The same into one buffer for each kind, which is too short by a cell for some.
fn compare_lightly(kind: u8, n: usize, entries: &[i64]) -> Result<(), Refusal> {
    for target in KINDS {
        let expected = by_words::convert(kind, n, entries, target);
        let length = n + (entries.len() + target as usize) % 3;
        compare_into(
            (kind, n, entries),
            target,
            &expected,
            vec![vec![CELLS[0]; length]],
        );
    }
    compare_verdict(kind, n, entries)
}

fn compare_verdict(kind: u8, n: usize, entries: &[i64]) -> Result<(), Refusal> {
    let found = vector_verdict(kind, n, entries);
    let expected = by_words::verdict(kind, n, entries);
    assert_eq!(found, expected, "kind {kind}, n = {n}, {entries:?}");
    found
}

fn compare_into(
    (kind, n, entries): (u8, usize, &[i64]),
    target: u8,
    expected: &Result<Vec<i64>, Refusal>,
    around: Vec<Vec<i64>>,
) {
    let about = || format!("kind {kind} to {target}, n = {n}, {entries:?}");
    for before in around {
        let mut after = before.clone();
        let answer = convert(kind, n, entries, target, &mut after);
        same((answer, after), naive::delivered(expected, &before), about);
    }
}

/// The numbers and places that were seen, with 0 for accepted vectors.
#[derive(Default)]
struct Seen(BTreeSet<(u8, usize)>);

impl Seen {
    fn add(&mut self, verdict: Result<(), Refusal>) {
        let refusal = verdict.err().map(|refusal| (refusal.number, refusal.place));
        self.0.insert(refusal.unwrap_or((0, 0)));
    }
}

// ---- vectors of few parts

/// Accepted, 13 at every size and 14 at every size from which a proportion can fall are among them.
#[test]
fn every_vector_of_up_to_four_parts() {
    for n in 1..=4 {
        for kind in KINDS {
            let mut seen = Seen::default();
            for counts in counts_of(n) {
                seen.add(compare(kind, n, &vector_for(kind, &counts)));
            }
            let falling = (1..n - 1).map(|j| (14, j));
            let expected = [(0, 0)].into_iter().chain(not_possible(kind, n));
            let expected = expected.chain(falling);
            assert_eq!(seen.0, expected.collect(), "kind {kind}, n = {n}");
        }
    }
}

/// 13 at every size that a vector has an entry for: a signature has none for size 0.
fn not_possible(kind: u8, n: usize) -> impl Iterator<Item = (u8, usize)> {
    let least = if kind == SIGNATURE { 1 } else { 0 };
    (least..=n).map(|j| (13, j))
}

/// The same with each entry one more and one less: path counts that are not whole, and many that are not possible.
#[test]
fn every_vector_of_up_to_four_parts_shifted() {
    for n in 1..=4 {
        for kind in KINDS {
            let mut seen = Seen::default();
            for counts in counts_of(n) {
                for index in 0..entries_of(kind, n) {
                    for shift in [-1, 1] {
                        let mut entries = vector_for(kind, &counts);
                        entries[index] += shift;
                        seen.add(compare_lightly(kind, n, &entries));
                    }
                }
            }
            assert!(seen.0.is_superset(&not_possible(kind, n).collect()));
        }
    }
}

// ---- vectors of up to sixteen parts

#[test]
fn accepted_vectors_there_and_back() {
    let mut seeded = Seeded::new(120);
    for n in 1..=16 {
        for _ in 0..30 {
            let counts = random_counts(&mut seeded, n);
            for kind in KINDS {
                let entries = vector_for(kind, &counts);
                assert_eq!(compare(kind, n, &entries), Ok(()));
                for target in KINDS {
                    let there = given(kind, n, &entries, target);
                    assert_eq!(given(target, n, &there, kind), entries);
                }
            }
        }
    }
}

/// The vector of another kind of an accepted one.
fn given(kind: u8, n: usize, entries: &[i64], target: u8) -> Vec<i64> {
    let mut cells = vec![CELLS[0]; entries_of(target, n)];
    let answer = convert(kind, n, entries, target, &mut cells);
    assert_eq!(answer, Ok(cells.len()), "kind {kind} to {target}");
    cells
}

/// Each C(n,k) as the calls use it, against Pascal's triangle: so many sets of k parts can be path sets, and not one more.
#[test]
fn every_binomial_as_a_bound() {
    for (n, row) in pascal(17).into_iter().enumerate().skip(1) {
        for k in 1..n {
            let sets = |size: usize| if size < k { 0 } else { row[size] as i64 };
            let mut counts: Vec<i64> = (0..=n).map(sets).collect();
            assert_eq!(
                vector_verdict(PATH_COUNTS, n, &counts),
                Ok(()),
                "C({n},{k})"
            );
            counts[k] += 1;
            let one_more = vector_verdict(PATH_COUNTS, n, &counts);
            assert_eq!(one_more, refused(13, k), "C({n},{k}) + 1");
        }
    }
}

/// The same of the machine that any part alone keeps running: d(k) is C(n,k), and for even k its negative.
#[test]
fn every_binomial_as_a_domination() {
    for (n, row) in pascal(17).into_iter().enumerate().skip(1) {
        let counts: Vec<i64> = (0..=n)
            .map(|k| if k == 0 { 0 } else { row[k] as i64 })
            .collect();
        let sign = |k: usize| if k % 2 == 0 { -1 } else { 1 };
        let domination: Vec<i64> = (0..=n).map(|k| sign(k) * counts[k]).collect();
        assert_eq!(given(PATH_COUNTS, n, &counts, DOMINATION), domination);
        assert_eq!(given(DOMINATION, n, &domination, PATH_COUNTS), counts);
    }
}

/// One count more or less than accepted: 14 on both sides of an edge, or 13.
#[test]
fn counts_one_beside() {
    let mut seeded = Seeded::new(121);
    let mut seen = Seen::default();
    for n in 1..=16 {
        for _ in 0..25 {
            let mut counts = random_counts(&mut seeded, n);
            let j = seeded.between(0, n);
            counts[j] += seeded.pick(&[-1, 1]);
            for kind in KINDS {
                seen.add(compare_lightly(kind, n, &vector_for(kind, &counts)));
            }
        }
    }
    let falls = seen.0.iter().filter(|(number, _)| *number == 14).count();
    assert!(falls > 9, "{:?}", seen.0);
}

/// One entry more or less than accepted, in every kind.
#[test]
fn entries_one_beside() {
    let mut seeded = Seeded::new(122);
    for n in 1..=16 {
        for _ in 0..15 {
            let counts = random_counts(&mut seeded, n);
            for kind in KINDS {
                for index in 0..entries_of(kind, n) {
                    let mut entries = vector_for(kind, &counts);
                    entries[index] += seeded.pick(&[-1, 1]);
                    compare_lightly(kind, n, &entries).ok();
                }
            }
        }
    }
}

/// Numbers at the edges of 64 bits, and around n! and the weights of sizes.
fn extremes(n: usize) -> Vec<i64> {
    let narrow = |number: i128| number as i64;
    let weights = (0..=n).map(|j| narrow(factorial(j) * factorial(n - j)));
    let around = weights.flat_map(|weight| [weight - 1, weight, weight + 1, -weight]);
    let edges = [i64::MIN, i64::MAX, 1 << 62, -(1 << 62), 1 << 61, 1 << 32];
    let near = |&edge: &i64| [edge.saturating_sub(1), edge, edge.saturating_add(1)];
    let edges = edges.iter().flat_map(near).collect::<Vec<i64>>();
    around.chain(edges).chain(-2..=2).collect()
}

/// Vectors of such numbers alone, and accepted ones with one or two entries replaced by such a number or moved by one.
#[test]
fn extreme_entries() {
    let mut seeded = Seeded::new(123);
    for n in 1..=16 {
        let extremes = extremes(n);
        for kind in KINDS {
            for _ in 0..120 {
                let length = entries_of(kind, n);
                let entries: Vec<i64> = (0..length).map(|_| seeded.pick(&extremes)).collect();
                compare_lightly(kind, n, &entries).ok();
                let mut entries = vector_for(kind, &random_counts(&mut seeded, n));
                for _ in 0..seeded.between(1, 2) {
                    let (index, extreme) = (seeded.between(0, length - 1), seeded.pick(&extremes));
                    let moved = entries[index].wrapping_add(extreme);
                    entries[index] = seeded.pick(&[extreme, moved]);
                }
                compare_lightly(kind, n, &entries).ok();
            }
        }
    }
}

/// Totals that are n! only because they leave 64 bits on the way, and pairs that cancel each other.
#[test]
fn sums_that_wrap_around() {
    for n in 2..=16 {
        for (large, kind) in [i64::MAX, i64::MIN, 1 << 62, -(1 << 62)]
            .into_iter()
            .flat_map(|large| KINDS.map(|kind| (large, kind)))
        {
            let counts: Vec<i128> = (0..=n).map(|j| if j < n { 0 } else { 1 }).collect();
            let length = entries_of(kind, n);
            for (a, b) in [(0, 1), (0, length - 1), (length - 2, length - 1)] {
                let mut entries = vector_for(kind, &counts);
                entries[a] = entries[a].wrapping_add(large);
                entries[b] = entries[b].wrapping_sub(large);
                compare_lightly(kind, n, &entries).ok();
            }
        }
    }
}

// ---- kinds, n and lengths

/// Every length from 0 on past the right one: 12 for each but the right one.
#[test]
fn every_length() {
    for n in 1..=16 {
        for kind in KINDS {
            for length in 0..=n + 3 {
                let verdict = compare(kind, n, &vec![0; length]);
                let number = verdict.expect_err("no accepted vector").number;
                assert_eq!(number == 12, length != entries_of(kind, n));
            }
        }
    }
}

/// 26 before 1, and 1 before all of the vector.
#[test]
fn no_kinds_and_no_numbers_of_parts() {
    let far = [0, 17, 18, 32, 64, 1 << 32, (1 << 32) + 3, usize::MAX];
    for n in far {
        for length in [0, 1, 2, 16, 17, 18] {
            let entries = vec![0; length];
            for kind in KINDS {
                assert_eq!(compare(kind, n, &entries), refused(1, 0));
            }
            for kind in NO_KINDS {
                assert_eq!(compare(kind, n, &entries), refused(26, 0));
            }
        }
    }
    for kind in NO_KINDS {
        for n in 1..=16 {
            assert_eq!(compare(kind, n, &vec![0; n + 1]), refused(26, 0));
        }
    }
}

/// No number but 1 to 4 is a kind, neither of the vector nor of the target.
#[test]
fn every_number_of_a_kind() {
    for kind in 0..=255 {
        let is_kind = KINDS.contains(&kind);
        let number = vector_verdict(kind, 1, &[]).expect_err("no entries").number;
        assert_eq!(number, if is_kind { 12 } else { 26 });
        let answer = convert(PATH_COUNTS, 1, &[0, 1], kind, &mut [0; 2]);
        assert_eq!(answer.is_ok(), is_kind);
    }
}

// ---- examples

/// Document 01's examples of this layer.
#[test]
fn examples_of_the_paper() {
    let bridge: [(u8, &[i64]); 4] = [
        (PATH_COUNTS, &[0, 0, 2, 8, 5, 1]),
        (TAIL, &[120, 120, 96, 24, 0, 0]),
        (SIGNATURE, &[0, 24, 72, 24, 0]),
        (DOMINATION, &[0, 0, 2, 2, -5, 2]),
    ];
    for (kind, entries) in bridge {
        for (target, expected) in bridge {
            assert_eq!(given(kind, 5, entries, target), expected);
        }
    }
    assert_eq!(vector_verdict(1, 3, &[0, 3, 2, 1]), refused(14, 1));
    assert_eq!(vector_verdict(1, 4, &[0, 0, 1, 1, 1]), Ok(()));
    let tail = [120, 120, 100, 24, 0, 0];
    assert_eq!(vector_verdict(2, 5, &tail), refused(13, 3));
}

/// Places are sizes, all of 13 comes before 14, and sums leave 64 bits.
#[test]
fn examples_of_places() {
    for (kind, n, entries, number, place) in REFUSED_VECTORS {
        let found = vector_verdict(kind, n, entries);
        assert_eq!(found, refused(number, place), "{kind}, {entries:?}");
    }
}

/// 11 names the length that is needed, which is one less for a signature.
#[test]
fn examples_of_lent_buffers() {
    let counts = [0, 0, 2, 8, 5, 1];
    for (target, needed) in [(1, 6), (2, 6), (3, 5), (4, 6)] {
        let mut cells = [9; 8];
        let short = convert(1, 5, &counts, target, &mut cells[..needed - 1]);
        assert_eq!((short, cells), (refused(11, needed), [9; 8]));
        assert_eq!(convert(1, 5, &counts, target, &mut cells), Ok(needed));
        assert_eq!(cells[needed..], [9; 8][needed..]);
    }
}
