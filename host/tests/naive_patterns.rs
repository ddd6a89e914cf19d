//! The naive patterns against machines worked out by hand and against parts written as text: what the other tests compare with must be right.

use nahokipe::Pattern::{self, AtLeast, Ring, Row};
use nahokipe_testing::known::{CUT_MACHINES, REFUSED_PATTERNS, STOCK_MACHINES};
use nahokipe_testing::naive::{has, refused};
use nahokipe_testing::naive_patterns::*;

#[test]
fn known_machines() {
    for (pattern, n, k, table) in STOCK_MACHINES {
        let found = table_of_pattern(pattern, n, k);
        assert_eq!(found.as_deref(), Ok(table), "{pattern:?}, n = {n}, k = {k}");
    }
}

/// The machines of four parts that stop with two failed neighbours stand among those that are known by their cut sets.
#[test]
fn known_cut_sets() {
    for (pattern, sets) in [(Row, &[3, 6, 12][..]), (Ring, &[3, 6, 9, 12])] {
        let mut known = CUT_MACHINES.iter();
        let machine = known.find(|(n, [_, cuts], _)| *n == 4 && *cuts == sets);
        let (_, _, [table, _]) = machine.expect("a known machine");
        assert_eq!(table_of_pattern(pattern, 4, 2).as_deref(), Ok(*table));
    }
}

/// Parts in the order of their positions, `o` for one that works and `x` for one that has failed; k; and the patterns that run on them.
type Example = (&'static str, usize, &'static [Pattern]);

/// Two failures apart and together, in the middle, at the ends and across them; more failures than k; and all failed.
const EXAMPLES: [Example; 21] = [
    ("ooooo", 1, &[AtLeast, Row, Ring]),
    ("ooooo", 5, &[AtLeast, Row, Ring]),
    ("ooxoo", 1, &[AtLeast]),
    ("ooxoo", 5, &[Row, Ring]),
    ("oxoxo", 2, &[AtLeast, Row, Ring]),
    ("oxxoo", 2, &[AtLeast]),
    ("xxooo", 2, &[AtLeast]),
    ("oooxx", 2, &[AtLeast]),
    ("xooox", 2, &[AtLeast, Row]),
    ("xoxox", 2, &[AtLeast, Row]),
    ("xxoox", 3, &[Row]),
    ("xooxx", 3, &[Row]),
    ("oxxxo", 2, &[AtLeast]),
    ("oxxxo", 3, &[]),
    ("oxxxo", 4, &[Row, Ring]),
    ("xxxxo", 5, &[Row, Ring]),
    ("xxoxx", 5, &[Row, Ring]),
    ("xxoxx", 4, &[Row]),
    ("xxxxx", 1, &[]),
    ("xxxxx", 5, &[]),
    ("x", 1, &[]),
];

#[test]
fn examples_by_hand() {
    for (text, k, running) in EXAMPLES {
        let parts: Vec<bool> = text.chars().map(|part| part == 'o').collect();
        for pattern in PATTERNS {
            let expected = running.contains(&pattern);
            assert_eq!(runs(pattern, k, &parts), expected, "{pattern:?} of {text}");
        }
    }
}

/// The same a second way: the parts are a text, and k failed neighbours a text that is found in it or is not. In a ring the first k - 1 parts
/// stand behind the last one once more.
fn runs_by_text(pattern: Pattern, k: usize, text: &str) -> bool {
    let failed = "x".repeat(k);
    match pattern {
        AtLeast => text.matches('o').nth(k - 1).is_some(),
        Row => !text.contains(&failed),
        Ring => !format!("{text}{}", &text[..k - 1]).contains(&failed),
    }
}

/// The parts of a set among n, as text.
fn text_of(n: usize, set: usize) -> String {
    let letter = |i| if has(set, i) { 'o' } else { 'x' };
    (0..n).map(letter).collect()
}

#[test]
fn both_ways_agree_on_every_set() {
    for n in 1..=12 {
        let texts: Vec<String> = (0..1 << n).map(|set| text_of(n, set)).collect();
        for k in 1..=n {
            for pattern in PATTERNS {
                let by_text = texts.iter().map(|text| runs_by_text(pattern, k, text));
                let expected: Vec<bool> = by_text.collect();
                let found = structure_of(pattern, n, k);
                assert!(found == expected, "{pattern:?}, n = {n}, k = {k}");
            }
        }
    }
}

#[test]
fn refusals() {
    for (n, k, number) in REFUSED_PATTERNS {
        for pattern in PATTERNS {
            let found = table_of_pattern(pattern, n, k);
            assert_eq!(found, refused(number, 0), "{pattern:?}, n = {n}, k = {k}");
        }
    }
}
