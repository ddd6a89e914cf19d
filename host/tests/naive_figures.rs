//! The naive figures against document 01's examples and against each other: what the other tests compare with must be right.

use nahokipe_testing::making::{random_list, sets_of_size};
use nahokipe_testing::naive::{path_sets, refused};
use nahokipe_testing::naive_figures::*;
use nahokipe_testing::seeded::Seeded;
use std::collections::HashSet;

/// A list of n parts, with its path counts, tail, signature, domination and importances as document 01 gives them or by hand.
type Example = (usize, &'static [u16], [&'static [i64]; 4], &'static [u64]);

const EXAMPLES: [Example; 5] = [
    (1, &[1], [&[0, 1], &[1, 0], &[1], &[0, 1]], &[1]),
    (
        2,
        &[1, 2],
        [&[0, 2, 1], &[2, 2, 0], &[0, 2], &[0, 2, -1]],
        &[1, 1],
    ),
    (
        2,
        &[3],
        [&[0, 0, 1], &[2, 0, 0], &[2, 0], &[0, 0, 1]],
        &[1, 1],
    ),
    (
        2,
        &[1],
        [&[0, 1, 1], &[2, 1, 0], &[1, 1], &[0, 1, 0]],
        &[2, 0],
    ),
    (
        5,
        &[0x09, 0x0E, 0x12, 0x15],
        [
            &[0, 0, 2, 8, 5, 1],
            &[120, 120, 96, 24, 0, 0],
            &[0, 24, 72, 24, 0],
            &[0, 0, 2, 2, -5, 2],
        ],
        &[28, 28, 8, 28, 28],
    ),
];

#[test]
fn the_formulas_give_the_examples() {
    for (n, list, [counts, tail, signature, domination], importance) in EXAMPLES {
        let expected = Figures {
            counts: counts.to_vec(),
            tail: tail.to_vec(),
            signature: signature.to_vec(),
            domination: domination.to_vec(),
            importance: importance.to_vec(),
        };
        assert_eq!(figures_of(n, &path_sets(n, list)), expected, "{list:?}");
    }
}

#[test]
fn the_orders_give_the_examples() {
    for (n, list, [_, tail, signature, _], importance) in EXAMPLES {
        let expected = Listed {
            tail: tail.to_vec(),
            signature: signature.to_vec(),
            importance: importance.to_vec(),
        };
        let orders = failure_orders(n);
        assert_eq!(listed(&path_sets(n, list), &orders), expected, "{list:?}");
    }
}

#[test]
fn every_order_is_listed_once() {
    for (n, count) in [(1, 1), (2, 2), (3, 6), (4, 24), (7, 5_040), (8, 40_320)] {
        let orders = failure_orders(n);
        let different: HashSet<&Vec<usize>> = orders.iter().collect();
        assert_eq!((orders.len(), different.len()), (count, count));
        for order in &orders {
            let mut parts = order.clone();
            parts.sort_unstable();
            assert!(parts.into_iter().eq(0..n), "{order:?}");
        }
    }
}

/// Document 01: for n = 2 with {1}, order 1, 2 stops at its first entry and order 2, 1 at its second.
#[test]
fn an_order_stops_where_the_paper_says() {
    let works = path_sets(2, &[1]);
    assert_eq!(
        [0, 1].map(|entry| stops(&works, &[0, 1], entry)),
        [true, false]
    );
    assert_eq!(
        [0, 1].map(|entry| stops(&works, &[1, 0], entry)),
        [false, true]
    );
}

/// In an accepted structure each order has exactly one entry that stops the machine.
#[test]
fn each_order_stops_at_one_entry() {
    let mut seeded = Seeded::new(40);
    for n in 1..=6 {
        let orders = failure_orders(n);
        for _ in 0..20 {
            let works = path_sets(n, &random_list(&mut seeded, n));
            for order in &orders {
                let entries = (0..n).filter(|&entry| stops(&works, order, entry)).count();
                assert_eq!(entries, 1, "{order:?}, {works:?}");
            }
        }
    }
}

#[test]
fn orders_and_formulas_agree() {
    let mut seeded = Seeded::new(41);
    for n in 1..=8 {
        let orders = failure_orders(n);
        for _ in 0..25 {
            let works = path_sets(n, &random_list(&mut seeded, n));
            let figures = figures_of(n, &works);
            let expected = Listed {
                tail: figures.tail,
                signature: figures.signature,
                importance: figures.importance,
            };
            assert_eq!(listed(&works, &orders), expected, "n = {n}, {works:?}");
        }
    }
}

/// The closed form of machines that run on any m of their n parts.
#[test]
fn figures_of_any_m_of_n_parts() {
    for n in 1..=9 {
        for m in 1..=n {
            let works = path_sets(n, &sets_of_size(n, m as u32));
            assert_eq!(figures_of(n, &works), figures_of_any(m, n), "{m} of {n}");
        }
    }
}

#[test]
fn factorials_binomials_and_sizes() {
    assert_eq!([0, 1, 2, 3, 4].map(factorial), [1, 1, 2, 6, 24]);
    assert_eq!(factorial(16), 20_922_789_888_000);
    assert_eq!(
        [0, 1, 2, 3, 4, 5].map(|k| binomial(4, k)),
        [1, 4, 6, 4, 1, 0]
    );
    assert_eq!(binomial(16, 8), 12_870);
    assert_eq!([0, 1, 2, 3, 0x8001, 0xFFFF].map(size), [0, 1, 1, 2, 2, 16]);
}

/// Binomials by their factorials are Pascal's triangle, up to 16 and beyond.
#[test]
fn binomials_are_the_triangle() {
    for (n, row) in pascal(25).iter().enumerate() {
        for (k, &sets) in row.iter().enumerate() {
            assert_eq!(binomial(n, k), sets, "C({n},{k})");
        }
    }
}

/// Results go to the front of longer buffers, and the first buffer that is too short is named.
#[test]
fn what_the_call_of_all_figures_leaves() {
    let buffers = |counts, signature, domination, importance| Buffers {
        counts: vec![7; counts],
        signature: vec![7; signature],
        domination: vec![7; domination],
        importance: vec![7; importance],
    };
    let result = figures(2, &[0x0E]);
    let after = Buffers {
        counts: vec![0, 2, 1],
        signature: vec![0, 2, 7],
        domination: vec![0, 2, -1, 7],
        importance: vec![1, 1],
    };
    assert_eq!(
        all_delivered(&result, &buffers(3, 3, 4, 2)),
        (Ok(()), after)
    );
    for (short, needed) in [
        (buffers(2, 1, 2, 1), 3),
        (buffers(3, 1, 2, 1), 2),
        (buffers(3, 2, 2, 1), 3),
        (buffers(3, 2, 3, 1), 2),
    ] {
        let expected = (refused(11, needed), short.clone());
        assert_eq!(all_delivered(&result, &short), expected);
        let expected = (refused(9, 0), short.clone());
        assert_eq!(all_delivered(&figures(2, &[0x02]), &short), expected);
    }
}
