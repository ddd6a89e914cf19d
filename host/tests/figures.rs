//! Figures: the calculator against failure orders listed one by one, against the formulas, and against known machines; answers, places
//! and every cell of the lent buffers.

use nahokipe::lent::{domination, figures, importance, path_counts, signature, tail};
use nahokipe::Refusal;
use nahokipe_testing::comparing::{about_table, front, same_of_table, OfTable};
use nahokipe_testing::known::REFUSED_TABLES;
use nahokipe_testing::making::{flipped, machines, random_table, sets_of_size, table_of_sets};
use nahokipe_testing::naive::{self, refused, structure_of};
use nahokipe_testing::naive_figures::{self as by_formulas, all_delivered, binomial, factorial};
use nahokipe_testing::naive_figures::{failure_orders, figures_of_any, listed};
use nahokipe_testing::naive_figures::{Buffers, Figures, Listed};
use nahokipe_testing::seeded::Seeded;

/// What buffers are filled with: a pattern and its opposite.
const SIGNED: [i64; 2] = [0x5A5A_5A5A_5A5A_5A5A, !0x5A5A_5A5A_5A5A_5A5A];
const UNSIGNED: [u64; 2] = [0x5A5A_5A5A_5A5A_5A5A, !0x5A5A_5A5A_5A5A_5A5A];

// ---- comparing

/// All calls on a table, into buffers of every length that matters.
fn compare(n: usize, table: &[u8]) {
    let expected = by_formulas::figures(n, table);
    let of = |figure: fn(Figures) -> Vec<i64>| expected.clone().map(figure);
    let (cells, one_more) = (n.clamp(1, 16), (n.min(16) + 1, SIGNED));
    same_of_table(path_counts, (n, table), &of(|all| all.counts), one_more);
    same_of_table(tail, (n, table), &of(|all| all.tail), one_more);
    let counts = of(|all| all.signature);
    same_of_table(signature, (n, table), &counts, (cells, SIGNED));
    same_of_table(domination, (n, table), &of(|all| all.domination), one_more);
    let counts = expected.clone().map(|all| all.importance);
    same_of_table(importance, (n, table), &counts, (cells, UNSIGNED));
    for more in AROUND {
        compare_all((n, table), &expected, around(n, more));
    }
}

/// How many cells more than needed, or fewer, the four buffers of `figures` have: exact, longer, one of them short, all short.
const AROUND: [[isize; 4]; 8] = [
    [0, 0, 0, 0],
    [1, 2, 3, 9],
    [9, 3, 2, 1],
    [-1, 0, 0, 0],
    [1, -1, 0, 0],
    [0, 1, -1, 0],
    [0, 0, 1, -1],
    [-1, -1, -1, -1],
];

/// The lengths of the four buffers.
fn around(n: usize, more: [isize; 4]) -> [usize; 4] {
    let most = n.min(16);
    let needed = [most + 1, most, most + 1, most];
    std::array::from_fn(|i| needed[i].saturating_add_signed(more[i]))
}

/// The call of all figures at once, into four buffers of these lengths.
fn compare_all(
    (n, table): (usize, &[u8]),
    expected: &Result<Figures, Refusal>,
    lengths: [usize; 4],
) {
    for pattern in [0, 1] {
        let before = filled(pattern, lengths);
        let mut after = before.clone();
        let answer = call_figures(n, table, &mut after);
        assert_eq!(
            (answer, after),
            all_delivered(expected, &before),
            "lengths {lengths:?}, {}",
            about_table(n, table)
        );
    }
}

fn filled(pattern: usize, [counts, signature, domination, importance]: [usize; 4]) -> Buffers {
    Buffers {
        counts: vec![SIGNED[pattern]; counts],
        signature: vec![SIGNED[pattern]; signature],
        domination: vec![SIGNED[pattern]; domination],
        importance: vec![UNSIGNED[pattern]; importance],
    }
}

fn call_figures(n: usize, table: &[u8], buffers: &mut Buffers) -> Result<(), Refusal> {
    figures(
        n,
        table,
        &mut buffers.counts,
        &mut buffers.signature,
        &mut buffers.domination,
        &mut buffers.importance,
    )
}

/// What the calls that fill one buffer give for an accepted table.
fn given(n: usize, table: &[u8]) -> Figures {
    Figures {
        counts: given_by(path_counts, (n, table), vec![SIGNED[0]; n + 1]),
        tail: given_by(tail, (n, table), vec![SIGNED[0]; n + 1]),
        signature: given_by(signature, (n, table), vec![SIGNED[0]; n]),
        domination: given_by(domination, (n, table), vec![SIGNED[0]; n + 1]),
        importance: given_by(importance, (n, table), vec![UNSIGNED[0]; n]),
    }
}

fn given_by<T>(call: OfTable<T>, (n, table): (usize, &[u8]), mut cells: Vec<T>) -> Vec<T> {
    assert_eq!(call(n, table, &mut cells), Ok(cells.len()));
    cells
}

// ---- against failure orders

/// The calculator's tail, signature and importances are what listing all orders shows.
fn compare_with_orders(n: usize, table: &[u8], orders: &[Vec<usize>]) {
    let figures = given(n, table);
    let found = Listed {
        tail: figures.tail,
        signature: figures.signature,
        importance: figures.importance,
    };
    let expected = listed(&structure_of(n, table), orders);
    assert_eq!(found, expected, "n = {n}, {table:02X?}");
}

/// Every semicoherent structure of up to four parts.
#[test]
fn orders_of_every_machine_of_up_to_four_parts() {
    for (n, count) in [(1, 1), (2, 4), (3, 18), (4, 166)] {
        let orders = failure_orders(n);
        let machines = machines(n);
        assert_eq!(machines.len(), count);
        for table in machines {
            compare_with_orders(n, &table, &orders);
        }
    }
}

#[test]
fn orders_of_random_machines_of_up_to_eight_parts() {
    let mut seeded = Seeded::new(50);
    for n in 1..=8 {
        let orders = failure_orders(n);
        for _ in 0..60 {
            let table = random_table(&mut seeded, n);
            compare_with_orders(n, &table, &orders);
        }
    }
}

// ---- against the formulas

#[test]
fn every_machine_of_up_to_four_parts() {
    for n in 1..=4 {
        for table in machines(n) {
            compare(n, &table);
        }
    }
}

#[test]
fn random_machines_of_up_to_sixteen_parts() {
    let mut seeded = Seeded::new(51);
    for n in 1..=16 {
        for _ in 0..30 {
            let table = random_table(&mut seeded, n);
            compare(n, &table);
        }
    }
}

/// Every order stops the machine once, at one failure and by one part: both counts add up to n!.
#[test]
fn signature_and_importances_add_up_to_all_orders() {
    let mut seeded = Seeded::new(52);
    for n in 1..=16 {
        for _ in 0..50 {
            let figures = given(n, &random_table(&mut seeded, n));
            let signature: i128 = figures.signature.iter().map(|&cell| cell as i128).sum();
            let importance: i128 = figures.importance.iter().map(|&cell| cell as i128).sum();
            assert_eq!((signature, importance), (factorial(n), factorial(n)));
        }
    }
}

/// The domination leads back: φ(k) is the sum of C(n-j, k-j) × d(j).
#[test]
fn path_counts_come_back_from_the_domination() {
    let mut seeded = Seeded::new(53);
    for n in 1..=16 {
        for _ in 0..50 {
            let figures = given(n, &random_table(&mut seeded, n));
            let term = |k: usize, j: usize| binomial(n - j, k - j) * figures.domination[j] as i128;
            for k in 0..=n {
                let back: i128 = (0..=k).map(|j| term(k, j)).sum();
                assert_eq!(back, figures.counts[k] as i128, "n = {n}, k = {k}");
            }
        }
    }
}

#[test]
fn all_figures_at_once_are_those_of_the_single_calls() {
    let mut seeded = Seeded::new(54);
    for n in 1..=16 {
        for _ in 0..50 {
            let table = random_table(&mut seeded, n);
            let mut at_once = filled(1, around(n, [0; 4]));
            assert_eq!(call_figures(n, &table, &mut at_once), Ok(()));
            let figures = given(n, &table);
            let one_by_one = Buffers {
                counts: figures.counts,
                signature: figures.signature,
                domination: figures.domination,
                importance: figures.importance,
            };
            assert_eq!(at_once, one_by_one, "n = {n}, {:02X?}", front(&table));
        }
    }
}

// ---- known machines

/// Machines that run on any m of their n parts, whose figures are known.
#[test]
fn any_m_of_n_parts() {
    for n in 1..=16 {
        for m in 1..=n {
            let table = table_of_sets(n, &sets_of_size(n, m as u32));
            assert_eq!(given(n, &table), figures_of_any(m, n), "{m} of {n}");
        }
    }
}

/// A machine that runs exactly while one of its parts does: that part stops it in every order, at each failure equally often.
#[test]
fn one_part_decides_alone() {
    for n in 1..=16 {
        for part in 0..n {
            let figures = given(n, &table_of_sets(n, &[1 << part]));
            let mut importance = vec![0; n];
            importance[part] = factorial(n) as u64;
            assert_eq!(figures.importance, importance);
            assert_eq!(figures.signature, vec![factorial(n - 1) as i64; n]);
            let mut domination = vec![0; n + 1];
            domination[1] = 1;
            assert_eq!(figures.domination, domination);
        }
    }
}

/// The largest numbers of the six of sixteen parts, digit by digit.
#[test]
fn six_of_sixteen_parts() {
    let figures = given(16, &table_of_sets(16, &sets_of_size(16, 6)));
    assert_eq!(figures.counts[8], 12_870);
    assert_eq!(figures.tail[10..12], [20_922_789_888_000, 0]);
    assert_eq!(figures.signature[9..12], [0, 20_922_789_888_000, 0]);
    assert_eq!(figures.domination[11], -1_100_736);
    assert_eq!(figures.importance, [1_307_674_368_000; 16]);
}

// ---- examples

/// Document 01's proved examples of the figures, and the bridge's report.
#[test]
fn examples_of_the_paper() {
    let bridge = given(5, &[0x00, 0xEA, 0xEC, 0xEE]);
    assert_eq!(bridge.counts, [0, 0, 2, 8, 5, 1]);
    assert_eq!(bridge.tail, [120, 120, 96, 24, 0, 0]);
    assert_eq!(bridge.signature, [0, 24, 72, 24, 0]);
    assert_eq!(bridge.domination, [0, 0, 2, 2, -5, 2]);
    assert_eq!(bridge.importance, [28, 28, 8, 28, 28]);
    let one = given(1, &[0x02]);
    assert_eq!((one.signature, one.domination), (vec![1], vec![0, 1]));
    let either = given(2, &[0x0E]);
    assert_eq!(either.signature, [0, 2]);
    assert_eq!(either.domination, [0, 2, -1]);
    let both = given(2, &[0x08]);
    assert_eq!(both.signature, [2, 0]);
    assert_eq!(both.domination, [0, 0, 1]);
    let first = given(2, &[0x0A]);
    assert_eq!(
        (first.signature, first.importance),
        (vec![1, 1], vec![2, 0])
    );
}

/// Room is asked for in the order path counts, signature, domination, importances, and the first that lacks it names its need.
#[test]
fn examples_of_short_buffers() {
    for (lengths, needed) in [
        ([5, 4, 5, 4], 6),
        ([6, 4, 5, 4], 5),
        ([6, 5, 5, 4], 6),
        ([6, 5, 6, 4], 5),
        ([0, 0, 0, 0], 6),
        ([99, 0, 99, 99], 5),
    ] {
        let mut buffers = filled(0, lengths);
        let answer = call_figures(5, &[0x00, 0xEA, 0xEC, 0xEE], &mut buffers);
        assert_eq!(answer, refused(11, needed));
        assert_eq!(buffers, filled(0, lengths));
    }
}

// ---- refusals

/// Each refusal of a table, with its place, by every call; and n first, then the table's checks in their order.
#[test]
fn each_refusal_with_its_place() {
    let of_16 = table_of_sets(16, &[0xFFFF]);
    let of_other_parts: [(usize, &[u8], u8, usize); 2] = [(17, &of_16, 1, 0), (15, &of_16, 6, 0)];
    for (n, table, number, place) in REFUSED_TABLES.into_iter().chain(of_other_parts) {
        let refusal = Refusal { number, place };
        assert_eq!(naive::table_verdict(n, table), Err(refusal));
        compare(n, table);
    }
}

#[test]
fn numbers_of_parts_far_outside() {
    let table = table_of_sets(16, &[0xFFFF]);
    for n in [18, 31, 32, 64, 80, 1 << 32, (1 << 32) + 3, usize::MAX] {
        for length in [0, 1, 8, 8192] {
            compare(n, &table[..length]);
        }
    }
}

/// Every table of up to three parts, and random machines with one or two bits turned over: refused or not, and whatever the buffers.
#[test]
fn tables_that_may_be_broken() {
    for n in 1..=3 {
        for byte in 0..=255 {
            compare(n, &[byte]);
        }
    }
    let mut seeded = Seeded::new(55);
    for n in 4..=16 {
        for _ in 0..20 {
            let full = (1 << n) - 1;
            let once = flipped(&random_table(&mut seeded, n), seeded.between(0, full));
            compare(n, &once);
            compare(n, &flipped(&once, seeded.between(0, full)));
        }
    }
}

/// Four buffers, each empty, one cell short, exact or longer, in every combination; on a machine, and on a table that is none.
#[test]
fn every_combination_of_four_buffers() {
    let mut seeded = Seeded::new(56);
    for n in [1, 2, 3, 5, 7, 11, 16] {
        let machine = random_table(&mut seeded, n);
        let broken = flipped(&machine, (1 << n) - 1);
        for table in [&machine, &broken] {
            let expected = by_formulas::figures(n, table);
            for number in 0..256 {
                let more = |i: usize| [-99, -1, 0, 2][number / 4_usize.pow(i as u32) % 4];
                let lengths = around(n, std::array::from_fn(more));
                compare_all((n, table), &expected, lengths);
            }
        }
    }
}
