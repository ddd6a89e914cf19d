//! The naive machines made of blocks against wholes worked out by hand and the paper's example; assembled machines against lists of sets
//! that are put together, and all three ways against each other: what the other tests compare with must be right.

use nahokipe_testing::known::{BLOCK_MACHINES, REFUSED_BLOCKS, REFUSED_TABLES};
use nahokipe_testing::making::{accepted_counts, lists_of, machines, mixed_blocks};
use nahokipe_testing::making::{random_blocks, random_sizes, random_table};
use nahokipe_testing::naive::{has, minimal_of, path_sets, refused, structure_of};
use nahokipe_testing::naive_blocks::*;
use nahokipe_testing::naive_figures::{binomial, factorial, path_counts, signature};
use nahokipe_testing::seeded::Seeded;
use std::collections::BTreeSet;

#[test]
fn known_machines() {
    for (blocks, table, sizes, vectors, counts) in BLOCK_MACHINES {
        let assembly = Assembly::told(blocks, table, sizes, vectors);
        let found = path_counts_of_blocks(&assembly);
        assert_eq!(found.as_deref(), Ok(counts), "{assembly:?}");
    }
}

/// Document 003's example 7: what equation 13 comes to for two blocks, 2x - 1 and 2x² - 1, and equation 12 for both in series, and the
/// signature (1/7, 8/21, 38/105, 4/35, 0, 0, 0) that follows.
#[test]
fn the_example_of_the_paper() {
    let blocks = [vec![0, 0, 2, 1], vec![0, 0, 2, 4, 1]];
    let series = structure_of(2, &[0x08]);
    let coefficients = coefficients(&series);
    assert_eq!(coefficients, [0, 0, 0, 1]);
    for x in -9_i128..=9 {
        assert_eq!(reflected(&blocks[0], x), 2 * x - 1);
        assert_eq!(reflected(&blocks[1], x), 2 * x * x - 1);
        let printed = 1 - 2 * x - 2 * x * x + 4 * x * x * x;
        assert_eq!(composed(&coefficients, &blocks, x), printed);
    }
    let whole = by_counts(&series, &blocks);
    let orders: Vec<i128> = (1..=7).map(|k| signature(&whole, k)).collect();
    let all = factorial(7);
    let printed = [all / 7, 8 * all / 21, 38 * all / 105, 4 * all / 35, 0, 0, 0];
    assert_eq!(orders, printed);
}

/// Document 003's example 3, the bridge: h(x) = 2x² + 2x³ - 5x⁴ + 2x⁵, and x⁵ h(1/x) = 2 - 5x + 2x² + 2x³.
#[test]
fn the_bridge_of_the_paper() {
    let bridge = structure_of(5, &[0x00, 0xEA, 0xEC, 0xEE]);
    let counts = path_counts(5, &bridge);
    for x in -9_i128..=9 {
        let printed = 2 - 5 * x + 2 * x.pow(2) + 2 * x.pow(3);
        assert_eq!(reflected(&counts, x), printed);
    }
    let mut by_size = [0; 6];
    for (set, coefficient) in coefficients(&bridge).into_iter().enumerate() {
        by_size[set.count_ones() as usize] += coefficient;
    }
    assert_eq!(by_size, [0, 0, 2, 2, -5, 2]);
}

/// A controller and two pumps, either of which suffices: two blocks in series, wherever their parts stand.
#[test]
fn a_machine_at_other_positions() {
    let series = structure_of(2, &[0x08]);
    for (controller, pumps) in [(0, [1, 2]), (1, [2, 0]), (2, [0, 1])] {
        let blocks = [
            Block {
                works: structure_of(1, &[0x02]),
                parts: vec![controller],
            },
            Block {
                works: structure_of(2, &[0x0E]),
                parts: pumps.to_vec(),
            },
        ];
        let lists = pumps.map(|pump| 1 << controller | 1 << pump);
        assert_eq!(assembled(&series, &blocks), path_sets(3, &lists));
    }
}

/// The sets of the whole that are put together of smallest ones: for each minimal set of the structure over the blocks a minimal set of
/// each block that it names.
fn joined_sets(over: &[bool], blocks: &[Block]) -> Vec<u16> {
    let mut joined = Vec::new();
    for running in minimal_of(blocks.len(), over) {
        let mut sets = vec![0];
        for block in (0..blocks.len()).filter(|&b| has(running as usize, b)) {
            let own = minimal_sets_of(&blocks[block]);
            let with_own = |set: u16| own.iter().map(move |inside| set | inside);
            sets = sets.into_iter().flat_map(with_own).collect();
        }
        joined.extend(sets);
    }
    joined
}

/// The minimal sets of a block, by the bits of the whole.
fn minimal_sets_of(block: &Block) -> Vec<u16> {
    let n = block.parts.len();
    let moved = |set: u16| -> u16 {
        let parts = (0..n).filter(|&i| has(set as usize, i));
        parts.map(|i| 1 << block.parts[i]).sum()
    };
    minimal_of(n, &block.works).into_iter().map(moved).collect()
}

/// Random blocks of up to eight parts in all: the assembled machine is that of the sets that are put together.
#[test]
fn assembled_machines_against_lists_of_sets() {
    let mut seeded = Seeded::new(475);
    let mut compared = 0;
    for round in 0..200 {
        let count = 1 + round % 5;
        let sizes = random_sizes(&mut seeded, count);
        let n: usize = sizes.iter().sum();
        if n > 8 {
            continue;
        }
        let block = |size| (size, random_table(&mut seeded, size));
        let tables: Vec<(usize, Vec<u8>)> = sizes.into_iter().map(block).collect();
        let blocks = mixed_blocks(&mut seeded, &tables);
        let over = structure_of(count, &random_table(&mut seeded, count));
        let list = joined_sets(&over, &blocks);
        assert_eq!(assembled(&over, &blocks), path_sets(n, &list), "{blocks:?}");
        compared += 1;
    }
    assert!(compared > 50, "{compared}");
}

/// Blocks at mixed positions have every bit of the whole once.
#[test]
fn mixed_blocks_share_no_part() {
    let mut seeded = Seeded::new(476);
    let tables = [1, 3, 2].map(|size| (size, random_table(&mut seeded, size)));
    let mut orders = BTreeSet::new();
    for _ in 0..40 {
        let blocks = mixed_blocks(&mut seeded, &tables);
        let mut bits: Vec<usize> = blocks.into_iter().flat_map(|block| block.parts).collect();
        orders.insert(bits.clone());
        bits.sort_unstable();
        assert_eq!(bits, [0, 1, 2, 3, 4, 5]);
    }
    assert!(orders.len() > 20, "{}", orders.len());
}

/// Every table over two blocks of up to three parts, and random ones of up to ten: assembling, the counts alone and the equations.
#[test]
fn three_ways_agree() {
    let mut seeded = Seeded::new(477);
    let of_size = |n| machines(n).into_iter().map(move |table| (n, table));
    let small: Vec<(usize, Vec<u8>)> = (1..=3).flat_map(of_size).collect();
    let choices: Vec<&(usize, Vec<u8>)> = small.iter().collect();
    for table in machines(2) {
        let over = structure_of(2, &table);
        for chosen in lists_of(&choices, 2) {
            let tables: Vec<(usize, Vec<u8>)> = chosen.into_iter().cloned().collect();
            agree(&over, &mixed_blocks(&mut seeded, &tables));
        }
    }
    for count in (1..=10).flat_map(|count| [count; 6]) {
        let sizes = random_sizes(&mut seeded, count).into_iter();
        let block = |size| (size, random_table(&mut seeded, size));
        let tables: Vec<(usize, Vec<u8>)> = sizes.map(block).collect();
        let over = structure_of(count, &random_table(&mut seeded, count));
        agree(&over, &mixed_blocks(&mut seeded, &tables));
    }
}

/// The three ways on blocks whose inside is known.
fn agree(over: &[bool], blocks: &[Block]) {
    let counted = |block: &Block| path_counts(block.parts.len(), &block.works);
    let counts: Vec<Vec<i128>> = blocks.iter().map(counted).collect();
    let whole = path_counts(parts_of(&counts), &assembled(over, blocks));
    assert_eq!(by_counts(over, &counts), whole, "{blocks:?}");
    agree_at_points(over, &counts);
}

/// The counts alone and the equations.
fn agree_at_points(over: &[bool], counts: &[Vec<i128>]) {
    let whole = by_counts(over, counts);
    let coefficients = coefficients(over);
    for x in -8..=8 {
        let composed = composed(&coefficients, counts, x);
        assert_eq!(reflected(&whole, x), composed, "x = {x}, {counts:?}");
    }
}

/// Counts that no block may have: the two ways that need no inside agree on all of small blocks, and on random ones.
#[test]
fn two_ways_agree_on_counts_of_none() {
    let all: Vec<Vec<i128>> = (1..=3).flat_map(accepted_counts).collect();
    assert!(all.contains(&vec![0, 1, 1, 1]));
    let choices: Vec<&Vec<i128>> = all.iter().collect();
    for table in machines(2) {
        for chosen in lists_of(&choices, 2) {
            let counts: Vec<Vec<i128>> = chosen.into_iter().cloned().collect();
            agree_at_points(&structure_of(2, &table), &counts);
        }
    }
    let mut seeded = Seeded::new(478);
    for count in 1..=10 {
        let over = structure_of(count, &random_table(&mut seeded, count));
        agree_at_points(&over, &random_blocks(&mut seeded, count));
    }
}

/// Each set of m + n parts is one of the m beside one of the n; of three parts, and of the product by four, what a person works out.
#[test]
fn products_and_other_sets() {
    for (m, n) in [(1, 1), (2, 5), (7, 9), (8, 8)] {
        let [first, second, both] =
            [m, n, m + n].map(|n| (0..=n).map(|j| binomial(n, j)).collect::<Vec<i128>>());
        assert_eq!(product(&first, &second), both);
        assert_eq!(others(&first), vec![0; m + 1]);
    }
    assert_eq!(others(&[0, 0, 2, 1]), [1, 3, 1, 0]);
    assert_eq!(product(&[1, 3, 1, 0], &[1, 4, 4]), [1, 7, 17, 16, 4, 0]);
}

#[test]
fn refusals() {
    for (blocks, table, sizes, vectors, number, place) in REFUSED_BLOCKS {
        let assembly = Assembly::told(blocks, table, sizes, vectors);
        let found = path_counts_of_blocks(&assembly);
        assert_eq!(found, refused(number, place), "{assembly:?}");
    }
    for (blocks, table, number, place) in REFUSED_TABLES {
        let assembly = Assembly::told(blocks, table, &[0, 17], &[9]);
        let found = path_counts_of_blocks(&assembly);
        assert_eq!(found, refused(number, place), "{assembly:?}");
    }
}
