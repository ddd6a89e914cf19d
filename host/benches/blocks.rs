//! How long the calculator takes for the path counts of machines made of blocks, 16 parts in all, beside a plain Rust program that goes the
//! same steps: 16 blocks of one part, 8 of two and 2 of eight, half of which have to run, and the bridge of five blocks. Both make all
//! checks first. Times are printed and never tested; that both give the same counts is asserted in every round, and before that, on damaged
//! blocks too, that both programs give the same.

mod baseline {
    pub mod blocks;
    // Factorials are for other benchmarks.
    #[allow(dead_code)]
    mod counts;
    mod table;
}
mod timing;

use nahokipe::lent::MOST_ENTRIES;
use nahokipe::{table_of_pattern, Pattern, Refusal};
use nahokipe_testing::making::{random_assembly, random_counts, random_table, tables_turned_over};
use nahokipe_testing::naive_blocks::Assembly;
use nahokipe_testing::seeded::Seeded;
use std::hint::black_box;
use timing::{print_head, print_row, side_by_side, timed};

const ROUNDS: usize = 400;

/// The call that is timed.
type Program = fn(usize, &[u8], &[usize], &[i64], &mut [i64]) -> Result<usize, Refusal>;

const CALCULATOR: Program = nahokipe::lent::path_counts_of_blocks;
const BASELINE: Program = baseline::blocks::path_counts_of_blocks;

fn main() {
    agree();
    print_head(
        "path counts of machines of 16 parts made of blocks, with all checks",
        ROUNDS,
    );
    for (name, assembly) in machines() {
        print_machine(name, &assembly);
    }
}

/// What is timed: what is said of it, and what the programs are told.
fn machines() -> [(&'static str, Assembly); 4] {
    let mut seeded = Seeded::new(473);
    let mut half_of = |count: usize| {
        let table = table_of_pattern(Pattern::AtLeast, count, count.div_ceil(2));
        let table = table.expect("an accepted pattern");
        let blocks: Vec<Vec<i128>> = (0..count)
            .map(|_| random_counts(&mut seeded, 16 / count))
            .collect();
        Assembly::of(&table, &blocks)
    };
    let [ones, twos, eights] = [16, 8, 2].map(&mut half_of);
    let bridge = [3, 3, 4, 3, 3].map(|size| random_counts(&mut seeded, size));
    [
        ("16 of one", ones),
        ("8 of two", twos),
        ("2 of eight", eights),
        (
            "bridge of 5",
            Assembly::of(&[0x00, 0xEA, 0xEC, 0xEE], &bridge),
        ),
    ]
}

/// Both programs on a machine: they give the same counts.
fn print_machine(name: &str, assembly: &Assembly) {
    let (calculator, baseline) = side_by_side(
        ROUNDS,
        || round(CALCULATOR, assembly),
        || round(BASELINE, assembly),
        |ours, theirs| assert!(ours == theirs, "results differ"),
    );
    print_row(name, calculator, baseline);
}

/// The call once, into a buffer that is filled with a pattern, and its nanoseconds.
fn round(program: Program, assembly: &Assembly) -> (Vec<i64>, u128) {
    let mut cells = vec![0x5A5A; MOST_ENTRIES];
    let (answer, time) = timed(|| asked(program, black_box(assembly), &mut cells));
    assert_eq!(answer, Ok(MOST_ENTRIES));
    (cells, time)
}

fn asked(program: Program, assembly: &Assembly, cells: &mut [i64]) -> Result<usize, Refusal> {
    let Assembly {
        blocks,
        table,
        sizes,
        vectors,
    } = assembly;
    program(*blocks, table, sizes, vectors, cells)
}

/// The baseline gives what the calculator gives, refusals and their places too, into a buffer that is long enough and into a short one.
fn agree() {
    let mut seeded = Seeded::new(474);
    for count in 1..=16 {
        for _ in 0..8 {
            let assembly = random_assembly(&mut seeded, count);
            agree_on(&assembly);
            for damage in 0..8 {
                agree_on(&damaged(&mut seeded, assembly.clone(), damage));
            }
        }
        for table in tables_turned_over(&mut seeded, count) {
            let mut assembly = random_assembly(&mut seeded, count);
            assembly.table = table;
            agree_on(&assembly);
        }
    }
}

/// An assembly with a number of blocks or of sizes, a size, a length or an entry changed, or with more blocks of it.
fn damaged(seeded: &mut Seeded, mut assembly: Assembly, damage: usize) -> Assembly {
    let block = seeded.between(0, assembly.blocks - 1);
    let entry = seeded.between(0, assembly.vectors.len() - 1);
    match damage {
        0 => assembly.blocks += 16,
        1 => assembly.sizes.push(1),
        2 => assembly.sizes[block] += 16,
        3 => assembly.sizes[block] -= 1,
        4 => drop(assembly.vectors.pop()),
        5 => assembly.vectors[entry] += 1,
        6 => assembly.vectors[entry] -= 1,
        _ => {
            let blocks = [16, 16].map(|size| random_counts(seeded, size));
            assembly = Assembly::of(&random_table(seeded, 2), &blocks);
        }
    }
    assembly
}

/// The two programs leave the same of what they are told.
fn agree_on(assembly: &Assembly) {
    for length in [0, assembly.blocks % 17, MOST_ENTRIES] {
        let [ours, theirs] = [CALCULATOR, BASELINE].map(|program| {
            let mut cells = vec![0x5A5A; length];
            let answer = asked(program, assembly, &mut cells);
            (answer, cells)
        });
        assert!(ours == theirs, "{assembly:?}");
    }
}
