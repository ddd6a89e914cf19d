//! How long the calculator takes for the joint signature of two machines of 16 parts, beside a plain Rust program that goes the same steps:
//! any 8 parts beside the same, a row beside a ring, and a few parts in series beside a random machine. Both check both tables first. Times
//! are printed and never tested; that both give the same square, of 16! orders, is asserted in every round, and before that, on damaged tables
//! too, that both programs give the same.

mod baseline {
    // Binomials are for other benchmarks.
    #[allow(dead_code)]
    mod counts;
    pub mod joint;
    mod table;
}
mod timing;

use nahokipe::lent::MOST_JOINT;
use nahokipe::{table_of_pattern, Pattern, Refusal};
use nahokipe_testing::making::{random_pair, random_table, table_of_sets, tables_turned_over};
use nahokipe_testing::seeded::Seeded;
use std::hint::black_box;
use timing::{print_head, print_row, side_by_side, timed};

const PARTS: usize = 16;
const ROUNDS: usize = 200;

/// The call that is timed.
type Program = fn(usize, &[u8], &[u8], &mut [u64]) -> Result<usize, Refusal>;

const CALCULATOR: Program = nahokipe::lent::joint_signature;
const BASELINE: Program = baseline::joint::joint_signature;

/// Two machines of 16 parts: what is said of them, and their tables.
type Pair = (&'static str, [Vec<u8>; 2]);

fn main() {
    agree();
    print_head(
        &format!("joint signature of two machines of {PARTS} parts, with the check of both tables"),
        ROUNDS,
    );
    for pair in pairs() {
        print_pair(&pair);
    }
}

/// Any 8 parts beside the same; stopped by three failed neighbours in a row, and by four in a ring; five parts in series beside a random
/// machine.
fn pairs() -> [Pair; 3] {
    let pattern = |pattern, k| table_of_pattern(pattern, PARTS, k).expect("an accepted pattern");
    let eight = pattern(Pattern::AtLeast, 8);
    let row = pattern(Pattern::Row, 3);
    let ring = pattern(Pattern::Ring, 4);
    let series = table_of_sets(PARTS, &[0b1001_0010_0100_1000]);
    let random = random_table(&mut Seeded::new(197), PARTS);
    [
        ("8 twice", [eight.clone(), eight]),
        ("row, ring", [row, ring]),
        ("series, other", [series, random]),
    ]
}

/// Both programs on a pair: they give the same square, and its cells are all 16! orders.
fn print_pair((name, tables): &Pair) {
    let (calculator, baseline) = side_by_side(
        ROUNDS,
        || round(CALCULATOR, tables),
        || round(BASELINE, tables),
        |ours, theirs| {
            assert!(ours == theirs, "results differ");
            assert_eq!(ours.iter().sum::<u64>(), 20_922_789_888_000, "{name}");
        },
    );
    print_row(name, calculator, baseline);
}

/// The call once, into a buffer that is filled with a pattern, and its nanoseconds.
fn round(program: Program, [first, second]: &[Vec<u8>; 2]) -> (Vec<u64>, u128) {
    let mut square = vec![0x5A5A; MOST_JOINT];
    let call = || program(PARTS, black_box(first), black_box(second), &mut square);
    let (answer, time) = timed(call);
    assert_eq!(answer, Ok(MOST_JOINT));
    (square, time)
}

/// The baseline gives what the calculator gives, refusals and their places too, into a buffer that is long enough and into a short one.
fn agree() {
    let mut seeded = Seeded::new(198);
    for n in 1..=16 {
        for _ in 0..8 {
            let [first, second] = random_pair(&mut seeded, n);
            agree_on(n, &first, &second);
            agree_on(n, &first, &first);
        }
        let machine = random_table(&mut seeded, n);
        for table in tables_turned_over(&mut seeded, n) {
            agree_on(n, &table, &machine);
            agree_on(n, &machine, &table);
        }
    }
}

/// The two programs leave the same of a pair.
fn agree_on(n: usize, first: &[u8], second: &[u8]) {
    for length in [n * n - 1, MOST_JOINT] {
        let [ours, theirs] = [CALCULATOR, BASELINE].map(|program| {
            let mut square = vec![0x5A5A; length];
            let answer = program(n, first, second, &mut square);
            (answer, square)
        });
        assert!(ours == theirs, "n = {n}, {first:02X?}, {second:02X?}");
    }
}
