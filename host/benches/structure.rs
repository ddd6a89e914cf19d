//! How long the calculator takes for the largest list there is, all sets of 8 of 16 parts, beside a Rust baseline that carries sets a
//! 64-bit word at a time. Times are printed and never tested; that both give the same results is asserted in every round.

mod baseline {
    mod closing;
    pub mod structure;
    mod table;
}
mod timing;

use nahokipe::Refusal;
use std::hint::black_box;
use timing::{print_head, print_row, side_by_side, timed};

const PARTS: usize = 16;
const ROUNDS: usize = 2_000;
const STEPS: [&str; 3] = ["list to table", "table check", "minimal sets"];

/// The three steps that are timed.
struct Program {
    table_of_list: fn(usize, &[u16], &mut [u8]) -> Result<usize, Refusal>,
    table_verdict: fn(usize, &[u8]) -> Result<(), Refusal>,
    minimal_sets: fn(usize, &[u8], &mut [u16]) -> Result<usize, Refusal>,
}

const CALCULATOR: Program = Program {
    table_of_list: nahokipe::lent::table_of_list,
    table_verdict: nahokipe::table_verdict,
    minimal_sets: nahokipe::lent::minimal_sets,
};

const BASELINE: Program = Program {
    table_of_list: baseline::structure::table_of_list,
    table_verdict: baseline::structure::table_verdict,
    minimal_sets: baseline::structure::minimal_sets,
};

/// What the three steps gave.
#[derive(PartialEq)]
struct Results {
    table: Vec<u8>,
    verdict: Result<(), Refusal>,
    sets: Vec<u16>,
}

/// The nanoseconds of the three steps in one round.
type Times = [u128; 3];

fn main() {
    let list: Vec<u16> = (0..=u16::MAX).filter(|set| set.count_ones() == 8).collect();
    let (calculator, baseline) = side_by_side(
        ROUNDS,
        || round(&CALCULATOR, &list),
        || round(&BASELINE, &list),
        |ours, theirs| assert!(ours == theirs && ours.sets == list, "results differ"),
    );
    print(list.len(), &calculator, &baseline);
}

/// The three steps once, into buffers that are filled with a pattern.
fn round(program: &Program, list: &[u16]) -> (Results, Times) {
    let (mut table, mut sets) = (vec![0xA5; 8192], vec![0xA5A5; list.len()]);
    let (made, first) = timed(|| (program.table_of_list)(PARTS, black_box(list), &mut table));
    let (verdict, second) = timed(|| (program.table_verdict)(PARTS, black_box(&table)));
    let (listed, third) = timed(|| (program.minimal_sets)(PARTS, black_box(&table), &mut sets));
    assert_eq!((made, listed), (Ok(table.len()), Ok(sets.len())));
    let results = Results {
        table,
        verdict,
        sets,
    };
    (results, [first, second, third])
}

fn print(sets: usize, calculator: &[Times], baseline: &[Times]) {
    print_head(&format!("{sets} sets of 8 of {PARTS} parts"), ROUNDS);
    for step in 0..STEPS.len() {
        let times = |rounds: &[Times]| rounds.iter().map(|times| times[step]).collect();
        print_row(STEPS[step], times(calculator), times(baseline));
    }
    let in_all = |rounds: &[Times]| rounds.iter().map(|times| times.iter().sum()).collect();
    print_row("in all", in_all(calculator), in_all(baseline));
}
