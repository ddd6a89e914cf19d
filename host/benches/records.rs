//! How long the calculator takes to check the largest record, all sets of 8 of 16 parts, to make its table and to walk along its sets,
//! beside a Rust baseline that closes sets a 64-bit word at a time. Times are printed and never tested; that both give the same results
//! is asserted in every round, and before that on damaged records.

mod baseline {
    mod closing;
    // What is written of edition 2 and of a number, the listed sets that reading hands on and the check of a table are for other benchmarks.
    #[allow(dead_code)]
    mod editions;
    #[allow(dead_code)]
    mod numbers;
    #[allow(dead_code)]
    pub mod records;
    mod sizes;
    #[allow(dead_code)]
    mod table;
}
mod timing;

use nahokipe::{next_set, Record, Refusal};
use nahokipe_testing::making::{damaged_record, largest_record, random_record};
use nahokipe_testing::seeded::Seeded;
use std::hint::black_box;
use timing::{print_head, print_row, side_by_side, timed};

const ROUNDS: usize = 2_000;
const STEPS: [&str; 3] = ["record check", "its table", "walk"];

/// The three steps that are timed.
struct Program {
    whole_record: fn(&[u8]) -> Result<Record, Refusal>,
    table_of_record: fn(&[u8], &mut [u8]) -> Result<usize, Refusal>,
    walk: fn(&[u8], &Record) -> u64,
}

const CALCULATOR: Program = Program {
    whole_record: nahokipe::whole_record,
    table_of_record: nahokipe::lent::table_of_record,
    walk,
};

const BASELINE: Program = Program {
    whole_record: baseline::records::whole_record,
    table_of_record: baseline::records::table_of_record,
    walk: baseline::records::walk,
};

/// The sum of the masks that the calculator's walk meets.
fn walk(bytes: &[u8], record: &Record) -> u64 {
    let (mut next, mut left, mut sum) = (record.offset, record.sets, 0);
    while let Some(step) = next_set(bytes, next, left) {
        sum += step.set;
        (next, left) = (step.next, step.left);
    }
    sum
}

/// What the three steps gave.
#[derive(Debug, PartialEq)]
struct Results {
    record: Result<Record, Refusal>,
    made: Result<usize, Refusal>,
    table: Vec<u8>,
    sum: u64,
}

/// The nanoseconds of the three steps in one round.
type Times = [u128; 3];

fn main() {
    agree();
    let bytes = largest_record();
    let (calculator, baseline) = side_by_side(
        ROUNDS,
        || round(&CALCULATOR, &bytes),
        || round(&BASELINE, &bytes),
        |ours, theirs| assert!(ours == theirs && ours.made == Ok(8192), "results differ"),
    );
    print(bytes.len(), &calculator, &baseline);
}

/// The baseline gives what the calculator gives, refusals and their places too.
fn agree() {
    let mut seeded = Seeded::new(190);
    for n in 1..=16 {
        for _ in 0..40 {
            for bytes in [
                random_record(&mut seeded, n),
                damaged_record(&mut seeded, n),
            ] {
                let (ours, theirs) = (round(&CALCULATOR, &bytes).0, round(&BASELINE, &bytes).0);
                assert_eq!(ours, theirs);
            }
        }
    }
}

/// The three steps once, the table into a buffer that is filled with a pattern.
fn round(program: &Program, bytes: &[u8]) -> (Results, Times) {
    let mut table = vec![0xA5; 8192];
    let (record, first) = timed(|| (program.whole_record)(black_box(bytes)));
    let (made, second) = timed(|| (program.table_of_record)(black_box(bytes), &mut table));
    let (sum, third) = timed(|| {
        let walk = |record| (program.walk)(black_box(bytes), record);
        record.as_ref().map_or(0, walk)
    });
    let results = Results {
        record,
        made,
        table,
        sum,
    };
    (results, [first, second, third])
}

fn print(length: usize, calculator: &[Times], baseline: &[Times]) {
    let what = format!("the record of all sets of 8 of 16 parts, {length} bytes");
    print_head(&what, ROUNDS);
    for step in 0..STEPS.len() {
        let times = |rounds: &[Times]| rounds.iter().map(|times| times[step]).collect();
        print_row(STEPS[step], times(calculator), times(baseline));
    }
}
