//! How long the calculator takes for the idle parts of 16, where none is idle, every other one is, or all but one are, beside a Rust baseline
//! that makes the same checks and compares 64 sets at a time; and beside the importances of the same table, which tell the idle parts too,
//! both by the calculator. The mask is to take no longer than the importances: a ratio of at most 1.00. Times are printed and never tested;
//! that each side gives the known mask is asserted in every round, and before that, on damaged tables too, that both programs give the same.

mod baseline {
    pub mod idle;
    mod table;
}
mod timing;

use nahokipe::{lent, Refusal};
use nahokipe_testing::making::{random_group, tables_turned_over};
use nahokipe_testing::making::{random_list_over, random_table, sets_of_size, table_of_sets};
use nahokipe_testing::seeded::Seeded;
use std::hint::black_box;
use timing::{print_columns, print_head, print_row, side_by_side, timed};

const PARTS: usize = 16;
const ROUNDS: usize = 2_000;

/// The mask of a table's idle parts, or the table's refusal.
type Mask = Result<u16, Refusal>;

/// A program that gives it.
type Program = fn(usize, &[u8]) -> Mask;

const CALCULATOR: Program = nahokipe::idle_parts;
const BASELINE: Program = baseline::idle::idle_parts;

/// A machine of 16 parts: what is said of it, its table and the mask of its idle parts.
type Machine = (&'static str, Vec<u8>, u16);

fn main() {
    agree();
    let machines = machines();
    print_head(&format!("idle parts of {PARTS}"), ROUNDS);
    for machine in &machines {
        print_beside(machine, |table| once(BASELINE, table));
    }
    let what = format!("idle parts of {PARTS} and their importances, by the calculator");
    print_columns(&what, ROUNDS, ["idle parts", "importances"]);
    for machine in &machines {
        print_beside(machine, importance_once);
    }
    println!("a ratio of at most 1.00 is no longer than the importances");
}

/// Any 8 of the parts; any 4 of the eight at the odd positions; and the last part alone.
fn machines() -> [Machine; 3] {
    let odd = |set: &u16| set & 0xAAAA == 0;
    let four: Vec<u16> = sets_of_size(PARTS, 4).into_iter().filter(odd).collect();
    let table = |list: &[u16]| table_of_sets(PARTS, list);
    [
        ("none", table(&sets_of_size(PARTS, 8)), 0),
        ("every other", table(&four), 0xAAAA),
        ("all but one", table(&[0x8000]), 0x7FFF),
    ]
}

/// The calculator's mask of a machine beside another way to it: both give the one that is known.
fn print_beside((name, table, idle): &Machine, other: impl Fn(&[u8]) -> (Mask, u128)) {
    let (ours, theirs) = side_by_side(
        ROUNDS,
        || once(CALCULATOR, table),
        || other(table),
        |ours, theirs| assert_eq!([*ours, *theirs], [Ok(*idle); 2], "{name}"),
    );
    print_row(name, ours, theirs);
}

/// A program once, and its nanoseconds.
fn once(program: Program, table: &[u8]) -> (Mask, u128) {
    timed(|| program(PARTS, black_box(table)))
}

/// The importances once, into a buffer that is filled with a pattern, and their nanoseconds; the parts that have none are the idle ones.
fn importance_once(table: &[u8]) -> (Mask, u128) {
    let mut counts = [0x5A5A; PARTS];
    let (answer, time) = timed(|| lent::importance(PARTS, black_box(table), &mut counts));
    let idle = (0..PARTS).filter(|&i| counts[i] == 0).map(|i| 1 << i);
    (answer.map(|_| idle.sum()), time)
}

/// The baseline gives what the calculator gives, refusals and their places too.
fn agree() {
    let mut seeded = Seeded::new(195);
    for n in 1..=16 {
        for _ in 0..40 {
            agree_on(n, &random_table(&mut seeded, n));
            let parts = random_group(&mut seeded, n) as u16;
            agree_on(n, &table_of_sets(n, &random_list_over(&mut seeded, parts)));
        }
        for table in tables_turned_over(&mut seeded, n) {
            agree_on(n, &table);
        }
    }
}

/// The two programs answer the same of a table.
fn agree_on(n: usize, table: &[u8]) {
    let [ours, theirs] = [CALCULATOR, BASELINE].map(|program| program(n, table));
    assert_eq!(ours, theirs, "n = {n}, {table:02X?}");
}
