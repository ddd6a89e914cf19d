//! How long the calculator takes for the shares of a group of 8 parts by both routes, in a machine that runs on any 6 of its 16 parts,
//! beside a plain Rust program that goes the same steps. Both check the table first. Times are printed and never tested; that both give
//! the same results, by either route, is asserted in every round.

mod baseline {
    mod counts;
    pub mod shares;
    mod table;
}
mod timing;

use nahokipe::Refusal;
use nahokipe_testing::making::six_of_sixteen;
use std::hint::black_box;
use timing::{print_head, print_row, side_by_side, timed};

const PARTS: usize = 16;
const GROUP: usize = 0x5A5A;
const ROUNDS: usize = 2_000;

/// The call that is timed.
type Program = fn(usize, &[u8], usize, &mut [i64], &mut [i64]) -> Result<usize, Refusal>;

const CALCULATOR: Program = nahokipe::lent::shares_by_both_routes;
const BASELINE: Program = baseline::shares::shares_by_both_routes;

fn main() {
    let table = six_of_sixteen();
    let (calculator, baseline) = side_by_side(
        ROUNDS,
        || round(CALCULATOR, &table),
        || round(BASELINE, &table),
        |ours, theirs| {
            assert!(ours == theirs && ours[0] == ours[1], "results differ");
            // Any of the 16 parts may be the one that stops the machine, and the group has half of them.
            assert_eq!(ours[0].iter().sum::<i64>(), 20_922_789_888_000 / 2);
        },
    );
    print_head(
        "shares of 8 of 16 parts by both routes, with the check of the table",
        ROUNDS,
    );
    print_row("shares", calculator, baseline);
}

/// The call once, into buffers that are filled with a pattern.
fn round(program: Program, table: &[u8]) -> ([Vec<i64>; 2], u128) {
    let mut shares = [vec![0x5A5A; 8], vec![0x5A5A; 8]];
    let [first, second] = &mut shares;
    let (answer, time) = timed(|| program(PARTS, black_box(table), GROUP, first, second));
    assert_eq!(answer, Ok(8));
    (shares, time)
}
