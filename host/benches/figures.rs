//! How long the calculator takes for the path counts, the signature, the domination and the importances of a machine that runs on any 6
//! of its 16 parts, beside a Rust baseline that counts bits by instruction. Both check the table first. Times are printed and never
//! tested; that both give the same results is asserted in every round.

mod baseline {
    mod counts;
    pub mod figures;
    // Path counts by themselves are for other benchmarks.
    #[allow(dead_code)]
    mod sizes;
    mod table;
}
mod timing;

use nahokipe::Refusal;
use nahokipe_testing::making::six_of_sixteen;
use nahokipe_testing::naive_figures::Buffers;
use std::hint::black_box;
use timing::{print_head, print_row, side_by_side, timed};

const PARTS: usize = 16;
const ROUNDS: usize = 5_000;

/// The call that is timed.
type Program =
    fn(usize, &[u8], &mut [i64], &mut [i64], &mut [i64], &mut [u64]) -> Result<(), Refusal>;

const CALCULATOR: Program = nahokipe::lent::figures;
const BASELINE: Program = baseline::figures::figures;

fn main() {
    let table = six_of_sixteen();
    let (calculator, baseline) = side_by_side(
        ROUNDS,
        || round(CALCULATOR, &table),
        || round(BASELINE, &table),
        |ours, theirs| assert!(ours == theirs && is_known(ours), "results differ"),
    );
    print_head(
        "all figures of 6 of 16 parts, with the check of the table",
        ROUNDS,
    );
    print_row("figures", calculator, baseline);
}

/// The call once, into buffers that are filled with a pattern.
fn round(program: Program, table: &[u8]) -> (Buffers, u128) {
    let mut buffers = Buffers {
        counts: vec![0x5A5A; PARTS + 1],
        signature: vec![0x5A5A; PARTS],
        domination: vec![0x5A5A; PARTS + 1],
        importance: vec![0x5A5A; PARTS],
    };
    let (answer, time) = timed(|| {
        program(
            PARTS,
            black_box(table),
            &mut buffers.counts,
            &mut buffers.signature,
            &mut buffers.domination,
            &mut buffers.importance,
        )
    });
    assert_eq!(answer, Ok(()));
    (buffers, time)
}

/// The eleventh failure stops the machine in all 16! orders, and no part differs from another.
fn is_known(figures: &Buffers) -> bool {
    figures.signature[10] == 20_922_789_888_000
        && figures.domination[11] == -1_100_736
        && figures.importance == [1_307_674_368_000; PARTS]
}
