//! How long the calculator takes to take one part, and groups of several, out of the largest record, all sets of 8 of 16 parts, beside a
//! Rust baseline that closes and sorts sets a 64-bit word at a time. Times are printed and never tested; that both give the same results
//! is asserted in every round, and before that on damaged records.

mod baseline {
    pub mod changes;
    mod closing;
    mod editions;
    mod numbers;
    // Tables and walks are for other benchmarks.
    #[allow(dead_code)]
    mod records;
    mod sizes;
    #[allow(dead_code)]
    mod table;
}
mod timing;

use nahokipe::lent::LONGEST_RECORD;
use nahokipe::Refusal;
use nahokipe_testing::comparing::Left;
use nahokipe_testing::making::{damaged_record, largest_record, random_group, random_record};
use nahokipe_testing::naive_records::{changed, Change};
use nahokipe_testing::seeded::Seeded;
use std::hint::black_box;
use timing::{print_head, print_row, side_by_side, timed};

const ROUNDS: usize = 1_000;

/// The groups that are timed: the first parts, so that all the others move.
const GROUPS: [(&str, usize); 3] = [
    ("two parts", 0x0003),
    ("four parts", 0x000F),
    ("eight parts", 0x00FF),
];

/// A call that takes parts out of a record, named by a position or by a group.
type Call = fn(&[u8], usize, &mut [u8]) -> Result<usize, Refusal>;

/// The two changes that are timed.
struct Program {
    take_out: Call,
    take_out_group: Call,
}

const CALCULATOR: Program = Program {
    take_out: nahokipe::lent::take_out,
    take_out_group: nahokipe::lent::take_out_group,
};

const BASELINE: Program = Program {
    take_out: baseline::changes::take_out,
    take_out_group: baseline::changes::take_out_group,
};

fn main() {
    agree();
    let record = largest_record();
    let what = format!(
        "parts taken out of the record of all sets of 8 of 16 parts, {} bytes",
        record.len()
    );
    print_head(&what, ROUNDS);
    let calls = [CALCULATOR.take_out, BASELINE.take_out];
    print_step("one part", calls, &record, (1, Change::TakeOut(1)));
    let calls = [CALCULATOR.take_out_group, BASELINE.take_out_group];
    for (name, group) in GROUPS {
        print_step(name, calls, &record, (group, Change::TakeOutGroup(group)));
    }
}

/// One change by both programs, whose new record is that of the naive program.
fn print_step(name: &str, calls: [Call; 2], record: &[u8], (parts, change): (usize, Change)) {
    let expected = changed(record, change).expect("a set left");
    let once = |call| round(call, record, parts, LONGEST_RECORD);
    let (ours, theirs) = side_by_side(
        ROUNDS,
        || once(calls[0]),
        || once(calls[1]),
        |ours, theirs| {
            assert!(ours == theirs, "results differ");
            assert!(ours.0 == Ok(expected.len()) && ours.1.starts_with(&expected));
        },
    );
    print_row(name, ours, theirs);
}

/// A call once, into a buffer that is filled with a pattern, and its nanoseconds.
fn round(call: Call, bytes: &[u8], parts: usize, length: usize) -> (Left<u8>, u128) {
    let mut buffer = vec![0xA5; length];
    let (answer, time) = timed(|| call(black_box(bytes), black_box(parts), &mut buffer));
    ((answer, buffer), time)
}

/// The baseline gives what the calculator gives, refusals and their places too, into buffers that are long enough and into short ones.
fn agree() {
    let mut seeded = Seeded::new(193);
    for n in 1..=16 {
        for _ in 0..40 {
            for bytes in [
                random_record(&mut seeded, n),
                damaged_record(&mut seeded, n),
            ] {
                let calls = [CALCULATOR.take_out, BASELINE.take_out];
                for position in [0, 1, seeded.between(1, n), n, n + 1, usize::MAX] {
                    agree_on(calls, &bytes, position);
                }
                let calls = [CALCULATOR.take_out_group, BASELINE.take_out_group];
                let some = random_group(&mut seeded, n);
                for group in [0, 1, some, (1 << n) - 1, 1 << n, usize::MAX] {
                    agree_on(calls, &bytes, group);
                }
            }
        }
    }
}

/// Two calls leave the same, in a buffer of the most bytes that any record needs and in short ones.
fn agree_on(calls: [Call; 2], bytes: &[u8], parts: usize) {
    for length in [0, 20, LONGEST_RECORD] {
        let [ours, theirs] = calls.map(|call| round(call, bytes, parts, length).0);
        assert!(ours == theirs, "{parts:#x} of {bytes:02X?}, {length} lent");
    }
}
