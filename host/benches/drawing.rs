//! How long the calculator takes to read the drawing tool's text of all sets of 8 of 16 parts into a record and to write that text from the
//! record, beside a Rust baseline that closes sets a 64-bit word at a time. Times are printed and never tested; that both give the same
//! results is asserted in every round, and before that on damaged texts and records.

mod baseline {
    mod closing;
    pub mod drawing;
    // What is written of edition 2, tables and walks are for other benchmarks.
    #[allow(dead_code)]
    mod editions;
    mod numbers;
    #[allow(dead_code)]
    mod records;
    mod sizes;
    #[allow(dead_code)]
    mod table;
}
mod timing;

use nahokipe::lent::{LONGEST_DRAWING, LONGEST_RECORD};
use nahokipe_testing::comparing::{given, Call, Left};
use nahokipe_testing::making::{damaged_drawing, damaged_record, largest_drawing};
use nahokipe_testing::making::{random_drawing, random_record};
use nahokipe_testing::seeded::Seeded;
use std::hint::black_box;
use timing::{print_head, print_row, side_by_side, timed};

const ROUNDS: usize = 1_000;

/// The two steps that are timed.
struct Program {
    record_of_drawing: Call,
    drawing_of_record: Call,
}

const CALCULATOR: Program = Program {
    record_of_drawing: nahokipe::lent::record_of_drawing,
    drawing_of_record: nahokipe::lent::drawing_of_record,
};

const BASELINE: Program = Program {
    record_of_drawing: baseline::drawing::record_of_drawing,
    drawing_of_record: baseline::drawing::drawing_of_record,
};

fn main() {
    agree();
    let text = largest_drawing().into_bytes();
    let record = given(CALCULATOR.record_of_drawing, &text, LONGEST_RECORD);
    let record = record.expect("an accepted text");
    let what = format!(
        "the text of all sets of 8 of 16 parts, {} bytes, and its record, {} bytes",
        text.len(),
        record.len()
    );
    print_head(&what, ROUNDS);
    let read = |program: &Program| (program.record_of_drawing, LONGEST_RECORD);
    print_step("text read", read, &text, &record);
    let written = |program: &Program| (program.drawing_of_record, LONGEST_DRAWING);
    print_step("text written", written, &record, &text);
}

/// One step of both programs, into a buffer of a length that is always enough.
fn print_step(name: &str, step: impl Fn(&Program) -> (Call, usize), bytes: &[u8], expected: &[u8]) {
    let once = |program| {
        let (call, enough) = step(program);
        round(call, bytes, enough)
    };
    let (ours, theirs) = side_by_side(
        ROUNDS,
        || once(&CALCULATOR),
        || once(&BASELINE),
        |ours, theirs| {
            assert!(ours == theirs, "results differ");
            assert!(ours.0 == Ok(expected.len()) && ours.1.starts_with(expected));
        },
    );
    print_row(name, ours, theirs);
}

/// A call once, into a buffer that is filled with a pattern, and its nanoseconds.
fn round(call: Call, bytes: &[u8], length: usize) -> (Left<u8>, u128) {
    let mut buffer = vec![0xA5; length];
    let (answer, time) = timed(|| call(black_box(bytes), &mut buffer));
    ((answer, buffer), time)
}

/// The baseline gives what the calculator gives, refusals and their places too, into buffers that are long enough and into short ones.
fn agree() {
    let mut seeded = Seeded::new(192);
    for n in 1..=16 {
        for _ in 0..40 {
            for text in [
                random_drawing(&mut seeded, n),
                damaged_drawing(&mut seeded, n),
            ] {
                let calls = [CALCULATOR.record_of_drawing, BASELINE.record_of_drawing];
                agree_on(calls, text.as_bytes(), LONGEST_RECORD);
            }
            for bytes in [
                random_record(&mut seeded, n),
                damaged_record(&mut seeded, n),
            ] {
                let calls = [CALCULATOR.drawing_of_record, BASELINE.drawing_of_record];
                agree_on(calls, &bytes, LONGEST_DRAWING);
            }
        }
    }
}

/// Two calls leave the same, in a buffer of the most bytes that any input needs and in short ones.
fn agree_on(calls: [Call; 2], bytes: &[u8], most: usize) {
    for length in [0, 20, most] {
        let [ours, theirs] = calls.map(|call| round(call, bytes, length).0);
        assert!(ours == theirs, "{bytes:02X?} into {length} bytes");
    }
}
