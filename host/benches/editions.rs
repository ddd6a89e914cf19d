//! How long the calculator takes for the largest record as one of edition 2, all sets of 8 of 16 parts and 64 retired numbers: to check it,
//! to make its table and to take parts out of it, beside a Rust baseline that closes sets a 64-bit word at a time and counts bits by
//! instruction; and beside the same record of edition 1, both by the calculator. Times are printed and never tested; that each side gives
//! what the naive program gives is asserted in every round, and before that, on damaged records of both editions too, that both programs
//! give the same.

mod baseline {
    pub mod changes;
    mod closing;
    mod editions;
    mod numbers;
    // Walks and the check of a table are for other benchmarks.
    #[allow(dead_code)]
    pub mod records;
    mod sizes;
    #[allow(dead_code)]
    mod table;
}
mod timing;

use nahokipe::lent::LONGEST_RECORD;
use nahokipe::Refusal;
use nahokipe_testing::comparing::Left;
use nahokipe_testing::making::{damaged_edition_2, damaged_record, random_edition_2};
use nahokipe_testing::making::{largest_edition_2, largest_record, random_group, random_record};
use nahokipe_testing::naive_records::{changed, table_of_record, Change};
use nahokipe_testing::seeded::Seeded;
use std::hint::black_box;
use timing::{print_columns, print_head, print_row, side_by_side, timed};

const ROUNDS: usize = 1_000;

/// What is done with a record and some of its parts, named by a position or by a group, into a buffer.
type Call = fn(&[u8], usize, &mut [u8]) -> Result<usize, Refusal>;

/// The steps that are timed.
struct Program {
    check: Call,
    table: Call,
    take_out: Call,
    take_out_group: Call,
}

const CALCULATOR: Program = Program {
    check: |bytes, _, _| nahokipe::whole_record(bytes).map(|record| record.sets),
    table: |bytes, _, table| nahokipe::lent::table_of_record(bytes, table),
    take_out: nahokipe::lent::take_out,
    take_out_group: nahokipe::lent::take_out_group,
};

const BASELINE: Program = Program {
    check: |bytes, _, _| baseline::records::whole_record(bytes).map(|record| record.sets),
    table: |bytes, _, table| baseline::records::table_of_record(bytes, table),
    take_out: baseline::changes::take_out,
    take_out_group: baseline::changes::take_out_group,
};

/// A step: its name, what is called of a program, and the parts.
type Step = (&'static str, fn(&Program) -> Call, usize);

const STEPS: [Step; 4] = [
    ("record check", |program| program.check, 0),
    ("its table", |program| program.table, 0),
    ("one part", |program| program.take_out, 1),
    ("eight parts", |program| program.take_out_group, 0x00FF),
];

fn main() {
    agree();
    let (first, second) = (largest_record(), largest_edition_2());
    let what = format!(
        "the record of all sets of 8 of 16 parts with 64 retired numbers, {} bytes",
        second.len()
    );
    print_head(&what, ROUNDS);
    for step in STEPS {
        print_beside(step, (&CALCULATOR, &second), (&BASELINE, &second));
    }
    print_columns(
        "the same, by the calculator",
        ROUNDS,
        ["edition 2", "edition 1"],
    );
    for step in STEPS {
        print_beside(step, (&CALCULATOR, &second), (&CALCULATOR, &first));
    }
}

/// A program and the record that it is given.
type Side<'a> = (&'a Program, &'a [u8]);

/// A step on two sides, each of which gives what the naive program does.
fn print_beside((name, call, parts): Step, one: Side, other: Side) {
    let once = |(program, bytes): Side| round(call(program), bytes, parts, LONGEST_RECORD);
    let expected = [one.1, other.1].map(|bytes| expected(name, bytes, parts));
    let (ours, theirs) = side_by_side(
        ROUNDS,
        || once(one),
        || once(other),
        |ours, theirs| {
            for (left, expected) in [ours, theirs].into_iter().zip(&expected) {
                assert!(left == expected, "{name}: another result");
            }
        },
    );
    print_row(name, ours, theirs);
}

/// What a step leaves, by the naive program: the check hands out the number of sets and writes nothing.
fn expected(name: &str, bytes: &[u8], parts: usize) -> Left<u8> {
    let untouched = vec![0xA5; LONGEST_RECORD];
    let result = match name {
        "record check" => return (Ok(12_870), untouched),
        "its table" => table_of_record(bytes),
        "one part" => changed(bytes, Change::TakeOut(parts)),
        _ => changed(bytes, Change::TakeOutGroup(parts)),
    };
    nahokipe_testing::naive::delivered(&result, &untouched)
}

/// A call once, into a buffer that is filled with a pattern, and its nanoseconds.
fn round(call: Call, bytes: &[u8], parts: usize, length: usize) -> (Left<u8>, u128) {
    let mut buffer = vec![0xA5; length];
    let (answer, time) = timed(|| call(black_box(bytes), black_box(parts), &mut buffer));
    ((answer, buffer), time)
}

/// The baseline gives what the calculator gives, refusals and their places too, into buffers that are long enough and into short ones.
fn agree() {
    let mut seeded = Seeded::new(196);
    for n in 1..=16 {
        for _ in 0..40 {
            let group = random_group(&mut seeded, n);
            for bytes in [
                random_record(&mut seeded, n),
                damaged_record(&mut seeded, n),
                random_edition_2(&mut seeded, n),
                damaged_edition_2(&mut seeded, n),
            ] {
                agree_on(&bytes, group);
                agree_on(&bytes, seeded.between(0, n + 1));
            }
        }
    }
}

/// The two programs leave the same at every step, and of a record itself they say the same.
fn agree_on(bytes: &[u8], parts: usize) {
    let [ours, theirs] = [nahokipe::whole_record, baseline::records::whole_record];
    assert_eq!(ours(bytes), theirs(bytes), "{bytes:02X?}");
    for (name, call, _) in STEPS {
        for length in [0, 20, LONGEST_RECORD] {
            let left = |program| round(call(program), bytes, parts, length).0;
            let about = || format!("{name} of {bytes:02X?}, {length} lent");
            assert!(left(&CALCULATOR) == left(&BASELINE), "{}", about());
        }
    }
}
