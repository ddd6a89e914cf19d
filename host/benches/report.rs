//! How long the calculator takes for the report on the largest record, all sets of 8 of 16 parts, beside a Rust baseline that closes sets a
//! 64-bit word at a time and counts bits by instruction. Where the environment variable NAHOKIPE_REPORT names the report program, it is
//! timed as a whole too, beside the baseline as a program of its own: this one, called with an argument. Times are printed and never
//! tested; that both give the same text is asserted in every round.

mod baseline {
    mod closing;
    mod counts;
    // What is written of edition 2 and of a number and the checks of tables are for other benchmarks.
    #[allow(dead_code)]
    mod editions;
    #[allow(dead_code)]
    mod figures;
    #[allow(dead_code)]
    mod numbers;
    #[allow(dead_code)]
    mod records;
    pub mod report;
    mod sizes;
    #[allow(dead_code)]
    mod table;
}
mod timing;

use nahokipe::Refusal;
use nahokipe_testing::making::{damaged_record, largest_record, random_record};
use nahokipe_testing::seeded::Seeded;
use std::hint::black_box;
use std::io::{Read, Write};
use std::path::{Path, PathBuf};
use std::process::{Command, Stdio};
use timing::{print_head, print_row, side_by_side, timed};

const ROUNDS: usize = 3_000;
const PROGRAM_ROUNDS: usize = 500;

/// The argument with which this is the baseline's program.
const AS_PROGRAM: &str = "as-program";

/// The call that is timed.
type Call = fn(&[u8], &mut [u8], &mut [u8]) -> Result<usize, Refusal>;

const CALCULATOR: Call = nahokipe::lent::report;
const BASELINE: Call = baseline::report::report;

fn main() {
    if std::env::args().any(|argument| argument == AS_PROGRAM) {
        run_as_program();
        return;
    }
    agree();
    let bytes = largest_record();
    let (ours, theirs) = side_by_side(
        ROUNDS,
        || round(CALCULATOR, &bytes),
        || round(BASELINE, &bytes),
        same_text,
    );
    print_head("the report on all sets of 8 of 16 parts", ROUNDS);
    print_row("report", ours, theirs);
    match std::env::var_os("NAHOKIPE_REPORT") {
        Some(program) => time_programs(&bytes, Path::new(&program)),
        None => println!("NAHOKIPE_REPORT names no program: only the calls are timed"),
    }
}

/// What one round gives, and its nanoseconds.
type Round = (Vec<u8>, u128);

fn same_text(ours: &Vec<u8>, theirs: &Vec<u8>) {
    assert!(ours == theirs, "results differ");
}

/// The call once, into buffers that are filled with a pattern: the table with the text behind it, or a refusal's line.
fn round(call: Call, bytes: &[u8]) -> Round {
    let (mut table, mut text) = (vec![0xA5; 8192], vec![0xA5; 4_096]);
    let (answer, time) = timed(|| call(black_box(bytes), &mut table, &mut text));
    let given = match answer {
        Ok(_) => [table, text].concat(),
        Err(refusal) => refusal.to_string().into_bytes(),
    };
    (given, time)
}

/// The baseline gives what the calculator gives, refusals and their places too.
fn agree() {
    let mut seeded = Seeded::new(191);
    for n in 1..=16 {
        for _ in 0..20 {
            for bytes in [
                random_record(&mut seeded, n),
                damaged_record(&mut seeded, n),
            ] {
                assert!(round(CALCULATOR, &bytes).0 == round(BASELINE, &bytes).0);
            }
        }
    }
}

// ---- whole programs

fn time_programs(bytes: &[u8], program: &Path) {
    let this: PathBuf = std::env::current_exe().expect("this program");
    let (ours, theirs) = side_by_side(
        PROGRAM_ROUNDS,
        || program_round(&mut Command::new(program), bytes),
        || program_round(Command::new(&this).arg(AS_PROGRAM), bytes),
        same_text,
    );
    println!("as whole programs, from their start to their end, median of {PROGRAM_ROUNDS} rounds");
    print_row("program", ours, theirs);
}

/// The program once, from its start to its end.
fn program_round(command: &mut Command, bytes: &[u8]) -> Round {
    let command = command.stdin(Stdio::piped()).stdout(Stdio::piped());
    timed(|| {
        let mut program = command.spawn().expect("the program runs");
        let mut input = program.stdin.take().expect("a pipe");
        input.write_all(bytes).expect("the program reads");
        drop(input);
        let output = program.wait_with_output().expect("the program ends");
        output.stdout
    })
}

/// The baseline as a program: from standard input to standard output.
fn run_as_program() {
    let mut bytes = Vec::with_capacity(40_000);
    let input = std::io::stdin().lock().take(40_000).read_to_end(&mut bytes);
    input.expect("an input");
    let text = baseline::report::printed(&bytes);
    std::io::stdout().write_all(&text).expect("an output");
}
