//! How long the calculator takes to save vectors of 16 parts as sheets, of their own kind and of one that is named, and to read them, beside a
//! plain Rust program that judges, converts, writes and reads the same. Times are printed and never tested; that both leave what the naive
//! program says is asserted in every round, and before that, on vectors and sheets that are refused too, that both programs leave the same.

mod baseline {
    mod counts;
    mod numbers;
    pub mod sheets;
    // The check of a table is for other benchmarks.
    #[allow(dead_code)]
    mod table;
}
mod timing;

use nahokipe::lent::{self, Sheet, LONGEST_SHEET, MOST_ENTRIES};
use nahokipe::{Kind, Refusal};
use nahokipe_testing::comparing::Left;
use nahokipe_testing::making::random_counts;
use nahokipe_testing::naive::delivered;
use nahokipe_testing::naive_vectors::{self, sheet_bytes, vector_for, KINDS, NO_KINDS, TAIL};
use nahokipe_testing::seeded::Seeded;
use std::hint::black_box;
use timing::{print_head, print_row, side_by_side, timed};

const PARTS: usize = 16;
const ROUNDS: usize = 2_000;

/// A call takes less than the clock can tell, so that so many are timed together, each of another vector.
const VECTORS: usize = 100;

/// The calls that are timed.
type SaveSheet = fn(u8, usize, &[i64], &mut [u8]) -> Result<usize, Refusal>;
type SaveSheetAs = fn(u8, usize, &[i64], u8, &mut [u8]) -> Result<usize, Refusal>;
type ReadSheet = fn(&[u8], &mut [i64]) -> Result<Sheet, Refusal>;

/// A program that has them.
struct Program {
    save_sheet: SaveSheet,
    save_sheet_as: SaveSheetAs,
    read_sheet: ReadSheet,
}

const CALCULATOR: Program = Program {
    save_sheet: lent::save_sheet,
    save_sheet_as: lent::save_sheet_as,
    read_sheet: lent::read_sheet,
};

const BASELINE: Program = Program {
    save_sheet: baseline::sheets::save_sheet,
    save_sheet_as: baseline::sheets::save_sheet_as,
    read_sheet: baseline::sheets::read_sheet,
};

/// What buffers are filled with, and how long they are.
const SHEET: [u8; LONGEST_SHEET] = [0xA5; LONGEST_SHEET];
const CELLS: [i64; MOST_ENTRIES] = [0x5A5A; MOST_ENTRIES];

/// Vectors of a kind, all of 16 parts.
struct Vectors {
    kind: u8,
    all: Vec<Vec<i64>>,
}

impl Vectors {
    /// The kind as it is printed.
    fn name(&self) -> String {
        let kind = Kind::try_from(self.kind);
        kind.expect("a kind").to_string()
    }
}

fn main() {
    agree();
    let mut seeded = Seeded::new(199);
    let counts: Vec<Vec<i128>> = (0..VECTORS)
        .map(|_| random_counts(&mut seeded, PARTS))
        .collect();
    let vectors = KINDS.map(|kind| Vectors {
        kind,
        all: counts.iter().map(|each| vector_for(kind, each)).collect(),
    });
    let what = format!("{VECTORS} vectors of {PARTS} parts");
    print_head(&format!("{what} saved, a tail as the signature"), ROUNDS);
    vectors.iter().for_each(print_saved);
    print_head(&format!("{what}, tails, saved as a kind by name"), ROUNDS);
    let targets = vectors.iter().filter(|vectors| vectors.kind != TAIL);
    let [_, tails, ..] = &vectors;
    targets.for_each(|target| print_saved_as(tails, target));
    print_head(&format!("{what} read from their sheets"), ROUNDS);
    vectors.iter().for_each(print_read);
}

/// Vectors saved.
fn print_saved(vectors: &Vectors) {
    let (kind, all) = (vectors.kind, &vectors.all);
    let call = |program: &Program, index: usize, sheet: &mut [u8]| {
        (program.save_sheet)(kind, PARTS, black_box(&all[index]), sheet)
    };
    let expected = |entries: &Vec<i64>| naive_vectors::save_sheet(kind, PARTS, entries);
    let expected = left(all.iter().map(expected), &SHEET);
    print_step(&vectors.name(), call, &expected, &SHEET);
}

/// Vectors saved as those of another kind.
fn print_saved_as(vectors: &Vectors, target: &Vectors) {
    let (kind, all) = (vectors.kind, &vectors.all);
    let call = |program: &Program, index: usize, sheet: &mut [u8]| {
        (program.save_sheet_as)(kind, PARTS, black_box(&all[index]), target.kind, sheet)
    };
    let expected = |entries: &Vec<i64>| Ok(sheet_bytes(target.kind, PARTS, entries));
    let expected = left(target.all.iter().map(expected), &SHEET);
    print_step(&target.name(), call, &expected, &SHEET);
}

/// Vectors read from their sheets, tails from tail sheets.
fn print_read(vectors: &Vectors) {
    let sheet = |entries: &Vec<i64>| sheet_bytes(vectors.kind, PARTS, entries);
    let sheets: Vec<Vec<u8>> = vectors.all.iter().map(sheet).collect();
    let call = |program: &Program, index: usize, cells: &mut [i64]| {
        let read = (program.read_sheet)(black_box(&sheets[index]), cells);
        read.map(|read| read.entries)
    };
    let expected = left(vectors.all.iter().cloned().map(Ok), &CELLS);
    print_step(&vectors.name(), call, &expected, &CELLS);
}

/// What calls leave of buffers that were all filled alike.
fn left<T: Copy>(
    results: impl Iterator<Item = Result<Vec<T>, Refusal>>,
    before: &[T],
) -> Vec<Left<T>> {
    results.map(|result| delivered(&result, before)).collect()
}

/// A call of both programs on each of the vectors, which leave what is expected.
fn print_step<T: Copy + PartialEq>(
    name: &str,
    call: impl Fn(&Program, usize, &mut [T]) -> Result<usize, Refusal>,
    expected: &Vec<Left<T>>,
    before: &[T],
) {
    let once = |program| round(|index, buffer| call(program, index, buffer), before);
    let (calculator, baseline) = side_by_side(
        ROUNDS,
        || once(&CALCULATOR),
        || once(&BASELINE),
        |ours, theirs| assert!(ours == expected && theirs == expected, "{name}"),
    );
    print_row(name, calculator, baseline);
}

/// The calls once, each into its own buffer, and their nanoseconds together.
fn round<T: Copy>(
    call: impl Fn(usize, &mut [T]) -> Result<usize, Refusal>,
    before: &[T],
) -> (Vec<Left<T>>, u128) {
    let mut left = vec![(Ok(0), before.to_vec()); VECTORS];
    let ((), time) = timed(|| {
        for (index, (answer, buffer)) in left.iter_mut().enumerate() {
            *answer = call(index, buffer);
        }
    });
    (left, time)
}

/// The baseline leaves what the calculator leaves: of vectors of every kind, changed by one or by much now and then, under every target, and
/// of their sheets, with a byte changed or left out.
fn agree() {
    let mut seeded = Seeded::new(200);
    for n in 1..=16 {
        for round in 0..60 {
            let counts = random_counts(&mut seeded, n);
            for kind in KINDS {
                let mut entries = vector_for(kind, &counts);
                agree_on_sheet(&damaged(&mut seeded, &sheet_bytes(kind, n, &entries)));
                let index = seeded.between(0, entries.len() - 1);
                let change = [0, 1, -1, i64::MAX, i64::MIN][round % 5];
                entries[index] = entries[index].saturating_add(change);
                agree_on_vector(kind, n, &entries);
                agree_on_vector(kind, n, &entries[1..]);
                agree_on_vector(kind, n + 16, &entries);
            }
        }
    }
}

/// A sheet as it is, with another byte, or cut off.
fn damaged(seeded: &mut Seeded, sheet: &[u8]) -> Vec<u8> {
    let mut damaged = sheet.to_vec();
    let index = seeded.between(0, sheet.len() - 1);
    match seeded.between(0, 2) {
        0 => damaged[index] = seeded.number() as u8,
        1 => damaged.truncate(index),
        _ => {}
    }
    damaged
}

/// The two programs save a vector as the same, and as each number the same, into buffers that are long enough and into short ones.
fn agree_on_vector(kind: u8, n: usize, entries: &[i64]) {
    for length in [0, 7, LONGEST_SHEET] {
        for target in KINDS.into_iter().chain(NO_KINDS) {
            let [ours, theirs] = [&CALCULATOR, &BASELINE].map(|program| {
                let mut sheet = vec![0xA5; length];
                let mut named = sheet.clone();
                let saved = (program.save_sheet)(kind, n, entries, &mut sheet);
                let answer = (program.save_sheet_as)(kind, n, entries, target, &mut named);
                ((saved, sheet), (answer, named))
            });
            assert!(ours == theirs, "{kind} as {target}, n = {n}, {entries:?}");
        }
    }
}

/// The two programs read the same of a sheet.
fn agree_on_sheet(sheet: &[u8]) {
    for length in [0, 3, MOST_ENTRIES] {
        let [ours, theirs] = [&CALCULATOR, &BASELINE].map(|program| {
            let mut cells = vec![0x5A5A; length];
            let read = (program.read_sheet)(sheet, &mut cells);
            (read, cells)
        });
        assert!(ours == theirs, "{sheet:02X?}, {length} lent");
    }
}
