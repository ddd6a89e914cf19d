//! How long the calculator takes for the largest list of cut sets, all sets of 8 of 16 parts, into a table, and for that table's minimal
//! cut sets and dual, beside a Rust baseline that makes the same checks and turns 64 sets round at a time; and for the list as cut sets
//! beside the same list as path sets, both by the calculator. Times are printed and never tested; that each side gives the known result is
//! asserted in every round, and before that, on damaged lists and tables too, that both programs give the same.

mod baseline {
    mod closing;
    pub mod cuts;
    // The tables and the minimal sets of path sets are for another benchmark.
    #[allow(dead_code)]
    mod structure;
    mod table;
}
mod timing;

use nahokipe::lent::{self, LONGEST_TABLE, MOST_SETS};
use nahokipe_testing::comparing::{Left, OfList, OfTable};
use nahokipe_testing::making::{damaged_list, random_list, random_table, sets_of_size};
use nahokipe_testing::making::{table_of_sets, tables_turned_over};
use nahokipe_testing::seeded::Seeded;
use std::fmt::Debug;
use std::hint::black_box;
use timing::{print_columns, print_head, print_row, side_by_side, timed};

const PARTS: usize = 16;
const ROUNDS: usize = 2_000;

/// The calculator's call and the baseline's, for each step that is timed.
const TABLE_OF_CUTS: [OfList; 2] = [lent::table_of_cuts, baseline::cuts::table_of_cuts];
const MINIMAL_CUTS: [OfTable<u16>; 2] = [lent::minimal_cuts, baseline::cuts::minimal_cuts];
const DUAL: [OfTable<u8>; 2] = [lent::dual, baseline::cuts::dual];

fn main() {
    agree();
    let list = sets_of_size(PARTS, 8);
    let as_paths = table_of_sets(PARTS, &list);
    // Stopped by any eight failures: it runs on nine parts.
    let as_cuts = table_of_sets(PARTS, &sets_of_size(PARTS, 9));
    let sets = format!("{} sets of 8 of {PARTS} parts", list.len());
    print_head(&format!("{sets} as cut sets"), ROUNDS);
    print_lists(TABLE_OF_CUTS, &list, [&as_cuts, &as_cuts]);
    print_tables("minimal cuts", MINIMAL_CUTS, (&as_cuts, 0xA5A5), &list);
    print_tables("dual", DUAL, (&as_cuts, 0xA5), &as_paths);
    let what = format!("{sets} as cut sets and as path sets, by the calculator");
    print_columns(&what, ROUNDS, ["cut sets", "path sets"]);
    let calls = [lent::table_of_cuts, lent::table_of_list];
    print_lists(calls, &list, [&as_cuts, &as_paths]);
}

/// A list to a table by two calls, each of which gives a known table.
fn print_lists(calls: [OfList; 2], list: &[u16], tables: [&[u8]; 2]) {
    let once = |call| of_list(call, (PARTS, list), LONGEST_TABLE);
    let (first, second) = side_by_side(
        ROUNDS,
        || once(calls[0]),
        || once(calls[1]),
        |first, second| {
            is_known(first, tables[0]);
            is_known(second, tables[1]);
        },
    );
    print_row("list to table", first, second);
}

/// A step on a table by both programs, whose result is known.
fn print_tables<T: Copy + Debug + PartialEq>(
    name: &str,
    calls: [OfTable<T>; 2],
    (table, pattern): (&[u8], T),
    known: &[T],
) {
    let once = |call| of_table(call, (PARTS, table), vec![pattern; known.len()]);
    let (ours, theirs) = side_by_side(
        ROUNDS,
        || once(calls[0]),
        || once(calls[1]),
        |ours, theirs| {
            assert!(ours == theirs, "results differ");
            is_known(ours, known);
        },
    );
    print_row(name, ours, theirs);
}

fn is_known<T: Debug + PartialEq>((answer, cells): &Left<T>, known: &[T]) {
    assert_eq!(*answer, Ok(known.len()));
    assert!(cells == known, "another result");
}

/// A call on a list once, into a buffer that is filled with a pattern, and its nanoseconds.
fn of_list(call: OfList, (n, list): (usize, &[u16]), length: usize) -> (Left<u8>, u128) {
    let mut table = vec![0xA5; length];
    let (answer, time) = timed(|| call(n, black_box(list), &mut table));
    ((answer, table), time)
}

/// A call on a table once, into a buffer, and its nanoseconds.
fn of_table<T>(
    call: OfTable<T>,
    (n, table): (usize, &[u8]),
    mut buffer: Vec<T>,
) -> (Left<T>, u128) {
    let (answer, time) = timed(|| call(n, black_box(table), &mut buffer));
    ((answer, buffer), time)
}

/// The baseline gives what the calculator gives, refusals and their places too, into buffers that are long enough and into short ones.
fn agree() {
    let mut seeded = Seeded::new(194);
    for n in 1..=16 {
        for _ in 0..40 {
            agree_on_list(n, &random_list(&mut seeded, n));
            agree_on_list(n, &damaged_list(&mut seeded, n));
            agree_on_table(n, &random_table(&mut seeded, n));
        }
        for table in tables_turned_over(&mut seeded, n) {
            agree_on_table(n, &table);
        }
    }
}

/// The two programs leave the same of a list.
fn agree_on_list(n: usize, list: &[u16]) {
    for length in [0, LONGEST_TABLE] {
        let [ours, theirs] = TABLE_OF_CUTS.map(|call| of_list(call, (n, list), length).0);
        assert!(ours == theirs, "n = {n}, {list:?}, {length} lent");
    }
}

/// The two programs leave the same of a table.
fn agree_on_table(n: usize, table: &[u8]) {
    for length in [0, MOST_SETS] {
        let left = |call| of_table(call, (n, table), vec![0xA5A5; length]).0;
        let [ours, theirs] = MINIMAL_CUTS.map(left);
        assert!(ours == theirs, "n = {n}, {table:02X?}, {length} lent");
        let left = |call| of_table(call, (n, table), vec![0xA5; length]).0;
        let [ours, theirs] = DUAL.map(left);
        assert!(ours == theirs, "n = {n}, {table:02X?}, {length} lent");
    }
}
