//! How long the calculator takes for stock patterns of 16 parts beside the largest list there is, all sets of 8 of them, into a table: at
//! least 8 of 16, whose minimal sets they are, and the row and the ring with that k which takes longest. A pattern is to take no longer than
//! the list: a ratio of at most 1.00. Times are printed and never tested; that each side gives the known table is asserted in every round.

// The head of two programs is for the benchmarks that have a baseline.
#[allow(dead_code)]
mod timing;

use nahokipe::lent::{table_of_list, table_of_pattern, LONGEST_TABLE};
use nahokipe::{Pattern, Refusal};
use nahokipe_testing::comparing::Left;
use nahokipe_testing::making::{sets_of_size, table_of_sets};
use nahokipe_testing::naive_patterns;
use std::hint::black_box;
use timing::{median, print_columns, print_row, side_by_side, timed};

const PARTS: usize = 16;
const ROUNDS: usize = 2_000;

/// The times of a pattern with a number k, and of the list beside it.
struct Times {
    k: usize,
    pattern: Vec<u128>,
    list: Vec<u128>,
}

fn main() {
    let list = sets_of_size(PARTS, 8);
    let table = table_of_sets(PARTS, &list);
    let sets = list.len();
    let what = format!("patterns of {PARTS} parts, and a list of {sets} sets of 8 of them");
    print_columns(&what, ROUNDS, ["pattern", "list"]);
    let beside = |pattern, k| beside_list((pattern, k), &list, &table);
    print_times("at least", beside(Pattern::AtLeast, 8));
    for (name, pattern) in [("row, k =", Pattern::Row), ("ring, k =", Pattern::Ring)] {
        let times = (1..=PARTS).map(|k| beside(pattern, k));
        print_times(name, slowest(times));
    }
    println!("of row and ring the k that takes longest; a ratio of at most 1.00 is no longer than the list");
}

/// A pattern and the list once in each round, each of which gives a known table.
fn beside_list((pattern, k): (Pattern, usize), list: &[u16], table: &[u8]) -> Times {
    let known = naive_patterns::table_of_pattern(pattern, PARTS, k).expect("an accepted pattern");
    let (pattern, list) = side_by_side(
        ROUNDS,
        || once(|made| table_of_pattern(black_box(pattern), PARTS, black_box(k), made)),
        || once(|made| table_of_list(PARTS, black_box(list), made)),
        |of_pattern, of_list| {
            is_known(of_pattern, &known);
            is_known(of_list, table);
        },
    );
    Times { k, pattern, list }
}

/// A call once, into a buffer that is filled with a pattern, and its nanoseconds.
fn once(call: impl FnOnce(&mut [u8]) -> Result<usize, Refusal>) -> (Left<u8>, u128) {
    let mut table = vec![0xA5; LONGEST_TABLE];
    let (answer, time) = timed(|| call(&mut table));
    ((answer, table), time)
}

fn is_known((answer, cells): &Left<u8>, known: &[u8]) {
    assert_eq!(*answer, Ok(known.len()));
    assert!(cells == known, "another table");
}

/// The times with the highest ratio to the list's.
fn slowest(times: impl Iterator<Item = Times>) -> Times {
    let ratio = |times: &Times| median(times.pattern.clone()) / median(times.list.clone());
    times
        .max_by(|one, other| ratio(one).total_cmp(&ratio(other)))
        .expect("a number k")
}

fn print_times(name: &str, times: Times) {
    let name = format!("{name} {}", times.k);
    print_row(&name, times.pattern, times.list);
}
