//! Times of two sides, the calculator and a baseline or two calls of the calculator, printed beside each other in microseconds.

use std::hint::black_box;
use std::time::Instant;

/// What the work gives, and the nanoseconds that it takes.
pub fn timed<T>(work: impl FnOnce() -> T) -> (T, u128) {
    let began = Instant::now();
    let result = black_box(work());
    (result, began.elapsed().as_nanos())
}

/// Both sides once in each round, and in every other round the second before the first: the times of the first and of the second. What they
/// give is handed to `compare` in every round.
pub fn side_by_side<R, T>(
    rounds: usize,
    first: impl Fn() -> (R, T),
    second: impl Fn() -> (R, T),
    compare: impl Fn(&R, &R),
) -> (Vec<T>, Vec<T>) {
    let (mut first_times, mut second_times) = (Vec::new(), Vec::new());
    for number in 0..rounds {
        let (one, other) = if number % 2 == 0 {
            let one = first();
            (one, second())
        } else {
            let other = second();
            (first(), other)
        };
        compare(&one.0, &other.0);
        first_times.push(one.1);
        second_times.push(other.1);
    }
    (first_times, second_times)
}

/// The head of the calculator's times beside the baseline's.
pub fn print_head(what: &str, rounds: usize) {
    print_columns(what, rounds, ["calculator", "baseline"]);
}

/// The head of two columns of times and their ratio.
pub fn print_columns(what: &str, rounds: usize, [first, second]: [&str; 2]) {
    println!("{what}; microseconds, median of {rounds} rounds each");
    println!("buffers not cleared first: filled with a pattern before each call, outside its time");
    println!("{:<14}{first:>12}{second:>12}{:>8}", "", "ratio");
}

/// A step's medians and the first by the second, from its nanoseconds in all rounds.
pub fn print_row(name: &str, first: Vec<u128>, second: Vec<u128>) {
    let (first, second) = (median(first), median(second));
    let ratio = first / second;
    println!("{name:<14}{first:>12.1}{second:>12.1}{ratio:>8.2}");
}

/// In microseconds.
pub fn median(mut times: Vec<u128>) -> f64 {
    times.sort_unstable();
    times[times.len() / 2] as f64 / 1000.0
}
