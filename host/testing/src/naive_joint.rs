//! The joint signature of two machines a second time, from the words of documents 02 and 004 alone: by listing all failure orders where that
//! is fast enough, and by 004's formula over pairs of sets one of which holds the other.
//!
//! Nothing here is shared with the calculator; the tests compare the two. As in `naive`, a structure is a `Vec<bool>`: whether each mask is
//! a path set. A square has the cell of k and l, both from 1, at (k-1) × n + l-1.

use crate::naive::{has, structure_of, table_verdict, without};
use crate::naive_figures::{factorial, size};
use nahokipe::Refusal;

// ---- by listing orders

/// The square of counts from all failure orders: the parts fail one after the other in every order.
pub fn listed(n: usize, first: &[bool], second: &[bool]) -> Vec<u64> {
    let mut square = vec![0; n * n];
    let mut left = vec![(1 << n) - 1];
    fail_next(n, [first, second], &mut left, &mut square);
    square
}

/// Each part that still runs may fail next, and then the others in every order; where none is left, the order is counted. `left` has the
/// parts that ran after 0, 1, 2, ... failures.
fn fail_next(n: usize, machines: [&[bool]; 2], left: &mut Vec<usize>, square: &mut [u64]) {
    let running = left[left.len() - 1];
    if running == 0 {
        let [k, l] = machines.map(|works| stopping_failure(works, left));
        square[(k - 1) * n + l - 1] += 1;
    }
    for part in (0..n).filter(|&part| has(running, part)) {
        left.push(without(running, part));
        fail_next(n, machines, left, square);
        left.pop();
    }
}

/// Which failure takes an accepted machine from working to stopped, from 1: it is the only one.
pub fn stopping_failure(works: &[bool], left: &[usize]) -> usize {
    let stops = |&k: &usize| works[left[k - 1]] && !works[left[k]];
    let mut failures = (1..left.len()).filter(stops);
    let failure = failures.next().expect("a failure that stops the machine");
    assert_eq!(failures.next(), None, "another failure stops it too");
    failure
}

// ---- by the formula

/// In how many orders a set of so many parts and a smaller one that it holds are both left by the failures at some time: n! × 004's q0. Where
/// neither of two sets holds the other, that is in none.
fn ways(n: usize, larger: usize, smaller: usize) -> i128 {
    factorial(n - larger) * factorial(larger - smaller) * factorial(smaller)
}

/// How often a path set of `outer` with a parts holds a path set of `inner` with b parts, in row a and column b.
fn nested_pairs(n: usize, outer: &[bool], inner: &[bool]) -> Vec<Vec<u64>> {
    let sizes: Vec<usize> = (0..1 << n).map(size).collect();
    let mut pairs = vec![vec![0; n + 1]; n + 1];
    for set in (0..1 << n).filter(|&set| outer[set]) {
        let row = &mut pairs[sizes[set]];
        for inside in sets_inside(set).filter(|&inside| inner[inside]) {
            row[sizes[inside]] += 1;
        }
    }
    pairs
}

/// The sets that a set holds, from itself down to the empty one: the number below one of them, with the set's parts alone, is the next.
pub fn sets_inside(set: usize) -> impl Iterator<Item = usize> {
    let next = move |&inside: &usize| inside.checked_sub(1).map(|below| below & set);
    std::iter::successors(Some(set), next)
}

/// T(k,l), k and l = 0..n, in row k: in how many orders the first machine still runs after k failures and the second after l (004,
/// Corollary 2.8, times n!). What runs after more failures is held by what runs after fewer.
pub fn tails(n: usize, first: &[bool], second: &[bool]) -> Vec<Vec<i128>> {
    let first_outside = nested_pairs(n, first, second);
    let second_outside = nested_pairs(n, second, first);
    let tail = |k: usize, l: usize| {
        let pairs = if k <= l {
            first_outside[n - k][n - l]
        } else {
            second_outside[n - l][n - k]
        };
        pairs as i128 * ways(n, n - k.min(l), n - k.max(l))
    };
    (0..=n)
        .map(|k| (0..=n).map(|l| tail(k, l)).collect())
        .collect()
}

/// The square from the tails (004, Corollary 2.2): T(k-1,l-1) - T(k,l-1) - T(k-1,l) + T(k,l).
pub fn by_pairs(n: usize, first: &[bool], second: &[bool]) -> Vec<u64> {
    let tails = tails(n, first, second);
    let mut square = Vec::new();
    for k in 1..=n {
        for l in 1..=n {
            let cell = tails[k - 1][l - 1] - tails[k][l - 1] - tails[k - 1][l] + tails[k][l];
            square.push(u64::try_from(cell).expect("a number of 64 bits"));
        }
    }
    square
}

// ---- of two tables

/// The joint signature of two tables, or the first table's refusal, or else the second's.
pub fn joint_signature(n: usize, first: &[u8], second: &[u8]) -> Result<Vec<u64>, Refusal> {
    table_verdict(n, first)?;
    table_verdict(n, second)?;
    let [first, second] = [first, second].map(|table| structure_of(n, table));
    if n <= 6 {
        Ok(listed(n, &first, &second))
    } else {
        Ok(by_pairs(n, &first, &second))
    }
}
