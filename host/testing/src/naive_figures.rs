//! The figures a second time, from document 01's words alone: by listing all failure orders where that is fast enough, and by the
//! formulas.
//!
//! Nothing here is shared with the calculator; the tests compare the two. A part is the index of its bit, so it counts from 0. The
//! formulas are worked out in 128 bits, where nothing can overflow, and narrowed at the end.

use crate::naive::{has, refused, structure_of, table_verdict};
use nahokipe::Refusal;

/// The figures of a machine: those by size or by failures from index 0 on, the signature N(1) first, the importances by position.
#[derive(Clone, Debug, PartialEq)]
pub struct Figures {
    pub counts: Vec<i64>,
    pub tail: Vec<i64>,
    pub signature: Vec<i64>,
    pub domination: Vec<i64>,
    pub importance: Vec<u64>,
}

// ---- by listing orders

/// What the failure orders show, one order after the other.
#[derive(Clone, Debug, PartialEq)]
pub struct Listed {
    /// In how many orders the machine still runs after k failures, k = 0..n.
    pub tail: Vec<i64>,
    /// In how many orders the k-th failure stops it, k = 1..n.
    pub signature: Vec<i64>,
    /// In how many orders the failure of each part stops it.
    pub importance: Vec<u64>,
}

/// All failure orders of n parts, each a list of the parts as they fail.
pub fn failure_orders(n: usize) -> Vec<Vec<usize>> {
    let parts: Vec<usize> = (0..n).collect();
    orders_of(&parts)
}

/// Each part may fail first, and then the others in every order.
fn orders_of(parts: &[usize]) -> Vec<Vec<usize>> {
    if parts.is_empty() {
        return vec![Vec::new()];
    }
    let mut orders = Vec::new();
    for &first in parts {
        let others: Vec<usize> = parts.iter().copied().filter(|&i| i != first).collect();
        for order in orders_of(&others) {
            orders.push([&[first], order.as_slice()].concat());
        }
    }
    orders
}

/// The figures that count failure orders, from all orders of the machine's parts.
pub fn listed(works: &[bool], orders: &[Vec<usize>]) -> Listed {
    let n = orders[0].len();
    let mut listed = Listed {
        tail: vec![0; n + 1],
        signature: vec![0; n],
        importance: vec![0; n],
    };
    for order in orders {
        for failures in 0..=n {
            listed.tail[failures] += works[left(order, failures)] as i64;
        }
        for entry in (0..n).filter(|&entry| stops(works, order, entry)) {
            listed.signature[entry] += 1;
            listed.importance[order[entry]] += 1;
        }
    }
    listed
}

/// The parts that still run after so many failures.
fn left(order: &[usize], failures: usize) -> usize {
    order[failures..].iter().map(|i| 1 << i).sum()
}

/// Whether an entry of an order takes the machine from working to stopped: the parts after it are no path set, and with it they are one.
pub fn stops(works: &[bool], order: &[usize], entry: usize) -> bool {
    !works[left(order, entry + 1)] && works[left(order, entry)]
}

// ---- by the formulas

/// The number of parts in a set.
pub fn size(set: usize) -> usize {
    (0..16).filter(|&i| has(set, i)).count()
}

/// n!, as the product that it is.
pub fn factorial(n: usize) -> i128 {
    (1..=n as i128).product()
}

/// The number of sets of k of n parts: each is the front of k! × (n-k)! orders.
pub fn binomial(n: usize, k: usize) -> i128 {
    if k > n {
        return 0;
    }
    factorial(n) / (factorial(k) * factorial(n - k))
}

/// The first rows of Pascal's triangle, each as long as the last: a set of k of n parts has the last of them, or it has not.
pub fn pascal(rows: usize) -> Vec<Vec<i128>> {
    let mut triangle = vec![vec![0; rows]; rows];
    for n in 0..rows {
        triangle[n][0] = 1;
        for k in 1..=n {
            triangle[n][k] = triangle[n - 1][k - 1] + triangle[n - 1][k];
        }
    }
    triangle
}

/// φ(j), j = 0..n: the number of path sets of size j.
pub fn path_counts(n: usize, works: &[bool]) -> Vec<i128> {
    let mut counts = vec![0; n + 1];
    for set in (0..1 << n).filter(|&set| works[set]) {
        counts[size(set)] += 1;
    }
    counts
}

/// T(k) = φ(n-k) × (n-k)! × k!.
pub fn tail(counts: &[i128], k: usize) -> i128 {
    let n = counts.len() - 1;
    counts[n - k] * factorial(n - k) * factorial(k)
}

/// N(k) = T(k-1) - T(k).
pub fn signature(counts: &[i128], k: usize) -> i128 {
    tail(counts, k - 1) - tail(counts, k)
}

/// d(k), the sum over j = 0..k of (-1)^(k-j) × C(n-j, k-j) × φ(j).
pub fn domination(counts: &[i128], k: usize) -> i128 {
    let n = counts.len() - 1;
    let sign = |j: usize| if (k - j) % 2 == 1 { -1 } else { 1 };
    (0..=k)
        .map(|j| sign(j) * binomial(n - j, k - j) * counts[j])
        .sum()
}

/// The Barlow-Proschan count of a part: |A|! × (n-|A|-1)! for each set A without it that is no path set, and is one with it.
pub fn importance(n: usize, works: &[bool], part: usize) -> i128 {
    let ways: Vec<i128> = (0..n)
        .map(|size| factorial(size) * factorial(n - size - 1))
        .collect();
    (0..1 << n)
        .filter(|&set| !has(set, part))
        .map(|set| (works[set + (1 << part)] as i128 - works[set] as i128) * ways[size(set)])
        .sum()
}

/// All figures of a structure.
pub fn figures_of(n: usize, works: &[bool]) -> Figures {
    let counts = path_counts(n, works);
    Figures {
        tail: (0..=n).map(|k| narrow(tail(&counts, k))).collect(),
        signature: (1..=n).map(|k| narrow(signature(&counts, k))).collect(),
        domination: (0..=n).map(|k| narrow(domination(&counts, k))).collect(),
        importance: (0..n)
            .map(|part| narrow(importance(n, works, part)))
            .collect(),
        counts: counts.into_iter().map(narrow).collect(),
    }
}

fn narrow<T: TryFrom<i128>>(number: i128) -> T {
    T::try_from(number).ok().expect("a number of 64 bits")
}

/// All figures of a machine that runs on any m of its n parts: failure n-m+1 stops it in every order, and all parts count the same.
pub fn figures_of_any(m: usize, n: usize) -> Figures {
    let all = narrow(factorial(n));
    let counts = (0..=n).map(|k| if k >= m { binomial(n, k) } else { 0 });
    Figures {
        counts: counts.map(narrow).collect(),
        tail: (0..=n).map(|k| if n - k >= m { all } else { 0 }).collect(),
        signature: (1..=n)
            .map(|k| if k == n - m + 1 { all } else { 0 })
            .collect(),
        domination: (0..=n)
            .map(|k| narrow(domination_of_any(m, n, k)))
            .collect(),
        importance: vec![narrow(factorial(n - 1)); n],
    }
}

/// (-1)^(k-m) × C(n,k) × C(k-1,m-1), and 0 below m.
fn domination_of_any(m: usize, n: usize, k: usize) -> i128 {
    if k < m {
        return 0;
    }
    let sign = if (k - m) % 2 == 1 { -1 } else { 1 };
    sign * binomial(n, k) * binomial(k - 1, m - 1)
}

/// All figures of a table, or the table's refusal.
pub fn figures(n: usize, table: &[u8]) -> Result<Figures, Refusal> {
    table_verdict(n, table)?;
    Ok(figures_of(n, &structure_of(n, table)))
}

// ---- what a call leaves

/// The four buffers of the call that gives all figures at once.
#[derive(Clone, Debug, PartialEq)]
pub struct Buffers {
    pub counts: Vec<i64>,
    pub signature: Vec<i64>,
    pub domination: Vec<i64>,
    pub importance: Vec<u64>,
}

/// What that call answers, and what it leaves of its buffers: the results in front and the rest as it was; or a refusal, 11 for the
/// first buffer that is shorter than needed, and all as it was.
pub fn all_delivered(
    result: &Result<Figures, Refusal>,
    buffers: &Buffers,
) -> (Result<(), Refusal>, Buffers) {
    let figures = match result {
        Err(refusal) => return (Err(*refusal), buffers.clone()),
        Ok(figures) => figures,
    };
    let rooms = [
        (buffers.counts.len(), figures.counts.len()),
        (buffers.signature.len(), figures.signature.len()),
        (buffers.domination.len(), figures.domination.len()),
        (buffers.importance.len(), figures.importance.len()),
    ];
    if let Some((_, needed)) = rooms.into_iter().find(|(room, needed)| room < needed) {
        return (refused(11, needed), buffers.clone());
    }
    let after = Buffers {
        counts: filled(&figures.counts, &buffers.counts),
        signature: filled(&figures.signature, &buffers.signature),
        domination: filled(&figures.domination, &buffers.domination),
        importance: filled(&figures.importance, &buffers.importance),
    };
    (Ok(()), after)
}

fn filled<T: Copy>(cells: &[T], buffer: &[T]) -> Vec<T> {
    [cells, &buffer[cells.len()..]].concat()
}
