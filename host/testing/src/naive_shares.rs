//! The shares of a group a second time, from document 01's words alone: by listing all failure orders where that is fast enough, and by
//! 001's eq. 1.
//!
//! Nothing here is shared with the calculator; the tests compare the two.

use crate::naive::{has, refused, structure_of, table_verdict};
use crate::naive_figures::{binomial, factorial, size, stops};
use nahokipe::Refusal;

/// In how many of these orders the k-th failure inside the group stops the machine, k = 1..m.
pub fn listed(works: &[bool], orders: &[Vec<usize>], group: usize) -> Vec<i64> {
    let mut shares = vec![0; size(group)];
    for order in orders {
        for entry in (0..order.len()).filter(|&entry| stops(works, order, entry)) {
            if has(group, order[entry]) {
                let before = order[..entry].iter().filter(|&&i| has(group, i)).count();
                shares[before] += 1;
            }
        }
    }
    shares
}

/// The share for k by 01's two sums over path sets.
pub fn share(n: usize, works: &[bool], group: usize, k: usize) -> i64 {
    let m = size(group);
    // (a-1)! × (n-a)! for a set of size a, from 1 on.
    let ways: Vec<i128> = (1..=n)
        .map(|a| factorial(a - 1) * factorial(n - a))
        .collect();
    let mut total: i128 = 0;
    for set in (0..1 << n).filter(|&set| works[set]) {
        let (a, inside) = (size(set), size(set & group));
        if inside == m - k + 1 {
            total += (m - k + 1) as i128 * ways[a - 1];
        }
        if inside == m - k && a < n {
            total -= k as i128 * ways[a];
        }
    }
    i64::try_from(total).expect("a number of 64 bits")
}

/// All shares of a group, or the first refusal.
pub fn shares(n: usize, table: &[u8], group: usize) -> Result<Vec<i64>, Refusal> {
    verdict(n, table, group)?;
    let works = structure_of(n, table);
    Ok((1..=size(group))
        .map(|k| share(n, &works, group, k))
        .collect())
}

/// The coefficients of h(x,z), or the first refusal: x^i z^j comes from each path set by the binomials of the parts that it lacks.
pub fn reliability(n: usize, table: &[u8], group: usize) -> Result<Vec<i64>, Refusal> {
    verdict(n, table, group)?;
    let (m, works) = (size(group), structure_of(n, table));
    let row = n - m + 1;
    let mut types = vec![0_i128; (m + 1) * row];
    for set in (0..1 << n).filter(|&set| works[set]) {
        types[size(set & group) * row + size(set & !group)] += 1;
    }
    let mut cells = vec![0_i128; (m + 1) * row];
    for (at, sets) in types.into_iter().enumerate() {
        let (inside, outside) = (at / row, at % row);
        for i in inside..=m {
            for j in outside..=n - m {
                let ways =
                    binomial(m - inside, i - inside) * binomial(n - m - outside, j - outside);
                let sign = if (i - inside + j - outside) % 2 == 1 {
                    -1
                } else {
                    1
                };
                cells[i * row + j] += sign * ways * sets;
            }
        }
    }
    let narrow = |cell: i128| i64::try_from(cell).expect("a number of 64 bits");
    Ok(cells.into_iter().map(narrow).collect())
}

/// 1 and 6 to 10, then 15 and 16.
pub fn verdict(n: usize, table: &[u8], group: usize) -> Result<(), Refusal> {
    table_verdict(n, table)?;
    if group == 0 {
        return refused(15, 0);
    }
    if group >> n != 0 {
        return refused(16, 0);
    }
    Ok(())
}
