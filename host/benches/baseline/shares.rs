//! What a plain Rust program does for the shares of a group: the table is checked as for structures, and then each route goes over the
//! path sets once, in the same steps as the calculator.

use super::counts::{BINOMIAL, FACTORIAL};
use super::table::{accepted, refused, Words};
use nahokipe::Refusal;

/// lcm(1..n) for n = 0..16.
const COMMON: [i64; 17] = [
    1, 1, 2, 6, 12, 60, 60, 420, 840, 2520, 2520, 27720, 27720, 360360, 360360, 360360, 720720,
];

/// The shares of a group set by set into `first` and through h into `second`.
pub fn shares_by_both_routes(
    n: usize,
    table: &[u8],
    group: usize,
    first: &mut [i64],
    second: &mut [i64],
) -> Result<usize, Refusal> {
    let works = accepted(n, table)?;
    if group == 0 {
        return refused(15, 0);
    }
    if group >> n != 0 {
        return refused(16, 0);
    }
    let m = group.count_ones() as usize;
    if first.len() < m || second.len() < m {
        return refused(11, m);
    }
    by_sets(n, &works, group, first);
    by_reliability(n, &works, group, second);
    Ok(m)
}

/// Whether a set is a path set.
fn works_on(works: &Words, set: usize) -> bool {
    works[set / 64] >> (set % 64) & 1 == 1
}

/// 01's two sums over path sets, by the number of parts that a set has in the group.
fn by_sets(n: usize, works: &Words, group: usize, shares: &mut [i64]) {
    let m = group.count_ones() as usize;
    let weight = |s: usize| FACTORIAL[s - 1] * FACTORIAL[n - s];
    let (mut added, mut taken) = ([0_u64; 17], [0_u64; 17]);
    for set in (0..1 << n).filter(|&set| works_on(works, set)) {
        let (s, inside) = (
            set.count_ones() as usize,
            (set & group).count_ones() as usize,
        );
        added[inside] += inside as u64 * weight(s);
        if s < n {
            taken[inside] += (m - inside) as u64 * weight(s + 1);
        }
    }
    for k in 0..m {
        shares[k] = added[m - k] as i64 - taken[m - k - 1] as i64;
    }
}

/// Algorithm 2 of document 001: h's coefficients from the path sets by type, and the shares from these.
fn by_reliability(n: usize, works: &Words, group: usize, shares: &mut [i64]) {
    let m = group.count_ones() as usize;
    let mut types = [[0_i64; 17]; 17];
    for set in (0..1 << n).filter(|&set| works_on(works, set)) {
        let inside = (set & group).count_ones() as usize;
        types[inside][set.count_ones() as usize - inside] += 1;
    }
    let mut h = [[0_i64; 17]; 17];
    for i in 0..=m {
        for j in 0..=n - m {
            h[i][j] = coefficient(n, m, &types, i, j);
        }
    }
    for k in 1..=m {
        shares[k - 1] = share(n, m, &h, k);
    }
}

/// The coefficient of x^i z^j.
fn coefficient(n: usize, m: usize, types: &[[i64; 17]; 17], i: usize, j: usize) -> i64 {
    let mut sum = 0;
    for a in 0..=i {
        for b in 0..=j {
            let sign = if (i - a + j - b) % 2 == 0 { 1 } else { -1 };
            sum += sign * BINOMIAL[m - a][i - a] * BINOMIAL[n - m - b][j - b] * types[a][b];
        }
    }
    sum
}

/// The share for k from h, over lcm(1..n).
fn share(n: usize, m: usize, h: &[[i64; 17]; 17], k: usize) -> i64 {
    let mut sum = 0;
    for j in 0..=n - m {
        let power: i64 = (0..m)
            .map(|i| BINOMIAL[m - 1 - i][k - 1] * (i as i64 + 1) * h[i + 1][j])
            .sum();
        sum += power * (COMMON[n] / (k as i64 * BINOMIAL[m + j][k]));
    }
    sum * (FACTORIAL[n] as i64 / COMMON[n])
}
