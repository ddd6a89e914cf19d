//! Factorials and binomials up to 16.

/// k! for k = 0..16.
pub const FACTORIAL: [u64; 17] = factorials();

/// C(n, k) in row n.
pub const BINOMIAL: [[i64; 17]; 17] = binomials();

const fn binomials() -> [[i64; 17]; 17] {
    let mut rows = [[0; 17]; 17];
    rows[0][0] = 1;
    let mut n = 1;
    while n <= 16 {
        rows[n][0] = 1;
        let mut k = 1;
        while k <= n {
            rows[n][k] = rows[n - 1][k - 1] + rows[n - 1][k];
            k += 1;
        }
        n += 1;
    }
    rows
}

const fn factorials() -> [u64; 17] {
    let mut factorials = [1; 17];
    let mut k = 1;
    while k <= 16 {
        factorials[k] = factorials[k - 1] * k as u64;
        k += 1;
    }
    factorials
}
