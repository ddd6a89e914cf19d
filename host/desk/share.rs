//! Counts of failure orders as fractions and per cent, in whole numbers throughout.

/// A count of orders out of all n! of them.
#[derive(Clone, Copy, Debug)]
pub struct Share {
    pub count: u64,
    pub total: u64,
}

impl Share {
    /// The fraction in lowest terms.
    pub fn fraction(self) -> String {
        let divisor = greatest_divisor(self.count, self.total);
        match (self.count / divisor, self.total / divisor) {
            (count, 1) => count.to_string(),
            (count, total) => format!("{count}/{total}"),
        }
    }

    /// Per cent with two decimals, rounded half up. What is not 0 does not print as 0, and what is below all not as 100.
    pub fn per_cent(self) -> String {
        let (count, total) = (u128::from(self.count), u128::from(self.total));
        match (20_000 * count + total) / (2 * total) {
            0 if count > 0 => "<0.01".to_string(),
            10_000 if count < total => ">99.99".to_string(),
            hundredths => format!("{}.{:02}", hundredths / 100, hundredths % 100),
        }
    }

    /// Whether two shares, perhaps of machines with different numbers of parts, are the same fraction.
    pub fn equals(self, other: Share) -> bool {
        let product = |a: u64, b: u64| u128::from(a) * u128::from(b);
        product(self.count, other.total) == product(other.count, self.total)
    }
}

/// The greatest number that divides both; the second is not 0.
fn greatest_divisor(a: u64, b: u64) -> u64 {
    let (mut a, mut b) = (a, b);
    while a > 0 {
        (a, b) = (b % a, a);
    }
    b
}
