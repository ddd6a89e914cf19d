//! What a good Rust program does for the figures: the table is checked as for structures, and then each of its words is read once and
//! its bits are counted by instruction.

use super::counts::{BINOMIAL, FACTORIAL};
use super::sizes::OF_SIZE;
use super::table::{accepted, refused, Words, WITHOUT};
use nahokipe::Refusal;

/// The path counts, the signature, the domination and the importances of a table.
pub fn figures(
    n: usize,
    table: &[u8],
    counts: &mut [i64],
    signature: &mut [i64],
    domination: &mut [i64],
    importance: &mut [u64],
) -> Result<(), Refusal> {
    let works = accepted(n, table)?;
    let rooms = [
        (counts.len(), n + 1),
        (signature.len(), n),
        (domination.len(), n + 1),
        (importance.len(), n),
    ];
    if let Some((_, needed)) = rooms.into_iter().find(|(room, needed)| room < needed) {
        return refused(11, needed);
    }
    fill(n, &works, counts, signature, domination, importance);
    Ok(())
}

/// The same of a structure that needs no check, into buffers that are long enough.
pub fn fill(
    n: usize,
    works: &Words,
    counts: &mut [i64],
    signature: &mut [i64],
    domination: &mut [i64],
    importance: &mut [u64],
) {
    let sums = summed(works, &weights(n));
    write_vectors(n, &sums.counts, counts, signature, domination);
    write_importance(n, &sums, importance);
}

/// The number of path sets of each size, and for each part the weights of the path sets that have it, added up.
struct Sums {
    counts: [u64; 17],
    weights: [u64; 16],
}

/// s! × (n-s-1)!, how often a set of size s of the other parts is what is left when a part fails.
fn ways(n: usize, s: usize) -> u64 {
    FACTORIAL[s] * FACTORIAL[n - s - 1]
}

/// The weight of a path set of each size in the importance of a part that it has: what it adds, and what a path set without the part
/// would take away, since that is taken away for all path sets.
fn weights(n: usize) -> [u64; 17] {
    let mut weights = [0; 17];
    for s in 1..=n {
        weights[s] = ways(n, s - 1) + if s < n { ways(n, s) } else { 0 };
    }
    weights
}

fn summed(works: &Words, weights: &[u64; 17]) -> Sums {
    #[cfg(target_arch = "x86_64")]
    if std::arch::is_x86_feature_detected!("popcnt") {
        // Safe, since the processor has the instruction.
        return unsafe { summed_by_instruction(works, weights) };
    }
    summed_by_word(works, weights)
}

#[cfg(target_arch = "x86_64")]
#[target_feature(enable = "popcnt")]
unsafe fn summed_by_instruction(works: &Words, weights: &[u64; 17]) -> Sums {
    summed_by_word(works, weights)
}

/// A set's first six parts are bits of its place in a word, and the others are bits of the word's index.
#[inline(always)]
fn summed_by_word(works: &Words, weights: &[u64; 17]) -> Sums {
    let mut sums = Sums {
        counts: [0; 17],
        weights: [0; 16],
    };
    for (index, &word) in works.iter().enumerate() {
        let base = index.count_ones() as usize;
        let mut in_word = 0;
        for k in 0..7 {
            let (sets, weight) = (word & OF_SIZE[k], weights[base + k]);
            let count = sets.count_ones() as u64;
            sums.counts[base + k] += count;
            in_word += count * weight;
            for i in 0..6 {
                sums.weights[i] += (sets & !WITHOUT[i]).count_ones() as u64 * weight;
            }
        }
        let mut parts = index;
        while parts != 0 {
            sums.weights[6 + parts.trailing_zeros() as usize] += in_word;
            parts &= parts - 1;
        }
    }
    sums
}

fn write_vectors(
    n: usize,
    sizes: &[u64; 17],
    counts: &mut [i64],
    signature: &mut [i64],
    domination: &mut [i64],
) {
    let tail = |k: usize| (sizes[n - k] * FACTORIAL[n - k] * FACTORIAL[k]) as i64;
    for k in 0..=n {
        counts[k] = sizes[k] as i64;
        let sign = |j: usize| if (k - j) % 2 == 1 { -1 } else { 1 };
        domination[k] = (0..=k)
            .map(|j| sign(j) * BINOMIAL[n - j][k - j] * sizes[j] as i64)
            .sum();
    }
    for k in 0..n {
        signature[k] = tail(k) - tail(k + 1);
    }
}

fn write_importance(n: usize, sums: &Sums, importance: &mut [u64]) {
    let taken: u64 = (0..n).map(|s| sums.counts[s] * ways(n, s)).sum();
    for part in 0..n {
        importance[part] = sums.weights[part] - taken;
    }
}
