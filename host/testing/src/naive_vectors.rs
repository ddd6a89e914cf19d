//! Vectors and sheets a second time, from the words of document 01 and of request §11 alone. Everything is worked out in 128 bits, where
//! nothing can overflow.
//!
//! Nothing here is shared with the calculator; the tests compare the two.

use crate::naive::refused;
use crate::naive_bytes::{number_at, numbers_bytes, Field};
use crate::naive_figures::{binomial, domination, factorial, signature, tail};
use nahokipe::Refusal;

pub const PATH_COUNTS: u8 = 1;
pub const TAIL: u8 = 2;
pub const SIGNATURE: u8 = 3;
pub const DOMINATION: u8 = 4;
pub const KINDS: [u8; 4] = [PATH_COUNTS, TAIL, SIGNATURE, DOMINATION];

/// The kinds that sheets are still written of.
pub const SAVED_KINDS: [u8; 3] = [PATH_COUNTS, SIGNATURE, DOMINATION];

/// Some numbers that are no kind, one of them with the tail's in its lowest bits.
pub const NO_KINDS: [u8; 6] = [0, 5, 6, 128, 130, 255];

// ---- judging

/// How many entries a vector has: kind 3 has n, the others n+1.
pub fn entries_of(kind: u8, n: usize) -> usize {
    if kind == SIGNATURE {
        n
    } else {
        n + 1
    }
}

/// The path counts of an accepted vector, or 26, 1, 12, 13, 14.
pub fn accepted(kind: u8, n: usize, entries: &[i64]) -> Result<Vec<i128>, Refusal> {
    if !KINDS.contains(&kind) {
        return refused(26, 0);
    }
    if !(1..=16).contains(&n) {
        return refused(1, 0);
    }
    if entries.len() != entries_of(kind, n) {
        return refused(12, 0);
    }
    let mut counts = Vec::new();
    for j in 0..=n {
        match stands_for(kind, n, entries, j) {
            Some(count) if is_possible(n, j, count) => counts.push(count),
            _ => return refused(13, j),
        }
    }
    match (0..n).find(|&j| falls(&counts, j)) {
        Some(j) => refused(14, j),
        None => Ok(counts),
    }
}

pub fn verdict(kind: u8, n: usize, entries: &[i64]) -> Result<(), Refusal> {
    accepted(kind, n, entries).map(drop)
}

/// The path count of size j that a vector stands for, if it is whole.
fn stands_for(kind: u8, n: usize, entries: &[i64], j: usize) -> Option<i128> {
    let entry = |index: usize| entries[index] as i128;
    match kind {
        PATH_COUNTS => Some(entry(j)),
        TAIL => quotient(entry(n - j), factorial(j) * factorial(n - j)),
        SIGNATURE => {
            // T(k) = N(k+1) + ... + N(n), with N(1) at index 0.
            let tail = (n - j..n).map(entry).sum();
            quotient(tail, factorial(j) * factorial(n - j))
        }
        _ => Some((0..=j).map(|i| binomial(n - i, j - i) * entry(i)).sum()),
    }
}

fn quotient(number: i128, divisor: i128) -> Option<i128> {
    (number % divisor == 0).then_some(number / divisor)
}

/// Whether a path count lies in 0..C(n,j), is 0 for size 0 and 1 for size n.
fn is_possible(n: usize, j: usize, count: i128) -> bool {
    (0..=binomial(n, j)).contains(&count) && (j > 0 || count == 0) && (j < n || count == 1)
}

/// Whether φ(j)/C(n,j) is above φ(j+1)/C(n,j+1).
fn falls(counts: &[i128], j: usize) -> bool {
    let n = counts.len() - 1;
    counts[j] * binomial(n, j + 1) > counts[j + 1] * binomial(n, j)
}

// ---- converting

/// The entries of each kind for any numbers in the place of path counts.
pub fn entries_for(kind: u8, counts: &[i128]) -> Vec<i128> {
    let n = counts.len() - 1;
    match kind {
        PATH_COUNTS => counts.to_vec(),
        TAIL => (0..=n).map(|k| tail(counts, k)).collect(),
        SIGNATURE => (1..=n).map(|k| signature(counts, k)).collect(),
        _ => (0..=n).map(|k| domination(counts, k)).collect(),
    }
}

/// The same in 64 bits.
pub fn vector_for(kind: u8, counts: &[i128]) -> Vec<i64> {
    let narrow = |entry| i64::try_from(entry).expect("a number of 64 bits");
    entries_for(kind, counts).into_iter().map(narrow).collect()
}

/// The vector of another kind that stands for the same path counts, or the first refusal: 26 for either kind, then the vector's.
pub fn convert(kind: u8, n: usize, entries: &[i64], target: u8) -> Result<Vec<i64>, Refusal> {
    if !KINDS.contains(&kind) || !KINDS.contains(&target) {
        return refused(26, 0);
    }
    Ok(vector_for(target, &accepted(kind, n, entries)?))
}

// ---- sheets

/// A vector as a sheet has it.
#[derive(Clone, Debug, PartialEq, Eq)]
pub struct Vector {
    pub kind: u8,
    pub n: usize,
    pub entries: Vec<i64>,
}

/// The bytes of a sheet, whatever its vector is worth. Entries that are negative can be written for kind 4 alone.
pub fn sheet_bytes(kind: u8, n: usize, entries: &[i64]) -> Vec<u8> {
    let head = [kind as u128, n as u128];
    let entries = entries
        .iter()
        .map(|&entry| written(kind, entry as i128) as u128);
    numbers_bytes(head.into_iter().chain(entries))
}

/// For kind 4 an entry v is written as 2v, or -2v-1 when negative.
fn written(kind: u8, entry: i128) -> i128 {
    match (kind, entry) {
        (DOMINATION, 0..) => 2 * entry,
        (DOMINATION, _) => -2 * entry - 1,
        _ => entry,
    }
}

/// The entry that is written so.
fn entry_of(kind: u8, number: u128) -> i64 {
    let number = number as i128;
    let entry = match (kind, number % 2) {
        (DOMINATION, 0) => number / 2,
        (DOMINATION, _) => -(number + 1) / 2,
        _ => number,
    };
    i64::try_from(entry).expect("a number of 64 bits")
}

/// The sheet that a vector is saved as: its own kind's, but kind 2 is written as kind 3 with the same path counts. Or the vector's refusal.
pub fn save_sheet(kind: u8, n: usize, entries: &[i64]) -> Result<Vec<u8>, Refusal> {
    let counts = accepted(kind, n, entries)?;
    Ok(match kind {
        TAIL => sheet_bytes(SIGNATURE, n, &vector_for(SIGNATURE, &counts)),
        _ => sheet_bytes(kind, n, entries),
    })
}

/// The sheet of the kind that is named, or the first refusal: 34 for kind 2 whatever the vector is, then those of converting.
pub fn save_sheet_as(kind: u8, n: usize, entries: &[i64], target: u8) -> Result<Vec<u8>, Refusal> {
    if target == TAIL {
        return refused(34, 0);
    }
    let entries = convert(kind, n, entries, target)?;
    Ok(sheet_bytes(target, n, &entries))
}

/// The vector of a sheet, or the first refusal: each number's 21 and 22, 26 before n is read, 1 before the entries, 25, 13, 14.
pub fn read_sheet(bytes: &[u8]) -> Result<Vector, Refusal> {
    let (kind, next) = number_at(bytes, 0, Field::SHEET)?;
    if !(1..=4).contains(&kind) {
        return refused(26, 0);
    }
    let kind = kind as u8;
    let (n, mut next) = number_at(bytes, next, Field::SHEET)?;
    if !(1..=16).contains(&n) {
        return refused(1, 0);
    }
    let n = n as usize;
    let mut entries = Vec::new();
    for _ in 0..entries_of(kind, n) {
        let (number, after) = number_at(bytes, next, Field::SHEET)?;
        entries.push(entry_of(kind, number));
        next = after;
    }
    if next < bytes.len() {
        return refused(25, next);
    }
    verdict(kind, n, &entries)?;
    Ok(Vector { kind, n, entries })
}
