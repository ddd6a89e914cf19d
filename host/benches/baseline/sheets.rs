//! What a plain Rust program does with sheets: the path counts that a vector stands for are worked out and judged, the entries of another kind
//! are worked out of them where that one is to be written, and numbers are written and read one after the other.

use super::counts::{BINOMIAL, FACTORIAL};
use super::numbers::{number_at, number_length, write_number};
use super::table::refused;
use nahokipe::lent::Sheet;
use nahokipe::Refusal;

const PATH_COUNTS: u8 = 1;
const TAIL: u8 = 2;
const SIGNATURE: u8 = 3;
const DOMINATION: u8 = 4;

/// The top value of a number in a sheet.
const TOP: u64 = (1 << 63) - 1;

/// Path counts or entries of up to 16 parts.
type Entries = [i64; 17];

/// Saves a vector as its own kind, and a tail as the signature.
pub fn save_sheet(kind: u8, n: usize, entries: &[i64], sheet: &mut [u8]) -> Result<usize, Refusal> {
    let counts = accepted(kind, n, entries)?;
    match kind {
        TAIL => write_accepted(SIGNATURE, n, &signature(n, &counts)[..n], sheet),
        _ => write_accepted(kind, n, entries, sheet),
    }
}

/// Saves a vector as the kind that is named.
pub fn save_sheet_as(
    kind: u8,
    n: usize,
    entries: &[i64],
    target: u8,
    sheet: &mut [u8],
) -> Result<usize, Refusal> {
    if target == TAIL {
        return refused(34, 0);
    }
    if !is_kind(target) {
        return refused(26, 0);
    }
    let counts = accepted(kind, n, entries)?;
    let converted = match target {
        PATH_COUNTS => counts,
        SIGNATURE => signature(n, &counts),
        _ => domination(n, &counts),
    };
    write_accepted(target, n, &converted[..entry_count(target, n)], sheet)
}

/// The vector of a sheet, its entries into `cells`.
pub fn read_sheet(sheet: &[u8], cells: &mut [i64]) -> Result<Sheet, Refusal> {
    let (kind, at) = number_at::<TOP>(sheet, 0)?;
    if !(1..=4).contains(&kind) {
        return refused(26, 0);
    }
    let (n, at) = number_at::<TOP>(sheet, at)?;
    if !(1..=16).contains(&n) {
        return refused(1, 0);
    }
    let (kind, n) = (kind as u8, n as usize);
    let count = entry_count(kind, n);
    let entries = read_entries(kind, count, sheet, at)?;
    accepted(kind, n, &entries[..count])?;
    if cells.len() < count {
        return refused(11, count);
    }
    cells[..count].copy_from_slice(&entries[..count]);
    let entries = count;
    Ok(Sheet { kind, n, entries })
}

/// The entries from a position on, behind which nothing is left.
fn read_entries(kind: u8, count: usize, sheet: &[u8], start: usize) -> Result<Entries, Refusal> {
    let mut entries = [0; 17];
    let mut at = start;
    for entry in &mut entries[..count] {
        let (number, next) = number_at::<TOP>(sheet, at)?;
        (*entry, at) = (entry_of(kind, number), next);
    }
    if at < sheet.len() {
        return refused(25, at);
    }
    Ok(entries)
}

fn is_kind(kind: u8) -> bool {
    (PATH_COUNTS..=DOMINATION).contains(&kind)
}

fn entry_count(kind: u8, n: usize) -> usize {
    n + usize::from(kind != SIGNATURE)
}

/// The path counts of a vector, or 26, 1, 12, 13 and 14.
fn accepted(kind: u8, n: usize, entries: &[i64]) -> Result<Entries, Refusal> {
    if !is_kind(kind) {
        return refused(26, 0);
    }
    if !(1..=16).contains(&n) {
        return refused(1, 0);
    }
    if entries.len() != entry_count(kind, n) {
        return refused(12, 0);
    }
    let counts = match kind {
        PATH_COUNTS => possible(n, |j| Some(entries[j])),
        TAIL => possible(n, |j| whole(n, j, entries[n - j])),
        SIGNATURE => {
            let tail = tail(n, entries);
            possible(n, |j| whole(n, j, tail[n - j]))
        }
        _ => possible(n, |j| Some(held(n, j, entries))),
    }?;
    let falls = |&j: &usize| counts[j] * BINOMIAL[n][j + 1] > counts[j + 1] * BINOMIAL[n][j];
    match (0..n).find(falls) {
        Some(j) => refused(14, j),
        None => Ok(counts),
    }
}

/// The path counts of each size, if all are possible: 0 to C(n,j), 0 for no parts and 1 for all of them.
fn possible(n: usize, count: impl Fn(usize) -> Option<i64>) -> Result<Entries, Refusal> {
    let mut counts = [0; 17];
    for j in 0..=n {
        let least = i64::from(j == n);
        let most = if j == 0 { 0 } else { BINOMIAL[n][j] };
        match count(j) {
            Some(count) if (least..=most).contains(&count) => counts[j] = count,
            _ => return refused(13, j),
        }
    }
    Ok(counts)
}

/// How many orders each set of j of n parts stands for.
fn orders(n: usize, j: usize) -> i64 {
    (FACTORIAL[j] * FACTORIAL[n - j]) as i64
}

/// The path count of size j of a tail's entry, if it is whole.
fn whole(n: usize, j: usize, entry: i64) -> Option<i64> {
    let orders = orders(n, j);
    (entry % orders == 0).then_some(entry / orders)
}

/// The tail of a signature. A sum beyond 64 bits stands at their end, which is no count's, as the sum is not.
fn tail(n: usize, signature: &[i64]) -> Entries {
    let mut tail = [0_i64; 17];
    for k in (0..n).rev() {
        tail[k] = tail[k + 1].saturating_add(signature[k]);
    }
    tail
}

/// The path count of size j of a domination. Where it is too large the entry j itself is, since those before were of possible counts.
fn held(n: usize, j: usize, entries: &[i64]) -> i64 {
    let term = |i: usize| BINOMIAL[n - i][j - i].saturating_mul(entries[i]);
    (0..=j).map(term).fold(0, i64::saturating_add)
}

fn signature(n: usize, counts: &Entries) -> Entries {
    let tail = |k: usize| counts[n - k] * orders(n, k);
    let mut signature = [0; 17];
    for (k, entry) in signature[..n].iter_mut().enumerate() {
        *entry = tail(k) - tail(k + 1);
    }
    signature
}

fn domination(n: usize, counts: &Entries) -> Entries {
    let mut domination = [0; 17];
    for (k, entry) in domination[..=n].iter_mut().enumerate() {
        let sign = |j: usize| if (k - j) % 2 == 1 { -1 } else { 1 };
        let term = |j: usize| sign(j) * BINOMIAL[n - j][k - j] * counts[j];
        *entry = (0..=k).map(term).sum();
    }
    domination
}

/// The number that an entry is written as.
fn number_of(kind: u8, entry: i64) -> u64 {
    match kind {
        DOMINATION => (entry << 1 ^ entry >> 63) as u64,
        _ => entry as u64,
    }
}

/// The entry that is written so.
fn entry_of(kind: u8, number: u64) -> i64 {
    match kind {
        DOMINATION => (number >> 1) as i64 ^ -((number & 1) as i64),
        _ => number as i64,
    }
}

/// Writes an accepted vector, if the buffer is long enough.
fn write_accepted(kind: u8, n: usize, entries: &[i64], sheet: &mut [u8]) -> Result<usize, Refusal> {
    let length = |entry: &i64| number_length(number_of(kind, *entry));
    let needed = 2 + entries.iter().map(length).sum::<usize>();
    if sheet.len() < needed {
        return refused(11, needed);
    }
    (sheet[0], sheet[1]) = (kind, n as u8);
    let mut at = 2;
    for &entry in entries {
        at += write_number(number_of(kind, entry), &mut sheet[at..]);
    }
    Ok(needed)
}
