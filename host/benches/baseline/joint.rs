//! What a plain Rust program does for a joint signature: both tables are checked as for structures, and then the pairs of path sets one of
//! which holds the other are counted by their sizes, in the same steps as the calculator.

use super::counts::FACTORIAL;
use super::table::{accepted, refused, word_count, Words};
use nahokipe::Refusal;

/// A word counts sets of three sizes that follow each other, each in a lane of 21 bits: of 16 parts there are at most 2,018,016 pairs of given
/// sizes.
const LANES: usize = 3;
const LANE_BITS: usize = 21;

/// A word for each set of 16 parts.
type Cells = [u64; 1 << 16];

/// How often a path set of one machine with a parts holds a path set of the other with b parts, in row a and column b.
type Pairs = [[u64; 17]; 17];

/// The joint signature of two tables.
pub fn joint_signature(
    n: usize,
    first: &[u8],
    second: &[u8],
    cells: &mut [u64],
) -> Result<usize, Refusal> {
    let one = accepted(n, first)?;
    let other = accepted(n, second)?;
    let needed = n * n;
    if cells.len() < needed {
        return refused(11, needed);
    }
    let mut room = [0; 1 << 16];
    let outside = [
        nested_pairs(n, [&one, &other], &mut room),
        nested_pairs(n, [&other, &one], &mut room),
    ];
    write_square(n, &outside, cells);
    Ok(needed)
}

/// The pairs of an outer machine's path sets and those of an inner one that they hold, three sizes of the outer one's at a time.
fn nested_pairs(n: usize, [outer, inner]: [&Words; 2], cells: &mut Cells) -> Pairs {
    let mut pairs = [[0; 17]; 17];
    for lowest in (0..=n).step_by(LANES) {
        let cells = &mut cells[..1 << n];
        fill(n, outer, lowest, cells);
        sweep(n, cells);
        let sums = gathered(n, inner, cells);
        for lane in 0..LANES.min(n + 1 - lowest) {
            let count = |sum: u64| sum >> (LANE_BITS * lane) & ((1 << LANE_BITS) - 1);
            pairs[lowest + lane] = sums.map(count);
        }
    }
    pairs
}

/// For each of the masks below 64 how many parts it has.
const SIZES: [u8; 64] = sizes();

const fn sizes() -> [u8; 64] {
    let mut sizes = [0; 64];
    let mut set = 1;
    while set < 64 {
        sizes[set] = sizes[set / 2] + set as u8 % 2;
        set += 1;
    }
    sizes
}

/// A path set of one of three sizes gets a 1 in the lane of its size, and each other set 0.
fn fill(n: usize, works: &Words, lowest: usize, cells: &mut [u64]) {
    let mut ones = [0; 17 + LANES];
    for lane in 0..LANES {
        ones[lowest + lane] = 1 << (LANE_BITS * lane);
    }
    let words = works[..word_count(n)].iter();
    for (index, (word, cells)) in words.zip(cells.chunks_mut(64)).enumerate() {
        let base = index.count_ones() as usize;
        for (bit, (cell, size)) in cells.iter_mut().zip(SIZES).enumerate() {
            *cell = (word >> bit & 1) * ones[base + size as usize];
        }
    }
}

/// For each part, adds to the cell of each set without it that of the set with it: a cell has then the sum over all sets that hold its own.
fn sweep(n: usize, cells: &mut [u64]) {
    for part in 0..n {
        let step = 1 << part;
        for block in cells.chunks_exact_mut(2 * step) {
            let (without, with) = block.split_at_mut(step);
            for (without, with) in without.iter_mut().zip(with) {
                *without += *with;
            }
        }
    }
}

/// The cells of the path sets added up by their size.
fn gathered(n: usize, works: &Words, cells: &[u64]) -> [u64; 17] {
    let mut sums = [0; 17];
    let words = works[..word_count(n)].iter();
    for (index, (word, cells)) in words.zip(cells.chunks(64)).enumerate() {
        let base = index.count_ones() as usize;
        for (bit, (cell, size)) in cells.iter().zip(SIZES).enumerate() {
            sums[base + size as usize] += (word >> bit & 1) * cell;
        }
    }
    sums
}

/// In how many orders the first machine still runs after k failures and the second after l. What runs after more failures is held by what
/// runs after fewer.
fn tail(n: usize, [first_outside, second_outside]: &[Pairs; 2], k: usize, l: usize) -> u64 {
    let pairs = if k <= l {
        first_outside[n - k][n - l]
    } else {
        second_outside[n - l][n - k]
    };
    FACTORIAL[k.min(l)] * FACTORIAL[k.abs_diff(l)] * FACTORIAL[n - k.max(l)] * pairs
}

fn write_square(n: usize, outside: &[Pairs; 2], cells: &mut [u64]) {
    let tail = |k, l| tail(n, outside, k, l);
    for k in 1..=n {
        for l in 1..=n {
            let stopped_later = tail(k, l - 1) + tail(k - 1, l);
            cells[(k - 1) * n + l - 1] = tail(k - 1, l - 1) + tail(k, l) - stopped_later;
        }
    }
}
