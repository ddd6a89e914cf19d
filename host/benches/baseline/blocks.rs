//! What a plain Rust program does for a machine made of blocks: the table, the sizes and the vectors are checked, and then the last block
//! is taken as running and as stopped, in the same steps as the calculator.

use super::counts::BINOMIAL;
use super::table::{accepted, refused, Words};
use nahokipe::Refusal;

/// How many sets of 0, 1, ..., 16 parts there are of some sort.
type Row = [u64; 17];

/// A block: its size, and how many of its sets run it and how many do not, by their size.
#[derive(Clone, Copy)]
struct Block {
    size: usize,
    running: Row,
    stopped: Row,
}

/// The path counts of the machine that a table makes of blocks.
pub fn path_counts_of_blocks(
    blocks: usize,
    table: &[u8],
    sizes: &[usize],
    vectors: &[i64],
    cells: &mut [i64],
) -> Result<usize, Refusal> {
    let works = accepted(blocks, table)?;
    let known = accepted_blocks(blocks, sizes, vectors)?;
    let n: usize = sizes.iter().sum();
    if n > 16 {
        return refused(33, 0);
    }
    if cells.len() <= n {
        return refused(11, n + 1);
    }
    let counts = folded(&works, &known[..blocks], n, 0);
    for (cell, count) in cells.iter_mut().zip(&counts[..=n]) {
        *cell = *count as i64;
    }
    Ok(n + 1)
}

/// The blocks, or 12 and 1 for the sizes, 12 for all vectors together, 13 and 14 for one vector after the other.
fn accepted_blocks(
    blocks: usize,
    sizes: &[usize],
    vectors: &[i64],
) -> Result<[Block; 16], Refusal> {
    if sizes.len() != blocks {
        return refused(12, 0);
    }
    if sizes.iter().any(|size| !(1..=16).contains(size)) {
        return refused(1, 0);
    }
    if vectors.len() != sizes.iter().map(|size| size + 1).sum::<usize>() {
        return refused(12, 0);
    }
    let nothing = Block {
        size: 0,
        running: [0; 17],
        stopped: [0; 17],
    };
    let mut known = [nothing; 16];
    let mut left = vectors;
    for (block, &size) in known.iter_mut().zip(sizes) {
        let (counts, behind) = left.split_at(size + 1);
        *block = accepted_block(size, counts)?;
        left = behind;
    }
    Ok(known)
}

/// A block of path counts that are 0 to C(n,j), 0 for no parts and 1 for all, and whose proportion of all sets never falls.
fn accepted_block(size: usize, counts: &[i64]) -> Result<Block, Refusal> {
    let all = &BINOMIAL[size];
    let (mut running, mut stopped) = ([0; 17], [0; 17]);
    for (j, &count) in counts.iter().enumerate() {
        let least = i64::from(j == size);
        let most = if j == 0 { 0 } else { all[j] };
        if !(least..=most).contains(&count) {
            return refused(13, j);
        }
        running[j] = count as u64;
        stopped[j] = (all[j] - count) as u64;
    }
    let falls = |&j: &usize| counts[j] * all[j + 1] > counts[j + 1] * all[j];
    match (0..size).find(falls) {
        Some(j) => refused(14, j),
        None => Ok(Block {
            size,
            running,
            stopped,
        }),
    }
}

/// In how many ways the machine runs, by how many of the parts of these blocks work, where the blocks behind them that run are given as a
/// set.
fn folded(works: &Words, blocks: &[Block], parts: usize, behind: usize) -> Row {
    let mut row = [0; 17];
    match blocks.split_last() {
        None => row[0] = works[behind / 64] >> (behind % 64) & 1,
        Some((last, others)) => {
            let with = folded(works, others, parts - last.size, behind | 1 << others.len());
            let without = folded(works, others, parts - last.size, behind);
            join(last, &with, &without, &mut row[..=parts]);
        }
    }
    row
}

/// The ways with one block more: it runs beside those that need it to, or is stopped beside those that do not.
fn join(block: &Block, with: &Row, without: &Row, row: &mut [u64]) {
    for (k, cell) in row.iter_mut().enumerate() {
        for i in 0..=k.min(block.size) {
            *cell += block.running[i] * with[k - i] + block.stopped[i] * without[k - i];
        }
    }
}
