//! Machines made of blocks a second time, from the words of request §10 and of document 003's section 3 alone: by assembling a machine of
//! blocks whose inside is known, by the blocks' counts alone, and by the paper's equations 12 and 13 at a point.
//!
//! Nothing here is shared with the calculator; the tests compare the two. As in `naive`, a structure is a `Vec<bool>`: whether each mask is
//! a path set. The structure over the blocks is one too, in which block b, from 0, is bit b. Path counts are worked out in 128 bits.

use crate::naive::{has, refused, structure_of, table_verdict};
use crate::naive_figures::{binomial, size};
use crate::naive_joint::sets_inside;
use crate::naive_vectors::{self, PATH_COUNTS};
use nahokipe::Refusal;

// ---- by assembling

/// A block whose inside is known: on which of its own sets it runs, and at which bit of the whole machine's sets each of its parts stands.
#[derive(Clone, Debug)]
pub struct Block {
    pub works: Vec<bool>,
    pub parts: Vec<usize>,
}

impl Block {
    /// Whether the block runs on its share of a set of the whole machine.
    fn runs_on(&self, set: usize) -> bool {
        let own = (0..self.parts.len()).filter(|&i| has(set, self.parts[i]));
        self.works[own.map(|i| 1 << i).sum::<usize>()]
    }
}

/// The whole machine of blocks that share no part: it runs on a set exactly if the blocks that run on their share of it are a path set of
/// the structure over the blocks.
pub fn assembled(over: &[bool], blocks: &[Block]) -> Vec<bool> {
    let n: usize = blocks.iter().map(|block| block.parts.len()).sum();
    let running = |set| -> usize {
        let running = (0..blocks.len()).filter(|&b| blocks[b].runs_on(set));
        running.map(|b| 1 << b).sum()
    };
    (0..1 << n).map(|set| over[running(set)]).collect()
}

// ---- by counts alone

/// The path counts of the whole from those of its blocks: for each path set of blocks, the ways in which exactly these blocks run, by how
/// many parts work in all.
pub fn by_counts(over: &[bool], blocks: &[Vec<i128>]) -> Vec<i128> {
    let stopped: Vec<Vec<i128>> = blocks.iter().map(|counts| others(counts)).collect();
    let mut whole = vec![0; parts_of(blocks) + 1];
    for running in (0..over.len()).filter(|&running| over[running]) {
        let of_block = |b: usize| match has(running, b) {
            true => &blocks[b],
            false => &stopped[b],
        };
        let ways = (0..blocks.len()).fold(vec![1], |ways, b| product(&ways, of_block(b)));
        for (count, ways) in whole.iter_mut().zip(ways) {
            *count += ways;
        }
    }
    whole
}

/// How many sets of each size are none of those that these counts count: C(n,j) - φ(j).
pub fn others(counts: &[i128]) -> Vec<i128> {
    let n = counts.len() - 1;
    (0..=n).map(|j| binomial(n, j) - counts[j]).collect()
}

/// The number of parts of all blocks together.
pub fn parts_of(blocks: &[Vec<i128>]) -> usize {
    blocks.iter().map(|counts| counts.len() - 1).sum()
}

/// In how many ways two choices have j parts together, from the ways of each: the product of two polynomials.
pub fn product(first: &[i128], second: &[i128]) -> Vec<i128> {
    let mut product = vec![0; first.len() + second.len() - 1];
    for (i, ways) in first.iter().enumerate() {
        for (j, other_ways) in second.iter().enumerate() {
            product[i + j] += ways * other_ways;
        }
    }
    product
}

// ---- by the paper's equations

/// Equation 13 at x: the sum over k of C(n,k) S(k) (x-1)^k, where C(n,k) S(k) is the number of path sets of n-k parts.
pub fn reflected(counts: &[i128], x: i128) -> i128 {
    let failures = (0..).zip(counts.iter().rev());
    failures.map(|(k, count)| count * (x - 1).pow(k)).sum()
}

/// The coefficients c(A) of a structure's multilinear form: the sum over the sets B inside A of (-1)^(|A|-|B|), where B is a path set.
pub fn coefficients(works: &[bool]) -> Vec<i128> {
    let sign = |set, inside| match (size(set) - size(inside)) % 2 {
        0 => 1,
        _ => -1,
    };
    let coefficient = |set| {
        let inside = sets_inside(set).filter(|&inside| works[inside]);
        inside.map(|inside| sign(set, inside)).sum()
    };
    (0..works.len()).map(coefficient).collect()
}

/// Equation 12 at x, from the coefficients of the structure over the blocks: the factor x^n is dealt out to the blocks, so that a block in
/// A has its equation 13 for a factor, and each other block x to the power of its size.
pub fn composed(coefficients: &[i128], blocks: &[Vec<i128>], x: i128) -> i128 {
    let inside: Vec<i128> = blocks.iter().map(|counts| reflected(counts, x)).collect();
    let power = |counts: &Vec<i128>| x.pow(counts.len() as u32 - 1);
    let outside: Vec<i128> = blocks.iter().map(power).collect();
    let term = |(set, coefficient): (usize, &i128)| {
        let factor = |b: usize| if has(set, b) { inside[b] } else { outside[b] };
        coefficient * (0..blocks.len()).map(factor).product::<i128>()
    };
    coefficients.iter().enumerate().map(term).sum()
}

// ---- of what a call is told

/// What a call is told of a machine made of blocks: their number, the table over them, their sizes, and their path counts one block's after
/// the other's.
#[derive(Clone, Debug, PartialEq)]
pub struct Assembly {
    pub blocks: usize,
    pub table: Vec<u8>,
    pub sizes: Vec<usize>,
    pub vectors: Vec<i64>,
}

impl Assembly {
    pub fn told(blocks: usize, table: &[u8], sizes: &[usize], vectors: &[i64]) -> Assembly {
        Assembly {
            blocks,
            table: table.to_vec(),
            sizes: sizes.to_vec(),
            vectors: vectors.to_vec(),
        }
    }

    /// The blocks of these path counts, which fit in 64 bits, under a table.
    pub fn of(table: &[u8], blocks: &[Vec<i128>]) -> Assembly {
        Assembly {
            blocks: blocks.len(),
            table: table.to_vec(),
            sizes: blocks.iter().map(|counts| counts.len() - 1).collect(),
            vectors: blocks.concat().into_iter().map(narrow).collect(),
        }
    }
}

fn narrow(number: i128) -> i64 {
    i64::try_from(number).expect("a number of 64 bits")
}

/// The path counts of each block, or the first refusal: 1 and 6 to 10 for the table, 12 and 1 for the sizes, 12 for all vectors together,
/// 13 and 14 for one vector after the other, 33.
pub fn accepted(assembly: &Assembly) -> Result<Vec<Vec<i128>>, Refusal> {
    table_verdict(assembly.blocks, &assembly.table)?;
    if assembly.sizes.len() != assembly.blocks {
        return refused(12, 0);
    }
    if assembly.sizes.iter().any(|size| !(1..=16).contains(size)) {
        return refused(1, 0);
    }
    let parts: usize = assembly.sizes.iter().sum();
    if assembly.vectors.len() != parts + assembly.blocks {
        return refused(12, 0);
    }
    let mut blocks = Vec::new();
    let mut left = assembly.vectors.as_slice();
    for &size in &assembly.sizes {
        let (vector, behind) = left.split_at(size + 1);
        blocks.push(naive_vectors::accepted(PATH_COUNTS, size, vector)?);
        left = behind;
    }
    if parts > 16 {
        return refused(33, 0);
    }
    Ok(blocks)
}

/// The path counts of the whole machine, or the first refusal.
pub fn path_counts_of_blocks(assembly: &Assembly) -> Result<Vec<i64>, Refusal> {
    let blocks = accepted(assembly)?;
    let over = structure_of(assembly.blocks, &assembly.table);
    let whole = by_counts(&over, &blocks);
    Ok(whole.into_iter().map(narrow).collect())
}
