//! Cut sets and the dual a second time, from document 02's words alone: failures are searched one set after the other, and what each leaves
//! is worked out part by part.
//!
//! Nothing here is shared with the calculator; the tests compare the two. As in `naive`, a structure is a `Vec<bool>`: whether each mask is
//! a path set. `naive` would give the minimal cut sets as the dual's minimal sets; they are searched here all the same, so that they do not
//! rest on the dual.

use crate::naive::{has, holds, list_verdict, structure_of, table_of, table_verdict, without};
use nahokipe::Refusal;

/// The parts among n that a set lacks: those left where it has failed, and those that failed where it is left.
pub fn lacking(n: usize, set: usize) -> usize {
    (0..n).filter(|&i| !has(set, i)).map(|i| 1 << i).sum()
}

/// Whether the joint failure of a set stops the machine: the parts left are no path set.
pub fn is_cut(n: usize, works: &[bool], failed: usize) -> bool {
    !works[lacking(n, failed)]
}

/// The structure of a list of cut sets, by its definition: the machine is stopped exactly if the failed parts hold a listed set.
pub fn left_by_cuts(n: usize, cuts: &[u16]) -> Vec<bool> {
    let stops = |failed| cuts.iter().any(|&cut| holds(failed, cut as usize));
    (0..1 << n).map(|left| !stops(lacking(n, left))).collect()
}

/// The same, from more parts left to fewer: the machine is stopped if the failed parts are listed, or if it is with one part more left.
pub fn left_by_cuts_falling(n: usize, cuts: &[u16]) -> Vec<bool> {
    let mut works = vec![true; 1 << n];
    for &cut in cuts {
        works[lacking(n, cut as usize)] = false;
    }
    for left in (0..1 << n).rev() {
        works[left] = works[left] && (0..n).all(|i| has(left, i) || works[left + (1 << i)]);
    }
    works
}

/// The cut sets of a structure, ascending.
pub fn cut_sets(n: usize, works: &[bool]) -> Vec<usize> {
    (0..1 << n)
        .filter(|&failed| is_cut(n, works, failed))
        .collect()
}

/// The minimal cut sets, by their definition: the cut sets that hold no other, ascending.
pub fn minimal_of(n: usize, works: &[bool]) -> Vec<u16> {
    let cuts = cut_sets(n, works);
    let holds_other = |cut| cuts.iter().any(|&b| b != cut && holds(cut, b));
    cuts.iter()
        .filter(|&&cut| !holds_other(cut))
        .map(|&cut| cut as u16)
        .collect()
}

/// The same, from fewer failures to more: a set holds another cut set if, without some part, it is or holds one.
pub fn minimal_of_rising(n: usize, works: &[bool]) -> Vec<u16> {
    let mut holds_cut = vec![false; 1 << n];
    let mut minimal = Vec::new();
    for failed in 0..1 << n {
        let holds_other = (0..n).any(|i| has(failed, i) && holds_cut[without(failed, i)]);
        let cut = is_cut(n, works, failed);
        if cut && !holds_other {
            minimal.push(failed as u16);
        }
        holds_cut[failed] = cut || holds_other;
    }
    minimal
}

/// The dual structure: its path sets are the cut sets.
pub fn dual_of(n: usize, works: &[bool]) -> Vec<bool> {
    (0..1 << n).map(|failed| is_cut(n, works, failed)).collect()
}

/// The table of a list of cut sets, or the list's refusal.
pub fn table_of_cuts(n: usize, cuts: &[u16]) -> Result<Vec<u8>, Refusal> {
    list_verdict(n, cuts)?;
    let works = if n <= 10 {
        left_by_cuts(n, cuts)
    } else {
        left_by_cuts_falling(n, cuts)
    };
    Ok(table_of(&works))
}

/// The minimal cut sets of a table, or the table's refusal.
pub fn minimal_cuts(n: usize, table: &[u8]) -> Result<Vec<u16>, Refusal> {
    table_verdict(n, table)?;
    let works = structure_of(n, table);
    if n <= 10 {
        Ok(minimal_of(n, &works))
    } else {
        Ok(minimal_of_rising(n, &works))
    }
}

/// The dual's table of a table, or the table's refusal.
pub fn dual(n: usize, table: &[u8]) -> Result<Vec<u8>, Refusal> {
    table_verdict(n, table)?;
    Ok(table_of(&dual_of(n, &structure_of(n, table))))
}
