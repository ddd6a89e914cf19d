//! Structures a second time, from document 01's words alone: one set after the other, by quantifiers where that is fast enough.
//!
//! Nothing here is shared with the calculator; the tests compare the two. A set of parts is a mask, a structure a `Vec<bool>` that has
//! 2^n entries: whether each mask is a path set.

use nahokipe::Refusal;

/// The most sets that a list may have.
pub const MOST_SETS: usize = 12_870;

/// A refusal as an error.
pub fn refused<T>(number: u8, place: usize) -> Result<T, Refusal> {
    Err(Refusal { number, place })
}

/// Whether the part at bit i is in a set.
pub fn has(set: usize, i: usize) -> bool {
    (set >> i) % 2 == 1
}

/// A set without the part at bit i, which it has.
pub fn without(set: usize, i: usize) -> usize {
    set - (1 << i)
}

/// Whether every part of `inner` is in `set`.
pub fn holds(set: usize, inner: usize) -> bool {
    (0..16).all(|i| !has(inner, i) || has(set, i))
}

/// The bytes of a table: the greater of 1 and 2^n/8.
pub fn table_length(n: usize) -> usize {
    std::cmp::max(1, (1 << n) / 8)
}

/// 01's table of refusals for a list, row by row.
pub fn list_verdict(n: usize, list: &[u16]) -> Result<(), Refusal> {
    if !(1..=16).contains(&n) {
        return refused(1, 0);
    }
    if list.is_empty() {
        return refused(2, 0);
    }
    if list.len() > MOST_SETS {
        return refused(3, 0);
    }
    for (index, &set) in list.iter().enumerate() {
        if (n..16).any(|i| has(set as usize, i)) {
            return refused(4, index);
        }
        if set == 0 {
            return refused(5, index);
        }
    }
    Ok(())
}

/// 01's table of refusals for a table, row by row.
pub fn table_verdict(n: usize, table: &[u8]) -> Result<(), Refusal> {
    if !(1..=16).contains(&n) {
        return refused(1, 0);
    }
    if table.len() != table_length(n) {
        return refused(6, 0);
    }
    let sets = 1 << n;
    if (sets..8 * table.len()).any(|bit| in_table(table, bit)) {
        return refused(7, 0);
    }
    if in_table(table, 0) {
        return refused(8, 0);
    }
    if !in_table(table, sets - 1) {
        return refused(9, 0);
    }
    match (0..sets).find(|&set| is_broken(n, table, set)) {
        Some(set) => refused(10, set),
        None => Ok(()),
    }
}

/// Whether a set is a path set of a table: byte A/8, bit A mod 8.
pub fn in_table(table: &[u8], set: usize) -> bool {
    has(table[set / 8] as usize, set % 8)
}

/// A path set that with one part more isn't one.
fn is_broken(n: usize, table: &[u8], set: usize) -> bool {
    in_table(table, set) && (0..n).any(|i| !has(set, i) && !in_table(table, set + (1 << i)))
}

/// The structure of a list, by its definition: a set is a path set exactly if it holds a listed one.
pub fn path_sets(n: usize, list: &[u16]) -> Vec<bool> {
    (0..1 << n)
        .map(|set| list.iter().any(|&listed| holds(set, listed as usize)))
        .collect()
}

/// The same, from smaller sets to larger ones: a set is a path set if it is listed, or is one without some part.
pub fn path_sets_rising(n: usize, list: &[u16]) -> Vec<bool> {
    let mut works = vec![false; 1 << n];
    for &listed in list {
        works[listed as usize] = true;
    }
    for set in 0..1 << n {
        works[set] = works[set] || (0..n).any(|i| has(set, i) && works[without(set, i)]);
    }
    works
}

/// The minimal sets, by their definition: the path sets that hold no other, ascending.
pub fn minimal_of(n: usize, works: &[bool]) -> Vec<u16> {
    let holds_no_other = |set| !(0..1 << n).any(|b| works[b] && b != set && holds(set, b));
    (0..1 << n)
        .filter(|&set| works[set] && holds_no_other(set))
        .map(|set| set as u16)
        .collect()
}

/// The same, from smaller sets to larger ones: a set holds another path set if it is or holds one without some part.
pub fn minimal_of_rising(n: usize, works: &[bool]) -> Vec<u16> {
    let mut holds_other = vec![false; 1 << n];
    let mut minimal = Vec::new();
    for set in 0..1 << n {
        let inside = |i| works[without(set, i)] || holds_other[without(set, i)];
        holds_other[set] = (0..n).any(|i| has(set, i) && inside(i));
        if works[set] && !holds_other[set] {
            minimal.push(set as u16);
        }
    }
    minimal
}

/// The table form of a structure.
pub fn table_of(works: &[bool]) -> Vec<u8> {
    let mut table = vec![0; std::cmp::max(1, works.len() / 8)];
    for set in 0..works.len() {
        if works[set] {
            table[set / 8] += 1 << (set % 8);
        }
    }
    table
}

/// The structure that a table of the right length gives.
pub fn structure_of(n: usize, table: &[u8]) -> Vec<bool> {
    (0..1 << n).map(|set| in_table(table, set)).collect()
}

/// The table of a list, or the list's refusal.
pub fn table_of_list(n: usize, list: &[u16]) -> Result<Vec<u8>, Refusal> {
    list_verdict(n, list)?;
    let works = if n <= 10 {
        path_sets(n, list)
    } else {
        path_sets_rising(n, list)
    };
    Ok(table_of(&works))
}

/// The minimal sets of a table, or the table's refusal.
pub fn minimal_sets(n: usize, table: &[u8]) -> Result<Vec<u16>, Refusal> {
    table_verdict(n, table)?;
    let works = structure_of(n, table);
    if n <= 10 {
        Ok(minimal_of(n, &works))
    } else {
        Ok(minimal_of_rising(n, &works))
    }
}

/// What a call leaves of a lent buffer, and its answer: the result in front and the rest as it was, with the result's length; or a
/// refusal, 11 where the buffer is shorter than needed, and all as it was.
pub fn delivered<T: Copy>(
    result: &Result<Vec<T>, Refusal>,
    buffer: &[T],
) -> (Result<usize, Refusal>, Vec<T>) {
    match result {
        Err(refusal) => (Err(*refusal), buffer.to_vec()),
        Ok(cells) if buffer.len() < cells.len() => (refused(11, cells.len()), buffer.to_vec()),
        Ok(cells) => {
            let after = [cells, &buffer[cells.len()..]].concat();
            (Ok(cells.len()), after)
        }
    }
}
