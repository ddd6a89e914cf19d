//! Lists, tables, path counts, blocks, records and drawings' texts for the tests to try.

use crate::naive::{self, MOST_SETS};
use crate::naive_blocks::{Assembly, Block};
use crate::naive_bytes::numbers_bytes;
use crate::naive_editions::{edition_2_bytes, edition_2_numbers, MOST_RETIRED};
use crate::naive_figures::{binomial, path_counts};
use crate::naive_records::{record_bytes, record_numbers, whole_record, Plain, TOP_NUMBER};
use crate::naive_vectors::{verdict, PATH_COUNTS};
use crate::seeded::Seeded;
use nahokipe::Refusal;
use std::collections::BTreeSet;

/// All sets of `size` parts among n, ascending.
pub fn sets_of_size(n: usize, size: u32) -> Vec<u16> {
    (0..1_u32 << n)
        .filter(|set| set.count_ones() == size)
        .map(|set| set as u16)
        .collect()
}

/// A set of n parts, not empty: any one, a small one, or a large one.
pub fn random_set(seeded: &mut Seeded, n: usize) -> u16 {
    let full = (1 << n) - 1;
    let (a, b) = (seeded.between(1, full), seeded.between(1, full));
    let set = seeded.pick(&[a, a & b, a | b]);
    set.max(1) as u16
}

/// A group of some of n parts, not empty: up to four of them, or any set.
pub fn random_group(seeded: &mut Seeded, n: usize) -> usize {
    match seeded.between(0, 4) {
        0 => random_set(seeded, n) as usize,
        parts => (0..parts).fold(0, |group, _| group | 1 << seeded.between(0, n - 1)),
    }
}

/// A list of n parts, with repeats and nested sets, in any order.
pub fn random_list(seeded: &mut Seeded, n: usize) -> Vec<u16> {
    let most = seeded.pick(&[1, 3, 12, 60, 300]);
    let length = seeded.between(1, most);
    let mut list: Vec<u16> = (0..length).map(|_| random_set(seeded, n)).collect();
    if seeded.between(1, 4) == 1 {
        list.extend(sets_of_size(n, seeded.between(1, n) as u32));
    }
    for _ in 0..seeded.between(0, 3) {
        let again = seeded.pick(&list);
        let larger = again | random_set(seeded, n);
        list.extend([again, larger]);
    }
    seeded.shuffle(&mut list);
    list.truncate(MOST_SETS);
    list
}

/// A list whose sets have no parts but these, which are at least one: a random list of as many parts, each set moved to their positions.
pub fn random_list_over(seeded: &mut Seeded, parts: u16) -> Vec<u16> {
    let to = positions(parts);
    let moved = |set| positions(set).iter().map(|i| 1 << (to[i - 1] - 1)).sum();
    let list = random_list(seeded, to.len());
    list.into_iter().map(moved).collect()
}

/// A list of n parts with something wrong in it, in one or two places.
pub fn damaged_list(seeded: &mut Seeded, n: usize) -> Vec<u16> {
    let mut list = random_list(seeded, n);
    for _ in 0..seeded.between(1, 2) {
        let index = seeded.between(0, list.len() - 1);
        let part = seeded.between(n.min(15), 15);
        list[index] = if n < 16 && seeded.between(0, 1) == 1 {
            list[index] | 1 << part
        } else {
            0
        };
    }
    list
}

/// A table of n parts that is accepted.
pub fn random_table(seeded: &mut Seeded, n: usize) -> Vec<u8> {
    let list = random_list(seeded, n);
    table_of_sets(n, &list)
}

/// The tables of all semicoherent structures of n parts, n up to 4.
pub fn machines(n: usize) -> Vec<Vec<u8>> {
    (0..1_u32 << (1 << n))
        .map(|number| number.to_le_bytes()[..naive::table_length(n)].to_vec())
        .filter(|table| naive::table_verdict(n, table).is_ok())
        .collect()
}

/// Every two machines of n parts, each beside itself too, n up to 4.
pub fn every_pair(n: usize) -> Vec<[Vec<u8>; 2]> {
    let machines = machines(n);
    let mut pairs = Vec::new();
    for first in &machines {
        let beside = |second: &Vec<u8>| [first.clone(), second.clone()];
        pairs.extend(machines.iter().map(beside));
    }
    pairs
}

/// Two tables of n parts that are accepted.
pub fn random_pair(seeded: &mut Seeded, n: usize) -> [Vec<u8>; 2] {
    [(); 2].map(|_| random_table(seeded, n))
}

/// Every machine of up to four parts, and random ones of up to sixteen.
pub fn every_and_random_machines(seed: u64) -> Vec<(usize, Vec<u8>)> {
    let mut seeded = Seeded::new(seed);
    let every = (1..=4).flat_map(|n| machines(n).into_iter().map(move |table| (n, table)));
    let random = (1..=16).flat_map(|n| [n; 12]);
    let random = random.map(|n| (n, random_table(&mut seeded, n)));
    every.chain(random).collect()
}

/// All lists of n+1 numbers in the place of path counts, the j-th from -1 to C(n,j)+1.
pub fn counts_of(n: usize) -> Vec<Vec<i128>> {
    let mut all = vec![Vec::new()];
    for j in 0..=n {
        let longer = |counts: Vec<i128>| {
            let most = binomial(n, j) + 1;
            (-1..=most).map(move |count| [counts.as_slice(), &[count]].concat())
        };
        all = all.into_iter().flat_map(longer).collect();
    }
    all
}

/// Path counts that are accepted, of a machine or of none: each at least the proportion of the one before.
pub fn random_counts(seeded: &mut Seeded, n: usize) -> Vec<i128> {
    if seeded.between(0, 1) == 0 {
        let table = random_table(seeded, n);
        return path_counts(n, &naive::structure_of(n, &table));
    }
    let mut counts = vec![0];
    for j in 1..n {
        let least = counts[j - 1] * binomial(n, j);
        let least = (least + binomial(n, j - 1) - 1) / binomial(n, j - 1);
        let room = (binomial(n, j) - least) as usize;
        let more = seeded.between(0, room);
        counts.push(least + seeded.pick(&[0, 0, more.min(1), more]) as i128);
    }
    counts.push(1);
    counts
}

/// All path counts of n parts that are accepted, of machines or of none, n up to 4.
pub fn accepted_counts(n: usize) -> Vec<Vec<i128>> {
    let mut all = counts_of(n);
    all.retain(|counts| {
        let entries: Vec<i64> = counts.iter().map(|&count| count as i64).collect();
        verdict(PATH_COUNTS, n, &entries).is_ok()
    });
    all
}

/// The sizes of so many blocks, at least 1 each and 16 in all at the most.
pub fn random_sizes(seeded: &mut Seeded, blocks: usize) -> Vec<usize> {
    let mut sizes = vec![1; blocks];
    for _ in 0..seeded.between(0, 16 - blocks) {
        sizes[seeded.between(0, blocks - 1)] += 1;
    }
    sizes
}

/// Accepted path counts of so many blocks of at most 16 parts in all.
pub fn random_blocks(seeded: &mut Seeded, blocks: usize) -> Vec<Vec<i128>> {
    let sizes = random_sizes(seeded, blocks).into_iter();
    sizes.map(|size| random_counts(seeded, size)).collect()
}

/// What is accepted of so many blocks.
pub fn random_assembly(seeded: &mut Seeded, blocks: usize) -> Assembly {
    let table = random_table(seeded, blocks);
    Assembly::of(&table, &random_blocks(seeded, blocks))
}

/// Blocks of these structures, given by their tables and numbers of parts, whose parts stand at positions of the whole that are mixed.
pub fn mixed_blocks(seeded: &mut Seeded, tables: &[(usize, Vec<u8>)]) -> Vec<Block> {
    let n = tables.iter().map(|(size, _)| size).sum();
    let mut bits: Vec<usize> = (0..n).collect();
    seeded.shuffle(&mut bits);
    let block = |(size, table): &(usize, Vec<u8>)| Block {
        works: naive::structure_of(*size, table),
        parts: bits.drain(..size).collect(),
    };
    tables.iter().map(block).collect()
}

/// All machines of n parts, n up to 4: numbered 1 to n, and with gaps, numbers of several bytes and a mark above them.
pub fn every_plain(n: usize) -> Vec<Plain> {
    let numberings = [(n as u64, [1, 2, 3, 4]), (1 << 40, [2, 9, 200, 1 << 32])];
    let mut plains = Vec::new();
    for table in machines(n) {
        let sets = naive::minimal_sets(n, &table).expect("an accepted table");
        plains.extend(numberings.map(|(mark, numbers)| Plain {
            mark,
            numbers: numbers[..n].to_vec(),
            sets: sets.clone(),
        }));
    }
    plains
}

/// The table of a list that is accepted.
pub fn table_of_sets(n: usize, list: &[u16]) -> Vec<u8> {
    naive::table_of(&naive::path_sets_rising(n, list))
}

/// A table with the bit of one set turned over.
pub fn flipped(table: &[u8], set: usize) -> Vec<u8> {
    let mut table = table.to_vec();
    table[set / 8] ^= 1 << (set % 8);
    table
}

/// A table with its parts at other positions: the part at bit i comes to bit `to[i]`.
pub fn moved(n: usize, table: &[u8], to: &[usize]) -> Vec<u8> {
    let works = naive::structure_of(n, table);
    let before = |set: usize| -> usize {
        let parts = (0..n).filter(|&i| naive::has(set, to[i]));
        parts.map(|i| 1 << i).sum()
    };
    let moved: Vec<bool> = (0..1 << n).map(|set| works[before(set)]).collect();
    naive::table_of(&moved)
}

/// A table of n parts with one bit turned over: each bit for up to 8 parts, else twelve bits.
pub fn tables_turned_over(seeded: &mut Seeded, n: usize) -> Vec<Vec<u8>> {
    let table = random_table(seeded, n);
    let sets: Vec<usize> = match n {
        1..=8 => (0..1 << n).collect(),
        _ => (0..12).map(|_| seeded.between(0, (1 << n) - 1)).collect(),
    };
    sets.iter().map(|&set| flipped(&table, set)).collect()
}

/// The minimal sets of a list that is accepted.
pub fn minimal_of_list(n: usize, list: &[u16]) -> Vec<u16> {
    naive::minimal_of_rising(n, &naive::path_sets_rising(n, list))
}

/// A design of n parts, with part numbers of any width and a mark at or above the last of them.
pub fn random_plain(seeded: &mut Seeded, n: usize) -> Plain {
    let list = random_list(seeded, n);
    let numbers = random_numbers(seeded, n);
    let last = numbers[n - 1];
    let above = last + seeded.number() % (TOP_NUMBER - last + 1);
    let short = last.max((1 << 32) - 1);
    Plain {
        mark: seeded.pick(&[last, above, short, TOP_NUMBER]),
        numbers,
        sets: minimal_of_list(n, &list),
    }
}

/// n part numbers, rising: 1 to n, or with gaps, small or large.
fn random_numbers(seeded: &mut Seeded, n: usize) -> Vec<u64> {
    let widest = seeded.pick(&[1, 3, 200, (1 << 32) / n, TOP_NUMBER as usize / n]);
    let mut last = 0;
    let mut numbers = Vec::new();
    for _ in 0..n {
        last += seeded.between(1, widest) as u64;
        numbers.push(last);
    }
    numbers
}

/// Part numbers to ask for, in any order: some of these, and now and then one twice, one that is no part's, or none.
pub fn random_wanted(seeded: &mut Seeded, numbers: &[u64]) -> Vec<u64> {
    let group = random_group(seeded, numbers.len());
    let places = (0..numbers.len()).filter(|place| group >> place & 1 == 1);
    let mut wanted: Vec<u64> = places.map(|place| numbers[place]).collect();
    match seeded.between(0, 9) {
        0 => wanted.push(wanted[0]),
        1 => wanted.push(unknown_number(seeded, numbers)),
        2 => wanted.clear(),
        _ => {}
    }
    seeded.shuffle(&mut wanted);
    wanted
}

/// A number that no part has: beside one of these, one that differs in a high bit, or one at or above the top.
pub fn unknown_number(seeded: &mut Seeded, numbers: &[u64]) -> u64 {
    let number = seeded.pick(numbers);
    let beside = [0, number - 1, number + 1];
    let higher = [16, 32, 48, 63].map(|bit| number ^ (1 << bit));
    let top = [TOP_NUMBER, TOP_NUMBER + 1, u64::MAX];
    let mut unknown = [&beside[..], &higher, &top].concat();
    unknown.retain(|number| !numbers.contains(number));
    seeded.pick(&unknown)
}

/// A record of n parts that is accepted.
pub fn random_record(seeded: &mut Seeded, n: usize) -> Vec<u8> {
    record_bytes(&random_plain(seeded, n))
}

/// The record of edition 1 with the most sets and bytes.
pub fn largest_record() -> Vec<u8> {
    record_bytes(&largest_plain())
}

/// 16 parts, all sets of 8 of them, part numbers of seven bytes.
pub fn largest_plain() -> Plain {
    Plain {
        mark: TOP_NUMBER,
        numbers: (TOP_NUMBER - 15..=TOP_NUMBER).collect(),
        sets: sets_of_size(16, 8),
    }
}

/// Retired numbers for a design, rising: none, few or up to 64 of those that are not in use, as many as its mark leaves, near its part
/// numbers or anywhere.
pub fn random_retired(seeded: &mut Seeded, plain: &Plain) -> Vec<u64> {
    let most = seeded.pick(&[0, 1, 5, MOST_RETIRED - 1, MOST_RETIRED]);
    let mut retired = BTreeSet::new();
    for _ in 0..3 * most {
        let beside = seeded.pick(&plain.numbers) + seeded.between(0, 2 * MOST_RETIRED) as u64;
        let any = 1 + seeded.number() % plain.mark;
        retired.insert(seeded.pick(&[beside.clamp(1, plain.mark), any]));
    }
    retired.retain(|number| !plain.numbers.contains(number));
    retired.into_iter().take(most).collect()
}

/// A record of edition 2 of n parts that is accepted.
pub fn random_edition_2(seeded: &mut Seeded, n: usize) -> Vec<u8> {
    let plain = random_plain(seeded, n);
    let retired = random_retired(seeded, &plain);
    edition_2_bytes(&plain, &retired)
}

/// The record of edition 2 with the most sets, retired numbers and bytes: 64 retired numbers of seven bytes below those of `largest_record`.
pub fn largest_edition_2() -> Vec<u8> {
    let retired: Vec<u64> = (TOP_NUMBER - 79..=TOP_NUMBER - 16).collect();
    edition_2_bytes(&largest_plain(), &retired)
}

/// A record with a byte behind it, or a damaged one, by turns: most of them are refused.
pub fn spoilt_record(seeded: &mut Seeded, n: usize, round: usize) -> Vec<u8> {
    match round % 3 {
        0 => [random_record(seeded, n), vec![1]].concat(),
        _ => damaged_record(seeded, n),
    }
}

/// Spoilt records of 1 to 16 parts, so many rounds of each, that are refused, and what refuses each.
pub fn refused_records(seeded: &mut Seeded, rounds: usize) -> Vec<(Vec<u8>, Refusal)> {
    let kinds = (1..=16).flat_map(|n| (0..rounds).map(move |round| (n, round)));
    let spoilt = kinds.map(|(n, round)| spoilt_record(seeded, n, round));
    let refused = |bytes: Vec<u8>| {
        let refusal = whole_record(&bytes).err()?;
        Some((bytes, refusal))
    };
    spoilt.filter_map(refused).collect()
}

/// A record of n parts with one of its numbers changed, taken away, given twice or exchanged with the next; most are refused.
pub fn damaged_record(seeded: &mut Seeded, n: usize) -> Vec<u8> {
    let numbers = record_numbers(&random_plain(seeded, n));
    let index = seeded.between(0, numbers.len() - 2);
    damaged_numbers(seeded, n, numbers, index)
}

/// The same of edition 2, where most of the time it is a number behind the sets, a retired one or a path count.
pub fn damaged_edition_2(seeded: &mut Seeded, n: usize) -> Vec<u8> {
    let plain = random_plain(seeded, n);
    let retired = random_retired(seeded, &plain);
    let numbers = edition_2_numbers(&plain, &retired);
    let last = numbers.len() - 2;
    let behind = numbers.len() - (retired.len() + n + 2);
    let first = seeded.pick(&[0, behind, behind]);
    let index = seeded.between(first, last);
    damaged_numbers(seeded, n, numbers, index)
}

/// The bytes of these numbers with the one at an index changed, taken away, given twice or exchanged with the next.
fn damaged_numbers(seeded: &mut Seeded, n: usize, mut numbers: Vec<u128>, index: usize) -> Vec<u8> {
    let number = numbers[index];
    match seeded.between(0, 4) {
        0 => numbers.swap(index, index + 1),
        1 => drop(numbers.remove(index)),
        2 => numbers.insert(index, number),
        _ => {
            let any = seeded.number() as u128;
            let top = TOP_NUMBER as u128;
            let beside = [number + 1, number.saturating_sub(1), 0, number << 1];
            let far = [top, top + 1, 1 << 32, 1 << n, any % 65_536, any];
            numbers[index] = seeded.pick(&[beside.as_slice(), &far].concat());
        }
    }
    numbers_bytes(numbers)
}

/// A line of a drawing's text: a word, numbers with a space in front of each, and a line feed.
pub fn drawing_line(word: &str, numbers: impl IntoIterator<Item = usize>) -> String {
    let numbers = numbers.into_iter().map(|number| format!(" {number}"));
    format!("{word}{}\n", numbers.collect::<String>())
}

/// The text of n parts with a line for each set of a list, in its order, and the positions on each line in any order.
pub fn drawing_of_list(seeded: &mut Seeded, n: usize, list: &[u16]) -> String {
    let mut text = drawing_line("parts", [n]);
    for &set in list {
        let mut positions = positions(set);
        seeded.shuffle(&mut positions);
        text += &drawing_line("set", positions);
    }
    text
}

/// The positions of a set, ascending.
fn positions(set: u16) -> Vec<usize> {
    (1..=16).filter(|i| set >> (i - 1) & 1 == 1).collect()
}

/// A drawing's text of n parts that is accepted.
pub fn random_drawing(seeded: &mut Seeded, n: usize) -> String {
    let list = random_list(seeded, n);
    drawing_of_list(seeded, n, &list)
}

/// A drawing's text of n parts with one of its lines moved, taken away or put in, or with a word of one changed; most are refused.
pub fn damaged_drawing(seeded: &mut Seeded, n: usize) -> String {
    let text = random_drawing(seeded, n);
    let mut lines: Vec<Vec<&str>> = text.lines().map(|line| line.split(' ').collect()).collect();
    let index = seeded.between(0, lines.len() - 1);
    let beside = [n + 1, n + 10, n + 256].map(|number| number.to_string());
    match seeded.between(0, 9) {
        0 => lines.truncate(index),
        1 => lines.swap(0, index),
        2 => drop(lines.remove(index)),
        3 => lines.insert(index, Vec::new()),
        _ => damage_line(seeded, &mut lines[index], &beside),
    }
    let line = |words: Vec<&str>| words.join(" ") + "\n";
    lines.into_iter().map(line).collect()
}

/// Takes a word of a line away, gives it twice, turns the line round, or puts another word in its place: a number that is too large,
/// or what is no number.
fn damage_line<'a>(seeded: &mut Seeded, words: &mut Vec<&'a str>, beside: &'a [String; 3]) {
    let index = seeded.between(0, words.len() - 1);
    let word = words[index];
    match seeded.between(0, 5) {
        0 => drop(words.remove(index)),
        1 => words.insert(index, word),
        2 => words.reverse(),
        3 => words[index] = beside[seeded.between(0, 2)].as_str(),
        _ => {
            let long = ["4294967297", "18446744073709551617"];
            let wrong = ["", "00", "01", "-1", "x", "set", "parts", "1\r", "1\t2"];
            let right = ["0", "1", "2", "16"];
            words[index] = seeded.pick(&[&long[..], &wrong, &right].concat());
        }
    }
}

/// All lists of so many of these items, with repeats.
pub fn lists_of<T: Copy>(items: &[T], length: u32) -> impl Iterator<Item = Vec<T>> + '_ {
    let choices = items.len();
    let item = move |list: usize, i| items[list / choices.pow(i) % choices];
    (0..choices.pow(length)).map(move |list| (0..length).map(|i| item(list, i)).collect())
}

/// The text of all sets of 8 of 16 parts, ascending: the most sets that a record can have.
pub fn largest_drawing() -> String {
    let sets = sets_of_size(16, 8).into_iter();
    let lines: String = sets
        .map(|set| drawing_line("set", positions(set)))
        .collect();
    drawing_line("parts", [16]) + &lines
}

/// The table of all sets of 6 or more of 16 parts.
pub fn six_of_sixteen() -> Vec<u8> {
    let mut table = vec![0; 8192];
    for set in (0..=u16::MAX).filter(|set| set.count_ones() >= 6) {
        table[set as usize / 8] |= 1 << (set % 8);
    }
    table
}
