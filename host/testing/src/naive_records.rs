//! Design records and their changes a second time, from the words of documents 01 and 02 alone: a reader that follows the table of refusals number by
//! number, and changes of a design whose sets are named by part numbers, so that no mask is ever moved. What edition 2 adds stands in
//! `naive_editions`.
//!
//! Nothing here is shared with the calculator; the tests compare the two.

use crate::naive::{self, has, holds, refused, MOST_SETS};
use crate::naive_bytes::{number_at, numbers_bytes, Field};
use crate::naive_editions::{edition_2_bytes, filed, read_counts, read_retired};
use nahokipe::Refusal;
use std::collections::BTreeSet;

/// The highest part number that can be issued.
pub const TOP_NUMBER: u64 = (1 << 48) - 1;

// ---- reading

/// A record as it stands: its sets are masks by position.
#[derive(Clone, Debug, PartialEq, Eq)]
pub struct Plain {
    pub mark: u64,
    pub numbers: Vec<u64>,
    pub sets: Vec<u16>,
}

/// What reading gives: the record, where its sets begin, and where they end; its retired numbers if it is of edition 2, and none if it is of
/// edition 1; and where it ends itself.
#[derive(Clone, Debug, PartialEq, Eq)]
pub struct Reading {
    pub plain: Plain,
    pub begin: usize,
    pub end: usize,
    pub retired: Option<Vec<u64>>,
    pub behind: usize,
}

/// Reads numbers one after the other, each with the position of its first byte.
pub(crate) struct Reader<'a> {
    bytes: &'a [u8],
    next: usize,
}

impl Reader<'_> {
    pub(crate) fn number(&mut self, field: Field) -> Result<(u128, usize), Refusal> {
        let first = self.next;
        let (number, after) = number_at(self.bytes, first, field)?;
        self.next = after;
        Ok((number, first))
    }
}

/// The record at a position; what comes after it is not looked at. It is of edition 2 if the bytes 00 02 stand there.
pub fn record_at(bytes: &[u8], start: usize) -> Result<Reading, Refusal> {
    let is_edition_2 = bytes.iter().skip(start).take(2).eq(&[0, 2]);
    if !is_edition_2 {
        return record_by(Field::PART_NUMBER, bytes, start);
    }
    let fields = record_by(Field::PART_NUMBER, bytes, start + 2)?;
    let next = fields.end;
    let mut reader = Reader { bytes, next };
    let retired = read_retired(&mut reader, &fields.plain)?;
    read_counts(&mut reader, &fields.plain)?;
    Ok(Reading {
        retired: Some(retired),
        behind: reader.next,
        ..fields
    })
}

/// The fields of edition 1 at a position, where the mark and the part numbers are of some field.
fn record_by(part_number: Field, bytes: &[u8], start: usize) -> Result<Reading, Refusal> {
    let mut reader = Reader { bytes, next: start };
    let (n, first) = reader.number(Field::COUNT)?;
    if !(1..=16).contains(&n) {
        return refused(1, first);
    }
    let n = n as usize;
    let mark = reader.number(part_number)?.0 as u64;
    let numbers = read_numbers(&mut reader, part_number, n, mark)?;
    let (count, first) = reader.number(Field::COUNT)?;
    if count == 0 {
        return refused(2, first);
    }
    if count > MOST_SETS as u128 {
        return refused(3, first);
    }
    let begin = reader.next;
    let sets = read_sets(&mut reader, n, count as usize)?;
    Ok(Reading {
        plain: Plain {
            mark,
            numbers,
            sets,
        },
        begin,
        end: reader.next,
        retired: None,
        behind: reader.next,
    })
}

/// The record that the bytes are: 25 last.
pub fn whole_record(bytes: &[u8]) -> Result<Reading, Refusal> {
    whole(bytes, record_at(bytes, 0)?)
}

/// The same as it was read while there was edition 1 alone, before document 02's §8.
pub fn edition_1_record(bytes: &[u8]) -> Result<Reading, Refusal> {
    whole(bytes, record_by(Field::PART_NUMBER, bytes, 0)?)
}

/// The same as it was read while part numbers reached 2^32-1, before document 02's §7.
pub fn former_record(bytes: &[u8]) -> Result<Reading, Refusal> {
    let part_number = Field::up_to((1 << 32) - 1);
    whole(bytes, record_by(part_number, bytes, 0)?)
}

fn whole(bytes: &[u8], reading: Reading) -> Result<Reading, Refusal> {
    if reading.behind < bytes.len() {
        return refused(25, reading.behind);
    }
    Ok(reading)
}

/// Part numbers: strictly rising, 1 or more, none above the mark.
fn read_numbers(
    reader: &mut Reader,
    part_number: Field,
    n: usize,
    mark: u64,
) -> Result<Vec<u64>, Refusal> {
    let mut numbers: Vec<u64> = Vec::new();
    for _ in 0..n {
        let (number, first) = reader.number(part_number)?;
        let number = number as u64;
        let rises = numbers.iter().all(|&earlier| earlier < number);
        if number < 1 || number > mark || !rises {
            return refused(23, first);
        }
        numbers.push(number);
    }
    Ok(numbers)
}

/// The sets: 4, 5 and 24 as each is read.
fn read_sets(reader: &mut Reader, n: usize, count: usize) -> Result<Vec<u16>, Refusal> {
    let mut earlier = Earlier::new(n, count);
    for _ in 0..count {
        let (set, first) = reader.number(Field::SET)?;
        if set >= 1 << n {
            return refused(4, first);
        }
        if set == 0 {
            return refused(5, first);
        }
        let set = set as u16;
        if earlier.are_not_below(set) || earlier.are_held_by(set) {
            return refused(24, first);
        }
        earlier.push(set);
    }
    Ok(earlier.sets)
}

/// The sets that were read, and for long records whether each mask holds one of them.
pub struct Earlier {
    n: usize,
    sets: Vec<u16>,
    holding: Option<Vec<bool>>,
}

impl Earlier {
    pub fn new(n: usize, count: usize) -> Earlier {
        Earlier {
            n,
            sets: Vec::new(),
            holding: (count > 64).then(|| vec![false; 1 << n]),
        }
    }

    fn are_not_below(&self, set: u16) -> bool {
        self.sets.last().is_some_and(|&last| last >= set)
    }

    pub fn are_held_by(&self, set: u16) -> bool {
        match &self.holding {
            Some(holding) => holding[set as usize],
            None => self
                .sets
                .iter()
                .any(|&earlier| holds(set as usize, earlier as usize)),
        }
    }

    pub fn push(&mut self, set: u16) {
        self.sets.push(set);
        if let Some(holding) = &mut self.holding {
            mark_holding(self.n, set as usize, holding);
        }
    }
}

/// Marks every set that holds this one: itself with each choice of the other parts, from all of them down to none.
fn mark_holding(n: usize, set: usize, holding: &mut [bool]) {
    let others = (1 << n) - 1 - set;
    let mut choice = others;
    while choice > 0 {
        holding[set + choice] = true;
        choice = (choice - 1) & others;
    }
    holding[set] = true;
}

/// The set at a position of a walk, the position behind it and how many are left there; none where no set is left or none can be read.
pub fn step_at(bytes: &[u8], next: usize, left: usize) -> Option<(u64, usize, usize)> {
    if left == 0 {
        return None;
    }
    let (set, after) = number_at(bytes, next, Field::SET).ok()?;
    Some((set as u64, after, left - 1))
}

// ---- writing

/// The numbers of a record, one behind the other, whatever it is worth.
pub fn record_numbers(plain: &Plain) -> Vec<u128> {
    let Plain {
        mark,
        numbers,
        sets,
    } = plain;
    let head = [numbers.len() as u128, *mark as u128];
    let numbers = numbers.iter().map(|&number| number as u128);
    let count = [sets.len() as u128];
    let sets = sets.iter().map(|&set| set as u128);
    head.into_iter()
        .chain(numbers)
        .chain(count)
        .chain(sets)
        .collect()
}

/// The bytes of a record of edition 1.
pub fn record_bytes(plain: &Plain) -> Vec<u8> {
    numbers_bytes(record_numbers(plain))
}

/// The table of a record, or the record's refusal.
pub fn table_of_record(bytes: &[u8]) -> Result<Vec<u8>, Refusal> {
    let plain = whole_record(bytes)?.plain;
    naive::table_of_list(plain.numbers.len(), &plain.sets)
}

/// A first record: part numbers 1 to n, mark n, the minimal sets of the list; or the list's refusal.
pub fn first_record(n: usize, list: &[u16]) -> Result<Vec<u8>, Refusal> {
    let table = naive::table_of_list(n, list)?;
    Ok(record_bytes(&Plain {
        mark: n as u64,
        numbers: (1..=n as u64).collect(),
        sets: naive::minimal_sets(n, &table)?,
    }))
}

/// A record of parts that have numbers already: these, this mark, the minimal sets of the list; or the first refusal, those of the list and
/// then 23, for the numbers one after the other and for the mark.
pub fn entered_record(mark: u64, numbers: &[u64], list: &[u16]) -> Result<Vec<u8>, Refusal> {
    let n = numbers.len();
    let table = naive::table_of_list(n, list)?;
    let is_wrong = |&i: &usize| {
        let number = numbers[i];
        let rises = numbers[..i].iter().all(|&earlier| earlier < number);
        number == 0 || !rises || number > mark || number > TOP_NUMBER
    };
    if let Some(index) = (0..n).find(is_wrong) {
        return refused(23, index);
    }
    if mark > TOP_NUMBER {
        return refused(23, n);
    }
    Ok(record_bytes(&Plain {
        mark,
        numbers: numbers.to_vec(),
        sets: naive::minimal_sets(n, &table)?,
    }))
}

// ---- part numbers and positions

/// The one position, from 1, whose part number this is; the record's refusal, and then 17.
pub fn position_of(bytes: &[u8], number: u64) -> Result<usize, Refusal> {
    let numbers = whole_record(bytes)?.plain.numbers;
    let place = numbers.iter().position(|&one| one == number);
    place.map_or(refused(17, 0), |place| Ok(place + 1))
}

/// The mask of the positions whose number is wanted: 1, 17 for all wanted numbers, and then 28.
pub fn mask_of(numbers: &[u64], wanted: &[u64]) -> Result<u16, Refusal> {
    let n = numbers.len();
    if !(1..=16).contains(&n) {
        return refused(1, 0);
    }
    if wanted.iter().any(|number| !numbers.contains(number)) {
        return refused(17, 0);
    }
    let different: BTreeSet<&u64> = wanted.iter().collect();
    if different.len() < wanted.len() {
        return refused(28, 0);
    }
    let places = (0..n).filter(|&i| different.contains(&numbers[i]));
    Ok(places.map(|i| 1 << i).sum())
}

/// The numbers at the positions of a mask, in their order: 1, 16.
pub fn numbers_of(numbers: &[u64], mask: usize) -> Result<Vec<u64>, Refusal> {
    let n = numbers.len();
    if !(1..=16).contains(&n) {
        return refused(1, 0);
    }
    if (n..usize::BITS as usize).any(|i| has(mask, i)) {
        return refused(16, 0);
    }
    let places = (0..n).filter(|&i| has(mask, i));
    Ok(places.map(|i| numbers[i]).collect())
}

// ---- changing

/// A design: its minimal sets are sets of part numbers.
#[derive(Clone, Debug, PartialEq, Eq)]
pub struct Design {
    pub mark: u64,
    pub numbers: Vec<u64>,
    pub sets: BTreeSet<BTreeSet<u64>>,
}

impl Design {
    pub fn of(plain: &Plain) -> Design {
        let named = |&set: &u16| named(&plain.numbers, set);
        Design {
            mark: plain.mark,
            numbers: plain.numbers.clone(),
            sets: plain.sets.iter().map(named).collect(),
        }
    }

    pub fn plain(&self) -> Plain {
        let mut sets: Vec<u16> = self.sets.iter().map(|set| self.mask(set)).collect();
        sets.sort_unstable();
        Plain {
            mark: self.mark,
            numbers: self.numbers.clone(),
            sets,
        }
    }

    fn mask(&self, set: &BTreeSet<u64>) -> u16 {
        let places = (0..self.numbers.len()).filter(|&i| set.contains(&self.numbers[i]));
        places.map(|i| 1 << i).sum()
    }

    /// Position n+1, part number mark+1, in no set; the mark rises by one.
    pub fn add_part(mut self) -> Result<Design, Refusal> {
        if self.numbers.len() == 16 {
            return refused(19, 0);
        }
        if self.mark == TOP_NUMBER {
            return refused(20, 0);
        }
        self.mark += 1;
        self.numbers.push(self.mark);
        Ok(self)
    }

    /// The part is held failed: sets naming it go.
    pub fn take_out(mut self, position: usize) -> Result<Design, Refusal> {
        if !(1..=self.numbers.len()).contains(&position) {
            return refused(17, 0);
        }
        let number = self.numbers.remove(position - 1);
        self.sets.retain(|set| !set.contains(&number));
        if self.sets.is_empty() {
            return refused(18, 0);
        }
        Ok(self)
    }

    /// All parts of the group are held failed: sets naming any of them go.
    pub fn take_out_group(self, group: usize) -> Result<Design, Refusal> {
        if group == 0 {
            return refused(15, 0);
        }
        let n = self.numbers.len();
        if (n..usize::BITS as usize).any(|i| has(group, i)) {
            return refused(16, 0);
        }
        let gone = named(&self.numbers, group as u16);
        self.without(&gone)
    }

    /// The part that has this number is held failed.
    pub fn take_out_part(self, number: u64) -> Result<Design, Refusal> {
        let gone = self.wanted(&[number])?;
        self.without(&gone)
    }

    /// All parts that have these numbers are held failed.
    pub fn take_out_parts(self, wanted: &[u64]) -> Result<Design, Refusal> {
        let gone = self.wanted(wanted)?;
        if gone.is_empty() {
            return refused(15, 0);
        }
        self.without(&gone)
    }

    /// The wanted numbers: 17 where any is no part's, and then 28 where one stands twice.
    fn wanted(&self, wanted: &[u64]) -> Result<BTreeSet<u64>, Refusal> {
        if wanted.iter().any(|number| !self.numbers.contains(number)) {
            return refused(17, 0);
        }
        let different: BTreeSet<u64> = wanted.iter().copied().collect();
        if different.len() < wanted.len() {
            return refused(28, 0);
        }
        Ok(different)
    }

    /// Sets that name any of these parts go, and there is one left.
    fn without(mut self, gone: &BTreeSet<u64>) -> Result<Design, Refusal> {
        self.sets.retain(|set| set.is_disjoint(gone));
        if self.sets.is_empty() {
            return refused(18, 0);
        }
        self.numbers.retain(|number| !gone.contains(number));
        Ok(self)
    }

    /// One path set more, by positions.
    pub fn add_set(self, set: u16) -> Result<Design, Refusal> {
        if (self.numbers.len()..16).any(|i| has(set as usize, i)) {
            return refused(4, 0);
        }
        if set == 0 {
            return refused(5, 0);
        }
        let set = named(&self.numbers, set);
        Ok(self.with(set))
    }

    /// One path set more, by part numbers.
    pub fn add_set_of_parts(self, wanted: &[u64]) -> Result<Design, Refusal> {
        let set = self.wanted(wanted)?;
        if set.is_empty() {
            return refused(5, 0);
        }
        Ok(self.with(set))
    }

    /// The minimal sets of the old ones and the new one. No old one holds another, so the new one alone is compared.
    fn with(mut self, set: BTreeSet<u64>) -> Design {
        if !self.sets.iter().any(|old| old.is_subset(&set)) {
            self.sets.retain(|old| !set.is_subset(old));
            self.sets.insert(set);
        }
        self
    }
}

/// The part numbers of a set.
pub fn named(numbers: &[u64], set: u16) -> BTreeSet<u64> {
    let places = (0..numbers.len()).filter(|&i| has(set as usize, i));
    places.map(|i| numbers[i]).collect()
}

/// A change of a record: by positions, or by the part numbers that are wanted.
#[derive(Clone, Copy, Debug, PartialEq, Eq)]
pub enum Change<'a> {
    AddPart,
    TakeOut(usize),
    TakeOutGroup(usize),
    AddSet(u16),
    TakeOutPart(u64),
    TakeOutParts(&'a [u64]),
    AddSetOfParts(&'a [u64]),
}

/// The new record, of the edition that was read, or the first refusal: the whole record is checked, and then the change. In edition 2 the
/// parts that are there no more are filed.
pub fn changed(bytes: &[u8], change: Change) -> Result<Vec<u8>, Refusal> {
    let Reading { plain, retired, .. } = whole_record(bytes)?;
    let new = design_after(&plain, change)?.plain();
    let Some(retired) = retired else {
        return Ok(record_bytes(&new));
    };
    let left = plain.numbers.into_iter();
    let left: Vec<u64> = left.filter(|one| !new.numbers.contains(one)).collect();
    Ok(edition_2_bytes(&new, &filed(&retired, &left)))
}

/// The design that a change makes of a record, or the change's refusal.
fn design_after(plain: &Plain, change: Change) -> Result<Design, Refusal> {
    let design = Design::of(plain);
    match change {
        Change::AddPart => design.add_part(),
        Change::TakeOut(position) => design.take_out(position),
        Change::TakeOutGroup(group) => design.take_out_group(group),
        Change::AddSet(set) => design.add_set(set),
        Change::TakeOutPart(number) => design.take_out_part(number),
        Change::TakeOutParts(wanted) => design.take_out_parts(wanted),
        Change::AddSetOfParts(wanted) => design.add_set_of_parts(wanted),
    }
}
