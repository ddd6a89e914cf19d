//! Changes of records: the calculator against designs whose sets are named by part numbers, answers, places and every cell of the lent
//! buffers, along lines of changes with refused ones among them.

use nahokipe::lent::{add_part, table_of_record, take_out};
use nahokipe::{whole_record, Refusal};
use nahokipe_testing::comparing::{make, same_change as compare, same_change_into as compare_into};
use nahokipe_testing::making::{largest_record, random_group, random_plain, random_set};
use nahokipe_testing::making::{random_record, random_wanted, sets_of_size, spoilt_record};
use nahokipe_testing::naive::{in_table, refused, table_length, MOST_SETS};
use nahokipe_testing::naive_records::{self as by_words, named, record_bytes, Change, Design};
use nahokipe_testing::naive_records::{Plain, TOP_NUMBER};
use nahokipe_testing::seeded::Seeded;
use std::collections::BTreeSet;

const BRIDGE: [u8; 12] = [5, 5, 1, 2, 3, 4, 5, 4, 0x09, 0x0E, 0x12, 0x15];

/// Up to so many parts all path sets are named and compared.
const FEW_PARTS: usize = 8;

// ---- what a line of changes does to path sets

/// The path sets of a machine, each as the part numbers of its parts.
type PathSets = BTreeSet<Vec<u64>>;

/// The path sets of a record, from the calculator's own table of it.
fn path_sets(bytes: &[u8]) -> PathSets {
    let numbers = whole_record(bytes).expect("an accepted record").numbers;
    let n = numbers.len();
    let mut table = vec![0xA5; table_length(n)];
    assert_eq!(table_of_record(bytes, &mut table), Ok(table.len()));
    let working = (0..1 << n).filter(|&set| in_table(&table, set));
    working
        .map(|set| named(&numbers, set as u16).into_iter().collect())
        .collect()
}

/// What a change makes of path sets: a new part may be in any of them, one that is held failed is in none, and all that hold the new set
/// are added.
fn path_sets_after(before: &PathSets, old: &Plain, change: Change) -> PathSets {
    match change {
        Change::AddPart => {
            let with = |set: &Vec<u64>| [set.as_slice(), &[old.mark + 1]].concat();
            let more: PathSets = before.iter().map(with).collect();
            before.union(&more).cloned().collect()
        }
        Change::TakeOut(position) => without(before, &[old.numbers[position - 1]].into()),
        Change::TakeOutGroup(group) => without(before, &named(&old.numbers, group as u16)),
        Change::AddSet(set) => with(before, &old.numbers, &named(&old.numbers, set)),
        Change::TakeOutPart(number) => without(before, &[number].into()),
        Change::TakeOutParts(wanted) => without(before, &wanted.iter().copied().collect()),
        Change::AddSetOfParts(wanted) => {
            with(before, &old.numbers, &wanted.iter().copied().collect())
        }
    }
}

/// The path sets, and all sets of these parts that hold the new one.
fn with(before: &PathSets, numbers: &[u64], new: &BTreeSet<u64>) -> PathSets {
    let all = (0..1_u32 << numbers.len()).map(|set| named(numbers, set as u16));
    let holding = all.filter(|set| new.is_subset(set));
    let more: PathSets = holding.map(|set| set.into_iter().collect()).collect();
    before.union(&more).cloned().collect()
}

/// The path sets that have none of these parts.
fn without(before: &PathSets, gone: &BTreeSet<u64>) -> PathSets {
    let stays = |set: &&Vec<u64>| !set.iter().any(|number| gone.contains(number));
    before.iter().filter(stays).cloned().collect()
}

// ---- lines of changes

/// A line: the record that it has come to, the part numbers that are or were in use, which refusals were seen, and how often several
/// parts left together.
struct Line {
    bytes: Vec<u8>,
    issued: BTreeSet<u64>,
    refusals: BTreeSet<u8>,
    left_together: usize,
}

impl Line {
    fn from(bytes: Vec<u8>) -> Line {
        let numbers = whole_record(&bytes).expect("an accepted record").numbers;
        Line {
            bytes,
            issued: numbers.into_iter().collect(),
            refusals: BTreeSet::new(),
            left_together: 0,
        }
    }

    /// One change into a buffer of some length; a refused one leaves the line where it is.
    fn go_on(&mut self, change: Change, room: usize) {
        let expected = by_words::changed(&self.bytes, change);
        let answer = compare_into((&self.bytes, change), &expected, vec![0xA5; room]);
        match answer {
            Ok(new) => self.take(change, new),
            Err(refusal) => drop(self.refusals.insert(refusal.number)),
        }
    }

    fn take(&mut self, change: Change, new: Vec<u8>) {
        let old = self.plain();
        let sets_before = (old.numbers.len() < FEW_PARTS).then(|| path_sets(&self.bytes));
        self.bytes = new;
        let new = self.plain();
        self.numbers_are_new(&old, &new, change);
        self.left_together += (new.numbers.len() + 1 < old.numbers.len()) as usize;
        if let Some(before) = sets_before {
            let expected = path_sets_after(&before, &old, change);
            assert_eq!(path_sets(&self.bytes), expected, "{change:?}, {old:?}");
        }
    }

    /// A number that was in use is never issued again, and no other change issues one. The mark never falls.
    fn numbers_are_new(&mut self, old: &Plain, new: &Plain, change: Change) {
        assert!(new.mark >= old.mark);
        for &number in &new.numbers {
            if !old.numbers.contains(&number) {
                assert_eq!(change, Change::AddPart);
                assert!(self.issued.insert(number), "{number} is issued again");
                assert_eq!((number, new.mark), (old.mark + 1, number));
            }
        }
    }

    fn plain(&self) -> Plain {
        let reading = by_words::whole_record(&self.bytes);
        reading.expect("an accepted record").plain
    }
}

/// A change of a record of n parts, by positions or by wanted part numbers; some are refused.
fn random_change<'a>(
    seeded: &mut Seeded,
    n: usize,
    growth: usize,
    wanted: &'a [u64],
) -> Change<'a> {
    match seeded.between(0, 11 + growth) {
        0 => Change::TakeOut(seeded.between(0, n + 1)),
        1 => Change::TakeOutPart(wanted.first().copied().unwrap_or(0)),
        2 => Change::TakeOutGroup(random_group(seeded, n)),
        3 => Change::TakeOutParts(wanted),
        4 => Change::TakeOutGroup(seeded.pick(&[0, 1 << n, usize::MAX, 1])),
        5 => Change::AddSet(random_set(seeded, n)),
        6..=7 => Change::AddSetOfParts(wanted),
        8 => Change::AddSet(seeded.pick(&[0, 1 << n.min(15), u16::MAX, 1])),
        _ => Change::AddPart,
    }
}

/// Room for the new record most of the time, and else too little.
fn random_room(seeded: &mut Seeded, bytes: &[u8]) -> usize {
    let enough = bytes.len() + 20;
    let little = seeded.between(0, bytes.len());
    seeded.pick(&[enough, enough, enough, enough, enough, little])
}

/// Lines of 200 changes each, from first records and from any others; those that grow reach 16 parts. Every refusal of a change is seen,
/// and several parts leave together.
#[test]
fn lines_of_changes() {
    let mut seeded = Seeded::new(160);
    let (mut seen, mut left_together) = (BTreeSet::new(), 0);
    for number in 0..48 {
        let parts = seeded.between(1, 6);
        let mut line = Line::from(first_of_a_line(&mut seeded, parts, number));
        for _ in 0..200 {
            let numbers = line.plain().numbers;
            let wanted = random_wanted(&mut seeded, &numbers);
            let growth = if number % 4 == 0 { 4 } else { 0 };
            let change = random_change(&mut seeded, numbers.len(), growth, &wanted);
            let room = random_room(&mut seeded, &line.bytes);
            line.go_on(change, room);
        }
        seen.append(&mut line.refusals);
        left_together += line.left_together;
    }
    let expected = BTreeSet::from([4, 5, 11, 15, 16, 17, 18, 19, 20, 28]);
    assert_eq!(seen, expected);
    assert!(left_together > 200, "{left_together}");
}

/// A record for a line to begin with; of every six one has a mark near the top, and one near 2^32.
fn first_of_a_line(seeded: &mut Seeded, n: usize, number: usize) -> Vec<u8> {
    let mut plain = random_plain(seeded, n);
    plain.sets.truncate(12);
    plain.mark = match number % 6 {
        0 => TOP_NUMBER - seeded.between(0, 9) as u64,
        1 => (1 << 32) - seeded.between(1, 9) as u64,
        _ => plain.numbers[n - 1] + seeded.between(0, 3) as u64,
    };
    plain.mark = plain.mark.clamp(plain.numbers[n - 1], TOP_NUMBER);
    record_bytes(&plain)
}

/// Two lines from copies of one record may issue the same number, and do not know of each other.
#[test]
fn two_lines_from_one_record() {
    let mut first = Line::from(BRIDGE.to_vec());
    let mut second = Line::from(BRIDGE.to_vec());
    first.go_on(Change::AddPart, 99);
    second.go_on(Change::TakeOut(5), 99);
    second.go_on(Change::AddPart, 99);
    assert_eq!(first.plain().numbers, [1, 2, 3, 4, 5, 6]);
    assert_eq!(second.plain().numbers, [1, 2, 3, 4, 6]);
    second.go_on(Change::TakeOut(5), 99);
    second.go_on(Change::AddPart, 99);
    assert_eq!(second.plain().numbers, [1, 2, 3, 4, 7]);
}

/// Numbers that left together do not come back, though the highest one is among them.
#[test]
fn numbers_that_left_together() {
    let mut line = Line::from(BRIDGE.to_vec());
    line.go_on(Change::TakeOutGroup(0b10100), 12);
    assert_eq!(line.plain().numbers, [1, 2, 4]);
    line.go_on(Change::AddPart, 99);
    line.go_on(Change::AddPart, 99);
    assert_eq!(line.plain().numbers, [1, 2, 4, 6, 7]);
    line.go_on(Change::TakeOutGroup(0b11010), 99);
    line.go_on(Change::AddPart, 99);
    assert_eq!(line.plain().numbers, [1, 4, 8]);
    assert_eq!(line.left_together, 2);
}

// ---- single changes

/// Every position and every set of few parts, on records of every n.
#[test]
fn changes_of_random_records() {
    let mut seeded = Seeded::new(161);
    for n in 1..=16 {
        for _ in 0..3 {
            let bytes = random_record(&mut seeded, n);
            compare(&bytes, Change::AddPart).ok();
            for position in (0..=n + 2).chain([32, 1 << 32, usize::MAX]) {
                compare(&bytes, Change::TakeOut(position)).ok();
            }
            for _ in 0..6 {
                let set = random_set(&mut seeded, n);
                compare(&bytes, Change::AddSet(set)).ok();
            }
        }
    }
}

#[test]
fn every_set_added_to_machines_of_few_parts() {
    let mut seeded = Seeded::new(162);
    for n in 1..=5 {
        for _ in 0..12 {
            let bytes = random_record(&mut seeded, n);
            for set in 0..3 << n {
                compare(&bytes, Change::AddSet(set)).ok();
            }
        }
    }
}

/// The record is checked whole before the change is looked at, and a damaged one leaves the buffer alone: every refusal of reading.
#[test]
fn changes_of_damaged_records() {
    let mut seeded = Seeded::new(163);
    let mut seen = BTreeSet::new();
    for n in 1..=16 {
        for round in 0..60 {
            let bytes = spoilt_record(&mut seeded, n, round);
            let wrong = by_words::whole_record(&bytes).err();
            seen.extend(wrong.map(|refusal| refusal.number));
            let set = seeded.pick(&[0, 1, u16::MAX]);
            let position = seeded.pick(&[0, 1, n, n + 1]);
            let group = seeded.pick(&[0, 1, 1 << n, usize::MAX]);
            let number = seeded.pick(&[0, 1, TOP_NUMBER, u64::MAX]);
            let changes = [
                Change::AddPart,
                Change::TakeOut(position),
                Change::TakeOutGroup(group),
                Change::AddSet(set),
                Change::TakeOutPart(number),
                Change::TakeOutParts(&[number, number]),
                Change::AddSetOfParts(&[]),
            ];
            for change in changes {
                let expected = by_words::changed(&bytes, change);
                let room = seeded.pick(&[0, 5, bytes.len() + 9]);
                compare_into((&bytes, change), &expected, vec![0x5A; room]).ok();
            }
        }
    }
    let expected = BTreeSet::from([1, 2, 3, 4, 5, 21, 22, 23, 24, 25]);
    assert_eq!(seen, expected);
}

/// Every truncation of some records, under every kind of change: 21 before all of the change's own.
#[test]
fn changes_of_truncated_records() {
    let mut seeded = Seeded::new(164);
    let changes = [
        Change::AddPart,
        Change::TakeOut(0),
        Change::TakeOut(1),
        Change::TakeOutGroup(0),
        Change::TakeOutGroup(1),
        Change::AddSet(0),
        Change::AddSet(1),
        Change::TakeOutPart(0),
        Change::TakeOutPart(1),
        Change::TakeOutParts(&[]),
        Change::TakeOutParts(&[1, 1]),
        Change::AddSetOfParts(&[]),
        Change::AddSetOfParts(&[1]),
    ];
    for n in [1, 3, 5, 16] {
        let bytes = random_record(&mut seeded, n);
        for length in 0..bytes.len().min(90) {
            for change in changes {
                let answer = compare(&bytes[..length], change);
                assert_eq!(answer, refused(21, length));
            }
        }
    }
}

/// Every length of buffer from none to some bytes more than needed.
#[test]
fn every_length_of_buffer() {
    let mut seeded = Seeded::new(165);
    for n in [1, 2, 5, 9, 15] {
        let mut plain = random_plain(&mut seeded, n);
        plain.mark = plain.numbers[n - 1];
        plain.sets.truncate(20);
        let bytes = record_bytes(&plain);
        let changes = [
            Change::AddPart,
            Change::TakeOut(n),
            Change::TakeOut(1),
            Change::AddSet(1),
            Change::AddSet((1 << n) - 1),
        ];
        for change in changes {
            let expected = by_words::changed(&bytes, change);
            let needed = expected.as_ref().map_or(bytes.len(), Vec::len);
            for room in 0..needed + 4 {
                compare_into((&bytes, change), &expected, vec![0x5A; room]).ok();
            }
        }
    }
}

// ---- the edges

/// The mark 2^48-1: 20, whatever the part numbers are. One below it a part can be added, and then no more.
#[test]
fn the_last_number() {
    for numbers in [
        vec![1],
        vec![3, 9],
        vec![TOP_NUMBER - 1],
        vec![1, TOP_NUMBER],
    ] {
        let plain = |mark| Plain {
            mark,
            numbers: numbers.clone(),
            sets: vec![1],
        };
        let full = record_bytes(&plain(TOP_NUMBER));
        assert_eq!(compare(&full, Change::AddPart), refused(20, 0));
        assert_eq!(add_part(&full, &mut []), refused(20, 0));
        if numbers.iter().all(|&number| number < TOP_NUMBER) {
            let before = record_bytes(&plain(TOP_NUMBER - 1));
            let after = compare(&before, Change::AddPart).expect("a number left");
            assert_eq!(compare(&after, Change::AddPart), refused(20, 0));
        }
    }
}

/// Sixteen parts: 19, before 20 and before 11. With fifteen there is room for one more.
#[test]
fn sixteen_parts() {
    for mark in [16, 17, TOP_NUMBER - 1, TOP_NUMBER] {
        let plain = |n| Plain {
            mark,
            numbers: (1..=n).collect(),
            sets: vec![1, 1 << 9],
        };
        let full = record_bytes(&plain(16));
        assert_eq!(compare(&full, Change::AddPart), refused(19, 0));
        assert_eq!(add_part(&full, &mut []), refused(19, 0));
        let answer = compare(&record_bytes(&plain(15)), Change::AddPart);
        assert_eq!(answer.is_ok(), mark < TOP_NUMBER);
    }
}

/// The part that every set names, and one that all but one name.
#[test]
fn the_last_set() {
    for n in 1..=16 {
        let common = 1 << (n - 1);
        let mut sets: Vec<u16> = (0..n - 1).map(|i| common | 1 << i).collect();
        if n == 1 {
            sets.push(1);
        }
        let numbers: Vec<u64> = (1..=n as u64).collect();
        let mark = n as u64;
        let plain = |sets: Vec<u16>| Plain {
            mark,
            numbers: numbers.clone(),
            sets,
        };
        let bytes = record_bytes(&plain(sets.clone()));
        assert_eq!(compare(&bytes, Change::TakeOut(n)), refused(18, 0));
        assert_eq!(take_out(&bytes, n, &mut []), refused(18, 0));
        if n > 3 {
            sets.insert(0, 0b11);
            let answer = compare(&record_bytes(&plain(sets)), Change::TakeOut(n));
            let left = answer.expect("a set left");
            assert_eq!(left.last(), Some(&0b11));
        }
    }
}

/// All sets of 8 of 16 parts: with a set of 7, of 8 and of 9 more, with each part taken out.
#[test]
fn the_largest_record() {
    let bytes = largest_record();
    for set in [0x007F, 0xFE00, 0x00FF, 0xAAAA, 0x01FF, 0xFFFF, 1, 0x8000] {
        compare(&bytes, Change::AddSet(set)).expect("an accepted set");
    }
    let less = compare(&bytes, Change::AddSet(0x7F)).expect("an accepted set");
    let record = whole_record(&less).expect("an accepted record");
    assert_eq!(record.sets, MOST_SETS - 9 + 1);
    for position in [1, 2, 8, 15, 16] {
        let answer = compare(&bytes, Change::TakeOut(position));
        let record = whole_record(&answer.expect("sets left")).expect("an accepted record");
        assert_eq!(record.sets, sets_of_size(15, 8).len());
    }
    assert_eq!(compare(&bytes, Change::AddPart), refused(19, 0));
}

// ---- examples

/// Changes with the new record byte for byte, or a refusal's number; the place is 0.
#[test]
fn examples() {
    let out = Change::TakeOut;
    let top = [1, 0xFF, 0xFF, 0xFF, 0xFF, 0xFF, 0xFF, 0x3F, 1, 1, 1];
    let four = [4, 5, 1, 2, 3, 4, 2, 9, 14];
    let with_six = [5, 6, 1, 2, 3, 4, 6, 2, 9, 14];
    let fewer = [5, 5, 1, 2, 3, 4, 5, 3, 1, 14, 18];
    let cases: [(&[u8], Change, Result<&[u8], u8>); 16] = [
        (&[1, 1, 1, 1, 1], out(1), Err(18)),
        (&[3, 3, 1, 2, 3, 2, 3, 5], out(1), Err(18)),
        (&[2, 2, 1, 2, 1, 1], out(2), Ok(&[1, 2, 1, 1, 1])),
        (&BRIDGE, out(5), Ok(&four)),
        (&four, Change::AddPart, Ok(&with_six)),
        (&[1, 9, 3, 1, 1], Change::AddPart, Ok(&[2, 10, 3, 10, 1, 1])),
        (&top, Change::AddPart, Err(20)),
        (&[1, 1, 1, 1, 1], out(0), Err(17)),
        (&[1, 1, 1, 1, 1], out(2), Err(17)),
        (&[1, 1, 1, 1, 1], out(usize::MAX), Err(17)),
        (&BRIDGE, Change::AddSet(9), Ok(&BRIDGE)),
        (&BRIDGE, Change::AddSet(31), Ok(&BRIDGE)),
        (&BRIDGE, Change::AddSet(1), Ok(&fewer)),
        (&[1, 1, 1, 1, 1], Change::AddSet(0), Err(5)),
        (&[1, 1, 1, 1, 1], Change::AddSet(2), Err(4)),
        (&BRIDGE, Change::AddSet(0x8000), Err(4)),
    ];
    for (bytes, change, expected) in cases {
        let mut buffer = [0xA5; 14];
        let answer = make(change, bytes, &mut buffer);
        let after = answer.map(|length| &buffer[..length]);
        let expected = expected.map_err(|number| Refusal { number, place: 0 });
        assert_eq!(after, expected, "{bytes:02X?}, {change:?}");
        compare(bytes, change).ok();
    }
    assert_eq!(take_out(&[1, 1, 1, 1, 1, 0], 9, &mut []), refused(25, 5));
    let mut short = [7; 8];
    assert_eq!(take_out(&BRIDGE, 3, &mut short), refused(11, 9));
    assert_eq!(short, [7; 8]);
}

/// What the lines are compared with is right about a part that leaves and a part that comes.
#[test]
fn designs_keep_names() {
    let plain = by_words::whole_record(&BRIDGE).expect("an accepted record");
    let design = Design::of(&plain.plain);
    let out = design.take_out(1).and_then(Design::add_part);
    let plain = out.expect("sets left").plain();
    assert_eq!((plain.numbers, plain.mark), (vec![2, 3, 4, 5, 6], 6));
    assert_eq!(plain.sets, [0b0111, 0b1001]);
}
