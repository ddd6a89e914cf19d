//! Changes of records of edition 2 (document 02, §8): the edition is kept, the path counts are those of the new sets, and the numbers that
//! leave are filed, of which the 64 highest stay. The calculator against designs whose sets are named by part numbers, against its own
//! changes of edition 1, and groups against their parts taken out singly; answers, places and every cell of the lent buffers.

use nahokipe::lent::{self, LONGEST_RECORD};
use nahokipe::{edition, path_counts, position_of, retired, sets_of_record, table_of_record};
use nahokipe::{take_out_group, take_out_part, to_edition_1, to_edition_2, whole_record, Refusal};
use nahokipe_testing::comparing::{front, make, same_change, same_change_into, same_into_all};
use nahokipe_testing::known::{CHANGED_EDITIONS, REFUSED_EDITIONS};
use nahokipe_testing::making::{damaged_edition_2, largest_edition_2, random_edition_2};
use nahokipe_testing::making::{
    every_plain, random_group, random_plain, random_set, random_wanted,
};
use nahokipe_testing::making::{random_retired, sets_of_size};
use nahokipe_testing::naive::refused;
use nahokipe_testing::naive_bytes::numbers_bytes;
use nahokipe_testing::naive_editions::{self as by_words, edition_2_bytes, MOST_RETIRED};
use nahokipe_testing::naive_figures::failure_orders;
use nahokipe_testing::naive_records::{changed, named, record_bytes, Change, Plain, TOP_NUMBER};
use nahokipe_testing::seeded::Seeded;
use std::collections::BTreeSet;

// ---- comparing

/// A record of edition 2 of these parts under a mark, each of which suffices, with these retired numbers.
fn record_of(mark: u64, numbers: &[u64], retired: &[u64]) -> Vec<u8> {
    let plain = Plain {
        mark,
        numbers: numbers.to_vec(),
        sets: (0..numbers.len()).map(|i| 1 << i).collect(),
    };
    edition_2_bytes(&plain, retired)
}

/// The path counts that the calculator works out of a record's table, as the bytes that end a record of edition 2.
fn counted_bytes(bytes: &[u8]) -> Vec<u8> {
    let n = whole_record(bytes)
        .expect("an accepted record")
        .numbers
        .len();
    let table = table_of_record(bytes).expect("an accepted record");
    let counts = path_counts(n, &table).expect("an accepted table");
    numbers_bytes(counts.into_iter().map(|count| count as u128))
}

/// What two records of either edition have in common: the mark, the part numbers and the sets.
fn same_design(first: &[u8], second: &[u8]) {
    let read = |bytes: &[u8]| {
        let record = whole_record(bytes).expect("an accepted record");
        let sets = sets_of_record(bytes).expect("an accepted record");
        (record.mark, record.numbers, sets)
    };
    assert!(read(first) == read(second), "{:02X?}", front(second));
}

/// The retired numbers after a take-out of these parts, by the calculator.
fn retired_after(bytes: &[u8], wanted: &[u64]) -> Vec<u64> {
    let new = same_change(bytes, Change::TakeOutParts(wanted)).expect("a set left");
    retired(&new).expect("an accepted record")
}

// ---- examples

/// What is worked out by hand, byte for byte.
#[test]
fn examples() {
    for (bytes, change, expected) in CHANGED_EDITIONS {
        let expected = expected.or_else(|(number, place)| refused(number, place));
        let found = same_change(bytes, change);
        let about = format!("{change:?} of {bytes:02X?}");
        assert_eq!(found, expected.map(<[u8]>::to_vec), "{about}");
    }
}

/// Full lists: the lowest of 65 is dropped, be it one that stood there or the one just filed.
#[test]
fn the_lowest_is_dropped() {
    let full: Vec<u64> = (101..=164).collect();
    let bytes = record_of(300, &[7, 100, 120, 200, 300], &[]);
    assert_eq!(retired_after(&bytes, &[120]), [120]);
    let full: Vec<u64> = full.into_iter().filter(|&number| number != 120).collect();
    let bytes = record_of(300, &[7, 100, 120, 200, 300], &full);
    let with = |number: u64| {
        let mut all = full.clone();
        all.push(number);
        all.sort_unstable();
        all
    };
    assert_eq!(retired_after(&bytes, &[7]), with(7));
    assert_eq!(retired_after(&bytes, &[120]), with(120));
    assert_eq!(retired_after(&bytes, &[7, 120]), with(120));
    assert_eq!(retired_after(&bytes, &[100, 7]), with(100));
    let bytes = record_of(300, &[7, 100, 200, 300], &with(120));
    assert_eq!(retired_after(&bytes, &[7]), with(120));
    assert_eq!(retired_after(&bytes, &[100]), with(120));
    assert_eq!(retired_after(&bytes, &[7, 100]), with(120));
    assert_eq!(
        retired_after(&bytes, &[200])[..],
        [&with(120)[1..], &[200]].concat()
    );
    assert_eq!(
        retired_after(&bytes, &[300, 7])[..],
        [&with(120)[1..], &[300]].concat()
    );
    let highest = [&with(120)[2..], &[200, 300]].concat();
    assert_eq!(retired_after(&bytes, &[300, 200]), highest);
    assert_eq!(retired_after(&bytes, &[300, 200, 100]), highest);
}

/// A number that was dropped or filed does not come back: the mark stays, and the next number is above it.
#[test]
fn numbers_do_not_come_back() {
    let full: Vec<u64> = (101..=164).collect();
    let bytes = record_of(300, &[7, 100, 300], &full);
    let new = same_change(&bytes, Change::TakeOutParts(&[7, 300])).expect("a set left");
    let new = same_change(&new, Change::AddPart).expect("a number left");
    assert_eq!(
        whole_record(&new).expect("an accepted record").numbers,
        [100, 301]
    );
    for number in [7, 101, 164, 300] {
        assert_eq!(take_out_part(&new, number), refused(17, 0));
        assert_eq!(position_of(&new, number), refused(17, 0));
    }
}

/// Lists of 60 to 64 numbers and groups of every number of parts that leave one: as many are dropped as there are too many.
#[test]
fn groups_at_the_edge() {
    let mut seeded = Seeded::new(440);
    let numbers: Vec<u64> = (1..=12).map(|i| 20 * i).collect();
    for count in [0, 1, 50, 60, 61, 62, 63, 64] {
        for size in 1..=11 {
            let unused = (1..=240).filter(|number| !numbers.contains(number));
            let mut before: Vec<u64> = unused.collect();
            seeded.shuffle(&mut before);
            before.truncate(count);
            before.sort_unstable();
            let mut wanted = numbers.clone();
            seeded.shuffle(&mut wanted);
            wanted.truncate(size);
            let after = retired_after(&record_of(240, &numbers, &before), &wanted);
            assert_eq!(after.len(), (count + size).min(MOST_RETIRED));
            let all: BTreeSet<u64> = before.iter().chain(&wanted).copied().collect();
            assert!(after.iter().eq(all.iter().skip(all.len() - after.len())));
        }
    }
}

// ---- groups and their parts singly

/// Parts taken out one by one by the calculator, up to the first refusal.
fn singly(bytes: &[u8], order: &[u64]) -> Result<Vec<u8>, Refusal> {
    let out = |record: Vec<u8>, &number: &u64| take_out_part(&record, number);
    order.iter().try_fold(bytes.to_vec(), out)
}

/// Every group of every machine of up to four parts, with its parts in every order: the same record byte for byte, retired numbers too.
#[test]
fn groups_are_their_parts_in_any_order() {
    let mut seeded = Seeded::new(441);
    let mut seen = [0; 2];
    for plain in (1..=4).flat_map(every_plain) {
        let numbers = random_retired(&mut seeded, &plain);
        let bytes = edition_2_bytes(&plain, &numbers);
        for group in 1..1 << plain.numbers.len() {
            let together = take_out_group(&bytes, group);
            let parts: Vec<u64> = named(&plain.numbers, group as u16).into_iter().collect();
            for order in failure_orders(parts.len()) {
                let order: Vec<u64> = order.into_iter().map(|i| parts[i]).collect();
                assert_eq!(singly(&bytes, &order), together, "{order:?}");
            }
            assert!(together == changed(&bytes, Change::TakeOutGroup(group)));
            seen[together.is_ok() as usize] += 1;
        }
    }
    assert!(seen.iter().all(|&times| times > 500), "{seen:?}");
}

/// Random groups of records with nearly full lists, in some orders.
#[test]
fn random_groups_in_any_order() {
    let mut seeded = Seeded::new(442);
    let mut dropped = 0;
    for n in (2..=16).flat_map(|n| [n; 8]) {
        let mut plain = random_plain(&mut seeded, n);
        plain.mark = TOP_NUMBER;
        plain.sets.truncate(12);
        let first = seeded.pick(&plain.numbers);
        let unused = (first + 1..).filter(|number| !plain.numbers.contains(number));
        let unused = unused.take_while(|&number| number <= TOP_NUMBER);
        let numbers: Vec<u64> = unused.take(seeded.between(58, 64)).collect();
        let bytes = edition_2_bytes(&plain, &numbers);
        let group = random_group(&mut seeded, n);
        let together = same_change(&bytes, Change::TakeOutGroup(group));
        let mut order: Vec<u64> = named(&plain.numbers, group as u16).into_iter().collect();
        dropped += (together.is_ok() && numbers.len() + order.len() > 64) as usize;
        for _ in 0..4 {
            assert!(singly(&bytes, &order) == together, "{order:?}");
            assert!(
                nahokipe::take_out_parts(&bytes, &order) == together,
                "{order:?}"
            );
            seeded.shuffle(&mut order);
        }
    }
    assert!(dropped > 20, "{dropped}");
}

// ---- lines of changes

/// Three lines of the same changes: of edition 1, of edition 2, and one that is turned into the other edition now and then; and all numbers
/// that left the second, with those that were retired before.
struct Lines {
    first: Vec<u8>,
    second: Vec<u8>,
    wandering: Vec<u8>,
    left: BTreeSet<u64>,
    seen: Seen,
}

/// What the lines have met: refusals, how often the list was full and one was dropped, how often that was one just filed, and how often the
/// third line was turned.
#[derive(Default)]
struct Seen {
    refusals: BTreeSet<u8>,
    dropped: usize,
    just_filed: usize,
    turned: [usize; 2],
}

impl Lines {
    fn from(plain: &Plain, retired: &[u64]) -> Lines {
        let first = record_bytes(plain);
        Lines {
            wandering: first.clone(),
            first,
            second: edition_2_bytes(plain, retired),
            left: retired.iter().copied().collect(),
            seen: Seen::default(),
        }
    }

    fn numbers(&self) -> Vec<u64> {
        whole_record(&self.first)
            .expect("an accepted record")
            .numbers
    }

    /// One change of each line, into buffers of every length that matters; all are refused alike or not at all.
    fn go_on(&mut self, change: Change) {
        let lines = [&self.first, &self.second, &self.wandering];
        let [first, second, wandering] = lines.map(|bytes| same_change(bytes, change));
        match (first, second, wandering) {
            (Ok(first), Ok(second), Ok(wandering)) => {
                let before = self.numbers();
                (self.first, self.second, self.wandering) = (first, second, wandering);
                self.agree(&before);
            }
            (first, second, wandering) => {
                let refusal = first.expect_err("a refusal");
                assert_eq!([second.err(), wandering.err()], [Some(refusal); 2]);
                self.seen.refusals.insert(refusal.number);
            }
        }
    }

    /// Designs and numbers are equal, editions are kept, the highest 64 of all that left are retired, and the counts are fresh.
    fn agree(&mut self, before: &[u64]) {
        let now = self.numbers();
        let gone = before.iter().filter(|number| !now.contains(number));
        let gone: Vec<u64> = gone.copied().collect();
        self.left.extend(&gone);
        same_design(&self.first, &self.second);
        same_design(&self.first, &self.wandering);
        assert_eq!(
            (edition(&self.first), edition(&self.second)),
            (Ok(1), Ok(2))
        );
        let retired = retired(&self.second).expect("an accepted record");
        let highest = self.left.iter().rev().take(MOST_RETIRED).rev();
        assert!(retired.iter().eq(highest), "{retired:?}");
        assert!(self.second.ends_with(&counted_bytes(&self.first)));
        let is_dropped = |number: &&u64| !retired.contains(number);
        self.seen.just_filed += gone.iter().filter(is_dropped).count();
        self.seen.dropped += (!gone.is_empty() && self.left.len() > MOST_RETIRED) as usize;
        self.convert_back(&retired);
    }

    /// The second line as one of edition 1 is the first, or is refused for its retired numbers.
    fn convert_back(&self, retired: &[u64]) {
        let expected = match retired.is_empty() {
            true => Ok(self.first.clone()),
            false => refused(32, 0),
        };
        assert!(to_edition_1(&self.second) == expected);
        assert!(to_edition_2(&self.second).as_ref() == Ok(&self.second));
        let anew = to_edition_2(&self.first).expect("an accepted record");
        same_design(&anew, &self.second);
        assert!(anew.ends_with(&counted_bytes(&self.second)));
    }

    /// The third line is turned into edition 1 or 2, if its retired numbers let it.
    fn turn(&mut self, to: u8) {
        let expected = match to {
            1 => by_words::to_edition_1(&self.wandering),
            _ => by_words::to_edition_2(&self.wandering),
        };
        let call = if to == 1 {
            lent::to_edition_1
        } else {
            lent::to_edition_2
        };
        same_into_all(call, &self.wandering, &expected);
        match expected {
            Ok(bytes) => {
                self.seen.turned[to as usize - 1] += (bytes != self.wandering) as usize;
                self.wandering = bytes;
            }
            Err(refusal) => drop(self.seen.refusals.insert(refusal.number)),
        }
    }
}

/// A change of a record of n parts, by positions or by wanted part numbers, that takes out as many parts as it adds; some are refused.
fn random_change<'a>(seeded: &mut Seeded, n: usize, wanted: &'a [u64]) -> Change<'a> {
    match seeded.between(0, 15) {
        0..=1 => Change::TakeOut(seeded.between(0, n + 1)),
        2..=3 => Change::TakeOutPart(wanted.first().copied().unwrap_or(0)),
        4 => Change::TakeOutGroup(random_group(seeded, n)),
        5 => Change::TakeOutParts(wanted),
        6 => Change::AddSet(random_set(seeded, n)),
        7 => Change::AddSetOfParts(wanted),
        8 => Change::AddSetOfParts(&wanted[..wanted.len().min(1)]),
        _ => Change::AddPart,
    }
}

/// Lines of 300 changes each, in both editions side by side: the list of retired numbers is filled and overflows, and every refusal is seen.
#[test]
fn lines_of_changes() {
    let mut seeded = Seeded::new(443);
    let mut seen = Seen::default();
    for number in 0..14 {
        let mut lines = first_of_lines(&mut seeded, number);
        for _ in 0..300 {
            let numbers = lines.numbers();
            let wanted = random_wanted(&mut seeded, &numbers);
            match seeded.between(0, 9) {
                0 => lines.turn(1),
                1 => lines.turn(2),
                _ => lines.go_on(random_change(&mut seeded, numbers.len(), &wanted)),
            }
        }
        seen.refusals.append(&mut lines.seen.refusals);
        seen.dropped += lines.seen.dropped;
        seen.just_filed += lines.seen.just_filed;
        seen.turned[0] += lines.seen.turned[0];
        seen.turned[1] += lines.seen.turned[1];
    }
    assert_eq!(
        seen.refusals,
        BTreeSet::from([5, 15, 17, 18, 19, 20, 28, 32])
    );
    assert!(seen.dropped > 200, "{}", seen.dropped);
    assert!(seen.just_filed > 5, "{}", seen.just_filed);
    assert!(
        seen.turned.iter().all(|&times| times > 2),
        "{:?}",
        seen.turned
    );
}

/// Up to six parts, each of which suffices; of every four lines one begins with a full list, of numbers above the first two parts', and one
/// near the highest number.
fn first_of_lines(seeded: &mut Seeded, number: usize) -> Lines {
    let n = seeded.between(3, 6);
    let numbers: Vec<u64> = [5, 20, 40, 80, 120, 160][..n].to_vec();
    let plain = |mark| Plain {
        mark,
        numbers: numbers.clone(),
        sets: (0..n).map(|i| 1 << i).collect(),
    };
    let unused = (30..300).filter(|number| !numbers.contains(number));
    let unused: Vec<u64> = unused.take(MOST_RETIRED).collect();
    match number % 4 {
        0 => Lines::from(&plain(300), &unused),
        1 => Lines::from(&plain(TOP_NUMBER - 30), &[]),
        _ => Lines::from(&plain(numbers[n - 1]), &[]),
    }
}

/// A part comes and leaves, a hundred times: the list is filled from below, and each number that is dropped is the lowest.
#[test]
fn one_part_after_the_other() {
    let mut bytes = record_of(2, &[1, 2], &[]);
    for number in 3..=102 {
        bytes = same_change(&bytes, Change::AddPart).expect("a number left");
        bytes = same_change(&bytes, Change::TakeOutPart(number)).expect("a set left");
        let first = number.saturating_sub(63).max(3);
        let expected: Vec<u64> = (first..=number).collect();
        assert_eq!(retired(&bytes), Ok(expected));
    }
    let full: Vec<u64> = (39..=102).collect();
    for low in [1, 2] {
        let less = same_change(&bytes, Change::TakeOutPart(low)).expect("a set left");
        assert_eq!(retired(&less), Ok(full.clone()));
    }
}

// ---- single changes

/// Every kind of change of a record of these parts.
fn changes<'a>(seeded: &mut Seeded, n: usize, wanted: &'a [u64]) -> Vec<Change<'a>> {
    vec![
        Change::AddPart,
        Change::TakeOut(seeded.between(0, n + 1)),
        Change::TakeOut(seeded.between(1, n)),
        Change::TakeOutGroup(random_group(seeded, n)),
        Change::TakeOutGroup(seeded.pick(&[0, 1 << n, usize::MAX])),
        Change::AddSet(random_set(seeded, n)),
        Change::AddSet(seeded.pick(&[0, 1, u16::MAX])),
        Change::TakeOutPart(wanted.last().copied().unwrap_or(0)),
        Change::TakeOutParts(wanted),
        Change::AddSetOfParts(wanted),
    ]
}

/// Random changes of random records. A buffer as long as the record is enough to take parts out, and the longest record's for the others.
#[test]
fn changes_of_random_records() {
    let mut seeded = Seeded::new(444);
    for n in (1..=16).flat_map(|n| [n; 8]) {
        let bytes = random_edition_2(&mut seeded, n);
        let numbers = whole_record(&bytes).expect("an accepted record").numbers;
        let wanted = random_wanted(&mut seeded, &numbers);
        for change in changes(&mut seeded, n, &wanted) {
            let expected = same_change(&bytes, change);
            let grows = matches!(
                change,
                Change::AddPart | Change::AddSet(_) | Change::AddSetOfParts(_)
            );
            let room = if grows { LONGEST_RECORD } else { bytes.len() };
            let mut buffer = vec![0xA5; room];
            let answer = make(change, &bytes, &mut buffer);
            assert_eq!(answer.err(), expected.err(), "{change:?}");
        }
    }
}

/// A damaged record is refused as reading it is, under every change, and leaves the buffer alone.
#[test]
fn changes_of_damaged_records() {
    let mut seeded = Seeded::new(445);
    let mut seen = BTreeSet::new();
    for n in 1..=12 {
        for round in 0..60 {
            let whole = random_edition_2(&mut seeded, n);
            let bytes = match round % 6 {
                0 => [whole, vec![1]].concat(),
                1 => whole[..seeded.between(0, whole.len() - 1)].to_vec(),
                _ => damaged_edition_2(&mut seeded, n),
            };
            let wrong = whole_record(&bytes).err();
            seen.extend(wrong.map(|refusal| refusal.number));
            for change in changes(&mut seeded, n, &[1, 1]) {
                let expected = changed(&bytes, change);
                let room = seeded.pick(&[0, 5, bytes.len() + 40]);
                let answer = same_change_into((&bytes, change), &expected, vec![0x5A; room]);
                if wrong.is_some() {
                    assert_eq!(answer.err(), wrong, "{change:?}");
                }
            }
        }
    }
    let expected = BTreeSet::from([1, 4, 21, 22, 23, 24, 25, 30, 31]);
    assert!(seen.is_superset(&expected), "{seen:?}");
    for (bytes, number, place) in REFUSED_EDITIONS {
        for change in changes(&mut seeded, 3, &[1]) {
            assert_eq!(same_change(bytes, change), refused(number, place));
        }
    }
}

/// Each refusal stands before those behind it: the record's own, the change's, 11.
#[test]
fn refusals_in_their_order() {
    let full: Vec<u64> = (101..=164).collect();
    let bytes = record_of(300, &[7, 100, 300], &full);
    let longer = [bytes.as_slice(), &[0]].concat();
    let mut wrong = bytes.clone();
    *wrong.last_mut().expect("a byte") = 2;
    let out = Change::TakeOutParts;
    let refusals = [
        (Change::TakeOut(4), 17),
        (Change::TakeOutPart(101), 17),
        (Change::TakeOutGroup(0), 15),
        (Change::TakeOutGroup(8), 16),
        (Change::TakeOutGroup(7), 18),
        (Change::AddSet(8), 4),
        (Change::AddSet(0), 5),
        (out(&[101]), 17),
        (out(&[7, 7]), 28),
        (out(&[]), 15),
        (out(&[7, 300, 100]), 18),
        (Change::AddSetOfParts(&[164]), 17),
        (Change::AddSetOfParts(&[]), 5),
    ];
    for (change, number) in refusals {
        assert_eq!(make(change, &bytes, &mut []), refused(number, 0));
        assert_eq!(make(change, &longer, &mut []), refused(25, bytes.len()));
        assert_eq!(make(change, &wrong, &mut []), refused(31, bytes.len() - 1));
    }
    let sixteen: Vec<u64> = (1..=16).collect();
    let sixteen = record_of(TOP_NUMBER, &sixteen, &[20]);
    assert_eq!(make(Change::AddPart, &sixteen, &mut []), refused(19, 0));
    let spent = record_of(TOP_NUMBER, &[1], &[2, TOP_NUMBER]);
    assert_eq!(make(Change::AddPart, &spent, &mut []), refused(20, 0));
    let alone = record_of(9, &[1], &[2]);
    assert_eq!(make(Change::TakeOut(1), &alone, &mut []), refused(18, 0));
}

/// Every length of buffer from none to some bytes more than needed: 11 with the length of the whole record of edition 2.
#[test]
fn every_length_of_buffer() {
    let mut seeded = Seeded::new(446);
    for n in [1, 2, 5, 9, 15] {
        let mut plain = random_plain(&mut seeded, n);
        plain.sets = (0..n).map(|i| 1 << i).collect();
        plain.mark = plain.mark.min(TOP_NUMBER - 1);
        let numbers = random_retired(&mut seeded, &plain);
        let bytes = edition_2_bytes(&plain, &numbers);
        let changes = [
            Change::AddPart,
            Change::TakeOut(n),
            Change::TakeOutGroup(1),
            Change::AddSet((1 << n) - 1),
            Change::TakeOutPart(plain.numbers[0]),
            Change::TakeOutParts(&plain.numbers[n / 2 + 1..]),
            Change::AddSetOfParts(&plain.numbers),
        ];
        for change in changes {
            let expected = changed(&bytes, change);
            let needed = expected.as_ref().map_or(bytes.len(), Vec::len);
            for room in 0..needed + 4 {
                let answer = same_change_into((&bytes, change), &expected, vec![0x5A; room]);
                if expected.is_ok() && room < needed {
                    assert_eq!(answer, refused(11, needed));
                }
            }
        }
    }
}

/// A record of edition 1 stays one under every change, and so does one of edition 2 that has no retired numbers.
#[test]
fn editions_are_kept() {
    let mut seeded = Seeded::new(447);
    for n in (1..=12).flat_map(|n| [n; 6]) {
        let plain = random_plain(&mut seeded, n);
        let wanted = random_wanted(&mut seeded, &plain.numbers);
        for change in changes(&mut seeded, n, &wanted) {
            let first = same_change(&record_bytes(&plain), change);
            let second = same_change(&edition_2_bytes(&plain, &[]), change);
            if let (Ok(first), Ok(second)) = (first, second) {
                assert_eq!((edition(&first), edition(&second)), (Ok(1), Ok(2)));
                same_design(&first, &second);
                assert!(second.ends_with(&counted_bytes(&first)));
            }
        }
    }
}

/// The record of edition 2 with the most sets and retired numbers: sets added, parts taken out singly and together.
#[test]
fn the_largest_record() {
    let bytes = largest_edition_2();
    for set in [0x007F, 0xFE00, 0x00FF, 0xFFFF, 1] {
        same_change(&bytes, Change::AddSet(set)).expect("an accepted set");
    }
    for change in [
        Change::TakeOut(1),
        Change::TakeOut(16),
        Change::TakeOutGroup(0x8001),
        Change::TakeOutGroup(0x00FF),
        Change::TakeOutPart(TOP_NUMBER),
        Change::TakeOutParts(&[TOP_NUMBER - 15, TOP_NUMBER]),
    ] {
        let new = same_change(&bytes, change).expect("a set left");
        let left = 16
            - whole_record(&new)
                .expect("an accepted record")
                .numbers
                .len();
        let numbers = retired(&new).expect("an accepted record");
        assert_eq!(numbers.len(), MOST_RETIRED);
        assert_eq!(numbers[0], TOP_NUMBER - 79 + left as u64);
        assert_eq!(
            sets_of_record(&new).map(|sets| sets.len()),
            Ok(sets_of_size(16 - left, 8).len())
        );
    }
    assert_eq!(same_change(&bytes, Change::AddPart), refused(19, 0));
    assert_eq!(
        same_change(&bytes, Change::TakeOutGroup(0x01FF)),
        refused(18, 0)
    );
}
