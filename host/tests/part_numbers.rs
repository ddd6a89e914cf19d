//! Part numbers up to 2^48-1 (document 02, §7): records whose numbers take four to seven groups, records that were accepted while part
//! numbers reached 2^32-1, and lines of changes that cross 2^32 and that end at the top number.

use nahokipe::lent::{table_of_record, whole_record_answer};
use nahokipe::{whole_record, Refusal};
use nahokipe_testing::comparing::{given, handed_out, make};
use nahokipe_testing::making::{damaged_record, random_record, random_set};
use nahokipe_testing::naive::{self, refused, table_length};
use nahokipe_testing::naive_records::{
    self as by_words, former_record, record_bytes, Change, Plain,
};
use nahokipe_testing::naive_records::{Design, TOP_NUMBER};
use nahokipe_testing::seeded::Seeded;
use std::collections::BTreeSet;

/// Where part numbers ended until then.
const OLD_TOP: u64 = (1 << 32) - 1;

/// 1 and then bytes FF, with others behind them.
fn mark_of(count: usize, behind: &[u8]) -> Vec<u8> {
    [&[1], vec![0xFF; count].as_slice(), behind].concat()
}

// ---- examples

/// The edges of both widths: the seventh byte reaches 3F, and with bit 7 it is 22 where the input ends; n has five groups still.
#[test]
fn examples() {
    let wide = [1, 0x80, 0x80, 0x80, 0x80, 0x10, 1, 1, 1];
    assert_eq!(whole_record(&wide).map(|record| record.mark), Ok(1 << 32));
    let top = mark_of(6, &[0x3F, 1, 1, 1]);
    assert_eq!(whole_record(&top).map(|record| record.mark), Ok(TOP_NUMBER));
    assert_eq!(whole_record(&wide[1..6]), refused(22, 0));
    let cases = [
        (mark_of(6, &[0x40, 1, 1, 1]), refused(22, 1)),
        (mark_of(7, &[]), refused(22, 1)),
        (mark_of(6, &[]), refused(21, 7)),
        (mark_of(5, &[]), refused(21, 6)),
    ];
    for (bytes, expected) in cases {
        assert_eq!(whole_record(&bytes), expected, "{bytes:02X?}");
    }
    assert_eq!(former_record(&mark_of(5, &[])), refused(22, 1));
    assert_eq!(former_record(&wide), refused(22, 1));
    let old_top = mark_of(4, &[0x0F, 1, 1, 1]);
    let more = [
        &[2, 0x80, 0x80, 0x80, 0x80, 0x10, 1][..],
        &[0x80, 0x80, 0x80, 0x80, 0x10, 1, 1],
    ];
    assert_eq!(changed(&old_top, Change::AddPart), Ok(more.concat()));
}

// ---- numbers of four to seven groups

/// Records whose mark and part numbers are the least and the largest of so many groups, and others between them.
fn records_of(groups: u32) -> Vec<Vec<u8>> {
    let low = 1 << (7 * (groups - 1));
    let high = TOP_NUMBER.min((1 << (7 * groups)) - 1);
    let lists = [
        (low, vec![low]),
        (high, vec![1]),
        (high, vec![low - 1, low, high]),
        (high - 1, vec![low, low + 1, low + 200]),
    ];
    let record = |(mark, numbers): (u64, Vec<u64>)| {
        let sets = vec![1 << (numbers.len() - 1)];
        record_bytes(&Plain {
            mark,
            numbers,
            sets,
        })
    };
    lists.into_iter().map(record).collect()
}

/// The answer with every cell of it: its number.
fn compare(bytes: &[u8]) -> u8 {
    let found = whole_record_answer(bytes);
    let expected = handed_out(&by_words::whole_record(bytes));
    assert_eq!(found, expected, "{bytes:02X?}");
    found.number
}

/// Cut off at every byte: 21 at the length that is left.
#[test]
fn every_truncation() {
    for record in (4..=7).flat_map(records_of) {
        assert_eq!(compare(&record), 0);
        for length in 0..record.len() {
            assert_eq!(compare(&record[..length]), 21);
            assert_eq!(whole_record(&record[..length]), refused(21, length));
        }
    }
}

/// Every byte changed to each other value: what is found agrees, and what was accepted until then is found as it was.
#[test]
fn every_change_of_a_byte() {
    let (mut seen, mut before) = (BTreeSet::new(), 0);
    for record in (4..=7).flat_map(records_of) {
        for index in 0..record.len() {
            for byte in 0..=255 {
                let mut changed = record.clone();
                changed[index] = byte;
                seen.insert(compare(&changed));
                before += reads_as_before(&changed) as usize;
            }
        }
    }
    let expected = BTreeSet::from([0, 1, 2, 3, 4, 5, 21, 22, 23, 25]);
    assert!(seen.is_superset(&expected), "{seen:?}");
    assert!(before > 4_000, "{before}");
}

// ---- records accepted until then

/// Whether bytes were accepted while part numbers reached 2^32-1; then everything that is read of them is what was read.
fn reads_as_before(bytes: &[u8]) -> bool {
    let now = whole_record_answer(bytes);
    let then = former_record(bytes);
    let kept = now.number == 0 && now.mark <= OLD_TOP;
    assert_eq!(then.is_ok(), kept, "{bytes:02X?}");
    if then.is_ok() {
        assert_eq!(now, handed_out(&then), "{bytes:02X?}");
    }
    kept
}

/// Records of every n, damaged and whole, with tables and changes: exactly those with a mark of 2^32-1 at most were accepted, and give
/// what they gave.
#[test]
fn records_accepted_until_then() {
    let mut seeded = Seeded::new(170);
    let mut before = 0;
    for n in 1..=16 {
        for _ in 0..120 {
            reads_as_before(&damaged_record(&mut seeded, n));
            let bytes = random_record(&mut seeded, n);
            if reads_as_before(&bytes) {
                before += 1;
                let set = random_set(&mut seeded, n);
                changes_as_before(&bytes, seeded.between(1, n), set);
            }
        }
    }
    assert!(before > 200, "{before}");
}

/// The table, and what a change wrote, from the record as it was read then; the mark 2^32-1 alone ended a line.
fn changes_as_before(bytes: &[u8], position: usize, set: u16) {
    let plain = former_record(bytes).expect("a record accepted then").plain;
    let design = Design::of(&plain);
    let n = plain.numbers.len();
    let mut table = vec![0xA5; table_length(n)];
    assert_eq!(table_of_record(bytes, &mut table), Ok(table.len()));
    assert!(naive::table_of_list(n, &plain.sets) == Ok(table));
    let written =
        |design: Result<Design, Refusal>| design.map(|design| record_bytes(&design.plain()));
    let taken = written(design.clone().take_out(position));
    assert!(changed(bytes, Change::TakeOut(position)) == taken);
    let with_set = written(design.clone().add_set(set));
    assert!(changed(bytes, Change::AddSet(set)) == with_set);
    if plain.mark < OLD_TOP {
        assert!(changed(bytes, Change::AddPart) == written(design.add_part()));
    }
    assert!(record_bytes(&plain) == bytes);
}

// ---- lines of changes

/// The record that a change writes.
fn changed(bytes: &[u8], change: Change) -> Result<Vec<u8>, Refusal> {
    let call = |bytes: &[u8], buffer: &mut [u8]| make(change, bytes, buffer);
    given(call, bytes, bytes.len() + 20)
}

/// A line from a mark: a part is added and the one before it taken out, until no number is left or so many are issued.
fn issued_from(mark: u64, most: usize) -> (Vec<u64>, Option<Refusal>) {
    let (numbers, sets) = (vec![1, 2], vec![1]);
    let mut bytes = record_bytes(&Plain {
        mark,
        numbers,
        sets,
    });
    let mut issued = Vec::new();
    while issued.len() < most {
        let expected = by_words::changed(&bytes, Change::AddPart);
        let answer = changed(&bytes, Change::AddPart);
        assert_eq!(answer, expected);
        match answer {
            Ok(new) => bytes = changed(&new, Change::TakeOut(2)).expect("a part to take out"),
            Err(refusal) => return (issued, Some(refusal)),
        }
        let record = whole_record(&bytes).expect("an accepted record");
        assert_eq!(record.numbers, [1, record.mark]);
        issued.push(record.mark);
    }
    (issued, None)
}

/// Lines that go on past 2^32 and past each edge where a number takes one group more.
#[test]
fn lines_across_the_edges() {
    for edge in [1 << 28, 1 << 32, 1 << 35, 1 << 42] {
        let (issued, refusal) = issued_from(edge - 6, 12);
        assert_eq!(issued, (edge - 5..edge + 7).collect::<Vec<u64>>());
        assert_eq!(refusal, None);
    }
}

/// The two highest numbers leave together, at each edge: the mark stays and the next number is above both; at 2^48-1 there is none.
#[test]
fn the_highest_numbers_leave_together() {
    let plain = |numbers: &[u64], mark| Plain {
        mark,
        numbers: numbers.to_vec(),
        sets: vec![1],
    };
    let edges = [1 << 7, 1 << 28, 1 << 32, 1 << 35, TOP_NUMBER + 1];
    for top in edges.map(|edge| edge - 1) {
        let bytes = record_bytes(&plain(&[1, top - 1, top], top));
        let left = record_bytes(&plain(&[1], top));
        let answer = changed(&bytes, Change::TakeOutGroup(0b110));
        assert_eq!(answer.as_ref(), Ok(&left));
        let next = changed(&left, Change::AddPart);
        let expected = match top {
            TOP_NUMBER => refused(20, 0),
            _ => Ok(record_bytes(&plain(&[1, top + 1], top + 1))),
        };
        assert_eq!(next, expected);
    }
}

/// A line that ends: 20 at 2^48-1, though all parts but two have left.
#[test]
fn a_line_to_the_top_number() {
    let (issued, refusal) = issued_from(TOP_NUMBER - 5, 12);
    assert_eq!(issued, (TOP_NUMBER - 4..=TOP_NUMBER).collect::<Vec<u64>>());
    assert_eq!(refusal, refused::<()>(20, 0).err());
}
