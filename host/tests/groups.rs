//! Groups of parts taken out together (document 02, §2): the calculator against designs whose sets are named by part numbers and against
//! itself, the same parts taken out singly in any order; answers, places and every cell of the lent buffers.

use nahokipe::lent::{take_out, take_out_group};
use nahokipe::{whole_record, Refusal};
use nahokipe_testing::comparing::with_every_damage;
use nahokipe_testing::comparing::{front, given, same_change, same_change_into};
use nahokipe_testing::known::{REFUSED_RECORDS, TAKEN_OUT_GROUPS};
use nahokipe_testing::making::sets_of_size;
use nahokipe_testing::making::{every_plain, largest_record, random_group, random_plain};
use nahokipe_testing::naive::refused;
use nahokipe_testing::naive_figures::{failure_orders, size};
use nahokipe_testing::naive_records::{self as by_words, named, record_bytes, Change};
use nahokipe_testing::naive_records::{Plain, TOP_NUMBER};
use nahokipe_testing::seeded::Seeded;

const BRIDGE: [u8; 12] = [5, 5, 1, 2, 3, 4, 5, 4, 0x09, 0x0E, 0x12, 0x15];

// ---- comparing

/// The record without a group, into a buffer as long as the record.
fn together(bytes: &[u8], group: usize) -> Result<Vec<u8>, Refusal> {
    let call = |bytes: &[u8], buffer: &mut [u8]| take_out_group(bytes, group, buffer);
    given(call, bytes, bytes.len())
}

/// The record without the part at a position, into a buffer as long as the record.
fn without(bytes: &[u8], position: usize) -> Result<Vec<u8>, Refusal> {
    let call = |bytes: &[u8], buffer: &mut [u8]| take_out(bytes, position, buffer);
    given(call, bytes, bytes.len())
}

/// Parts taken out one by one, each where its part number stands in the record of that moment. The first refusal is the outcome.
fn singly(bytes: &[u8], numbers: &[u64]) -> Result<Vec<u8>, Refusal> {
    let mut record = bytes.to_vec();
    for number in numbers {
        let there = whole_record(&record)?.numbers;
        let place = there.iter().position(|one| one == number);
        record = without(&record, 1 + place.expect("a part that has not left"))?;
    }
    Ok(record)
}

/// A group as its words say, into buffers of every length that matters and into one as long as the record, which is enough.
fn compare(bytes: &[u8], group: usize) -> Result<Vec<u8>, Refusal> {
    let expected = same_change(bytes, Change::TakeOutGroup(group));
    let about = || format!("group {group:#b} of {:02X?}", front(bytes));
    assert!(together(bytes, group) == expected, "{}", about());
    expected
}

/// The same, and the group's parts singly in each of these orders.
fn compare_with(bytes: &[u8], group: usize, orders: &[Vec<u64>]) -> Result<Vec<u8>, Refusal> {
    let expected = compare(bytes, group);
    for order in orders {
        let about = || format!("{order:?} singly, of {:02X?}", front(bytes));
        assert!(singly(bytes, order) == expected, "{}", about());
    }
    expected
}

/// The part numbers of a group, ascending.
fn numbers_of(plain: &Plain, group: usize) -> Vec<u64> {
    named(&plain.numbers, group as u16).into_iter().collect()
}

/// The part numbers of a group in every order.
fn every_order(plain: &Plain, group: usize) -> Vec<Vec<u64>> {
    let numbers = numbers_of(plain, group);
    let order = |order: Vec<usize>| order.into_iter().map(|i| numbers[i]).collect();
    let orders = failure_orders(numbers.len()).into_iter();
    orders.map(order).collect()
}

/// The part numbers of a group ascending, descending and in three other orders.
fn some_orders(seeded: &mut Seeded, plain: &Plain, group: usize) -> Vec<Vec<u64>> {
    let mut orders = vec![numbers_of(plain, group); 5];
    orders[1].reverse();
    for order in &mut orders[2..] {
        seeded.shuffle(order);
    }
    orders
}

/// Some machines of every n with up to 20 sets, of which none names all parts where there are several.
fn some_plains(seed: u64) -> Vec<Plain> {
    let mut seeded = Seeded::new(seed);
    let mut plains = Vec::new();
    for n in 1..=16 {
        while plains.len() < 3 * n {
            let mut plain = random_plain(&mut seeded, n);
            plain.sets.truncate(20);
            if n == 1 || plain.sets[0] as usize != all_parts(&plain) {
                plains.push(plain);
            }
        }
    }
    plains
}

fn all_parts(plain: &Plain) -> usize {
    (1 << plain.numbers.len()) - 1
}

/// The parts that the first set does not name: without them this set is left.
fn all_but_the_first_set(plain: &Plain) -> usize {
    all_parts(plain) - plain.sets[0] as usize
}

// ---- examples

/// What is worked out by hand, byte for byte, with the cells behind it as they were.
#[test]
fn examples() {
    for (bytes, group, expected) in TAKEN_OUT_GROUPS {
        let mut buffer = [0xA5; 16];
        let answer = take_out_group(bytes, group, &mut buffer);
        let (front, behind) = buffer.split_at(answer.unwrap_or(0));
        let expected = expected.map_err(|(number, place)| Refusal { number, place });
        let about = format!("group {group:#b} of {bytes:02X?}");
        assert_eq!(answer.map(|_| front), expected, "{about}");
        assert!(behind.iter().all(|&cell| cell == 0xA5), "{about}");
        compare(bytes, group).ok();
    }
}

/// A series of single changes ends at its first refusal: who went on after it would take a part out that the group does not.
#[test]
fn a_refused_part_ends_the_series() {
    let pumps = [3, 3, 1, 2, 3, 2, 3, 5];
    assert_eq!(without(&pumps, 1), refused(18, 0));
    assert_eq!(without(&pumps, 2), Ok(vec![2, 3, 1, 3, 1, 3]));
    for order in [vec![1, 2], vec![2, 1]] {
        assert_eq!(singly(&pumps, &order), refused(18, 0));
    }
    assert_eq!(together(&pumps, 0b11), refused(18, 0));
}

// ---- together and singly

/// Every group, with the parts in every order; no part, and parts beyond the last.
#[test]
fn every_group_of_every_machine_of_up_to_four_parts() {
    let mut seen = [0; 2];
    for n in 1..=4 {
        for plain in every_plain(n) {
            let bytes = record_bytes(&plain);
            assert_eq!(compare(&bytes, 0), refused(15, 0));
            for group in 1..1 << n {
                let answer = compare_with(&bytes, group, &every_order(&plain, group));
                seen[answer.is_ok() as usize] += 1;
            }
            for group in 1 << n..4 << n {
                assert_eq!(compare(&bytes, group), refused(16, 0));
            }
        }
    }
    assert!(seen.iter().all(|&times| times > 1_000), "{seen:?}");
}

#[test]
fn random_groups_of_random_records() {
    let mut seeded = Seeded::new(230);
    let mut seen = [0; 2];
    for n in 1..=16 {
        for _ in 0..16 {
            let plain = random_plain(&mut seeded, n);
            let bytes = record_bytes(&plain);
            let group = random_group(&mut seeded, n);
            let orders = some_orders(&mut seeded, &plain, group);
            let answer = compare_with(&bytes, group, &orders);
            seen[answer.is_ok() as usize] += 1;
        }
    }
    assert!(seen.iter().all(|&times| times > 60), "{seen:?}");
}

/// All parts but those of one set, which is left; with one of its parts as well, and with all of them, none is.
#[test]
fn the_last_set() {
    let mut seeded = Seeded::new(231);
    for plain in some_plains(232) {
        let bytes = record_bytes(&plain);
        assert_eq!(compare(&bytes, all_parts(&plain)), refused(18, 0));
        let most = all_but_the_first_set(&plain);
        if most > 0 {
            let orders = some_orders(&mut seeded, &plain, most);
            let left = compare_with(&bytes, most, &orders).expect("a set left");
            let left = whole_record(&left).expect("an accepted record");
            assert_eq!((left.sets, left.mark), (1, plain.mark));
            let parts = numbers_of(&plain, plain.sets[0] as usize);
            assert_eq!(left.numbers, parts);
        }
        for part in (0..16).filter(|part| plain.sets[0] >> part & 1 == 1) {
            let group = most | 1 << part;
            let orders = some_orders(&mut seeded, &plain, group);
            let answer = compare_with(&bytes, group, &orders);
            assert_eq!(answer, refused(18, 0));
        }
    }
}

/// A position is the group of that one part; where there is none it is 17, and for the group 15 or 16.
#[test]
fn a_position_is_a_group_of_one_part() {
    let few = (1..=4).flat_map(every_plain);
    for plain in few.chain(some_plains(233)) {
        let (n, bytes) = (plain.numbers.len(), record_bytes(&plain));
        for position in 1..=n {
            let group = 1 << (position - 1);
            assert!(together(&bytes, group) == without(&bytes, position));
        }
        assert_eq!(without(&bytes, 0), refused(17, 0));
        assert_eq!(together(&bytes, 0), refused(15, 0));
        assert_eq!(without(&bytes, n + 1), refused(17, 0));
        assert_eq!(together(&bytes, 1 << n), refused(16, 0));
    }
}

/// All sets of 8 of 16 parts: those are left that are sets of 8 of the other parts, and where nine parts leave none is.
#[test]
fn groups_of_the_largest_record() {
    let mut seeded = Seeded::new(234);
    let bytes = largest_record();
    let plain = by_words::whole_record(&bytes);
    let plain = plain.expect("an accepted record").plain;
    let few = [0x0001, 0x8000, 0x8001, 0x0180, 0x0211];
    let many = [0x5A50, 0xAAAA, 0x00FF, 0xFF00, 0x01FF, 0xFFFE, 0xFFFF];
    for group in few.into_iter().chain(many) {
        let orders = some_orders(&mut seeded, &plain, group);
        let answer = compare_with(&bytes, group, &orders);
        let left = Plain {
            mark: TOP_NUMBER,
            numbers: numbers_of(&plain, 0xFFFF - group),
            sets: sets_of_size(16 - size(group), 8),
        };
        match left.sets.is_empty() {
            true => assert_eq!(answer, refused(18, 0)),
            false => assert!(answer == Ok(record_bytes(&left)), "{group:#x}"),
        }
    }
}

// ---- refusals

/// A bit above the last part, up to the highest of a machine word: alone, and beside groups that without it are good or meet every set.
#[test]
fn parts_that_the_machine_lacks() {
    for plain in some_plains(235) {
        let (n, bytes) = (plain.numbers.len(), record_bytes(&plain));
        let good = all_but_the_first_set(&plain);
        assert_eq!(together(&bytes, good).is_ok(), n > 1);
        let bits = (n..usize::BITS as usize).map(|bit| 1 << bit);
        for above in bits.chain([usize::MAX << n]) {
            for group in [above, above + good, above + all_parts(&plain)] {
                assert_eq!(compare(&bytes, group), refused(16, 0));
            }
        }
    }
}

/// Each refusal stands before those behind it: the record's own, 15, 16, 18, 11.
#[test]
fn refusals_in_their_order() {
    let out = |bytes: &[u8], group| take_out_group(bytes, group, &mut []);
    let longer = [&BRIDGE[..], &[0]].concat();
    for group in [0, 3, 20, 31, 32, 32 + 3, usize::MAX] {
        assert_eq!(out(&longer, group), refused(25, 12));
    }
    assert_eq!(out(&BRIDGE, 0), refused(15, 0));
    for group in [32, 32 + 20, 32 + 3, usize::MAX] {
        assert_eq!(out(&BRIDGE, group), refused(16, 0));
    }
    for group in [3, 24, 31] {
        assert_eq!(out(&BRIDGE, group), refused(18, 0));
    }
    assert_eq!(out(&BRIDGE, 20), refused(11, 7));
}

/// Every length of buffer from none to some bytes more than the record has: 11 up to the length needed, which is less than the record's.
#[test]
fn every_length_of_buffer() {
    for plain in some_plains(236).into_iter().skip(3) {
        let bytes = record_bytes(&plain);
        let group = all_but_the_first_set(&plain);
        let change = Change::TakeOutGroup(group);
        let expected = by_words::changed(&bytes, change);
        let needed = expected.as_ref().expect("a set left").len();
        assert!(needed < bytes.len());
        for room in 0..bytes.len() + 4 {
            let answer = same_change_into((&bytes, change), &expected, vec![0x5A; room]);
            assert_eq!(answer.err(), short(room, needed));
        }
    }
}

/// 11 with the length needed, where there is less room.
fn short(room: usize, needed: usize) -> Option<Refusal> {
    let refusal = Refusal {
        number: 11,
        place: needed,
    };
    (room < needed).then_some(refusal)
}

// ---- records at fault

/// Any group of some bytes: as its words say, and where the bytes are no record as reading them is refused; the refusal's number.
fn compare_read(bytes: &[u8]) -> Option<u8> {
    let wrong = whole_record(bytes).err();
    for group in [0, 1, 2, 0b110, 1 << 16, usize::MAX] {
        let change = Change::TakeOutGroup(group);
        let expected = by_words::changed(bytes, change);
        let before = vec![0xA5; bytes.len()];
        let answer = same_change_into((bytes, change), &expected, before);
        if wrong.is_some() {
            assert_eq!(answer.err(), wrong, "group {group:#b} of {bytes:02X?}");
        }
    }
    wrong.map(|refusal| refusal.number)
}

/// Records cut off at every byte, and with every byte changed to each other value. All refusals of reading are seen.
#[test]
fn groups_of_damaged_records() {
    with_every_damage(compare_read);
}

#[test]
fn groups_of_refused_records() {
    for (bytes, number, place) in REFUSED_RECORDS {
        for group in [0, 1, usize::MAX] {
            assert_eq!(compare(bytes, group), refused(number, place));
        }
    }
}
