//! The calls that lend nothing, at the crate's root: what the words say, on inputs that are given and on inputs that are refused, and on the
//! largest machine, for which their buffers are long enough.

use nahokipe::{
    add_part, add_set, add_set_of_parts, convert, domination, drawing_of_record, dual, edition,
    figures, first_record, idle_parts, importance, joint_signature, lent, minimal_cuts,
    minimal_sets, path_counts, path_counts_of_blocks, read_sheet, record_end, record_of_drawing,
    refused_line, reliability, report, retired, save_sheet, save_sheet_as, sets_of_record,
    shares_by_both_routes, shares_by_reliability, shares_by_sets, signature, table_of_cuts,
    table_of_list, table_of_pattern, table_of_record, tail, take_out, take_out_group,
    take_out_part, take_out_parts, to_edition_1, to_edition_2, vector_verdict, Figures, Kind,
    Refusal, Vector,
};
use nahokipe_testing::making::{damaged_drawing, damaged_record, flipped, largest_drawing};
use nahokipe_testing::making::{damaged_edition_2, largest_edition_2, random_edition_2};
use nahokipe_testing::making::{largest_record, random_drawing, random_group, random_list};
use nahokipe_testing::making::{
    random_assembly, random_counts, random_pair, random_record, random_set, random_table,
    random_wanted,
};
use nahokipe_testing::making::{sets_of_size, six_of_sixteen, table_of_sets, unknown_number};
use nahokipe_testing::naive_blocks::Assembly;
use nahokipe_testing::naive_patterns::{self, PATTERNS};
use nahokipe_testing::naive_records::{changed, whole_record, Change};
use nahokipe_testing::seeded::Seeded;
use nahokipe_testing::stored::tail_sheets;
use nahokipe_testing::{naive, naive_blocks, naive_cuts, naive_drawing, naive_figures, naive_idle};
use nahokipe_testing::{naive_editions, naive_joint, naive_records, naive_report};
use nahokipe_testing::{naive_shares, naive_vectors};

// ---- structures and figures

/// Everything that is worked out of a table.
fn compare_table(n: usize, table: &[u8]) {
    let expected = naive_figures::figures(n, table);
    let of = |part: fn(naive_figures::Figures) -> Vec<i64>| expected.clone().map(part);
    assert_eq!(path_counts(n, table), of(|figures| figures.counts));
    assert_eq!(tail(n, table), of(|figures| figures.tail));
    assert_eq!(signature(n, table), of(|figures| figures.signature));
    assert_eq!(domination(n, table), of(|figures| figures.domination));
    let importances = expected.clone().map(|figures| figures.importance);
    assert_eq!(importance(n, table), importances);
    let together = expected.map(|figures| Figures {
        path_counts: figures.counts,
        signature: figures.signature,
        domination: figures.domination,
        importance: figures.importance,
    });
    assert_eq!(figures(n, table), together);
    assert!(minimal_sets(n, table) == naive::minimal_sets(n, table));
    assert!(minimal_cuts(n, table) == naive_cuts::minimal_cuts(n, table));
    assert!(dual(n, table) == naive_cuts::dual(n, table));
    assert_eq!(idle_parts(n, table), naive_idle::idle_parts(n, table));
}

/// Everything that is made of a list.
fn compare_list(n: usize, list: &[u16]) {
    assert!(table_of_list(n, list) == naive::table_of_list(n, list));
    assert!(table_of_cuts(n, list) == naive_cuts::table_of_cuts(n, list));
    assert!(first_record(n, list) == naive_records::first_record(n, list));
}

/// Shares and coefficients of a group.
fn compare_group(n: usize, table: &[u8], group: usize) {
    let shares = naive_shares::shares(n, table, group);
    assert_eq!(shares_by_sets(n, table, group), shares);
    assert_eq!(shares_by_reliability(n, table, group), shares);
    let both = shares.map(|shares| (shares.clone(), shares));
    assert_eq!(shares_by_both_routes(n, table, group), both);
    let coefficients = naive_shares::reliability(n, table, group);
    assert_eq!(reliability(n, table, group), coefficients);
}

/// The joint signature of two tables.
fn compare_pair(n: usize, first: &[u8], second: &[u8]) {
    let expected = naive_joint::joint_signature(n, first, second);
    assert_eq!(joint_signature(n, first, second), expected);
}

/// A machine, and a table that may be none, on either side of each other, and each beside another machine.
#[test]
fn pairs_of_tables() {
    let mut seeded = Seeded::new(325);
    for n in 1..=12 {
        let [first, second] = random_pair(&mut seeded, n);
        let broken = flipped(&first, seeded.between(0, (1 << n) - 1));
        for (first, second) in [(&first, &second), (&first, &broken), (&broken, &second)] {
            compare_pair(n, first, second);
        }
        compare_pair(n + 12, &first, &second);
    }
}

/// The path counts of a machine made of blocks.
fn compare_blocks(assembly: &Assembly) {
    let Assembly {
        blocks,
        table,
        sizes,
        vectors,
    } = assembly;
    let expected = naive_blocks::path_counts_of_blocks(assembly);
    let found = path_counts_of_blocks(*blocks, table, sizes, vectors);
    assert_eq!(found, expected, "{assembly:?}");
}

/// Blocks as they are, with an entry changed and with a size too few; as many parts as there can be, and one more.
#[test]
fn machines_of_blocks() {
    let mut seeded = Seeded::new(326);
    for count in 1..=12 {
        let assembly = random_assembly(&mut seeded, count);
        compare_blocks(&assembly);
        let mut changed = assembly.clone();
        let entry = seeded.between(0, changed.vectors.len() - 1);
        changed.vectors[entry] += 1;
        compare_blocks(&changed);
        let mut shorter = assembly.clone();
        shorter.sizes.pop();
        compare_blocks(&shorter);
    }
    for parts in [15, 16] {
        let blocks = [random_counts(&mut seeded, parts), vec![0, 1]];
        compare_blocks(&Assembly::of(&[0x08], &blocks));
    }
}

#[test]
fn tables_and_groups() {
    let mut seeded = Seeded::new(320);
    for n in 1..=12 {
        for _ in 0..4 {
            let table = random_table(&mut seeded, n);
            let broken = flipped(&table, seeded.between(0, (1 << n) - 1));
            for table in [&table, &broken] {
                compare_table(n, table);
                let group = random_group(&mut seeded, n);
                for group in [group, 0, 1 << n] {
                    compare_group(n, table, group);
                }
            }
        }
    }
}

#[test]
fn lists() {
    let mut seeded = Seeded::new(321);
    for n in 0..=18 {
        for _ in 0..6 {
            let mut list = random_list(&mut seeded, n.clamp(1, 16));
            compare_list(n, &list);
            list.push(0);
            compare_list(n, &list);
        }
    }
}

/// k at both ends of what is accepted, in the middle, and outside.
#[test]
fn patterns() {
    for n in 0..=18 {
        for k in [0, 1, n / 2, n, n + 1] {
            for pattern in PATTERNS {
                let expected = naive_patterns::table_of_pattern(pattern, n, k);
                assert!(table_of_pattern(pattern, n, k) == expected);
            }
        }
    }
}

/// 16 parts: the most sets, the most cut sets, where nine are needed, both beside each other, and the groups with the most shares and the most
/// coefficients.
#[test]
fn the_largest_machine() {
    let [eight, nine] = [8, 9].map(|size| sets_of_size(16, size));
    compare_list(16, &eight);
    let [eight, nine] = [eight, nine].map(|sets| table_of_sets(16, &sets));
    compare_pair(16, &eight, &nine);
    for table in [&eight, &nine, &six_of_sixteen()] {
        compare_table(16, table);
        for group in [0xFFFF, 0x00FF, 1] {
            compare_group(16, table, group);
        }
    }
    compare_record(&largest_record());
    compare_record(&largest_edition_2());
    compare_drawing(largest_drawing().as_bytes());
}

// ---- records

/// Everything that is made of a record by itself.
fn compare_record(bytes: &[u8]) {
    let sets = whole_record(bytes).map(|read| read.plain.sets);
    assert!(sets_of_record(bytes) == sets);
    assert!(table_of_record(bytes) == naive_records::table_of_record(bytes));
    assert!(drawing_of_record(bytes) == naive_drawing::drawing_of_record(bytes));
    let text = naive_report::report(bytes).map(|(_, text)| text.into_bytes());
    assert!(report(bytes) == text);
    assert_eq!(edition(bytes), naive_editions::edition(bytes));
    assert_eq!(retired(bytes), naive_editions::retired(bytes));
    assert_eq!(record_end(bytes, 0), naive_editions::record_end(bytes, 0));
    assert!(to_edition_1(bytes) == naive_editions::to_edition_1(bytes));
    assert!(to_edition_2(bytes) == naive_editions::to_edition_2(bytes));
}

fn compare_drawing(text: &[u8]) {
    assert!(record_of_drawing(text) == naive_drawing::record_of_drawing(text));
}

/// A change, with nothing lent.
fn made(bytes: &[u8], change: Change) -> Result<Vec<u8>, Refusal> {
    match change {
        Change::AddPart => add_part(bytes),
        Change::TakeOut(position) => take_out(bytes, position),
        Change::TakeOutGroup(group) => take_out_group(bytes, group),
        Change::AddSet(set) => add_set(bytes, set),
        Change::TakeOutPart(number) => take_out_part(bytes, number),
        Change::TakeOutParts(wanted) => take_out_parts(bytes, wanted),
        Change::AddSetOfParts(wanted) => add_set_of_parts(bytes, wanted),
    }
}

/// Every kind of change of a record of these parts.
fn compare_changes(seeded: &mut Seeded, bytes: &[u8], numbers: &[u64]) {
    let n = numbers.len();
    let wanted = random_wanted(seeded, numbers);
    let changes = [
        Change::AddPart,
        Change::TakeOut(seeded.between(0, n + 1)),
        Change::TakeOutGroup(random_group(seeded, n)),
        Change::AddSet(random_set(seeded, n)),
        Change::TakeOutPart(seeded.pick(numbers)),
        Change::TakeOutPart(unknown_number(seeded, numbers)),
        Change::TakeOutParts(&wanted),
        Change::AddSetOfParts(&wanted),
    ];
    for change in changes {
        assert!(made(bytes, change) == changed(bytes, change), "{change:?}");
    }
}

/// A record, its changes, and those of a damaged one.
fn compare_records(seeded: &mut Seeded, bytes: &[u8], damaged: &[u8]) {
    let numbers = whole_record(bytes)
        .expect("an accepted record")
        .plain
        .numbers;
    for bytes in [bytes, damaged] {
        compare_record(bytes);
        compare_changes(seeded, bytes, &numbers);
    }
}

#[test]
fn records_and_changes() {
    let mut seeded = Seeded::new(322);
    for n in 1..=16 {
        for _ in 0..4 {
            let bytes = random_record(&mut seeded, n);
            let damaged = damaged_record(&mut seeded, n);
            compare_records(&mut seeded, &bytes, &damaged);
            let bytes = random_edition_2(&mut seeded, n);
            let damaged = damaged_edition_2(&mut seeded, n);
            compare_records(&mut seeded, &bytes, &damaged);
            compare_drawing(random_drawing(&mut seeded, n).as_bytes());
            compare_drawing(damaged_drawing(&mut seeded, n).as_bytes());
        }
    }
}

/// Changes of the record with the most sets, and of what is left of it without a part, which has room for one.
#[test]
fn changes_of_the_largest_record() {
    let mut seeded = Seeded::new(323);
    for bytes in [largest_record(), largest_edition_2()] {
        let numbers = whole_record(&bytes)
            .expect("an accepted record")
            .plain
            .numbers;
        compare_changes(&mut seeded, &bytes, &numbers);
        let fewer = take_out(&bytes, 16).expect("a set left");
        compare_changes(&mut seeded, &fewer, &numbers[..15]);
    }
}

// ---- vectors

/// Vectors of every kind, changed by one now and then: judged, turned into every other kind, saved, saved by name, and read from a sheet.
#[test]
fn vectors() {
    let mut seeded = Seeded::new(324);
    for n in 1..=16 {
        for round in 0..6 {
            let table = random_table(&mut seeded, n);
            let counts = path_counts(n, &table).expect("an accepted table");
            for kind in Kind::ALL {
                let entries = convert(Kind::PathCounts, n, &counts, kind);
                let mut entries = entries.expect("an accepted vector");
                entries[0] += (round % 3) / 2;
                compare_vector(kind, n, &entries);
            }
        }
    }
}

fn compare_vector(kind: Kind, n: usize, entries: &[i64]) {
    let number = kind.number();
    let verdict = naive_vectors::verdict(number, n, entries);
    assert_eq!(vector_verdict(kind, n, entries), verdict);
    for target in Kind::ALL {
        let expected = naive_vectors::convert(number, n, entries, target.number());
        assert_eq!(convert(kind, n, entries, target), expected);
        let expected = naive_vectors::save_sheet_as(number, n, entries, target.number());
        assert_eq!(save_sheet_as(kind, n, entries, target), expected);
    }
    let sheet = naive_vectors::save_sheet(number, n, entries);
    assert_eq!(save_sheet(kind, n, entries), sheet);
    if verdict.is_ok() {
        let sheet = naive_vectors::sheet_bytes(number, n, entries);
        let entries = entries.to_vec();
        assert_eq!(read_sheet(&sheet), Ok(Vector { kind, n, entries }));
        let cut = &sheet[..sheet.len() - 1];
        let refusal = naive_vectors::read_sheet(cut).map(drop);
        assert_eq!(read_sheet(cut).map(drop), refusal);
    }
}

/// Sheets that were stored with a tail: read as such, and saved as the signature.
#[test]
fn stored_tail_sheets() {
    for (sheet, stored) in tail_sheets() {
        let vector = read_sheet(&sheet).expect("a stored sheet");
        let expected = Vector {
            kind: Kind::Tail,
            n: stored.n,
            entries: stored.entries,
        };
        assert_eq!(vector, expected);
        let Vector { kind, n, entries } = vector;
        let sheet = save_sheet(kind, n, &entries).expect("an accepted tail");
        let signature = read_sheet(&sheet).expect("a saved sheet");
        assert_eq!((signature.kind, signature.n), (Kind::Signature, n));
        let again = convert(Kind::Signature, n, &signature.entries, Kind::Tail);
        assert_eq!(again, Ok(entries));
    }
}

// ---- lines

/// The line of every refusal, at places up to the highest, is what the lent call writes.
#[test]
fn lines_of_refusals() {
    for number in 0..=u8::MAX {
        for place in [0, 9, 10, 12_872, usize::MAX] {
            let refusal = Refusal { number, place };
            let line = refused_line(refusal);
            assert_eq!(line, naive_report::refused_line(refusal));
            let mut text = vec![0; line.len()];
            assert_eq!(lent::refused_line(refusal, &mut text), Ok(line.len()));
            assert_eq!(text, line.as_bytes());
        }
    }
}
