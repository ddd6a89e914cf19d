//! The naive vectors and sheets against document 01's examples, against figures of machines and against sheets that were stored with a tail:
//! what the other tests compare with must be right.

use nahokipe_testing::known::REFUSED_VECTORS;
use nahokipe_testing::making::random_table;
use nahokipe_testing::naive::{refused, structure_of};
use nahokipe_testing::naive_bytes::{number_at, number_bytes, Field};
use nahokipe_testing::naive_figures::figures_of;
use nahokipe_testing::naive_vectors::*;
use nahokipe_testing::seeded::Seeded;
use nahokipe_testing::stored::tail_sheets;

/// The bridge in the four kinds.
const BRIDGE: [(u8, &[i64]); 4] = [
    (PATH_COUNTS, &[0, 0, 2, 8, 5, 1]),
    (TAIL, &[120, 120, 96, 24, 0, 0]),
    (SIGNATURE, &[0, 24, 72, 24, 0]),
    (DOMINATION, &[0, 0, 2, 2, -5, 2]),
];

#[test]
fn the_bridge_converts_to_each_kind() {
    for (kind, entries) in BRIDGE {
        assert_eq!(verdict(kind, 5, entries), Ok(()));
        for (target, expected) in BRIDGE {
            let found = convert(kind, 5, entries, target);
            assert_eq!(found.as_deref(), Ok(expected), "{kind} to {target}");
        }
    }
}

#[test]
fn the_papers_vectors() {
    assert_eq!(verdict(PATH_COUNTS, 3, &[0, 3, 2, 1]), refused(14, 1));
    assert_eq!(verdict(PATH_COUNTS, 4, &[0, 0, 1, 1, 1]), Ok(()));
    let tail = [120, 120, 100, 24, 0, 0];
    assert_eq!(verdict(TAIL, 5, &tail), refused(13, 3));
}

#[test]
fn refused_vectors() {
    for (kind, n, entries, number, place) in REFUSED_VECTORS {
        let found = verdict(kind, n, entries);
        assert_eq!(found, refused(number, place), "{kind}, {n}, {entries:?}");
    }
    let mut entries = [0; 17];
    entries[1] = 1 << 62;
    assert_eq!(verdict(DOMINATION, 16, &entries), refused(13, 1));
}

/// The path counts that a machine's figures stand for are those of the machine, in every kind.
#[test]
fn figures_of_machines_are_accepted() {
    let mut seeded = Seeded::new(100);
    for n in 1..=16 {
        for _ in 0..10 {
            let table = random_table(&mut seeded, n);
            let figures = figures_of(n, &structure_of(n, &table));
            let vectors = [
                (PATH_COUNTS, &figures.counts),
                (TAIL, &figures.tail),
                (SIGNATURE, &figures.signature),
                (DOMINATION, &figures.domination),
            ];
            for (kind, entries) in vectors {
                for (target, expected) in vectors {
                    assert_eq!(convert(kind, n, entries, target).as_ref(), Ok(expected));
                }
                let sheet = sheet_bytes(kind, n, entries);
                let (entries, read) = (entries.clone(), read_sheet(&sheet));
                assert_eq!(read, Ok(Vector { kind, n, entries }));
            }
        }
    }
}

#[test]
fn numbers_in_bytes() {
    assert_eq!(number_bytes(300), [0xAC, 0x02]);
    assert_eq!(number_bytes(0), [0]);
    assert_eq!(number_bytes(127), [0x7F]);
    assert_eq!(number_bytes(128), [0x80, 0x01]);
    assert_eq!(number_at(&[0xAC, 0x02], 0, Field::COUNT), Ok((300, 2)));
    assert_eq!(number_at(&[0x80, 0x00], 0, Field::COUNT), refused(22, 0));
    assert_eq!(number_at(&[0x01], 2, Field::COUNT), refused(21, 1));
    assert_eq!(number_at(&[0xFF; 4], 0, Field::COUNT), refused(21, 4));
    assert_eq!(number_at(&[0xFF; 5], 0, Field::COUNT), refused(22, 0));
    assert_eq!(number_at(&[0xFF; 6], 0, Field::PART_NUMBER), refused(21, 6));
    assert_eq!(number_at(&[0xFF; 7], 0, Field::PART_NUMBER), refused(22, 0));
    assert_eq!(number_at(&[0xFF; 8], 0, Field::SHEET), refused(21, 8));
    assert_eq!(number_at(&[0xFF; 9], 0, Field::SHEET), refused(22, 0));
}

#[test]
fn the_bridges_sheets() {
    let counts = [0x01, 0x05, 0x00, 0x00, 0x02, 0x08, 0x05, 0x01];
    let domination = [0x04, 0x05, 0x00, 0x00, 0x04, 0x04, 0x09, 0x04];
    assert_eq!(sheet_bytes(1, 5, BRIDGE[0].1), counts);
    assert_eq!(sheet_bytes(4, 5, BRIDGE[3].1), domination);
}

/// The bridge's sheets as they are saved: the tail's is the signature's.
#[test]
fn the_bridge_is_saved() {
    for (kind, entries) in BRIDGE {
        let expected = match kind {
            TAIL => vec![0x03, 0x05, 0x00, 0x18, 0x48, 0x18, 0x00],
            _ => sheet_bytes(kind, 5, entries),
        };
        assert_eq!(save_sheet(kind, 5, entries), Ok(expected));
        for (target, named) in BRIDGE {
            let expected = match target {
                TAIL => refused(34, 0),
                _ => Ok(sheet_bytes(target, 5, named)),
            };
            assert_eq!(save_sheet_as(kind, 5, entries, target), expected);
        }
    }
}

/// 34 is in front of every other refusal; behind it 26 of either kind, and then those of the vector.
#[test]
fn refused_saving() {
    for (kind, n, entries, number, place) in REFUSED_VECTORS {
        assert_eq!(save_sheet(kind, n, entries), refused(number, place));
        assert_eq!(save_sheet_as(kind, n, entries, TAIL), refused(34, 0));
        let signature = save_sheet_as(kind, n, entries, SIGNATURE);
        assert_eq!(signature, refused(number, place));
        for target in NO_KINDS {
            assert_eq!(save_sheet_as(kind, n, entries, target), refused(26, 0));
        }
    }
}

/// Sheets that were stored with a tail are written and read here as they were then.
#[test]
fn stored_tail_sheets() {
    for (sheet, vector) in tail_sheets() {
        let Vector { kind, n, entries } = &vector;
        assert_eq!(sheet_bytes(*kind, *n, entries), sheet);
        assert_eq!(read_sheet(&sheet), Ok(vector));
    }
}

#[test]
fn refused_sheets() {
    let far = [&[0x04, 0x01, 0x00][..], &[0xFF; 8], &[0x7F]].concat();
    let cases: [(&[u8], u8, usize); 19] = [
        (&[], 21, 0),
        (&[0x80, 0x00], 22, 0),
        (&[0x01, 0x80, 0x00], 22, 1),
        (&[0x01], 21, 1),
        (&[0x05], 26, 0),
        (&[0x00, 0x80, 0x00], 26, 0),
        (&[0x01, 0x11], 1, 0),
        (&[0x01, 0x00], 1, 0),
        (&[0x01, 0x01, 0x00, 0x02], 13, 1),
        (&[0x01, 0x01, 0x00, 0x02, 0x07], 25, 4),
        (&[0x01, 0x03, 0x00, 0x03, 0x02, 0x01], 14, 1),
        (&[0x03, 0x02, 0x01, 0x01, 0x00], 25, 4),
        (&[0x01, 0x02, 0x00, 0x01], 21, 4),
        (&far, 13, 1),
        (&[0x84, 0x80, 0x00], 22, 0),
        (&[0xFF; 9], 22, 0),
        (&[0xFF; 8], 21, 8),
        (&[0x85, 0x00], 22, 0),
        (&[0x85, 0x01], 26, 0),
    ];
    for (sheet, number, place) in cases {
        assert_eq!(read_sheet(sheet), refused(number, place), "{sheet:02X?}");
    }
    assert!(read_sheet(&[0x03, 0x02, 0x01, 0x01]).is_ok());
    let read = read_sheet(&[0x04, 0x02, 0x00, 0x04, 0x01]);
    assert_eq!(read.map(|vector| vector.entries), Ok(vec![0, 2, -1]));
}
