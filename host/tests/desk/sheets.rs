//! `sheet` and `save`: every stored kind as every kind, beside `figures` and beside sheets from the definitions; what is not written, and
//! files that are no sheets.

use crate::counting::counts;
use crate::editions::random_second;
use crate::folder::{assert_has, Folder, Ran, BRIDGE, PUMPS, SHEET};
use crate::refusing::{words, READING};
use nahokipe_testing::making::{random_plain, sets_of_size};
use nahokipe_testing::naive::structure_of;
use nahokipe_testing::naive_editions::edition_2_bytes;
use nahokipe_testing::naive_figures::path_counts;
use nahokipe_testing::naive_records::{record_bytes, table_of_record, Plain};
use nahokipe_testing::naive_vectors::{read_sheet, save_sheet, sheet_bytes, vector_for};
use nahokipe_testing::naive_vectors::{DOMINATION, KINDS, PATH_COUNTS, SIGNATURE, TAIL};
use nahokipe_testing::seeded::Seeded;
use nahokipe_testing::stored::tail_sheets;
use std::collections::BTreeSet;

/// The sheets of the bridge.
const OF_THE_BRIDGE: [&[u8]; 4] = [
    &[1, 5, 0, 0, 2, 8, 5, 1],
    &SHEET,
    &[3, 5, 0, 24, 72, 24, 0],
    &[4, 5, 0, 0, 4, 4, 9, 4],
];

/// What is printed of its tail sheet.
const TAIL_OF_THE_BRIDGE: &str = "\
kind 2, tail, 5 parts
5! = 120 orders in which the parts can fail, all counted alike

Tail: in how many orders the machine still runs after so many failures
  failures  orders  fraction  per cent
         0     120         1    100.00
         1     120         1    100.00
         2      96       4/5     80.00
         3      24       1/5     20.00
         4       0         0      0.00
         5       0         0      0.00
";

/// What is printed where that is saved.
const TAIL_SAVED: &str = "\
kind 2, tail, 5 parts
a tail is saved as the signature, which says the same
written: kind 3, signature, 5 parts, 7 bytes
5! = 120 orders in which the parts can fail, all counted alike

Signature: in how many orders it is the 1st, 2nd, ... failure that stops the machine
  failure  orders  fraction  per cent
        1       0         0      0.00
        2      24       1/5     20.00
        3      72       3/5     60.00
        4      24       1/5     20.00
        5       0         0      0.00
";

/// What is said of a tail that was to be saved by name, behind the file's name.
const NO_TAIL: &str = ": nothing is saved
  refused 34 0: a tail sheet was to be written by name, and none is written any more
  usual cause: `tail` was named as the kind of a new sheet; nobody reads tail sheets on
      paper any more, and those that are stored are still taken
  what to do: save the signature, which says the same; `nahokipe sheet` without -o still
      shows the tail
";

/// The word that names a kind, and what it is called where it is printed.
fn called(kind: u8) -> (&'static str, &'static str) {
    match kind {
        PATH_COUNTS => ("path-counts", "path counts"),
        TAIL => ("tail", "tail"),
        SIGNATURE => ("signature", "signature"),
        _ => ("domination", "domination"),
    }
}

/// A machine: its record, the number of its parts and its path counts, and what `figures` prints of it.
struct Machine {
    record: Vec<u8>,
    n: usize,
    counts: Vec<i128>,
    figures: String,
}

impl Machine {
    /// The machine of a record's bytes, which this folder then has.
    fn of(folder: &Folder, record: Vec<u8>, n: usize) -> Machine {
        folder.write("record", &record);
        let table = table_of_record(&record).expect("an accepted record");
        Machine {
            n,
            counts: path_counts(n, &structure_of(n, &table)),
            figures: folder.run(&["figures", "record"]).done(),
            record,
        }
    }

    /// Its sheet of a kind, from the definitions.
    fn sheet(&self, kind: u8) -> Vec<u8> {
        sheet_bytes(kind, self.n, &vector_for(kind, &self.counts))
    }

    /// What is said of its vector of a kind.
    fn what(&self, kind: u8) -> String {
        let parts = match self.n {
            1 => "1 part".to_string(),
            n => format!("{n} parts"),
        };
        format!("kind {kind}, {}, {parts}", called(kind).1)
    }

    /// Lines, and the figure of a kind behind them as `figures` has it, with all orders where it counts orders.
    fn text(&self, lines: &str, kind: u8) -> String {
        let title = format!("\n\n{}: ", called(kind).1);
        let lower = self.figures.to_lowercase();
        let start = lower.find(&title).expect("a block") + 2;
        let block = self.figures[start..].split("\n\n").next();
        let block = block.expect("its lines").trim_end();
        let all = match kind {
            TAIL | SIGNATURE => self.figures.lines().nth(1),
            _ => None,
        };
        let all = all.map_or(String::new(), |line| format!("{line}\n"));
        format!("{lines}\n{all}\n{block}\n")
    }

    /// What is printed of its sheet of a kind where another or the same kind is named, or none.
    fn shown(&self, kind: u8, named: Option<u8>) -> String {
        let what = self.what(kind);
        match named {
            None => self.text(&what, kind),
            Some(named) => {
                let line = format!("{what}; shown as the {}", called(named).1);
                self.text(&line, named)
            }
        }
    }

    /// What is printed where a sheet of a kind is written, behind some lines.
    fn written(&self, lines: &str, kind: u8) -> String {
        let bytes = self.sheet(kind).len();
        let line = format!("{lines}written: {}, {bytes} bytes", self.what(kind));
        self.text(&line, kind)
    }
}

/// Random machines of 1 to 16 parts, and the one that runs as long as one of 16 parts does, whose sheets have the largest numbers.
fn machines(folder: &Folder, seed: u64) -> Vec<Machine> {
    let mut seeded = Seeded::new(seed);
    let random = (1..=16).map(|n| (n, random_plain(&mut seeded, n)));
    let any = Plain {
        mark: 16,
        numbers: (1..=16).collect(),
        sets: sets_of_size(16, 1),
    };
    let all = random.chain([(16, any)]);
    all.map(|(n, plain)| Machine::of(folder, record_bytes(&plain), n))
        .collect()
}

/// The words of `sheet` on the file `stored`, with a kind or none, and these behind them.
fn sheet<'a>(named: Option<u8>, behind: &[&'a str]) -> Vec<&'a str> {
    let mut all = vec!["sheet", "stored"];
    all.extend(named.map(|kind| called(kind).0));
    all.extend(behind);
    all
}

/// No kind, and each.
fn none_and_each() -> impl Iterator<Item = Option<u8>> {
    [None].into_iter().chain(KINDS.map(Some))
}

// ---- showing

#[test]
fn the_stored_sheets_of_the_bridge() {
    let folder = Folder::with("stored", SHEET);
    let printed = folder.run(&["sheet", "stored"]).done();
    assert_eq!(printed, TAIL_OF_THE_BRIDGE);
    let bridge = Machine::of(&folder, BRIDGE.to_vec(), 5);
    for (kind, bytes) in KINDS.into_iter().zip(OF_THE_BRIDGE) {
        folder.write("stored", bytes);
        for named in none_and_each() {
            let printed = folder.run(&sheet(named, &[])).done();
            assert_eq!(printed, bridge.shown(kind, named));
        }
        assert_eq!(folder.read("stored"), bytes);
    }
    assert_eq!(folder.names(), ["record", "stored"]);
}

/// Every stored kind as every kind: the same words and columns as `figures` has.
#[test]
fn every_kind_as_every_kind() {
    let folder = Folder::new();
    for machine in machines(&folder, 810) {
        for kind in KINDS {
            folder.write("stored", machine.sheet(kind));
            for named in none_and_each() {
                let printed = folder.run(&sheet(named, &[])).done();
                assert_eq!(printed, machine.shown(kind, named));
            }
        }
    }
}

// ---- saving what a sheet holds

#[test]
fn a_stored_tail_that_is_saved() {
    let folder = Folder::with("stored", SHEET);
    let printed = folder.run(&["sheet", "stored", "-o", "new"]).done();
    assert_eq!(printed, TAIL_SAVED);
    assert_eq!(folder.read("new"), OF_THE_BRIDGE[2]);
    assert_eq!(folder.read("stored"), SHEET);
    assert_eq!(folder.names(), ["new", "stored"]);
}

/// Without a kind each is saved as it is, byte for byte, and a tail as the signature, which a line says of a tail alone.
#[test]
fn every_kind_saved_as_it_is() {
    let folder = Folder::new();
    for machine in machines(&folder, 811) {
        for kind in KINDS {
            let (saved, instead) = match kind {
                TAIL => (
                    SIGNATURE,
                    "a tail is saved as the signature, which says the same\n",
                ),
                _ => (kind, ""),
            };
            folder.write("stored", machine.sheet(kind));
            let ran = folder.run(&sheet(None, &["-o", "-"]));
            assert_eq!((ran.status, &ran.output), (Some(0), &machine.sheet(saved)));
            let lines = format!("{}\n{instead}", machine.what(kind));
            assert_eq!(ran.error, machine.written(&lines, saved));
        }
    }
}

/// Every stored kind saved as every kind by name; the tail is refused whatever is stored.
#[test]
fn every_kind_saved_by_name() {
    let folder = Folder::new();
    for machine in machines(&folder, 812) {
        for (kind, named) in KINDS
            .into_iter()
            .flat_map(|kind| KINDS.map(|named| (kind, named)))
        {
            folder.write("stored", machine.sheet(kind));
            let ran = folder.run(&sheet(Some(named), &["-o", "-"]));
            if named == TAIL {
                assert_eq!((ran.status, &ran.output[..]), (Some(1), &b""[..]));
                assert_eq!(
                    ran.error,
                    format!("refused 34 0\nnahokipe: stored{NO_TAIL}")
                );
                continue;
            }
            assert_eq!((ran.status, &ran.output), (Some(0), &machine.sheet(named)));
            let lines = format!("{}\n", machine.what(kind));
            assert_eq!(ran.error, machine.written(&lines, named));
        }
    }
}

/// The tail sheets that are kept from before: each is shown with its entries, and saved as the signature with the same path counts.
#[test]
fn tail_sheets_that_are_kept() {
    let folder = Folder::new();
    let kept = tail_sheets();
    for (bytes, vector) in &kept {
        folder.write("stored", bytes);
        let printed = folder.run(&["sheet", "stored"]).done();
        let entries = vector.entries.iter().map(|&entry| i128::from(entry));
        let expected: Vec<_> = (0..).zip(entries).collect();
        assert_eq!(counts(&printed, "Tail"), expected);
        let saved = save_sheet(TAIL, vector.n, &vector.entries);
        let ran = folder.run(&["sheet", "stored", "-o", "-"]);
        assert_eq!(Ok(ran.output), saved);
    }
}

/// What was saved is a sheet again, and holds what the old one held.
#[test]
fn saved_and_shown() {
    let folder = Folder::new();
    let bridge = Machine::of(&folder, BRIDGE.to_vec(), 5);
    for (kind, bytes) in KINDS.into_iter().zip(OF_THE_BRIDGE) {
        folder.write("stored", bytes);
        let new = format!("new{kind}");
        folder.run(&["sheet", "stored", "-o", &new]).done();
        let saved = folder.read(&new)[0];
        assert_ne!(saved, TAIL);
        let printed = folder.run(&["sheet", &new, "tail"]).done();
        assert_eq!(printed, bridge.shown(saved, Some(TAIL)));
    }
    assert_eq!(
        folder.names(),
        ["new1", "new2", "new3", "new4", "record", "stored"]
    );
}

// ---- saving a figure of a record

/// The sheets of random machines, of records of both editions: the bytes that the definitions give, and the figure that `figures` prints.
#[test]
fn figures_of_records() {
    let folder = Folder::new();
    let mut seeded = Seeded::new(813);
    let of_edition_2 = |n| {
        let (plain, retired) = random_second(&mut seeded, n);
        Machine::of(&folder, edition_2_bytes(&plain, &retired), n)
    };
    let second: Vec<Machine> = (1..=16).map(of_edition_2).collect();
    for machine in machines(&folder, 814).into_iter().chain(second) {
        folder.write("record", &machine.record);
        for kind in [PATH_COUNTS, SIGNATURE, DOMINATION] {
            let ran = folder.run(&["save", "record", called(kind).0, "-"]);
            assert_eq!((ran.status, &ran.output), (Some(0), &machine.sheet(kind)));
            assert_eq!(ran.error, machine.written("", kind));
        }
        assert_eq!(folder.read("record"), machine.record);
    }
    assert_eq!(folder.names(), ["record"]);
}

/// What `save` prints on standard output where the sheet goes to a file, and that this file is the sheet.
#[test]
fn figures_of_the_bridge() {
    let folder = Folder::new();
    let bridge = Machine::of(&folder, BRIDGE.to_vec(), 5);
    for kind in [PATH_COUNTS, SIGNATURE, DOMINATION] {
        let (word, _) = called(kind);
        let printed = folder.run(&["save", "record", word, word]).done();
        assert_eq!(printed, bridge.written("", kind));
        assert_eq!(folder.read(word), OF_THE_BRIDGE[usize::from(kind) - 1]);
    }
    assert_eq!(
        folder.names(),
        ["domination", "path-counts", "record", "signature"]
    );
}

// ---- what is not written

/// A tail by name is refused by both commands, before the new file is looked at, and leaves nothing. Without -o it is shown.
#[test]
fn a_tail_by_name() {
    let folder = Folder::with("record", PUMPS);
    folder.write("stored", SHEET);
    folder.write("there", "what is there");
    for target in ["new", "there", "missing/new"] {
        let explanation = folder.run(&["save", "record", "tail", target]);
        let explanation = explanation.refused(34, 0);
        assert_eq!(explanation, format!("nahokipe: record{NO_TAIL}"));
        let explanation = folder.run(&["sheet", "stored", "tail", "-o", target]);
        let explanation = explanation.refused(34, 0);
        assert_eq!(explanation, format!("nahokipe: stored{NO_TAIL}"));
    }
    assert_eq!(folder.read("there"), b"what is there");
    assert_eq!(folder.names(), ["record", "stored", "there"]);
    let ran = folder.run(&["save", "record", "tail", "-"]);
    assert_eq!((ran.status, &ran.output[..]), (Some(1), &b""[..]));
    assert_eq!(
        ran.error,
        format!("refused 34 0\nnahokipe: record{NO_TAIL}")
    );
    let printed = folder.run(&["sheet", "stored", "tail"]).done();
    assert_has(&printed, &["tail, 5 parts; shown as the tail\n"]);
}

/// A word that names no kind is wrong use, before any file is read; nothing is written.
#[test]
fn words_that_name_no_kind() {
    let folder = Folder::with("record", PUMPS);
    folder.write("stored", OF_THE_BRIDGE[0]);
    let all = "\nthe kinds are `path-counts`, `tail`, `signature` and `domination`\n";
    for (word, hint) in [
        ("Tail", "; the nearest is `tail`"),
        ("tails", "; the nearest is `tail`"),
        ("signatur", "; the nearest is `signature`"),
        ("path_counts", "; the nearest is `path-counts`"),
        ("pathcounts", "; the nearest is `path-counts`"),
        ("dominations", "; the nearest is `domination`"),
        ("3", ""),
        ("", ""),
        ("new.sheet", ""),
        ("importance", ""),
    ] {
        let said = format!("there is no kind `{word}`{hint}{all}");
        for words in [
            ["save", "record", word, "new"].as_slice(),
            &["save", "missing", word, "new"],
            &["sheet", "stored", word],
            &["sheet", "missing", word, "-o", "new"],
        ] {
            assert_has(&folder.run(words).failed(), &[&said]);
        }
    }
    let error = folder.run(&["sheet", "stored", "\u{1b}[2J"]).failed();
    assert!(!error.contains('\u{1b}'), "{error:?}");
    assert_eq!(folder.names(), ["record", "stored"]);
}

// ---- files that are no sheets

/// Both forms of `sheet` refuse what is stored by this number and place, and leave nothing. Gives the explanation.
fn is_no_sheet(folder: &Folder, number: u8, place: usize) -> String {
    let before = folder.names();
    let shown = folder.run(&["sheet", "stored", "signature"]);
    let explanation = shown.refused(number, place);
    let about = "nahokipe: stored: this is no whole sheet\n";
    assert!(explanation.starts_with(about), "{explanation}");
    let line = format!("\n  refused {number} {place}: ");
    assert_has(&explanation, &[&line]);
    let saved = folder.run(&["sheet", "stored", "-o", "new"]);
    assert_eq!(saved.refused(number, place), explanation);
    assert_eq!(folder.names(), before);
    explanation
}

/// Sheets with a byte changed, left out or put in, or cut off: refused where the definitions say so, and otherwise shown as what they are.
#[test]
fn damaged_sheets() {
    let folder = Folder::new();
    let mut seeded = Seeded::new(815);
    let mut seen = BTreeSet::new();
    for machine in machines(&folder, 816) {
        for kind in KINDS.into_iter().flat_map(|kind| [kind; 6]) {
            let mut bytes = machine.sheet(kind);
            let index = seeded.between(0, bytes.len() - 1);
            match seeded.between(0, 4) {
                0 => bytes.truncate(index),
                1 => drop(bytes.remove(index)),
                2 => bytes.insert(index, seeded.number() as u8),
                3 => bytes[index] ^= 1 << seeded.between(0, 7),
                _ => bytes.push(b'\n'),
            }
            folder.write("stored", &bytes);
            match read_sheet(&bytes) {
                Err(refusal) => {
                    is_no_sheet(&folder, refusal.number, refusal.place);
                    seen.insert(refusal.number);
                }
                Ok(vector) => {
                    let printed = folder.run(&["sheet", "stored"]).done();
                    let what = format!("kind {}, ", vector.kind);
                    assert!(printed.starts_with(&what), "{printed}");
                }
            }
            assert_eq!(folder.read("stored"), bytes);
        }
    }
    assert!(
        seen.is_superset(&BTreeSet::from([13, 21, 22, 25])),
        "{seen:?}"
    );
}

/// Each refusal that a sheet can have, with what its explanation says of sheets.
#[test]
fn refusals_of_sheets() {
    let folder = Folder::new();
    let cases: [(&[u8], u8, usize, &str); 9] = [
        (&[], 21, 0, "the file was cut off in copying, or is empty"),
        (&SHEET[..6], 21, 6, "the file was cut off"),
        (&[1, 0x80, 0], 22, 1, "is neither a record nor a sheet"),
        (&[5, 5], 26, 0, "the first byte of a sheet is not 1 to 4"),
        (b"mark 15\n", 26, 0, "`nahokipe save` writes one from a"),
        (&[1, 17], 1, 0, "the number of parts is not 1 to 16"),
        (&[1, 1, 0, 2], 13, 1, "or a sheet is damaged"),
        (&[1, 3, 0, 3, 2, 1], 14, 1, "or a sheet is damaged"),
        (&[3, 2, 1, 1, 0], 25, 4, "behind the record or the sheet"),
    ];
    for (bytes, number, place, said) in cases {
        folder.write("stored", bytes);
        assert_has(&is_no_sheet(&folder, number, place), &[said]);
    }
    assert_eq!(folder.names(), ["stored"]);
}

/// What is too long for a sheet, or has no end, is refused by its first bytes.
#[test]
fn sheets_that_are_too_long() {
    let folder = Folder::new();
    folder.write("stored", [&SHEET[..], &[0; 3_000_000]].concat());
    is_no_sheet(&folder, 25, SHEET.len());
    let explanation = folder.run(&["sheet", "/dev/zero", "-o", "new"]);
    let explanation = explanation.refused(26, 0);
    assert_has(
        &explanation,
        &["nahokipe: /dev/zero: this is no whole sheet"],
    );
    assert_eq!(folder.names(), ["stored"]);
}

#[test]
fn missing_sheets_and_folders() {
    let folder = Folder::with("good", OF_THE_BRIDGE[0]);
    std::fs::create_dir(folder.file("folder")).expect("a folder");
    for behind in [[].as_slice(), &["tail"], &["-o", "new"]] {
        let run = |name| folder.run(&[&["sheet", name], behind].concat()).failed();
        let error = "nahokipe: missing: No such file or directory\n";
        assert_eq!(run("missing"), error);
        assert_eq!(run("good/below"), "nahokipe: good/below: Not a directory\n");
        assert_eq!(run("folder"), "nahokipe: folder: Is a directory\n");
    }
    assert_eq!(folder.names(), ["folder", "good"]);
}

/// A record where a sheet belongs is known for one, of either edition, and so is a sheet where a record belongs.
#[test]
fn records_for_sheets_and_sheets_for_records() {
    let folder = Folder::with("good", BRIDGE);
    let mut seeded = Seeded::new(817);
    for n in 1..=16 {
        let (plain, retired) = random_second(&mut seeded, n);
        for bytes in [record_bytes(&plain), edition_2_bytes(&plain, &retired)] {
            let refusal = read_sheet(&bytes).expect_err("no sheet");
            folder.write("stored", bytes);
            let explanation = is_no_sheet(&folder, refusal.number, refusal.place);
            let hint = "\n  this file is a record, of which `nahokipe save` makes a sheet\n";
            assert_has(&explanation, &[hint]);
        }
    }
    for bytes in OF_THE_BRIDGE {
        folder.write("stored", bytes);
        for command in READING {
            let ran = folder.run(&words(command, "stored"));
            assert_eq!(ran.status, Some(1), "{ran:?}");
            let hint = "\n  this file is a sheet, which `nahokipe sheet` takes\n";
            assert_has(&ran.error, &["stored: this is no whole record", hint]);
        }
        assert_eq!(folder.read("stored"), bytes);
    }
    folder.write("stored", "");
    let explanation = folder.run(&["save", "stored", "signature", "new"]);
    let explanation = explanation.refused(21, 0);
    assert!(!explanation.contains("this file is"), "{explanation}");
    assert!(!is_no_sheet(&folder, 21, 0).contains("this file is"));
    assert_eq!(folder.names(), ["good", "stored"]);
}

// ---- streams

/// `-` as the sheet or the record, and as the new sheet: the bytes go to standard output, and all that is said to standard error.
#[test]
fn through_pipes() {
    let folder = Folder::with("stored", SHEET);
    folder.write("record", BRIDGE);
    folder.write("empty", "");
    let printed = folder.run_with(&["sheet", "-"], "stored").done();
    assert_eq!(printed, TAIL_OF_THE_BRIDGE);
    let ran = folder.run_with(&["sheet", "-", "-o", "-"], "stored");
    assert_eq!((ran.status, &ran.output[..]), (Some(0), OF_THE_BRIDGE[2]));
    assert_eq!(ran.error, TAIL_SAVED);
    let line = "nahokipe save - domination - <record 2>/dev/null | nahokipe sheet - tail";
    let printed = folder.shell(line).done();
    assert!(printed.starts_with("kind 4, domination, 5 parts; shown as the tail\n"));
    let refused: [(Ran, &str); 3] = [
        (
            folder.run_with(&["sheet", "-", "-o", "-"], "empty"),
            "sheet",
        ),
        (
            folder.run_with(&["sheet", "-", "tail", "-o", "-"], "empty"),
            "sheet",
        ),
        (
            folder.run_with(&["save", "-", "signature", "-"], "empty"),
            "record",
        ),
    ];
    for (ran, sort) in refused {
        assert_eq!((ran.status, &ran.output[..]), (Some(1), &b""[..]));
        let said = format!("refused 21 0\nnahokipe: standard input: this is no whole {sort}\n");
        assert!(ran.error.starts_with(&said), "{ran:?}");
    }
    assert_eq!(folder.names(), ["empty", "record", "stored"]);
}

/// The examples of both helps are command lines that are done as they stand.
#[test]
fn the_help_of_sheets() {
    let folder = Folder::with("tail6.sheet", SHEET);
    folder.write("tab6.record", BRIDGE);
    for (command, usage, count) in [
        ("sheet", "SHEET [KIND] [-o NEW]", 2),
        ("save", "RECORD KIND SHEET", 1),
    ] {
        let help = folder.run(&[command, "--help"]).done();
        let usage = format!("usage: nahokipe {command} {usage}\n");
        assert!(help.starts_with(&usage), "{help}");
        for word in ["path-counts", "tail", "signature", "domination"] {
            assert_has(&help, &[&format!("`{word}`")]);
        }
        let lines = help.lines().filter_map(|line| line.strip_prefix("    "));
        let examples: Vec<&str> = lines.filter(|line| line.starts_with("nahokipe ")).collect();
        assert_eq!(examples.len(), count, "{help}");
        for example in examples {
            folder.shell(example).done();
        }
    }
    assert_eq!(
        folder.names(),
        [
            "signature6.sheet",
            "tab6.record",
            "tab6.sheet",
            "tail6.sheet"
        ]
    );
}
