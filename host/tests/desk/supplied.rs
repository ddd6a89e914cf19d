//! What is supplied to `blocks` and is wrong: words, part numbers, records and sheets; and its streams, file names and help.

use crate::blocks::{series_with, with_example, EXAMPLE, FIGURES, GAS, LINES, PUMP};
use crate::blocks::{SERIES, WHOLE, WRITTEN};
use crate::folder::{assert_has, Folder, Ran};
use nahokipe_testing::making::refused_records;
use nahokipe_testing::seeded::Seeded;
use std::ffi::OsStr;
use std::fs;
use std::os::unix::ffi::OsStrExt;

/// How the command is used, behind what is wrong.
const USAGE: &str = "\
usage: nahokipe blocks RECORD NUMBER=BLOCK... [--names FILE] [-o NEW]
`nahokipe blocks --help` tells more
";

/// What is said of too many parts, 13 and 4 here.
const TOO_LARGE: &str = "\
nahokipe: record: its blocks have 17 parts in all
  part 4: large, kind 1, path counts, 13 parts
  part 9: gas, kind 1, path counts, 4 parts
  refused 33 0: the blocks have more than 16 parts in all
  usual cause: a sheet or path counts of another block or of a whole machine were given
      for a block, or the machine is too large for the calculator
  what to do: compare how many parts each sheet has, which `nahokipe sheet` says, and each
      list of path counts, one fewer than its numbers, with the blocks of the machine; a
      part for which no block is given counts as one
";

/// The sheet of a block that needs all its n parts.
fn all_of(n: u8) -> Vec<u8> {
    [vec![1, n], vec![0; n.into()], vec![1]].concat()
}

// ---- words that are wrong

/// Words that are wrong in place of NUMBER=BLOCK, and what is said of them.
const WRONG_WORDS: [(&[&str], &str); 17] = [
    (
        &["4"],
        "`4` is not NUMBER=BLOCK, as in `7=pump.sheet` or `7=0,0,2,1`",
    ),
    (
        &["4=pump", "9"],
        "`9` is not NUMBER=BLOCK, as in `7=pump.sheet` or `7=0,0,2,1`",
    ),
    (
        &["pump", "9=gas"],
        "`pump` is not NUMBER=BLOCK, as in `7=pump.sheet` or `7=0,0,2,1`",
    ),
    (
        &["4="],
        "`4=` is not NUMBER=BLOCK, as in `7=pump.sheet` or `7=0,0,2,1`",
    ),
    (
        &["="],
        "`=` is not NUMBER=BLOCK, as in `7=pump.sheet` or `7=0,0,2,1`",
    ),
    (
        &["4", "=", "pump"],
        "`4` is not NUMBER=BLOCK, as in `7=pump.sheet` or `7=0,0,2,1`",
    ),
    (
        &[""],
        "`` is not NUMBER=BLOCK, as in `7=pump.sheet` or `7=0,0,2,1`",
    ),
    (
        &["=pump"],
        "`` is no part number, in digits without a leading zero",
    ),
    (
        &["pump=4"],
        "`pump` is no part number, in digits without a leading zero",
    ),
    (
        &["04=pump"],
        "`04` is no part number, in digits without a leading zero",
    ),
    (
        &["+4=pump"],
        "`+4` is no part number, in digits without a leading zero",
    ),
    (
        &[" 4=pump"],
        "` 4` is no part number, in digits without a leading zero",
    ),
    (&["4=pump", "9=gas", "4=gas"], "number 4 stands twice"),
    (&["9=gas", "9=gas"], "number 9 stands twice"),
    (&["4=-", "9=-"], "standard input cannot be read twice"),
    (
        &["9=-", "--names", "-"],
        "standard input cannot be read twice",
    ),
    (
        &["4=pump", "9=-", "--names", "-"],
        "standard input cannot be read twice",
    ),
];

/// Wrong use, before any file is read.
#[test]
fn words_that_are_wrong() {
    let folder = Folder::new();
    for (words, why) in WRONG_WORDS {
        let ran = folder.run(&[&["blocks", "missing"], words].concat());
        assert_eq!(ran.failed(), format!("nahokipe: blocks: {why}\n{USAGE}"));
    }
    let error = folder.run(&["blocks", "-", "9=gas", "4=-"]).failed();
    assert_has(&error, &["standard input cannot be read twice\n"]);
    let error = folder.run(&["blocks", "missing", "\u{1b}[2J"]).failed();
    assert_has(&error, &["`\\u{1b}[2J` is not NUMBER=BLOCK"]);
}

/// A number that no part has is refused as by the other commands, before any sheet is read. Positions are no part numbers.
#[test]
fn numbers_that_no_part_has() {
    let folder = with_example();
    for (number, said) in [
        ("1", "1"),
        ("2", "2"),
        ("0", "0"),
        ("15", "15"),
        ("18446744073709551616", "18446744073709551615 or more"),
    ] {
        let word = format!("{number}=missing");
        let about = format!("nahokipe: record: no part has number {said}; the parts are 4 9\n");
        for words in [
            ["blocks", "record", "4=pump", &word].as_slice(),
            &["blocks", "record", &word, "9=gas", "-o", "new"],
        ] {
            let explanation = folder.run(words).refused(17, 0);
            assert!(explanation.starts_with(&about), "{explanation}");
            assert_has(&explanation, &["\n  refused 17 0: no part has this number"]);
        }
    }
    folder.write("record", series_with(&[7]));
    let explanation = folder.run(&["blocks", "record", "7=gas"]).refused(17, 0);
    let about = "no part has number 7, which is retired; the parts are 4 9\n";
    assert_has(&explanation, &[about]);
    assert_eq!(folder.names(), ["gas", "pump", "record"]);
}

/// Two numbers that are longer than 64 bits are not taken for the same.
#[test]
fn long_numbers() {
    let folder = with_example();
    let words = ["18446744073709551616=gas", "18446744073709551617=gas"];
    let ran = folder.run(&["blocks", "record", words[0], words[1]]);
    ran.refused(17, 0);
    let ran = folder.run(&["blocks", "record", words[0], words[0]]);
    assert_has(
        &ran.failed(),
        &["number 18446744073709551616 stands twice\n"],
    );
}

// ---- files that are wrong

/// What is no record is refused as by every command, before any sheet is read.
#[test]
fn spoilt_records() {
    let records = refused_records(&mut Seeded::new(836), 2);
    assert!(records.len() > 10, "{}", records.len());
    let folder = Folder::new();
    for (bytes, refusal) in records {
        folder.write("record", &bytes);
        let ran = folder.run(&["blocks", "record", "4=missing", "-o", "new"]);
        let explanation = ran.refused(refusal.number, refusal.place);
        assert_has(&explanation, &["nahokipe: record: this is no whole record"]);
    }
    assert_eq!(folder.names(), ["record"]);
}

/// The refusals that a sheet can have, with what is said of sheets.
const SPOILT: [(&[u8], u8, usize, &str); 9] = [
    (&[], 21, 0, "the file was cut off in copying, or is empty"),
    (&[1, 4, 0, 0, 2, 4], 21, 6, "the file was cut off"),
    (&[1, 0x80, 0], 22, 1, "is neither a record nor a sheet"),
    (&[5, 5], 26, 0, "the first byte of a sheet is not 1 to 4"),
    (b"0 0 2 1\n", 26, 0, "`nahokipe save` writes one from a"),
    (&[1, 17], 1, 0, "the number of parts is not 1 to 16"),
    (&[1, 1, 0, 2], 13, 1, "or a sheet is damaged"),
    (&[1, 3, 0, 3, 2, 1], 14, 1, "or a sheet is damaged"),
    (&[3, 2, 1, 1, 0], 25, 4, "behind the record or the sheet"),
];

/// A refused sheet is told by its file, the part that it was given for, the number, the place and the explanation. The sheets are read in
/// the order of the parts, whatever that of the words.
#[test]
fn spoilt_sheets() {
    let folder = with_example();
    for (bytes, number, place, said) in SPOILT {
        folder.write("spoilt", bytes);
        for (words, part) in [
            (["4=spoilt", "9=missing"], 4),
            (["9=missing", "4=spoilt"], 4),
            (["4=pump", "9=spoilt"], 9),
            (["9=spoilt", "4=pump"], 9),
        ] {
            let words = [&["blocks", "record"][..], &words].concat();
            let explanation = folder.run(&words).refused(number, place);
            let about = format!("nahokipe: spoilt, for part {part}: this is no whole sheet\n");
            assert!(explanation.starts_with(&about), "{explanation}");
            let line = format!("\n  refused {number} {place}: ");
            assert_has(&explanation, &[&line, said]);
            let saving = folder.run(&[&words[..], &["-o", "new"]].concat());
            assert_eq!(saving.refused(number, place), explanation);
        }
    }
    assert_eq!(folder.names(), ["gas", "pump", "record", "spoilt"]);
}

/// A record that is given for a sheet is known for one, and a sheet that is given for the record.
#[test]
fn records_for_sheets_and_sheets_for_records() {
    let folder = with_example();
    let ran = folder.run(&["blocks", "record", "9=record"]);
    let about = "\
nahokipe: record, for part 9: this is no whole sheet
  this file is a record, of which `nahokipe save` makes a sheet
  refused 21 6: ";
    let explanation = ran.refused(21, 6);
    assert!(explanation.starts_with(about), "{explanation}");
    let ran = folder.run(&["blocks", "gas", "4=pump"]);
    let about = "\
nahokipe: gas: this is no whole record
  this file is a sheet, which `nahokipe sheet` takes
  refused 23 2: ";
    let explanation = ran.refused(23, 2);
    assert!(explanation.starts_with(about), "{explanation}");
}

#[test]
fn missing_sheets_and_folders() {
    let folder = with_example();
    fs::create_dir(folder.file("folder")).expect("a folder");
    for behind in [[].as_slice(), &["-o", "new"]] {
        let run = |words: &[&str]| folder.run(&[&["blocks"], words, behind].concat()).failed();
        let missing = "nahokipe: missing: No such file or directory\n";
        assert_eq!(run(&["missing", "4=pump"]), missing);
        assert_eq!(run(&["record", "4=pump", "9=missing"]), missing);
        assert_eq!(run(&["record", "4=pump", "--names", "missing"]), missing);
        let error = "nahokipe: gas/below: Not a directory\n";
        assert_eq!(run(&["record", "9=gas/below"]), error);
        let error = "nahokipe: folder: Is a directory\n";
        assert_eq!(run(&["record", "9=folder"]), error);
    }
    assert_eq!(folder.names(), ["folder", "gas", "pump", "record"]);
}

/// More than 16 parts in all are refused behind every sheet, with the parts of each block; 16 are taken.
#[test]
fn more_than_sixteen_parts() {
    let folder = with_example();
    folder.write("names", "9 gas unit\n");
    let words = ["blocks", "record", "4=large", "9=gas"];
    folder.write("large", all_of(12));
    let printed = folder.run(&words).done();
    assert_has(
        &printed,
        &["the whole: 16 parts, ", "16! = 20922789888000 "],
    );
    folder.write("large", all_of(13));
    assert_eq!(folder.run(&words).refused(33, 0), TOO_LARGE);
    let saving = folder.run(&[&words[..], &["-o", "new"]].concat());
    assert_eq!(saving.refused(33, 0), TOO_LARGE);
    let named = folder.run(&[&words[..], &["--names", "names"]].concat());
    let with_name = TOO_LARGE.replace(" 4 parts\n", " 4 parts  # gas unit\n");
    assert_eq!(named.refused(33, 0), with_name);
    folder.write("gas", [1, 4, 0, 0, 2, 4, 2]);
    let explanation = folder.run(&words).refused(13, 4);
    assert_has(&explanation, &["nahokipe: gas, for part 9: "]);
    folder.write("large", all_of(16));
    let explanation = folder.run(&["blocks", "record", "9=large"]).refused(33, 0);
    let said = "17 parts in all\n  part 4: one part, no block is given\n  part 9: large, kind 1, ";
    assert_has(&explanation, &[said]);
    assert_eq!(folder.names(), ["gas", "large", "names", "pump", "record"]);
}

// ---- streams, file names and help

/// The record, a sheet or the names from standard input.
#[test]
fn from_standard_input() {
    let folder = with_example();
    folder.write("names", "4 pump unit\n");
    folder.write("empty", "");
    let printed = format!("{LINES}{FIGURES}");
    let ran = folder.run_with(&["blocks", "-", "4=pump", "9=gas"], "record");
    assert_eq!(ran.done(), printed);
    let ran = folder.run_with(&["blocks", "record", "4=pump", "9=-"], "gas");
    let from_input = printed.replace("gas, kind", "standard input, kind");
    assert_eq!(ran.done(), from_input);
    let words = [&EXAMPLE[..], &["--names", "-"]].concat();
    let ran = folder.run_with(&words, "names");
    assert_has(&ran.done(), &["signature, 3 parts  # pump unit\n"]);
    let ran = folder.run_with(&["blocks", "record", "9=-"], "empty");
    let about = "nahokipe: standard input, for part 9: this is no whole sheet\n";
    assert!(ran.refused(21, 0).starts_with(about));
}

/// The new sheet on standard output: all that is said, and the line of a refusal, is then on standard error.
#[test]
fn to_standard_output() {
    let folder = with_example();
    let ran = folder.run(&[&EXAMPLE[..], &["-o", "-"]].concat());
    assert_eq!((ran.status, &ran.output[..]), (Some(0), &WHOLE[..]));
    assert_eq!(ran.error, format!("{LINES}{WRITTEN}{FIGURES}"));
    folder.write("empty", "");
    folder.write("large", all_of(16));
    for (record, word, said) in [
        ("empty", "4=pump", "refused 21 0\nnahokipe: empty: this is"),
        (
            "record",
            "7=pump",
            "refused 17 0\nnahokipe: record: no part",
        ),
        (
            "record",
            "9=empty",
            "refused 21 0\nnahokipe: empty, for part 9",
        ),
        ("record", "9=large", "refused 33 0\nnahokipe: record: its"),
    ] {
        let ran = folder.run(&["blocks", record, word, "-o", "-"]);
        assert_eq!((ran.status, &ran.output[..]), (Some(1), &b""[..]));
        assert!(ran.error.starts_with(said), "{ran:?}");
    }
}

/// The file of a sheet may have any name: one with an equals sign, one that looks like an option, one that no terminal should be sent, and
/// one that is no text.
#[test]
fn files_of_any_name() {
    let folder = with_example();
    for (name, shown) in [
        ("a=b.sheet", "a=b.sheet"),
        ("=", "="),
        ("-o", "-o"),
        ("--help", "--help"),
        ("gas unit", "gas unit"),
        ("\u{1b}[2J", "\\u{1b}[2J"),
    ] {
        folder.write(name, GAS);
        let word = format!("9={name}");
        let printed = folder.run(&["blocks", "record", &word]).done();
        let line = format!("\npart 9: {shown}, kind 1, path counts, 4 parts\n");
        assert_has(&printed, &[&line]);
    }
    let name = folder.path.join(OsStr::from_bytes(b"\xFF"));
    fs::write(name, PUMP).expect("a file that can be written");
    let mut command = folder.command(&["blocks", "record"]);
    command.arg(OsStr::from_bytes(b"4=\xFF"));
    let line = "part 4: \u{FFFD}, kind 3, signature, 3 parts\n";
    assert_has(&Ran::of(command).done(), &[line]);
    folder.write("-record", SERIES);
    let printed = folder.run(&["blocks", "--", "-record", "9=-o"]).done();
    assert_has(&printed, &["\npart 9: -o, kind 1, path counts, 4 parts\n"]);
}

/// The help says what the figures hold for, and its examples are command lines that are done as they stand.
#[test]
fn the_help_of_blocks() {
    let folder = Folder::with("units.record", SERIES);
    folder.write("pump-unit.sheet", PUMP);
    folder.write("gas-unit.sheet", GAS);
    let help = folder.run(&["blocks", "--help"]).done();
    let words: Vec<&str> = help.split_whitespace().collect();
    assert_has(
        &words.join(" "),
        &[
            "as long as no two blocks share a part",
            "the figures are wrong, and nobody can see that from the files",
            "no importances and no record of the whole",
            "equations (12) and (13) of document 003",
        ],
    );
    let lines = help.lines().filter_map(|line| line.strip_prefix("    "));
    let examples: Vec<&str> = lines.filter(|line| line.starts_with("nahokipe ")).collect();
    assert_eq!(examples.len(), 2, "{help}");
    for example in examples {
        let printed = folder.shell(example).done();
        assert!(printed.ends_with(FIGURES), "{printed}");
    }
    let overview = folder.run(&["--help"]).done();
    let form = "\n  blocks RECORD NUMBER=BLOCK... [--names FILE] [-o NEW]\n";
    let summary = format!("{form}{:39}a machine made of blocks", "");
    assert_has(&overview, &[&summary]);
}
