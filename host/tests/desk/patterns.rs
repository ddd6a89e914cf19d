//! `new` with a pattern: the records of at least k of n parts, of rows and of rings, beside records of their sets or cut sets written out.

use crate::entering::{entered, text_of};
use crate::folder::{assert_has, Folder};
use nahokipe_testing::making::sets_of_size;
use nahokipe_testing::naive_records::{whole_record, Plain};

/// The words of the patterns.
const PATTERNS: [&str; 3] = ["at-least", "row", "ring"];

/// The numbers 1 to n with mark n, and no sets.
fn numbered(n: u64) -> Plain {
    Plain {
        mark: n,
        numbers: (1..=n).collect(),
        sets: Vec::new(),
    }
}

/// The positions 1 to n from each of the first `starts` on, k in a row or on from n to 1, as masks.
fn neighbours(n: usize, k: usize, starts: usize) -> Vec<u16> {
    let bit = |position: usize| 1_u16 << (position % n);
    let run = |start| (start..start + k).map(bit).sum();
    let mut runs: Vec<u16> = (0..starts).map(run).collect();
    runs.sort_unstable();
    runs.dedup();
    runs
}

/// The sets of a pattern, written out: what suffices of at least k of n parts, and what stops a row or a ring.
fn written_out(pattern: &str, k: usize, n: usize) -> (&'static str, Vec<u16>) {
    match pattern {
        "at-least" => ("set", sets_of_size(n, k as u32)),
        "row" => ("cut", neighbours(n, k, n - k + 1)),
        _ => ("cut", neighbours(n, k, n)),
    }
}

/// A pattern of each sort: the words, what is printed back, and the record.
const EXAMPLES: [(&[&str], &str, &[u8]); 3] = [
    (
        &["new", "at-least", "2", "3", "record"],
        "\
mark 3
parts 1 2 3
set 1 2
set 1 3
set 2 3
# runs exactly if at least 2 of the 3 parts work
# the next part that is added gets number 4
",
        &[3, 3, 1, 2, 3, 3, 0b011, 0b101, 0b110],
    ),
    (
        &["new", "row", "2", "5", "record"],
        "\
mark 5
parts 1 2 3 4 5
set 2 4
set 1 3 4
set 1 3 5
set 2 3 5
# stopped exactly if some 2 neighbours in the row have failed
# the next part that is added gets number 6
",
        &[5, 5, 1, 2, 3, 4, 5, 4, 0b01010, 0b01101, 0b10101, 0b10110],
    ),
    (
        &["new", "ring", "2", "4", "record"],
        "\
mark 4
parts 1 2 3 4
set 1 3
set 2 4
# stopped exactly if some 2 neighbours in the ring have failed; 4 and 1 are neighbours too
# the next part that is added gets number 5
",
        &[4, 4, 1, 2, 3, 4, 2, 0b0101, 0b1010],
    ),
];

#[test]
fn a_pattern_of_each_sort() {
    for (words, printed, record) in EXAMPLES {
        let folder = Folder::new();
        assert_eq!(folder.run(words).done(), printed);
        assert_eq!(folder.read("record"), record);
        assert_eq!(folder.names(), ["record"]);
    }
}

/// Every pattern of 1 to 16 parts: its record is that of its sets written out, and is printed back whole.
#[test]
fn every_pattern() {
    let folder = Folder::new();
    let sizes = (1..=16).flat_map(|n| (1..=n).map(move |k| (k, n)));
    for (k, n) in sizes {
        for pattern in PATTERNS {
            is_the_machine_written_out(&folder, pattern, k, n);
        }
    }
}

/// The record is that of the sets written out, its parts are 1 to n, its sets are printed back, and `cuts` has what stops a row or a ring.
fn is_the_machine_written_out(folder: &Folder, pattern: &str, k: usize, n: usize) {
    let [first, second] = [k, n].map(|number| number.to_string());
    let ran = folder.run(&["new", pattern, &first, &second, "-"]);
    assert_eq!(ran.status, Some(0), "{ran:?}");
    let (word, sets) = written_out(pattern, k, n);
    let text = text_of(&numbered(n as u64), word, &sets);
    assert!(
        entered(folder, &text) == ran.output,
        "{pattern} {k} {n}: {text}"
    );
    let plain = whole_record(&ran.output).expect("a record").plain;
    assert_eq!(
        (plain.mark, &plain.numbers),
        (n as u64, &numbered(n as u64).numbers)
    );
    let back = text_of(&plain, "set", &plain.sets);
    let comments = ran
        .error
        .strip_prefix(&back)
        .expect("the sets printed back");
    let next = format!("# the next part that is added gets number {}\n", n + 1);
    assert!(
        comments.starts_with("# ") && comments.ends_with(&next) && comments.lines().count() == 2,
        "{comments}"
    );
    if word == "cut" {
        folder.write("record", &ran.output);
        assert_eq!(folder.run(&["cuts", "record"]).done(), text);
    }
}

/// What runs or stops a machine, in words.
#[test]
fn patterns_in_words() {
    let cases = [
        (
            "at-least 3 7",
            "runs exactly if at least 3 of the 7 parts work",
        ),
        (
            "at-least 1 7",
            "runs exactly if at least 1 of the 7 parts works",
        ),
        ("at-least 7 7", "runs exactly if all parts work"),
        ("at-least 1 1", "runs exactly if all parts work"),
        (
            "row 3 7",
            "stopped exactly if some 3 neighbours in the row have failed",
        ),
        ("row 1 7", "stopped exactly if at least 1 part has failed"),
        ("row 7 7", "stopped exactly if all parts have failed"),
        ("row 1 1", "stopped exactly if all parts have failed"),
        (
            "ring 3 7",
            "stopped exactly if some 3 neighbours in the ring have failed; 7 and 1 are neighbours too",
        ),
        ("ring 1 7", "stopped exactly if at least 1 part has failed"),
        ("ring 7 7", "stopped exactly if all parts have failed"),
        ("ring 2 2", "stopped exactly if all parts have failed"),
    ];
    let folder = Folder::new();
    for (pattern, words) in cases {
        let line = format!("nahokipe new {pattern} - 2>&1 >/dev/null");
        let comment = format!("\n# {words}\n# the next part ");
        assert_has(&folder.shell(&line).done(), &[&comment]);
    }
}

/// Patterns that say the same: where one failure stops it, where only all do, and a ring whose every n - 1 parts are neighbours.
#[test]
fn patterns_that_are_the_same() {
    let folder = Folder::new();
    let made = |words: &str| {
        let ran = folder.shell(&format!("nahokipe new {words} - 2>/dev/null"));
        assert_eq!(ran.status, Some(0), "{ran:?}");
        ran.output
    };
    for n in 1..=16 {
        let all = made(&format!("at-least {n} {n}"));
        assert_eq!(made(&format!("row 1 {n}")), all);
        assert_eq!(made(&format!("ring 1 {n}")), all);
        let any = made(&format!("at-least 1 {n}"));
        assert_eq!(made(&format!("row {n} {n}")), any);
        assert_eq!(made(&format!("ring {n} {n}")), any);
        if n > 1 {
            let two = made(&format!("at-least 2 {n}"));
            assert_eq!(made(&format!("ring {} {n}", n - 1)), two);
        }
    }
}

/// A record of a pattern goes on as any record does.
#[test]
fn changes_behind_a_pattern() {
    let folder = Folder::new();
    folder.run(&["new", "at-least", "2", "3", "pumps"]).done();
    let printed = folder.run(&["add-part", "pumps"]).done();
    assert_has(&printed, &["part 4 came, in no set\n"]);
    let printed = folder.run(&["take-out", "pumps", "1", "4"]).done();
    assert_has(&printed, &["now 2 parts, 1 set, mark 4; "]);
    let shown = folder.run(&["show", "pumps"]).done();
    assert_eq!(shown, "mark 4\nparts 2 3\nset 2 3\n");
}

/// Numbers as they may stand behind a pattern, and their values as far as they can be right ones.
const NUMBERS: [(&str, usize); 12] = [
    ("0", 0),
    ("1", 1),
    ("2", 2),
    ("16", 16),
    ("17", 17),
    ("257", 257),
    ("65538", 65_538),
    ("4294967298", 4_294_967_298),
    ("18446744073709551615", usize::MAX),
    ("18446744073709551616", usize::MAX),
    ("18446744073709551618", usize::MAX),
    ("55340232221128654850", usize::MAX),
];

/// The number of parts is judged before k, at place 0, whatever the other is, and nothing is left.
#[test]
fn numbers_that_are_refused() {
    let folder = Folder::new();
    let pairs = NUMBERS.iter().flat_map(|k| NUMBERS.map(|n| (*k, n)));
    let mut seen = [0; 2];
    for ((first, k), (second, n)) in pairs {
        let number = match (1..=16).contains(&n) {
            true if (1..=n).contains(&k) => continue,
            true => 29,
            false => 1,
        };
        seen[usize::from(number == 29)] += 1;
        for pattern in PATTERNS {
            let ran = folder.run(&["new", pattern, first, second, "record"]);
            let explanation = ran.refused(number, 0);
            let about = format!("nahokipe: {pattern}: ");
            assert_has(&explanation, &[&about, "usual cause: ", "what to do: "]);
        }
    }
    assert!(seen.iter().all(|&times| times > 20), "{seen:?}");
    assert_eq!(folder.names(), [""; 0]);
}

/// Wrong numbers: the refusal, and what is said of them beyond it.
const WRONG_NUMBERS: [(&str, u8, &str); 8] = [
    ("row 2 17", 1, "row: N is 17; a machine has 1 to 16 parts\n"),
    ("row 2 0", 1, "row: N is 0; a machine has 1 to 16 parts\n"),
    (
        "ring 0 18446744073709551616",
        1,
        "ring: N is 18446744073709551615 or more; a machine has 1 to 16 parts\n",
    ),
    (
        "at-least 3 2",
        29,
        "at-least: K is 3, which is not 1 to 2\n  with the numbers exchanged it is `at-least 2 3`\n",
    ),
    (
        "ring 16 1",
        29,
        "ring: K is 16, which is not 1 to 1\n  with the numbers exchanged it is `ring 1 16`\n",
    ),
    (
        "ring 17 1",
        29,
        "ring: K is 17, which is not 1 to 1\n  refused 29 0: ",
    ),
    (
        "row 0 5",
        29,
        "row: K is 0, which is not 1 to 5\n  refused 29 0: ",
    ),
    (
        "row 18446744073709551618 5",
        29,
        "row: K is 18446744073709551615 or more, which is not 1 to 5\n  refused 29 0: ",
    ),
];

#[test]
fn wrong_numbers_in_words() {
    for (words, number, why) in WRONG_NUMBERS {
        let folder = Folder::new();
        let ran = folder.shell(&format!("nahokipe new {words} record"));
        let explanation = ran.refused(number, 0);
        assert_has(&explanation, &[&format!("nahokipe: {why}")]);
        assert_eq!(folder.names(), [""; 0]);
    }
}

/// A refusal comes before the file is looked for, and a file that is there stays as it is.
#[test]
fn a_file_that_is_there() {
    let folder = Folder::with("there", "what is there");
    folder
        .run(&["new", "ring", "7", "6", "there"])
        .refused(29, 0);
    let error = folder.run(&["new", "ring", "2", "6", "there"]).failed();
    let said = "nahokipe: there: there is such a file, and it is not replaced\n";
    assert_eq!(error, said);
    assert_eq!(folder.read("there"), b"what is there");
    assert_eq!(folder.names(), ["there"]);
}

/// Where the record goes to standard output, the story goes to standard error, and so does the line of a refusal.
#[test]
fn to_standard_output() {
    let folder = Folder::new();
    let ran = folder.run(&["new", "row", "1", "2", "-"]);
    let record: &[u8] = &[2, 2, 1, 2, 1, 0b11];
    assert_eq!((ran.status, &ran.output[..]), (Some(0), record));
    assert_has(&ran.error, &["mark 2\nparts 1 2\nset 1 2\n# stopped "]);
    let ran = folder.run(&["new", "row", "3", "2", "-"]);
    assert_eq!((ran.status, &ran.output[..]), (Some(1), &b""[..]));
    assert!(ran.error.starts_with("refused 29 0\nnahokipe: "), "{ran:?}");
    let line = "nahokipe new ring 5 5 - 2>/dev/null | nahokipe cuts -";
    let cuts = "mark 5\nparts 1 2 3 4 5\ncut 1 2 3 4 5\n";
    assert_eq!(folder.shell(line).done(), cuts);
    assert_eq!(folder.names(), [""; 0]);
}

/// Files that have the name of a pattern or of a number: two words are a drawing and a record.
#[test]
fn files_with_the_names_of_patterns() {
    let folder = Folder::new();
    for pattern in PATTERNS {
        folder.write(pattern, "parts 2\nset 1 2\n");
        let printed = folder.run(&["new", pattern, "record"]).done();
        assert_has(&printed, &["parts 1 2\nset 1 2\n# the next part "]);
        folder.run(&["new", "row", "1", "2", "2"]).done();
        assert_eq!(folder.read("2"), folder.read("record"));
        for name in ["2", "record", pattern] {
            std::fs::remove_file(folder.file(name)).expect("a file removed");
        }
        let error = folder.run(&["new", pattern, "record"]).failed();
        let why = format!("nahokipe: {pattern}: No such file or directory\n");
        let hint = format!("  as a pattern `{pattern}` has K, N and RECORD behind it\n");
        assert_eq!(error, why + &hint);
    }
    assert_eq!(folder.names(), [""; 0]);
}

/// Wrong uses leave nothing and show both forms, and no terminal acts on what is shown.
#[test]
fn wrong_uses_show_both_forms() {
    let folder = Folder::new();
    let usage = "\
usage: nahokipe new DRAWING RECORD
       nahokipe new PATTERN K N RECORD
`nahokipe new --help` tells more
";
    let wrong: [&[&str]; 5] = [
        &["new", "drawing"],
        &["new", "ring", "2", "record"],
        &["new", "Row", "2", "5", "record"],
        &["new", "row", "2.0", "5", "record"],
        &["new", "\u{1b}[2J", "\u{1b}[2J", "5", "record"],
    ];
    for words in wrong {
        let error = folder.run(words).failed();
        assert!(
            error.ends_with(usage) && !error.contains('\u{1b}'),
            "{error}"
        );
    }
    assert_eq!(folder.names(), [""; 0]);
}

/// Words that are no pattern's: the nearest, and all that there are.
#[test]
fn the_nearest_pattern() {
    let folder = Folder::new();
    for (word, nearest) in [
        ("Row", "row"),
        ("rows", "row"),
        ("rin", "ring"),
        ("atleast", "at-least"),
        ("at_least", "at-least"),
    ] {
        let error = folder.run(&["new", word, "2", "5", "record"]).failed();
        let hint = format!("there is no pattern `{word}`; the nearest is `{nearest}`\n");
        assert_has(
            &error,
            &[&hint, "the patterns are `at-least`, `row` and `ring`\n"],
        );
    }
    assert_eq!(folder.names(), [""; 0]);
}

/// Both forms stand in the overview and in the help of `new`, whose examples of patterns are taken as they stand.
#[test]
fn the_help_of_patterns() {
    let folder = Folder::with("bridge.txt", "parts 2\nset 1\n");
    let overview = folder.run(&["--help"]).done();
    assert_has(
        &overview,
        &["\n  new DRAWING RECORD ", "\n  new PATTERN K N RECORD "],
    );
    let help = folder.run(&["new", "--help"]).done();
    let usage = "usage: nahokipe new DRAWING RECORD\n       nahokipe new PATTERN K N RECORD\n\n";
    assert!(help.starts_with(usage), "{help}");
    let lines = help.lines().filter_map(|line| line.strip_prefix("    "));
    let (mut examples, mut patterns) = (0, 0);
    for line in lines {
        let words: Vec<&str> = line.split_whitespace().collect();
        if line.starts_with("nahokipe ") {
            folder.shell(line).done();
            examples += 1;
        } else if PATTERNS.contains(&words[0]) {
            let line = format!("nahokipe new {} {}", words[..3].join(" "), words[0]);
            folder.shell(&line).done();
            patterns += 1;
        }
    }
    assert_eq!((examples, patterns), (2, 3), "{help}");
}
