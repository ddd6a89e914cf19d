//! `blocks` with path counts that are typed, as they stand in a supplier's letter: beside sheets and single parts, what is refused of them,
//! and which words are path counts and which the names of files.

use crate::blocks::{commas, in_all, series_with, single, typed, with_example};
use crate::blocks::{FIGURES, GAS, LINES, PUMP, SERIES, WHOLE, WRITTEN};
use crate::counting::counts;
use crate::folder::{assert_has, Folder};
use nahokipe_testing::making::{counts_of, random_counts};
use nahokipe_testing::naive_vectors::{verdict, PATH_COUNTS};
use nahokipe_testing::seeded::Seeded;

/// The blocks of the request by their path counts.
const TYPED: [&str; 2] = ["4=0,0,2,1", "9=0,0,2,4,1"];

/// What is said behind a file that is not there where path counts may have been meant.
const HINT: &str = "  path counts are written as `0,0,2,1`: no leading zeros, and commas without blanks between them\n";

/// The lines in front of the figures where the blocks of the request are typed.
fn typed_lines() -> String {
    typed(4, 3) + &typed(9, 4) + &in_all(7)
}

/// The words of a run on the example's record.
fn words<'a>(behind: &[&'a str]) -> Vec<&'a str> {
    [&["blocks", "record"], behind].concat()
}

// ---- path counts that are taken

/// The request's example needs no sheet, and its figures are those that the sheets give, in any order of the words. A 0 has no sign.
#[test]
fn the_example_typed() {
    let folder = Folder::with("record", SERIES);
    let printed = folder.run(&words(&TYPED)).done();
    assert_eq!(printed, typed_lines() + FIGURES);
    for behind in [[TYPED[1], TYPED[0]], ["4=-0,0,2,1", TYPED[1]]] {
        assert_eq!(folder.run(&words(&behind)).done(), printed);
    }
    assert_eq!(folder.names(), ["record"]);
}

/// One block by its sheet and the other by its path counts.
#[test]
fn beside_sheets() {
    let folder = with_example();
    let [pump, gas, whole] = [0, 1, 2].map(|line| LINES.lines().nth(line).expect("a line"));
    let printed = folder.run(&words(&["4=pump", TYPED[1]])).done();
    assert_eq!(
        printed,
        format!("{pump}\n{}{whole}\n{FIGURES}", typed(9, 4))
    );
    let printed = folder.run(&words(&["9=gas", TYPED[0]])).done();
    assert_eq!(printed, format!("{}{gas}\n{whole}\n{FIGURES}", typed(4, 3)));
}

/// Beside a part for which no block is given, and beside a sheet as well; names stand behind.
#[test]
fn beside_single_parts() {
    let folder = with_example();
    let printed = folder.run(&words(&["9=0,0,2,4,1"])).done();
    let lines = single(4) + &typed(9, 4) + &in_all(5);
    assert!(printed.starts_with(&lines), "{printed}");
    let signature = [(1, 24), (2, 72), (3, 24), (4, 0), (5, 0)];
    assert_eq!(counts(&printed, "Signature"), signature);
    folder.write("record", [3, 15, 4, 9, 12, 1, 0b111]);
    folder.write("names", "4 pump unit\n9 gas unit\n12 battery\n");
    let ran = folder.run(&words(&[TYPED[0], "9=gas", "--names", "names"]));
    let lines = "\
part 4: path counts as given, 3 parts  # pump unit
part 9: gas, kind 1, path counts, 4 parts  # gas unit
part 12: one part, no block is given  # battery
the whole: 8 parts, if no part is in two blocks
";
    let printed = ran.done();
    assert!(printed.starts_with(lines), "{printed}");
}

/// With -o the path counts of the whole are saved as they are from sheets, to a file and to standard output.
#[test]
fn the_example_saved() {
    let folder = Folder::with("record", SERIES);
    let story = typed_lines() + WRITTEN + FIGURES;
    let ran = folder.run(&words(&[TYPED[0], "-o", "new", TYPED[1]]));
    assert_eq!(ran.done(), story);
    assert_eq!(folder.read("new"), WHOLE);
    let ran = folder.run(&words(&[TYPED[0], TYPED[1], "-o", "-"]));
    assert_eq!((ran.status, &ran.output[..]), (Some(0), &WHOLE[..]));
    assert_eq!(ran.error, story);
    assert_eq!(folder.names(), ["new", "record"]);
}

/// Path counts read no file: standard input is free for the record, for one sheet or for the names.
#[test]
fn beside_standard_input() {
    let folder = with_example();
    folder.write("names", "4 pump unit\n");
    let printed = typed_lines() + FIGURES;
    let ran = folder.run_with(&["blocks", "-", TYPED[0], TYPED[1]], "record");
    assert_eq!(ran.done(), printed);
    let ran = folder.run_with(&words(&[TYPED[0], "9=-"]), "gas");
    let line = "part 9: standard input, kind 1, path counts, 4 parts\n";
    assert_eq!(ran.done(), printed.replace(&typed(9, 4), line));
    let ran = folder.run_with(&words(&[TYPED[0], TYPED[1], "--names", "-"]), "names");
    let line = "part 4: path counts as given, 3 parts  # pump unit\n";
    assert_eq!(ran.done(), printed.replace(&typed(4, 3), line));
}

/// One block of 1 to 16 parts: the whole has the path counts that were typed, up to the largest.
#[test]
fn single_blocks_of_every_size() {
    let (folder, mut seeded) = (Folder::with("record", [1, 8, 7, 1, 1]), Seeded::new(840));
    let largest = [
        0, 16, 120, 560, 1820, 4368, 8008, 11440, 12870, 11440, 8008, 4368, 1820, 560, 120, 16, 1,
    ];
    let random = (1..=16).flat_map(|n| [n; 3]);
    let random = random.map(|n| random_counts(&mut seeded, n));
    for block in random.chain([largest.to_vec()]) {
        let (n, word) = (block.len() - 1, format!("7={}", commas(&block)));
        let printed = folder.run(&words(&[&word])).done();
        let lines = typed(7, n) + &in_all(n);
        assert!(printed.starts_with(&lines), "{printed}");
        let rows = counts(&printed, "Path counts").into_iter();
        let whole: Vec<i128> = rows.map(|(_, count)| count).collect();
        assert_eq!(whole, block);
    }
}

// ---- path counts that are refused

/// Path counts that are refused: the number, the place and what is said of them.
const REFUSED: [(&str, u8, usize, &str); 16] = [
    ("1,1", 13, 0, "the count for 0 parts is 1, which is not 0"),
    ("2,1", 13, 0, "the count for 0 parts is 2, which is not 0"),
    ("-1,1", 13, 0, "the count for 0 parts is -1, which is not 0"),
    ("0,0", 13, 1, "the count for 1 part is 0, which is not 1"),
    ("0,-1", 13, 1, "the count for 1 part is -1, which is not 1"),
    (
        "0,3,1",
        13,
        1,
        "the count for 1 part is 3, which is not 0 to 2",
    ),
    (
        "0,-2,1",
        13,
        1,
        "the count for 1 part is -2, which is not 0 to 2",
    ),
    ("0,2,2", 13, 2, "the count for 2 parts is 2, which is not 1"),
    (
        "0,0,7,4,1",
        13,
        2,
        "the count for 2 parts is 7, which is not 0 to 6",
    ),
    (
        "0,4,-6,5,0",
        13,
        2,
        "the count for 2 parts is -6, which is not 0 to 6",
    ),
    (
        "0,3,2,0",
        13,
        3,
        "the count for 3 parts is 0, which is not 1",
    ),
    (
        "0,0,2,4294967297",
        13,
        3,
        "the count for 3 parts is 4294967297, which is not 1",
    ),
    (
        "0,3,2,1",
        14,
        1,
        "the count for 1 part is 3 of 3, and that for 2 parts is 2 of 3",
    ),
    (
        "0,1,1,4,1",
        14,
        1,
        "the count for 1 part is 1 of 4, and that for 2 parts is 1 of 6",
    ),
    (
        "0,0,5,3,1",
        14,
        2,
        "the count for 2 parts is 5 of 6, and that for 3 parts is 3 of 4",
    ),
    (
        "0,0,0,0,0,0,0,0,0,0,0,0,0,0,0,0,0,1",
        1,
        0,
        "18 numbers, for 0 to 17 parts; a block has 1 to 16 parts",
    ),
];

/// Refused path counts are told by the part that they were given for, and no file is named. They are judged in the order of the parts,
/// beside the sheets and before the whole.
#[test]
fn counts_that_are_refused() {
    let folder = with_example();
    for (typed, number, place, said) in REFUSED {
        let (first, second) = (format!("4={typed}"), format!("9={typed}"));
        for (behind, part) in [
            (["9=missing", first.as_str()], 4),
            ([&first, "9=0,2"], 4),
            (["4=pump", &second], 9),
            ([&second, "4=0,0,0,0,0,0,0,0,0,0,0,0,0,0,0,0,1"], 9),
        ] {
            let explanation = folder.run(&words(&behind)).refused(number, place);
            let about = format!("nahokipe: the path counts given for part {part}: {said}\n");
            let line = format!("  refused {number} {place}: ");
            assert!(explanation.starts_with(&(about + &line)), "{explanation}");
            assert_has(&explanation, &["\n  usual cause: ", "\n  what to do: "]);
            let saving = folder.run(&words(&[&behind[..], &["-o", "new"]].concat()));
            assert_eq!(saving.refused(number, place), explanation);
            let ran = folder.run(&words(&[&behind[..], &["-o", "-"]].concat()));
            assert_eq!((ran.status, &ran.output[..]), (Some(1), &b""[..]));
            let line = format!("refused {number} {place}\n");
            assert_eq!(ran.error, line + &explanation);
        }
    }
    assert_eq!(folder.names(), ["gas", "pump", "record"]);
}

/// All numbers near path counts of one to three parts are judged as path counts are.
#[test]
fn every_small_list() {
    let folder = Folder::with("record", [1, 8, 7, 1, 1]);
    let mut seen = [0; 3];
    for list in (1..=3).flat_map(counts_of) {
        let entries: Vec<i64> = list.iter().map(|&count| count as i64).collect();
        let (n, word) = (list.len() - 1, format!("7={}", commas(&list)));
        let ran = folder.run(&words(&[&word]));
        let Err(refusal) = verdict(PATH_COUNTS, n, &entries) else {
            assert!(ran.done().starts_with(&typed(7, n)), "{word}");
            seen[0] += 1;
            continue;
        };
        let explanation = ran.refused(refusal.number, refusal.place);
        let about = "nahokipe: the path counts given for part 7: the count for ";
        assert!(explanation.starts_with(about), "{explanation}");
        seen[usize::from(refusal.number - 12)] += 1;
    }
    assert!(seen.iter().all(|&times| times > 2), "{seen:?}");
}

/// Numbers around the longest of 64 bits with a sign, some of which would do if they were cut to that, and how they are said.
const LONG: [(&str, &str); 11] = [
    ("9223372036854775806", "9223372036854775806"),
    ("9223372036854775807", MOST),
    ("9223372036854775809", MOST),
    ("18446744073709551616", MOST),
    ("18446744073709551617", MOST),
    ("340282366920938463463374607431768211457", MOST),
    ("-9223372036854775806", "-9223372036854775806"),
    ("-9223372036854775807", LEAST),
    ("-9223372036854775808", LEAST),
    ("-18446744073709551615", LEAST),
    ("-18446744073709551616", LEAST),
];
const MOST: &str = "9223372036854775807 or more";
const LEAST: &str = "-9223372036854775807 or less";

/// Numbers that are longer than 64 bits are held at the largest on their side, and the library refuses them.
#[test]
fn long_numbers() {
    let folder = Folder::with("record", SERIES);
    for (number, said) in LONG {
        for (typed, place, parts, range) in [
            (format!("9={number},1"), 0, "0 parts", "0"),
            (format!("9=0,{number},1"), 1, "1 part", "0 to 2"),
            (format!("9=0,{number}"), 1, "1 part", "1"),
        ] {
            let explanation = folder.run(&words(&[&typed])).refused(13, place);
            let count = format!(": the count for {parts} is {said}, which is not {range}\n");
            let about = "nahokipe: the path counts given for part 9".to_string();
            assert!(explanation.starts_with(&(about + &count)), "{explanation}");
        }
    }
}

/// More numbers than a block has are refused with 1, however many, whatever they are.
#[test]
fn long_lists() {
    let folder = Folder::with("record", SERIES);
    for (length, number) in [
        (18, "-1"),
        (19, "0"),
        (257, "0"),
        (273, "18446744073709551616"),
        (20_000, "1"),
    ] {
        let word = format!("4={}", vec![number; length].join(","));
        let explanation = folder.run(&words(&[&word])).refused(1, 0);
        let said = format!(
            "{length} numbers, for 0 to {} parts; a block has 1 to 16 parts\n",
            length - 1
        );
        assert_has(
            &explanation,
            &[&format!(
                "nahokipe: the path counts given for part 4: {said}"
            )],
        );
    }
}

/// Path counts are judged behind the words, the record, its numbers and the sheets of the parts in front of theirs.
#[test]
fn what_comes_before_them() {
    let folder = Folder::with("record", series_with(&[7]));
    let error = folder.run(&words(&["9=0,2", "4=missing"])).failed();
    assert_eq!(error, "nahokipe: missing: No such file or directory\n");
    let explanation = folder.run(&words(&["4=0,2", "7=0,2"])).refused(17, 0);
    assert_has(
        &explanation,
        &["record: no part has number 7, which is retired; "],
    );
    folder.write("record", "");
    let explanation = folder.run(&words(&["4=0,2"])).refused(21, 0);
    assert_has(&explanation, &["nahokipe: record: this is no whole record"]);
    let error = folder.run(&words(&["4=0,2", "4=0,1"])).failed();
    assert_has(&error, &["number 4 stands twice\n"]);
}

/// More than 16 parts in all are refused behind every list; 16 are taken.
#[test]
fn more_than_sixteen_parts() {
    let folder = with_example();
    let twelve = "4=0,0,0,0,0,0,0,0,0,0,0,0,1";
    let printed = folder.run(&words(&[twelve, TYPED[1]])).done();
    assert!(
        printed.starts_with(&(typed(4, 12) + &typed(9, 4) + &in_all(16))),
        "{printed}"
    );
    let thirteen = "4=0,0,0,0,0,0,0,0,0,0,0,0,0,1";
    for (word, line) in [
        (TYPED[1], typed(9, 4)),
        (
            "9=gas",
            "part 9: gas, kind 1, path counts, 4 parts\n".to_string(),
        ),
    ] {
        let explanation = folder.run(&words(&[thirteen, word])).refused(33, 0);
        let about = "nahokipe: record: its blocks have 17 parts in all\n";
        let said = format!("{about}  {}  {line}  refused 33 0: ", typed(4, 13));
        assert!(explanation.starts_with(&said), "{explanation}");
    }
}

// ---- words that are the names of files

/// Words that are not quite path counts, and so are the names of files.
const ALMOST: [&str; 23] = [
    "5", "0", "-1", "0,1,", ",0,1", "0,,1", "0,1,,", " 0,1", "0,1 ", "0, 1", "0 1", "00,1", "0,01",
    "0,-01", "+0,1", "0,+1", "--1,1", "0,-", "-,1", "0;1", "0.0,1", "0,1.", "- 1,1",
];
/// Names of files with what no number has, or without a digit.
const STRANGE: [&str; 9] = [
    "0,x",
    "0,1\n",
    "0,\t1",
    "0,1e0",
    "0,0x1",
    "0,1=1",
    "0,\u{661}",
    "\u{2212}1,1",
    ",",
];

/// Where there is no such file, that is said, and behind it how path counts are written, if they may have been meant.
#[test]
fn files_that_are_not_there() {
    let folder = Folder::with("record", SERIES);
    for name in ALMOST {
        let error = folder.run(&words(&[&format!("9={name}")])).failed();
        let missing = format!("nahokipe: {name}: No such file or directory\n");
        assert_eq!(error, missing + HINT);
    }
    for name in STRANGE.iter().chain(&["./0,1", "0,1/", "missing"]) {
        let error = folder.run(&words(&[&format!("9={name}")])).failed();
        assert!(error.ends_with(": No such file or directory\n"), "{error}");
    }
    assert_eq!(folder.names(), ["record"]);
}

/// A file of such a name is read as a sheet.
#[test]
fn files_that_are_there() {
    let folder = Folder::with("record", SERIES);
    for name in ALMOST.iter().chain(&STRANGE) {
        folder.write(name, GAS);
        let word = format!("9={name}");
        let printed = folder.run(&words(&[TYPED[0], &word])).done();
        let shown = name.replace('\n', "\\n").replace('\t', "\\t");
        let line = format!("\npart 9: {shown}, kind 1, path counts, 4 parts\n");
        assert_has(&printed, &[&line, FIGURES]);
        folder.write(name, "");
        let explanation = folder.run(&words(&[&word])).refused(21, 0);
        assert!(!explanation.contains(HINT), "{explanation}");
    }
}

/// A file whose name is path counts is read by `./`, and is not looked for without that.
#[test]
fn files_with_the_names_of_counts() {
    let folder = Folder::with("record", SERIES);
    for name in ["0,1", "1,2", "-1,1", "18446744073709551616,0"] {
        folder.write(name, PUMP);
        let printed = folder
            .run(&words(&[&format!("4=./{name}"), TYPED[1]]))
            .done();
        let line = format!("part 4: ./{name}, kind 3, signature, 3 parts\n");
        assert_eq!(printed, line + &typed(9, 4) + &in_all(7) + FIGURES);
    }
    let printed = folder.run(&words(&["4=0,1"])).done();
    assert!(printed.starts_with(&typed(4, 1)), "{printed}");
    let explanation = folder.run(&words(&["4=1,2"])).refused(13, 0);
    assert_has(&explanation, &["the path counts given for part 4: "]);
}

/// Path counts that a blank divides are two words, of which the second is wrong; path counts without a part number are as well.
#[test]
fn words_that_are_no_blocks() {
    let folder = Folder::with("record", SERIES);
    for (behind, shown) in [
        (["4=0,0,", "2,1"].as_slice(), "2,1"),
        (&["0,0,2,1"], "0,0,2,1"),
        (&["4", "0,1"], "4"),
    ] {
        let error = folder.run(&words(behind)).failed();
        let why = format!("`{shown}` is not NUMBER=BLOCK, as in `7=pump.sheet` or `7=0,0,2,1`\n");
        assert!(
            error.starts_with(&format!("nahokipe: blocks: {why}")),
            "{error}"
        );
    }
}
