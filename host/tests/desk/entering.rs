//! `enter`, `new` and `show`: texts and records, there and back.

use crate::folder::{assert_has, Folder, BRIDGE, PUMPS};
use nahokipe_testing::making::{damaged_drawing, random_drawing, random_record};
use nahokipe_testing::making::{largest_drawing, largest_record, random_list, random_plain};
use nahokipe_testing::naive::{self, minimal_sets};
use nahokipe_testing::naive_drawing;
use nahokipe_testing::naive_records::{self as by_words, named, record_bytes, Plain, TOP_NUMBER};
use nahokipe_testing::seeded::Seeded;

/// The words in front of sets that suffice to run a machine, and in their place of sets whose joint failure stops it.
pub const WORDS: [&str; 2] = ["set", "cut"];

/// A line of a text: a word, and numbers with a blank in front of each.
pub fn line(word: &str, numbers: &[u64]) -> String {
    let numbers = numbers.iter().map(|number| format!(" {number}"));
    format!("{word}{}\n", numbers.collect::<String>())
}

/// A machine's text as it should be shown.
fn canonical(plain: &Plain) -> String {
    text_of(plain, "set", &plain.sets)
}

/// The text of a machine's mark and parts with a line for each of these sets.
pub fn text_of(plain: &Plain, word: &str, sets: &[u16]) -> String {
    let mut text = line("mark", &[plain.mark]) + &line("parts", &plain.numbers);
    for &set in sets {
        text += &line_of(plain, word, set);
    }
    text
}

/// The line of a set of a machine.
pub fn line_of(plain: &Plain, word: &str, set: u16) -> String {
    let numbers: Vec<u64> = named(&plain.numbers, set).into_iter().collect();
    line(word, &numbers)
}

/// A list of sets of a machine as somebody may have typed it: other orders, blanks, tabs, comments, empty lines, carriage returns.
pub fn typed(seeded: &mut Seeded, plain: &Plain, word: &str, list: &[u16]) -> String {
    let blank = |seeded: &mut Seeded| seeded.pick(&[" ", "  ", "\t", " \t "]);
    let end = |seeded: &mut Seeded| {
        seeded.pick(&[
            "\n",
            "\r\n",
            " \n",
            "# a comment\n",
            "\t# set 1\r\n",
            "\n\n",
            "\n \t\r\n",
        ])
    };
    let mut text = String::from(seeded.pick(&["", "\u{feff}", "# a tab\r\n", "\u{feff}\r\n"]));
    text += &format!("mark{}{}{}", blank(seeded), plain.mark, end(seeded));
    text += "parts";
    for number in &plain.numbers {
        text += &format!("{}{number}", blank(seeded));
    }
    text += end(seeded);
    for &set in list {
        let mut numbers: Vec<u64> = named(&plain.numbers, set).into_iter().collect();
        seeded.shuffle(&mut numbers);
        text += seeded.pick(&["", " ", "\t"]);
        text += word;
        for number in numbers {
            text += &format!("{}{number}", blank(seeded));
        }
        text += end(seeded);
    }
    text
}

/// The record of a text.
pub fn entered(folder: &Folder, text: &str) -> Vec<u8> {
    folder.write("text", text);
    let printed = folder.run(&["enter", "text", "-"]);
    assert_eq!(printed.status, Some(0), "{printed:?}");
    printed.output
}

#[test]
fn a_tab_of_the_spreadsheet() {
    let text = "# tab six\nmark 15\nparts 3 7 12\nset 3 7\nset 12 3\nset 7 12 3\n";
    let folder = Folder::with("tab6.txt", text);
    let printed = folder.run(&["enter", "tab6.txt", "tab6.record"]).done();
    let back = "mark 15\nparts 3 7 12\nset 3 7\nset 3 12\n";
    assert_has(
        &printed,
        &[
            back,
            "line 6: set 3 7 12 is left out, since it holds set 3 7",
        ],
    );
    assert_has(&printed, &["the next part that is added gets number 16"]);
    assert_eq!(folder.read("tab6.record"), PUMPS);
    assert_eq!(folder.run(&["show", "tab6.record"]).done(), back);
    assert_eq!(entered(&folder, &printed), PUMPS);
    assert_eq!(folder.names(), ["tab6.record", "tab6.txt", "text"]);
}

/// What is shown makes the same record, and what is entered is shown in its one form.
#[test]
fn enter_and_show_are_each_others_inverse() {
    let mut seeded = Seeded::new(700);
    let folder = Folder::new();
    for n in 1..=16 {
        for _ in 0..6 {
            let plain = random_plain(&mut seeded, n);
            let bytes = record_bytes(&plain);
            folder.write("record", &bytes);
            let shown = folder.run(&["show", "record"]).done();
            assert_eq!(shown, canonical(&plain));
            assert!(entered(&folder, &shown) == bytes, "{shown}");
        }
    }
}

#[test]
fn texts_as_people_type_them() {
    let mut seeded = Seeded::new(701);
    let folder = Folder::new();
    for n in 1..=16 {
        for _ in 0..6 {
            let list = random_list(&mut seeded, n);
            let table = naive::table_of_list(n, &list).expect("an accepted list");
            let mut plain = random_plain(&mut seeded, n);
            plain.sets = minimal_sets(n, &table).expect("an accepted table");
            let text = typed(&mut seeded, &plain, "set", &list);
            folder.write("record", entered(&folder, &text));
            assert_eq!(
                folder.run(&["show", "record"]).done(),
                canonical(&plain),
                "{text}"
            );
        }
    }
}

/// 16 parts with the highest numbers, and all 12,870 sets of 8 of them.
#[test]
fn the_largest_machine() {
    let bytes = largest_record();
    let folder = Folder::with("largest", &bytes);
    let shown = folder.run(&["show", "largest"]).done();
    assert_eq!(shown.lines().count(), 2 + 12_870);
    folder.write("text", &shown);
    let printed = folder.run(&["enter", "text", "again"]).done();
    assert!(folder.read("again") == bytes);
    assert_eq!(printed, shown + "# no number is left for another part\n");
    folder.write("drawing", largest_drawing());
    folder.run(&["new", "drawing", "drawn"]).done();
    let drawing = folder.run(&["drawing", "drawn"]).done();
    assert!(drawing == largest_drawing());
}

#[test]
fn a_drawing() {
    let text = "parts 5\nset 4 1\nset 2 5\nset 1 3 5\nset 4 3 2\nset 1 2 4\n";
    let folder = Folder::with("bridge.txt", text);
    let printed = folder.run(&["new", "bridge.txt", "bridge"]).done();
    let back = "mark 5\nparts 1 2 3 4 5\nset 1 4\nset 2 3 4\nset 2 5\nset 1 3 5\n";
    assert_eq!(
        printed,
        format!("{back}# the next part that is added gets number 6\n")
    );
    assert_eq!(folder.read("bridge"), BRIDGE);
}

#[test]
fn drawings_as_the_calculator_takes_them() {
    let mut seeded = Seeded::new(702);
    let folder = Folder::new();
    let mut seen = [0; 2];
    for n in 1..=16 {
        for round in 0..8 {
            let make = [random_drawing, damaged_drawing][round % 2];
            let text = make(&mut seeded, n);
            folder.write("text", &text);
            let ran = folder.run(&["new", "text", "-"]);
            let expected = naive_drawing::record_of_drawing(text.as_bytes());
            seen[usize::from(expected.is_ok())] += 1;
            match expected {
                Ok(record) => assert!(ran.status == Some(0) && ran.output == record, "{text}"),
                Err(refusal) => {
                    let line = format!("refused {} {}\n", refusal.number, refusal.place);
                    assert_eq!((ran.status, &ran.output[..]), (Some(1), &b""[..]), "{text}");
                    assert!(ran.error.starts_with(&line), "{ran:?}");
                }
            }
        }
    }
    assert!(seen.iter().all(|&times| times > 20), "{seen:?}");
}

/// Texts that are refused: the number and the place, and what the explanation says.
const REFUSED_TEXTS: [(&str, u8, usize, &str); 25] = [
    ("", 27, 1, "no default"),
    ("# nothing\n\n", 27, 3, "no default"),
    ("parts 3 7\nset 3\n", 27, 1, "no default"),
    (
        "\n# tab\nparts 3 7\nset 3\n",
        27,
        3,
        "line 3: `parts 3 7` is not `mark` and the highest number",
    ),
    (
        "mark\nparts 3\nset 3\n",
        27,
        1,
        "`mark` and the highest number",
    ),
    ("mark 7 8\nparts 3\nset 3\n", 27, 1, "`mark 7 8` is not"),
    ("mark 7\n", 27, 2, "the text ends without `parts`"),
    ("mark 7", 27, 2, "the text ends without `parts`"),
    (
        "mark 7\n\nset 3\nparts 3\n",
        27,
        3,
        "`set 3` is not `parts`",
    ),
    (
        "mark 7\nparts\nset 3\n",
        27,
        2,
        "`parts` is not `parts` and the part numbers",
    ),
    (
        "mark 7\nparts 3\nset\n",
        27,
        3,
        "`set` is not `set` and the numbers",
    ),
    (
        "mark 7\nparts 3\nset 3\nmark 8\n",
        27,
        4,
        "`mark 8` is not `set`",
    ),
    (
        "mark 7\nparts 3\nset 3 # a\nset 3 x\n",
        27,
        4,
        "`x` is not a number",
    ),
    ("mark 7\nparts 3\nset 03\n", 27, 3, "`03` is not a number"),
    ("mark 7\nparts 3,5\nset 3\n", 27, 2, "`3,5` is not a number"),
    ("mark -7\nparts 3\nset 3\n", 27, 1, "`-7` is not a number"),
    ("mark 7\nparts 3\nset 3\u{a0}7\n", 27, 3, "is not a number"),
    (
        "mark 7\nparts 3 5\nset 3\nset 3 9 5\n",
        17,
        0,
        "line 4: 9 is no part's number; the parts are 3 5",
    ),
    (
        "mark 7\nparts 3 5\nset 3 5 3\n",
        28,
        0,
        "line 3: 3 stands twice",
    ),
    (
        "mark 7\nparts 0 5\nset 5\n",
        23,
        0,
        "line 2: 0 is no part number",
    ),
    (
        "mark 7\nparts 3 5 5\nset 5\n",
        23,
        2,
        "line 2: 5 stands twice",
    ),
    (
        "mark 7\nparts 5 3\nset 5\n",
        23,
        1,
        "line 2: 3 stands behind 5",
    ),
    (
        "mark 4\nparts 3 5\nset 5\n",
        23,
        1,
        "line 2: 5 is above the mark, 4",
    ),
    (
        "mark 281474976710656\nparts 3 5\nset 5\n",
        23,
        2,
        "line 1: the mark is above 281474976710655",
    ),
    (
        "mark 281474976710656\nparts 3 281474976710656\nset 3\n",
        23,
        1,
        "is above 281474976710655",
    ),
];

/// A text is refused by `enter`, with this number, place and explanation, and no record is made.
pub fn is_refused(text: &str, (number, place): (u8, usize), why: &str) {
    let folder = Folder::with("text", text);
    let explanation = folder
        .run(&["enter", "text", "record"])
        .refused(number, place);
    assert_has(
        &explanation,
        &["nahokipe: text: ", why, "usual cause: ", "what to do: "],
    );
    assert_eq!(folder.names(), ["text"], "{text}");
}

/// Texts with `set` lines, and the same with `cut` lines.
#[test]
fn texts_that_are_refused() {
    for (text, number, place, why) in REFUSED_TEXTS {
        for word in WORDS {
            let [text, why] = [text, why].map(|said| said.replace("set", word));
            is_refused(&text, (number, place), &why);
        }
    }
}

/// Numbers that 64 bits do not hold are refused as what they are, and not cut to something smaller.
#[test]
fn numbers_of_any_length() {
    let long = [
        "18446744073709551616",
        "18446744073709551619",
        "55340232221128654851",
    ];
    for long in long
        .map(String::from)
        .into_iter()
        .chain(["3".repeat(5_000)])
    {
        for word in WORDS {
            let set = format!("mark 7\nparts 3 5\n{word} 3 {long}\n");
            is_refused(&set, (17, 0), "is no part's number; the parts are 3 5");
            let part = format!("mark 7\nparts 3 {long}\n{word} 3\n");
            is_refused(&part, (23, 1), "is above the mark, 7");
            let mark = format!("mark {long}\nparts 3 5\n{word} 3\n");
            is_refused(&mark, (23, 2), "line 1: the mark is above");
        }
    }
}

#[test]
fn too_many_parts() {
    let listed = |last: usize| -> String {
        let numbers: Vec<String> = (1..=last).map(|number| number.to_string()).collect();
        numbers.join(" ")
    };
    let (more, many) = (listed(17), listed(500_000));
    for word in WORDS {
        let why = "line 2: 17 part numbers; a machine has 1 to 16";
        is_refused(&format!("mark 17\nparts {more}\n{word} 1\n"), (1, 0), why);
        let why = "line 2: 500000 part numbers; a machine has 1 to 16";
        is_refused(&format!("mark 9\nparts {many}\n{word} 1\n"), (1, 0), why);
        let why = "line 3: 3 is no part's number; the parts are 1 2";
        is_refused(&format!("mark 9\nparts 1 2\n{word} {many}\n"), (17, 0), why);
    }
}

/// More lines than a list has sets, and as many, which make a record.
#[test]
fn too_many_sets() {
    let records: [&[u8]; 2] = [&[2, 2, 1, 2, 1, 3], &[2, 2, 1, 2, 2, 1, 2]];
    for (word, record) in WORDS.into_iter().zip(records) {
        let head = "mark 2\nparts 1 2\n".to_string();
        let lines = |count| format!("{word} 1 2\n").repeat(count);
        let why = format!("there are over 12870 `{word}` lines");
        is_refused(&(head.clone() + &lines(12_871)), (3, 0), &why);
        let more = head.clone() + &lines(2_000_000) + "what else\n";
        is_refused(&more, (3, 0), &why);
        let folder = Folder::with("text", head + &lines(12_870));
        folder.run(&["enter", "text", "record"]).done();
        assert_eq!(folder.read("record"), record);
    }
}

/// Texts in other encodings, and files of another sort.
#[test]
fn texts_that_are_no_texts() {
    let wide: Vec<u8> = "mark 7\n"
        .encode_utf16()
        .flat_map(u16::to_le_bytes)
        .collect();
    let folder = Folder::with("text", [&b"\xFF\xFE"[..], &wide].concat());
    let explanation = folder.run(&["enter", "text", "record"]).refused(27, 1);
    assert_has(&explanation, &["this is UTF-16 text; save it as UTF-8"]);
    folder.write("text", b"mark 7 # P\xFCmpen\nparts 3\nset 3 # F\xFChler\n");
    folder.run(&["enter", "text", "record"]).done();
    folder.write("text", BRIDGE);
    let explanation = folder.run(&["enter", "text", "other"]).refused(27, 1);
    assert_has(&explanation, &["this file is a record already", "\\u{5}"]);
    folder.write("text", "parts 2\nset 1 2\n");
    let explanation = folder.run(&["enter", "text", "other"]).refused(27, 1);
    assert_has(&explanation, &["which `nahokipe new` takes"]);
    for word in WORDS {
        folder.write("text", format!("mark 7\nparts 3\n{word} 3\n"));
        let explanation = folder.run(&["new", "text", "other"]).refused(27, 1);
        assert_has(&explanation, &["which `nahokipe enter` takes"]);
    }
}

/// Machines whose numbers are near the top: the last number is issued, and then none.
#[test]
fn numbers_near_the_top() {
    let plain = Plain {
        mark: TOP_NUMBER - 1,
        numbers: vec![1, TOP_NUMBER - 2, TOP_NUMBER - 1],
        sets: vec![0b011, 0b101],
    };
    let folder = Folder::new();
    folder.write("text", canonical(&plain));
    let printed = folder.run(&["enter", "text", "record"]).done();
    assert_has(
        &printed,
        &["the next part that is added gets number 281474976710655"],
    );
    let printed = folder.run(&["add-part", "record"]).done();
    assert_has(
        &printed,
        &["part 281474976710655 came, in no set", "no number is left"],
    );
    let explanation = folder.run(&["add-part", "record"]).refused(20, 0);
    assert_has(&explanation, &["record: the mark is 281474976710655"]);
    folder
        .run(&["take-out", "record", "281474976710655"])
        .done();
    folder.run(&["add-part", "record"]).refused(20, 0);
    folder
        .run(&["take-out", "record", "281474976710656"])
        .refused(17, 0);
    folder
        .run(&["take-out", "record", "281474976710654"])
        .done();
    let left = by_words::whole_record(&folder.read("record")).expect("an accepted record");
    assert_eq!(left.plain.numbers, [1, TOP_NUMBER - 2]);
}

/// `-` for the text, the record or both.
#[test]
fn from_standard_input_and_to_standard_output() {
    let folder = Folder::with(
        "text",
        canonical(&by_words::whole_record(&PUMPS).expect("a record").plain),
    );
    let ran = folder.run_with(&["enter", "-", "-"], "text");
    assert_eq!((ran.status, &ran.output[..]), (Some(0), &PUMPS[..]));
    assert_has(&ran.error, &["parts 3 7 12\n", "number 16\n"]);
    let ran = folder.run_with(&["enter", "-", "record"], "text");
    assert_has(&ran.done(), &["parts 3 7 12\n", "number 16\n"]);
    assert_eq!(
        folder.run_with(&["show", "-"], "record").done().as_bytes(),
        folder.read("text")
    );
}

/// A record that is refused is refused by each command as by the calculator, at the same place.
#[test]
fn records_that_are_refused() {
    let mut seeded = Seeded::new(703);
    let folder = Folder::new();
    for n in 1..=16 {
        let mut bytes = random_record(&mut seeded, n);
        bytes.truncate(seeded.between(0, bytes.len() - 1));
        folder.write("record", &bytes);
        for command in ["show", "cuts", "report", "figures", "drawing", "page"] {
            let explanation = folder.run(&[command, "record"]).refused(21, bytes.len());
            assert_has(
                &explanation,
                &["nahokipe: record: this is no whole record\n"],
            );
        }
    }
}
