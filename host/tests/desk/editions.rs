//! Both editions: `edition`, and what the commands that read say of an edition 2 record.

use crate::folder::{assert_has, Folder, Ran, BRIDGE, PUMPS};
use crate::markup::{document, Element};
use crate::refusing::{words, READING};
use nahokipe_testing::known::REFUSED_EDITIONS;
use nahokipe_testing::making::{damaged_edition_2, largest_record, random_plain, random_retired};
use nahokipe_testing::naive_editions::{edition_2_bytes, to_edition_2};
use nahokipe_testing::naive_records::{record_bytes, whole_record, Plain};
use nahokipe_testing::seeded::Seeded;
use std::fs;
use std::os::unix::fs::MetadataExt;

/// The pumps in edition 2, with these retired numbers.
pub fn pumps_with(retired: &[u64]) -> Vec<u8> {
    let plain = whole_record(&PUMPS).expect("a record").plain;
    edition_2_bytes(&plain, retired)
}

/// A random machine and retired numbers for it.
pub fn random_second(seeded: &mut Seeded, n: usize) -> (Plain, Vec<u64>) {
    let plain = random_plain(seeded, n);
    let retired = random_retired(seeded, &plain);
    (plain, retired)
}

/// A text without the lines that are comments.
fn without_comments(text: &str) -> String {
    let kept = text.lines().filter(|line| !line.starts_with("# "));
    kept.map(|line| format!("{line}\n")).collect()
}

// ---- converting

/// To edition 2 and back, into other files and in place: each record is the one that the definitions give.
#[test]
fn there_and_back() {
    let mut seeded = Seeded::new(790);
    let random = (1..=16).map(|n| record_bytes(&random_plain(&mut seeded, n)));
    for first in random.chain([largest_record()]) {
        let second = to_edition_2(&first).expect("a record");
        let folder = Folder::with("first", &first);
        let run = |words: &[&str]| drop(folder.run(words).done());
        run(&["edition", "first", "2", "-o", "second"]);
        assert!(folder.read("second") == second, "{first:02X?}");
        run(&["edition", "second", "1", "-o", "again"]);
        assert!(folder.read("again") == first, "{first:02X?}");
        assert!(folder.read("first") == first && folder.read("second") == second);
        run(&["edition", "first", "2"]);
        assert!(folder.read("first") == second, "{first:02X?}");
        run(&["edition", "first", "1"]);
        assert!(folder.read("first") == first, "{first:02X?}");
        assert_eq!(folder.names(), ["again", "first", "second"]);
    }
}

#[test]
fn what_a_conversion_says() {
    let folder = Folder::with("pumps", PUMPS);
    let printed = folder.run(&["edition", "pumps", "2"]).done();
    let second = "now 3 parts, 2 sets, mark 15, edition 2, 0 retired numbers; the next part that is added gets number 16\n";
    let expected = format!(
        "edition was 1, is 2\nparts that left before are not filed, since edition 1 does not say which\n{second}"
    );
    assert_eq!(printed, expected);
    let printed = folder.run(&["edition", "pumps", "2"]).done();
    let expected = format!("nothing changed: this is a record of edition 2 already\n{second}");
    assert_eq!(printed, expected);
    let printed = folder.run(&["edition", "pumps", "1"]).done();
    let first = "now 3 parts, 2 sets, mark 15; the next part that is added gets number 16\n";
    assert_eq!(printed, format!("edition was 2, is 1\n{first}"));
    let printed = folder.run(&["edition", "pumps", "1"]).done();
    let expected = format!("nothing changed: this is a record of edition 1 already\n{first}");
    assert_eq!(printed, expected);
    folder.write("bridge", BRIDGE);
    let printed = folder.run(&["edition", "bridge", "2"]).done();
    assert!(!printed.contains("left before"), "{printed}");
}

/// A record that is of the edition already stays the file that it is, with its retired numbers; with -o there is a copy.
#[test]
fn of_that_edition_already() {
    let second = pumps_with(&[5, 15]);
    for (bytes, edition) in [(&PUMPS[..], "1"), (&second, "2"), (&pumps_with(&[]), "2")] {
        let folder = Folder::with("record", bytes);
        let inode = || {
            let found = fs::metadata(folder.file("record"));
            found.expect("the record").ino()
        };
        let before = inode();
        let printed = folder.run(&["edition", "record", edition]).done();
        assert!(printed.starts_with("nothing changed: "), "{printed}");
        assert_eq!((inode(), folder.read("record")), (before, bytes.to_vec()));
        let words = ["edition", "record", edition, "-o", "copy"];
        assert_eq!(folder.run(&words).done(), printed);
        assert_eq!(folder.read("copy"), bytes);
    }
}

/// Retired numbers have no place in edition 1: nothing is written, and the way out that the explanation names leads to the same machine.
#[test]
fn retired_numbers_in_the_way() {
    let second = pumps_with(&[5, 15]);
    let folder = Folder::with("record", &second);
    for words in [
        ["edition", "record", "1"].as_slice(),
        &["edition", "record", "1", "-o", "new"],
    ] {
        let explanation = folder.run(words).refused(32, 0);
        let about = "nahokipe: record: edition 1 has no place for its retired numbers, 5 15\n";
        assert!(explanation.starts_with(about), "{explanation}");
        assert_has(&explanation, &["what to do: keep it in edition 2"]);
        assert_eq!(folder.names(), ["record"]);
        assert_eq!(folder.read("record"), second);
    }
    let line = "nahokipe show record | nahokipe enter - new";
    folder.shell(line).done();
    assert_eq!(folder.read("new"), PUMPS);
}

/// `-` as the record, and as the new one: the bytes go to standard output, and all that is said to standard error.
#[test]
fn through_pipes() {
    let folder = Folder::with("pumps", PUMPS);
    let into_pipes: [Ran; 2] = [
        folder.run_with(&["edition", "-", "2"], "pumps"),
        folder.run(&["edition", "pumps", "2", "-o", "-"]),
    ];
    for ran in into_pipes {
        assert_eq!((ran.status, ran.output), (Some(0), pumps_with(&[])));
        assert!(ran.error.starts_with("edition was 1, is 2\n"));
    }
    let line = "nahokipe edition - 2 <pumps 2>/dev/null | nahokipe take-out - 7 2>/dev/null | nahokipe edition -";
    assert_eq!(folder.shell(line).done(), "edition 2\nretired 7\n");
    folder.write("second", pumps_with(&[5]));
    let ran = folder.run_with(&["edition", "-", "1"], "second");
    assert_eq!((ran.status, &ran.output[..]), (Some(1), &b""[..]));
    let said = "refused 32 0\nnahokipe: standard input: edition 1 has no place";
    assert!(ran.error.starts_with(said), "{ran:?}");
    assert_eq!(folder.read("pumps"), PUMPS);
}

// ---- showing

#[test]
fn what_edition_says() {
    let folder = Folder::with("first", PUMPS);
    folder.write("none", pumps_with(&[]));
    folder.write("some", pumps_with(&[5, 10, 15]));
    folder.write("names", "3 controller\n5 heater\n15 Fühler <1>\n");
    let says = |words: &[&str]| folder.run(&[&["edition"], words].concat()).done();
    assert_eq!(says(&["first"]), "edition 1\n");
    assert_eq!(says(&["none"]), "edition 2\n# no number is retired\n");
    let some = "edition 2\nretired 5\nretired 10\nretired 15\n";
    assert_eq!(says(&["some"]), some);
    let named = "edition 2\nretired 5   # heater\nretired 10\nretired 15  # Fühler <1>\n";
    assert_eq!(says(&["some", "--names", "names"]), named);
    let ran = folder.run_with(&["edition", "--names", "names", "-"], "some");
    assert_eq!(ran.done(), named);
}

/// Names of retired numbers are known; of others it is said that they are no part's.
#[test]
fn names_of_retired_numbers() {
    let folder = Folder::with("record", pumps_with(&[5]));
    folder.write("names", "3 controller\n5 heater\n8 old pump\n");
    for command in ["show", "cuts", "idle", "figures", "edition", "page"] {
        let ran = folder.run(&[command, "record", "--names", "names"]);
        let said = "nahokipe: names: 8 old pump: no part has number 8; the parts are 3 7 12\n";
        assert_eq!((ran.status, ran.error.as_str()), (Some(0), said));
        assert_eq!(ran.text().contains("heater"), command != "idle", "{ran:?}");
    }
}

#[test]
fn a_text_of_edition_2_with_names() {
    let folder = Folder::with("record", pumps_with(&[5, 15]));
    folder.write("names", "3 controller\n15 heater\n");
    let shown = folder.run(&["show", "record", "--names", "names"]).done();
    let expected = "\
mark 15
parts 3 7 12
# 3 controller
# edition 2
# retired 5
# retired 15  # heater
set 3 7   # controller, 7
set 3 12  # controller, 12
";
    assert_eq!(shown, expected);
}

/// The text of an edition 2 record says edition and retired numbers as comments, and makes the record of edition 1.
#[test]
fn texts_of_edition_2() {
    let mut seeded = Seeded::new(791);
    for n in 1..=16 {
        let folder = Folder::new();
        let (plain, retired) = random_second(&mut seeded, n);
        let lines = retired.iter().map(|number| format!("# retired {number}\n"));
        let comments = format!("# edition 2\n{}", lines.collect::<String>());
        for command in ["show", "cuts"] {
            folder.write("record", edition_2_bytes(&plain, &retired));
            let text = folder.run(&[command, "record"]).done();
            assert_has(&text, &[&comments]);
            folder.write("text", &text);
            folder.run(&["enter", "text", command]).done();
            assert!(folder.read(command) == record_bytes(&plain), "{text}");
            folder.write("record", record_bytes(&plain));
            let of_edition_1 = folder.run(&[command, "record"]).done();
            assert_eq!(without_comments(&text), of_edition_1);
        }
    }
}

/// What says nothing of the edition is the same in both; figures differ by their first line and their last block.
#[test]
fn the_same_in_both_editions() {
    let mut seeded = Seeded::new(792);
    let folder = Folder::new();
    for n in 1..=16 {
        let (plain, retired) = random_second(&mut seeded, n);
        let number = plain.numbers[n / 2].to_string();
        let both = |words: &[&str]| {
            let editions = [record_bytes(&plain), edition_2_bytes(&plain, &retired)];
            editions.map(|bytes| {
                folder.write("record", bytes);
                let ran = folder.run(words);
                (ran.status, ran.text().to_string(), ran.error)
            })
        };
        for words in [
            ["report", "record"].as_slice(),
            &["drawing", "record"],
            &["idle", "record"],
            &["shares", "record", &number],
            &["take-out", "record", "0"],
        ] {
            let [first, second] = both(words);
            assert_eq!(first, second, "{words:?}");
        }
        let [(_, first, _), (_, second, _)] = both(&["figures", "record"]);
        assert_eq!(second, figures_with(&first, &retired));
    }
}

/// The figures of an edition 1 record as they are for one of edition 2 with these retired numbers.
fn figures_with(figures: &str, retired: &[u64]) -> String {
    let counted = match retired.len() {
        1 => "1 retired number".to_string(),
        count => format!("{count} retired numbers"),
    };
    let figures = figures.replacen("; ", &format!(", edition 2, {counted}; "), 1);
    let width = retired.iter().map(|number| number.to_string().len()).max();
    let Some(width) = width.map(|width| width.max(6)) else {
        return figures;
    };
    let line = |number: &u64| format!("  {number:>width$}\n");
    let lines: String = retired.iter().map(line).collect();
    let title = "Retired numbers: those of parts that have left";
    format!("{figures}\n{title}\n  {:>width$}\n{lines}", "number")
}

#[test]
fn figures_with_names() {
    let folder = Folder::with("record", pumps_with(&[5, 15]));
    folder.write("names", "15 heater\n");
    let figures = folder.run(&["figures", "record", "--names", "names"]);
    let end =
        "\n\nRetired numbers: those of parts that have left\n  number  name\n       5\n      15  heater\n";
    assert!(figures.text().ends_with(end), "{figures:?}");
    let start = "3 parts, 2 sets, mark 15, edition 2, 2 retired numbers; the next part that is added gets number 16\n";
    assert!(figures.text().starts_with(start), "{figures:?}");
}

/// The retired numbers on a page, if it has them.
fn on_page(page: &Element) -> Option<Vec<String>> {
    let sections = page.all("section").into_iter();
    let mut sections = sections.filter(|one| one.all("h2")[0].text() == "Retired numbers");
    let section = sections.next()?;
    Some(section.all("li").iter().map(|line| line.text()).collect())
}

/// A page of edition 2 has a section more, and its bytes; a page of edition 1 does not name editions.
#[test]
fn pages_of_edition_2() {
    let folder = Folder::with("record", PUMPS);
    folder.write("names", "5 <b>heater</b>\n3 controller\n");
    let page_of = |bytes: &[u8]| {
        folder.write("record", bytes);
        let ran = folder.run(&["page", "record", "--names", "names"]);
        assert_eq!(ran.status, Some(0));
        ran.text().to_string()
    };
    let first = page_of(&PUMPS);
    assert_eq!(on_page(&document(&first)), None);
    assert!(!first.contains("dition"), "{first}");
    let none = document(&page_of(&pumps_with(&[])));
    assert_eq!(on_page(&none), Some(Vec::new()));
    assert_has(
        &none.text(),
        &["The record is of edition 2", "There is none."],
    );
    let some = page_of(&pumps_with(&[5, 15]));
    let shown = on_page(&document(&some));
    assert_eq!(shown, Some(vec!["5 <b>heater</b>".into(), "15".into()]));
    assert_has(
        &some,
        &["00 02 03 0F 03 07 0C 02 03 05 02 05 0F 00 00 02\n01\n"],
    );
}

// ---- refusing

/// The known refusals of edition 2, each at its place.
#[test]
fn bytes_that_are_no_record() {
    let folder = Folder::with("good", BRIDGE);
    for (bytes, number, place) in REFUSED_EDITIONS {
        folder.write("record", bytes);
        for command in READING {
            let explanation = folder.run(&words(command, "record")).refused(number, place);
            let about = "nahokipe: record: this is no whole record\n";
            assert!(explanation.starts_with(about), "{explanation}");
            assert_has(&explanation, &[&format!("  refused {number} {place}: ")]);
        }
        assert_eq!(folder.read("record"), bytes);
    }
    assert_eq!(folder.names(), ["good", "record"]);
}

/// An edition 2 record where a text belongs is known for one.
#[test]
fn a_record_for_a_text() {
    let folder = Folder::with("record", pumps_with(&[5]));
    let explanation = folder.run(&["enter", "record", "new"]).refused(27, 1);
    assert_has(&explanation, &["\n  this file is a record already\n"]);
    assert_eq!(folder.names(), ["record"]);
}

/// Damaged edition 2 records are refused where the definitions say so, by what prints and by what writes.
#[test]
fn damaged_records() {
    let mut seeded = Seeded::new(795);
    let folder = Folder::new();
    let mut seen = [0; 2];
    for n in (1..=16).flat_map(|n| [n; 8]) {
        let bytes = damaged_edition_2(&mut seeded, n);
        folder.write("record", &bytes);
        let Err(refusal) = whole_record(&bytes) else {
            continue;
        };
        for words in [["show", "record"].as_slice(), &["edition", "record", "1"]] {
            folder.run(words).refused(refusal.number, refusal.place);
        }
        assert_eq!(folder.read("record"), bytes);
        for (seen, number) in seen.iter_mut().zip([30, 31]) {
            *seen += usize::from(refusal.number == number);
        }
    }
    assert!(seen.iter().all(|&times| times > 5), "{seen:?}");
}

#[test]
fn the_help_of_edition() {
    let help = Folder::new().run(&["edition", "--help"]).done();
    let usage = "usage: nahokipe edition RECORD [--names FILE]\n       nahokipe edition RECORD EDITION [-o NEW]\n";
    assert!(help.starts_with(usage), "{help}");
    assert_has(&help, &["the retired numbers", "edition 1 or 2"]);
}
