//! Retired numbers: changes of edition 2 records, which file them, and `diff`, which tells which left and came.

use crate::changing::same_change;
use crate::editions::{pumps_with, random_second};
use crate::folder::{assert_has, Folder, BRIDGE, PUMPS};
use nahokipe_testing::making::{largest_edition_2, random_group};
use nahokipe_testing::naive_editions::{edition_2_bytes, to_edition_1, to_edition_2};
use nahokipe_testing::naive_records::{changed, named, whole_record, Change};
use nahokipe_testing::seeded::Seeded;

/// Why a number is not filed, or dropped.
const FULL: &str = "64 higher ones are retired, and the list holds no more";

// ---- changing

/// Changes of random edition 2 records, against the definitions: the edition stays, numbers are filed, the counts are fresh.
#[test]
fn changes_of_edition_2() {
    let mut seeded = Seeded::new(793);
    for n in (1..=16).flat_map(|n| [n; 4]) {
        let (plain, retired) = random_second(&mut seeded, n);
        let bytes = edition_2_bytes(&plain, &retired);
        let group = random_group(&mut seeded, n) as u16;
        let mut numbers: Vec<u64> = named(&plain.numbers, group).into_iter().collect();
        seeded.shuffle(&mut numbers);
        let expected = |change| changed(&bytes, change);
        same_change(&bytes, "add-part", &[], expected(Change::AddPart));
        let out = expected(Change::TakeOutParts(&numbers));
        same_change(&bytes, "take-out", &numbers, out);
        let out = expected(Change::TakeOutPart(numbers[0]));
        same_change(&bytes, "take-out", &numbers[..1], out);
        let set = expected(Change::AddSetOfParts(&numbers));
        same_change(&bytes, "add-set", &numbers, set);
    }
}

/// The longest record that there is: 64 retired numbers, which a part that leaves pushes by one.
#[test]
fn the_longest_record() {
    let bytes = largest_edition_2();
    let reading = whole_record(&bytes).expect("a record");
    let retired = reading.retired.expect("edition 2");
    let part = reading.plain.numbers[7];
    let out = changed(&bytes, Change::TakeOutPart(part));
    same_change(&bytes, "take-out", &[part], out);
    let folder = Folder::with("record", &bytes);
    let words = ["take-out", "record", &part.to_string()];
    let printed = folder.run(&words).done();
    let dropped = format!("retired number {} was dropped: {FULL}\n", retired[0]);
    let start = format!("part {part} left; its number is filed as retired\n{dropped}set ");
    assert!(printed.starts_with(&start), "{}", &printed[..200]);
    folder.write("record", &bytes);
    folder.run(&["edition", "record", "1"]).refused(32, 0);
    folder.run(&["edition", "record", "2"]).done();
    assert!(folder.read("record") == bytes);
}

/// Part after part comes and leaves: each number is filed, and from the 65th on the lowest is dropped. At last a part leaves that is lower
/// than all retired ones, and is not filed.
#[test]
fn a_list_that_overflows() {
    let folder = Folder::with("text", "mark 1\nparts 1\nset 1\n");
    folder.run(&["enter", "text", "record"]).done();
    folder.run(&["edition", "record", "2"]).done();
    let mut retired = Vec::new();
    for number in 2..=70 {
        let dropped = match retired.len() {
            64 => format!("retired number {} was dropped: {FULL}\n", retired.remove(0)),
            _ => String::new(),
        };
        retired.push(number);
        folder.run(&["add-part", "record"]).done();
        let words = ["take-out", "record", &number.to_string()];
        let printed = folder.run(&words).done();
        let left = format!("part {number} left; its number is filed as retired\n{dropped}now ");
        assert!(printed.starts_with(&left), "{printed}");
    }
    folder.run(&["add-part", "record"]).done();
    folder.run(&["add-set", "record", "71"]).done();
    let printed = folder.run(&["take-out", "record", "1"]).done();
    let left = format!("part 1 left; its number is not filed: {FULL}\nset 1 went\nnow ");
    assert!(printed.starts_with(&left), "{printed}");
    let lines: String = retired.iter().map(|n| format!("retired {n}\n")).collect();
    let said = folder.run(&["edition", "record"]).done();
    assert_eq!(said, format!("edition 2\n{lines}"));
    assert_eq!(retired, (7..=70).collect::<Vec<u64>>());
}

#[test]
fn what_a_change_of_edition_2_says() {
    let folder = Folder::with("record", pumps_with(&[5]));
    let next = "the next part that is added gets number";
    let now = |what: &str, mark: u64| format!("now {what}; {next} {}\n", mark + 1);
    let printed = folder.run(&["take-out", "record", "7"]).done();
    let now_two = now("2 parts, 1 set, mark 15, edition 2, 2 retired numbers", 15);
    let filed = "part 7 left; its number is filed as retired\nset 3 7 went\n";
    assert_eq!(printed, format!("{filed}{now_two}"));
    let printed = folder.run(&["add-part", "record"]).done();
    let now_three = now("3 parts, 1 set, mark 16, edition 2, 2 retired numbers", 16);
    assert_eq!(printed, format!("part 16 came, in no set\n{now_three}"));
    for number in ["5", "7"] {
        let explanation = folder.run(&["take-out", "record", number]).refused(17, 0);
        let about =
            format!("no part has number {number}, which is retired; the parts are 3 12 16\n");
        assert_has(&explanation, &[&about]);
    }
    let explanation = folder.run(&["add-set", "record", "8"]).refused(17, 0);
    assert_has(
        &explanation,
        &["no part has number 8; the parts are 3 12 16\n"],
    );
}

// ---- comparing

#[test]
fn editions_that_differ() {
    let folder = Folder::with("first", PUMPS);
    folder.write("second", pumps_with(&[]));
    let diff = |old: &str, new: &str| folder.run(&["diff", old, new]).done();
    let same_figures = "\nno figure changed\n";
    let there = diff("first", "second");
    assert_eq!(there, format!("edition was 1, is 2\n{same_figures}"));
    let back = diff("second", "first");
    assert_eq!(back, format!("edition was 2, is 1\n{same_figures}"));
    assert_eq!(diff("second", "second"), "no difference\n");
}

#[test]
fn retired_numbers_that_differ() {
    let folder = Folder::with("old", pumps_with(&[5]));
    folder.run(&["take-out", "old", "7", "-o", "new"]).done();
    folder.write("names", "5 heater\n7 left pump\n");
    let words = ["diff", "old", "new", "--names", "names"];
    let printed = folder.run(&words).done();
    let start = "part 7 left  # left pump\nretired number 7 came  # left pump\nset 3 7 left  # 3, left pump\n\n";
    assert!(printed.starts_with(start), "{printed}");
    let backward = folder.run(&["diff", "new", "old"]).done();
    let expected = "\
a warning: 7 is a number again that was issued before, as the old mark says
a warning: 7 is no longer retired, and 64 higher ones did not take its place
  the second record did not come from the first one by changes: it is an older one,
  or on another line of changes
part 7 came
retired number 7 left
";
    assert!(backward.starts_with(expected), "{backward}");
}

/// The name of a number that is retired in one of two records, and a part's in neither, is known.
#[test]
fn names_of_numbers_that_one_record_retired() {
    let folder = Folder::with("first", PUMPS);
    folder.write("second", pumps_with(&[9]));
    folder.write("names", "9 heater\n");
    for (old, new, change) in [("first", "second", "came"), ("second", "first", "left")] {
        let words = ["diff", old, new, "--names", "names"];
        let printed = folder.run(&words).done();
        let line = format!("\nretired number 9 {change}  # heater\n");
        assert_has(&printed, &[&line]);
    }
}

/// Retired numbers that no change gives or takes away: lost ones, lost ones on the way to edition 1, and such as had left before.
#[test]
fn retired_numbers_of_another_line() {
    let folder = Folder::with("old", pumps_with(&[5]));
    let diff = |bytes: &[u8]| {
        folder.write("new", bytes);
        folder.run(&["diff", "old", "new"]).done()
    };
    let lost = "a warning: 5 is no longer retired, and 64 higher ones did not take its place\n";
    for (new, edition) in [
        (pumps_with(&[]), ""),
        (PUMPS.to_vec(), "edition was 2, is 1\n"),
    ] {
        let printed = diff(&new);
        assert!(printed.starts_with(lost), "{printed}");
        let lines = format!("on another line of changes\n{edition}retired number 5 left\n\n");
        assert_has(&printed, &[&lines]);
    }
    let printed = diff(&pumps_with(&[5, 9]));
    let late = "a warning: 9 is retired now, and its part had left before, as the old mark says\n";
    assert!(printed.starts_with(late), "{printed}");
    assert_has(
        &printed,
        &["\nretired number 9 came\n\nno figure changed\n"],
    );
}

/// Along a line of changes and conversions nothing is warned of, however many numbers are filed and dropped between two records.
#[test]
fn one_line_of_changes() {
    let mut seeded = Seeded::new(794);
    let folder = Folder::new();
    let line = line_of_changes(&mut seeded, 300);
    let mut dropped = 0;
    for _ in 0..60 {
        let (i, j) = (seeded.between(0, 299), seeded.between(0, 299));
        folder.write("old", &line[i.min(j)]);
        folder.write("new", &line[i.max(j)]);
        let printed = folder.run(&["diff", "old", "new"]).done();
        assert!(!printed.contains("a warning"), "{i} {j}: {printed}");
        let left = |line: &str| line.starts_with("retired number ") && line.ends_with(" left");
        dropped += usize::from(printed.lines().any(left));
    }
    assert!(dropped > 5, "{dropped}");
}

/// Records, each made of the one before it: part after part comes and leaves, and while no number is retired the edition changes.
fn line_of_changes(seeded: &mut Seeded, length: usize) -> Vec<Vec<u8>> {
    let mut line = vec![BRIDGE.to_vec()];
    while line.len() < length {
        let last = &line[line.len() - 1];
        let numbers = whole_record(last).expect("a record").plain.numbers;
        let some = [seeded.pick(&numbers)];
        let next = match seeded.between(0, 9) {
            0 => to_edition_1(last),
            1 => to_edition_2(last),
            2 => changed(last, Change::AddSetOfParts(&some)),
            3..=5 => changed(last, Change::AddPart),
            _ => changed(last, Change::TakeOutParts(&some)),
        };
        line.extend(next.ok());
    }
    line
}
