//! `cuts`, and `enter` of texts with cut sets: sets of parts whose joint failure stops the machine.

use crate::entering::{entered, is_refused, line_of, text_of, typed};
use crate::folder::{assert_has, Folder, BRIDGE, PUMPS};
use crate::manual::with_examples;
use nahokipe_testing::making::{every_plain, random_list, random_plain, sets_of_size};
use nahokipe_testing::naive::{holds, minimal_sets};
use nahokipe_testing::naive_cuts::{minimal_cuts, table_of_cuts};
use nahokipe_testing::naive_records::{record_bytes, table_of_record, Plain, TOP_NUMBER};
use nahokipe_testing::seeded::Seeded;

/// The minimal cut sets of a machine, searched among all failures.
fn cuts_of(plain: &Plain) -> Vec<u16> {
    let table = table_of_record(&record_bytes(plain)).expect("an accepted record");
    minimal_cuts(plain.numbers.len(), &table).expect("an accepted table")
}

/// A machine with the mark and the parts of another that is stopped by these cut sets and by nothing else.
fn stopped_by(plain: &Plain, cuts: &[u16]) -> Plain {
    let n = plain.numbers.len();
    let table = table_of_cuts(n, cuts).expect("an accepted list");
    Plain {
        sets: minimal_sets(n, &table).expect("an accepted table"),
        ..plain.clone()
    }
}

#[test]
fn the_cuts_of_the_bridge() {
    let folder = Folder::with("bridge", BRIDGE);
    let expected = "mark 5\nparts 1 2 3 4 5\ncut 1 2\ncut 2 3 4\ncut 1 3 5\ncut 4 5\n";
    let printed = folder.run(&["cuts", "bridge"]).done();
    assert_eq!(printed, expected);
    let printed = folder.run_with(&["cuts", "-"], "bridge").done();
    assert_eq!(printed, expected);
    assert_eq!(entered(&folder, expected), BRIDGE);
}

/// Tab six with its names, which are comments in this text too.
#[test]
fn the_cuts_of_tab_six() {
    let folder = with_examples();
    folder.run(&["enter", "tab6.txt", "tab6.record"]).done();
    let words = ["cuts", "tab6.record", "--names", "names.txt"];
    let printed = folder.run(&words).done();
    let expected = "\
mark 15
parts 3 5 7 12 14
# 3 controller
# 5 oxygen sensor
# 7 arterial pump
# 12 portal pump
# 14 flow sensor
cut 3     # controller
cut 5 7   # oxygen sensor, arterial pump
cut 7 12  # arterial pump, portal pump
cut 5 14  # oxygen sensor, flow sensor
";
    assert_eq!(printed, expected);
    assert_eq!(entered(&folder, &printed), folder.read("tab6.record"));
}

/// A manual's list in its own order, with a set twice and sets that hold another.
#[test]
fn a_list_of_a_manual() {
    let text = "# manual\nmark 15\nparts 3 7 12\ncut 12 7\ncut 3\n\ncut 7 3\ncut 3\ncut 12 7 3\n";
    let folder = Folder::with("manual.txt", text);
    let printed = folder.run(&["enter", "manual.txt", "made"]).done();
    let back = "mark 15\nparts 3 7 12\ncut 3\ncut 7 12\n";
    let comments = "\
# line 7: cut 3 7 is left out, since it holds cut 3
# line 9: cut 3 7 12 is left out, since it holds cut 3
# failures that hold none of these cut sets do not stop this machine
# the record has 2 sets that suffice to run it, which `nahokipe show` prints
# the next part that is added gets number 16
";
    assert_eq!(printed, format!("{back}{comments}"));
    assert_eq!(folder.read("made"), PUMPS);
    assert_eq!(folder.run(&["cuts", "made"]).done(), back);
    assert_eq!(entered(&folder, &printed), PUMPS);
    let one = "mark 9\nparts 4 9\ncut 4\ncut 9\n";
    folder.write("manual.txt", one);
    let printed = folder.run(&["enter", "manual.txt", "one"]).done();
    assert!(printed.starts_with(one), "{printed}");
    assert_has(
        &printed,
        &["\n# the record has 1 set that suffices to run it, which"],
    );
}

/// A wrong cut set is put right in the text that was entered: what `cuts` prints of its record lacks the cut set that held it.
#[test]
fn a_cut_set_that_was_entered_wrongly() {
    let right = "mark 15\nparts 3 5 7 12\ncut 3\ncut 5 7\ncut 7 12\n";
    let folder = Folder::new();
    let wrong = entered(&folder, &right.replace("cut 7 12", "cut 7"));
    folder.write("wrong", wrong);
    let printed = folder.run(&["cuts", "wrong"]).done();
    assert_eq!(printed, "mark 15\nparts 3 5 7 12\ncut 3\ncut 7\n");
    let lacking = entered(&folder, &printed.replace("cut 7", "cut 7 12"));
    assert_ne!(lacking, entered(&folder, right));
}

/// The machines of up to four parts: the cut sets are those of a search over all failures, and entered they make the same record.
#[test]
fn every_small_machine() {
    let folder = Folder::new();
    for plain in (1..=4).flat_map(every_plain) {
        same_there_and_back(&folder, &plain);
    }
}

#[test]
fn random_machines() {
    let mut seeded = Seeded::new(770);
    let folder = Folder::new();
    for n in 1..=16 {
        for _ in 0..6 {
            same_there_and_back(&folder, &random_plain(&mut seeded, n));
        }
    }
}

/// `cuts` prints the cut sets that a search finds, and `enter` makes the same record of them, byte for byte.
fn same_there_and_back(folder: &Folder, plain: &Plain) {
    let bytes = record_bytes(plain);
    folder.write("record", &bytes);
    let printed = folder.run(&["cuts", "record"]).done();
    assert_eq!(printed, text_of(plain, "cut", &cuts_of(plain)));
    assert!(entered(folder, &printed) == bytes, "{printed}");
}

/// The most cut sets that a machine can have, all 8 of 16 parts, and the most path sets, which have fewer.
#[test]
fn the_largest_machines() {
    let folder = Folder::new();
    for (size, lines) in [(9, 12_870), (8, 11_440)] {
        let plain = Plain {
            mark: TOP_NUMBER,
            numbers: (TOP_NUMBER - 15..=TOP_NUMBER).collect(),
            sets: sets_of_size(16, size),
        };
        let cuts = sets_of_size(16, 17 - size);
        assert_eq!(cuts.len(), lines);
        let bytes = record_bytes(&plain);
        folder.write("record", &bytes);
        let printed = folder.run(&["cuts", "record"]).done();
        assert!(printed == text_of(&plain, "cut", &cuts), "sets of {size}");
        assert!(entered(&folder, &printed) == bytes, "sets of {size}");
    }
}

/// Lists of cut sets as they come, typed as people type: the record is that of the machine which they stop, and `cuts` has its minimal ones.
#[test]
fn lists_as_people_type_them() {
    let mut seeded = Seeded::new(771);
    let folder = Folder::new();
    for n in 1..=16 {
        for _ in 0..4 {
            let list = random_list(&mut seeded, n);
            let plain = stopped_by(&random_plain(&mut seeded, n), &list);
            let text = typed(&mut seeded, &plain, "cut", &list);
            let record = entered(&folder, &text);
            assert!(record == record_bytes(&plain), "{text}");
            folder.write("record", record);
            let printed = folder.run(&["cuts", "record"]).done();
            assert_eq!(printed, text_of(&plain, "cut", &cuts_of(&plain)), "{text}");
        }
    }
}

/// What is printed back: the minimal cut sets, each line of the text that holds one of them and is none, what other failures are taken for,
/// and how many sets the record has.
#[test]
fn what_is_left_out() {
    let mut seeded = Seeded::new(772);
    let mut seen = 0;
    for n in 1..=16 {
        let list = random_list(&mut seeded, n);
        let plain = stopped_by(&random_plain(&mut seeded, n), &list);
        let folder = Folder::with("text", text_of(&plain, "cut", &list));
        let printed = folder.run(&["enter", "text", "record"]).done();
        let minimal = cuts_of(&plain);
        let back = text_of(&plain, "cut", &minimal);
        let comments = left_out(&plain, &list, &minimal);
        seen += comments.len();
        let expected = back + &comments.concat() + &sets_made(plain.sets.len());
        let next = printed.strip_prefix(&expected);
        let next = next.unwrap_or_else(|| panic!("{printed}, and not {expected}"));
        assert!(
            next.starts_with("# ") && next.lines().count() == 1,
            "{next}"
        );
    }
    assert!(seen > 100, "{seen}");
}

/// The comments on a record that was made of cut sets and has so many sets.
fn sets_made(count: usize) -> String {
    let sets = match count {
        1 => "1 set that suffices".to_string(),
        _ => format!("{count} sets that suffice"),
    };
    format!(
        "\
# failures that hold none of these cut sets do not stop this machine
# the record has {sets} to run it, which `nahokipe show` prints
"
    )
}

/// The comments on the sets of a list, the first on line 3, that are not among the minimal ones.
fn left_out(plain: &Plain, list: &[u16], minimal: &[u16]) -> Vec<String> {
    let words = |cut| line_of(plain, "cut", cut).trim_end().to_string();
    let comment = |(place, &cut): (usize, &u16)| {
        let held = |inner: &&u16| holds(usize::from(cut), usize::from(**inner));
        let held = minimal.iter().find(held).expect("a minimal cut set");
        let (held, cut) = (words(*held), words(cut));
        format!("# line {place}: {cut} is left out, since it holds {held}\n")
    };
    let others = (3..).zip(list).filter(|(_, cut)| !minimal.contains(cut));
    others.map(comment).collect()
}

/// Lines that begin with another word than the first of them, or with none of the two, and texts without any.
const OTHER_WORDS: [(&str, u8, usize, &str); 12] = [
    (
        "mark 7\nparts 3 5\nset 3\ncut 5\n",
        27,
        4,
        "line 4: `cut 5` stands behind a `set` line; a text has either `set` or `cut` lines\n",
    ),
    (
        "mark 7\nparts 3 5\ncut 3\n\n# more\nset 3 5 # not\n",
        27,
        6,
        "line 6: `set 3 5` stands behind a `cut` line; a text has either `set` or `cut` lines\n",
    ),
    (
        "mark 7\nparts 3 5\ncut 3\ncut 9\nset\n",
        27,
        5,
        "line 5: `set` stands behind a `cut` line; ",
    ),
    (
        "mark 7\nparts 3 5\nset 3\ncut x\n",
        27,
        4,
        "line 4: `cut x` stands behind a `set` line; ",
    ),
    (
        "mark 7\nparts 3 5\nset 3\ncuts 5\n",
        27,
        4,
        "line 4: `cuts 5` is not `set` and the numbers of its parts, as in `set 3 7`\n",
    ),
    (
        "mark 7\nparts 3 5\ncut 3\nsets 5\n",
        27,
        4,
        "line 4: `sets 5` is not `cut` and the numbers of its parts, as in `cut 7 12`\n",
    ),
    (
        "mark 7\nparts 3\nsets 3\nset 3\n",
        27,
        3,
        "line 3: `sets 3` is not `set` or `cut` and the numbers of its parts",
    ),
    (
        "mark 7\nparts 3\ncuts 3\n",
        27,
        3,
        "line 3: `cuts 3` is not `set` or `cut` and the numbers of its parts",
    ),
    (
        "mark 7\nparts 3\nCut 3\n",
        27,
        3,
        "`Cut 3` is not `set` or `cut`",
    ),
    ("mark 7\ncut 3\nparts 3\n", 27, 2, "`cut 3` is not `parts`"),
    (
        "mark 7\nparts 3\n",
        2,
        0,
        "text: there is no `set` or `cut` line\n",
    ),
    (
        "mark 7\nparts 3\n# cut 3\n",
        2,
        0,
        "text: there is no `set` or `cut` line\n",
    ),
];

#[test]
fn lines_of_another_word() {
    for (text, number, place, why) in OTHER_WORDS {
        is_refused(text, (number, place), why);
    }
}

/// `-` for the text and the record: the story goes to standard error.
#[test]
fn through_pipes() {
    let folder = Folder::with("text", "mark 15\nparts 3 7 12\ncut 3\ncut 7 12\n");
    let ran = folder.run_with(&["enter", "-", "-"], "text");
    assert_eq!((ran.status, &ran.output[..]), (Some(0), &PUMPS[..]));
    assert_has(&ran.error, &["cut 3\ncut 7 12\n# failures that hold none"]);
    let line = "nahokipe enter text - 2>/dev/null | nahokipe cuts -";
    let printed = folder.shell(line).done();
    assert_eq!(printed.as_bytes(), folder.read("text"));
}

#[test]
fn the_help_of_enter() {
    let help = Folder::new().run(&["enter", "--help"]).done();
    assert_has(
        &help,
        &["`cut` lines may stand in place of the `set` lines"],
    );
}
