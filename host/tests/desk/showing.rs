//! `report`, `drawing`, and names beside numbers.

use crate::folder::{assert_has, Folder, BRIDGE, PUMPS};
use nahokipe_testing::making::{random_record, spoilt_record};
use nahokipe_testing::naive_drawing;
use nahokipe_testing::naive_records::whole_record;
use nahokipe_testing::naive_report::printed;
use nahokipe_testing::seeded::Seeded;

/// The report and the refusal are those of the calculator, byte for byte.
#[test]
fn reports_unchanged() {
    let mut seeded = Seeded::new(740);
    let folder = Folder::new();
    for n in 1..=16 {
        for round in 0..6 {
            let record = match round % 2 {
                0 => random_record(&mut seeded, n),
                _ => spoilt_record(&mut seeded, n, round / 2),
            };
            folder.write("record", &record);
            let ran = folder.run(&["report", "record"]);
            assert_eq!(ran.text(), printed(&record));
            let accepted = whole_record(&record).is_ok();
            assert_eq!(ran.status, Some(if accepted { 0 } else { 1 }));
            assert_eq!(ran.error.is_empty(), accepted, "{ran:?}");
        }
    }
}

#[test]
fn the_report_of_the_bridge() {
    let folder = Folder::with("bridge", BRIDGE);
    let report = folder.run(&["report", "bridge"]).done();
    assert!(
        report.starts_with("parts 5 sets 4 mark 5\norder 1 0\norder 2 24\n"),
        "{report}"
    );
    assert_eq!(folder.run_with(&["report", "-"], "bridge").done(), report);
}

/// The text of a record, with a warning exactly where it loses the part numbers.
#[test]
fn drawings() {
    let mut seeded = Seeded::new(741);
    let folder = Folder::new();
    let mut warned = [0; 2];
    for n in 1..=16 {
        for _ in 0..8 {
            let record = random_record(&mut seeded, n);
            folder.write("record", &record);
            let ran = folder.run(&["drawing", "record"]);
            let text = naive_drawing::drawing_of_record(&record).expect("an accepted record");
            assert!(ran.status == Some(0) && ran.output == text, "{record:02X?}");
            let plain = whole_record(&record).expect("an accepted record").plain;
            let size = plain.numbers.len() as u64;
            let numbered = plain.mark == size && plain.numbers.iter().copied().eq(1..=size);
            assert_eq!(ran.error.is_empty(), numbered, "{ran:?}");
            warned[usize::from(numbered)] += 1;
        }
    }
    assert!(warned.iter().all(|&times| times > 3), "{warned:?}");
}

#[test]
fn the_warning_of_a_drawing() {
    let folder = Folder::with("pumps", PUMPS);
    let ran = folder.run(&["drawing", "pumps"]);
    assert_eq!(
        (ran.status, ran.text()),
        (Some(0), "parts 3\nset 1 2\nset 1 3\n")
    );
    assert_has(
        &ran.error,
        &[
            "nahokipe: pumps: a warning",
            "the parts 3 7 12, and the mark is 15",
        ],
    );
    folder.write("bridge", BRIDGE);
    assert_eq!(
        folder.run(&["drawing", "bridge"]).done().lines().next(),
        Some("parts 5")
    );
}

/// Names are comments, so that the text with names makes the same record.
#[test]
fn names_in_a_text() {
    let folder = Folder::with("pumps", PUMPS);
    folder.write(
        "names",
        "# of tab six\r\n\n 3 controller\r\n7\tPump #2\tleft \n12 Fühler <1> & \"2\"",
    );
    let shown = folder.run(&["show", "pumps", "--names", "names"]).done();
    let expected = "\
mark 15
parts 3 7 12
# 3 controller
# 7 Pump #2 left
# 12 Fühler <1> & \"2\"
set 3 7   # controller, Pump #2 left
set 3 12  # controller, Fühler <1> & \"2\"
";
    assert_eq!(shown, expected);
    folder.write("text", shown);
    folder.run(&["enter", "text", "again"]).done();
    assert_eq!(folder.read("again"), PUMPS);
    let shown = folder
        .run_with(&["show", "pumps", "--names", "-"], "names")
        .done();
    assert_eq!(shown, expected);
    let figures = folder.run(&["figures", "--names", "names", "pumps"]).done();
    assert_has(&figures, &["per cent  name\n", "16.67  Pump #2 left\n"]);
}

/// A part without a name keeps its number; a name for no part is said and changes nothing else.
#[test]
fn names_for_some_parts_and_for_none() {
    let folder = Folder::with("pumps", PUMPS);
    folder.write("names", "3 controller\n8 old pump\n");
    for command in ["show", "cuts", "idle", "figures", "edition", "page"] {
        let ran = folder.run(&[command, "pumps", "--names", "names"]);
        let said = "nahokipe: names: 8 old pump: no part has number 8; the parts are 3 7 12\n";
        assert_eq!((ran.status, ran.error.as_str()), (Some(0), said));
        assert!(!ran.text().contains("old pump"));
    }
    let ran = folder.run(&["diff", "pumps", "pumps", "--names", "names"]);
    assert_eq!((ran.status, ran.text()), (Some(0), "no difference\n"));
    assert_has(&ran.error, &["no part has number 8"]);
    let shown = folder.run(&["show", "pumps", "--names", "names"]);
    assert_has(shown.text(), &["set 3 7   # controller, 7\n"]);
}

#[test]
fn files_of_names_of_another_form() {
    let lines: [(&[u8], &str); 9] = [
        (b"3", "`3` is not a part number and a name"),
        (
            b"three pump",
            "`three pump` is not a part number and a name",
        ),
        (b"03 pump", "`03 pump` is not"),
        (b"3,pump", "`3,pump` is not"),
        (b"-3 pump", "`-3 pump` is not"),
        (b"3 p\xFCmp", "this is no UTF-8 text"),
        (
            b"3 a\x1B[2Jb",
            "a control character stands in `a\\u{1b}[2Jb`",
        ),
        (b"12 again", "number 12 has a name already"),
        (b"\x05\x05\x01 \x02", "is not a part number and a name"),
    ];
    let folder = Folder::with("pumps", PUMPS);
    for (line, why) in lines {
        folder.write("names", [b"12 pump\n\n", line].concat());
        let error = folder.run(&["show", "pumps", "--names", "names"]).failed();
        assert_has(&error, &["nahokipe: names: line 3: ", why]);
    }
    let error = folder
        .run(&["show", "pumps", "--names", "nothing"])
        .failed();
    assert_eq!(error, "nahokipe: nothing: No such file or directory\n");
}
