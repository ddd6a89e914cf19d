//! Wrong files of every sort: missing, empty, of another sort, folders, endless.

use crate::folder::{assert_has, Folder, BRIDGE, PUMPS, SHEET};
use std::fs;

/// The commands that read one record, with what else they want.
pub const READING: [&[&str]; 17] = [
    &["show"],
    &["cuts"],
    &["idle"],
    &["drawing"],
    &["report"],
    &["figures"],
    &["page"],
    &["shares", "1"],
    &["save", "signature", "new"],
    &["blocks", "1=sheet"],
    &["add-part"],
    &["add-set", "1"],
    &["take-out", "1"],
    &["edition"],
    &["edition", "2"],
    &["diff", "good"],
    &["joint", "good"],
];

/// A command of these on a file.
pub fn words<'a>(command: &[&'a str], file: &'a str) -> Vec<&'a str> {
    [&command[..1], &[file], &command[1..]].concat()
}

#[test]
fn missing_files_and_folders() {
    let folder = Folder::with("good", BRIDGE);
    fs::create_dir(folder.file("folder")).expect("a folder");
    for command in READING {
        let error = folder.run(&words(command, "missing")).failed();
        assert_eq!(error, "nahokipe: missing: No such file or directory\n");
        let error = folder.run(&words(command, "good/below")).failed();
        assert_eq!(error, "nahokipe: good/below: Not a directory\n");
        let error = folder.run(&words(command, "folder")).failed();
        assert!(error.starts_with("nahokipe: folder: "), "{error}");
    }
    for command in ["enter", "new"] {
        let error = folder.run(&[command, "missing", "record"]).failed();
        assert_eq!(error, "nahokipe: missing: No such file or directory\n");
        let error = folder.run(&[command, "folder", "record"]).failed();
        assert_eq!(error, "nahokipe: folder: Is a directory\n");
    }
    assert_eq!(folder.names(), ["folder", "good"]);
}

#[test]
fn empty_files_and_texts_for_records() {
    let folder = Folder::with("good", BRIDGE);
    folder.write("empty", "");
    folder.write("text", "mark 5\nparts 1 2\nset 1\n");
    folder.write("longer", [&BRIDGE[..], b"\n"].concat());
    for command in READING {
        folder.run(&words(command, "empty")).refused(21, 0);
        let explanation = folder.run(&words(command, "text")).refused(1, 0);
        assert_has(
            &explanation,
            &[
                "nahokipe: text: this is no whole record",
                "a text was given",
            ],
        );
        let explanation = folder
            .run(&words(command, "longer"))
            .refused(25, BRIDGE.len());
        assert_has(&explanation, &["place 12: the first of these bytes"]);
    }
    folder.run(&["diff", "good", "empty"]).refused(21, 0);
    folder.run(&["joint", "good", "empty"]).refused(21, 0);
    folder.run(&["enter", "empty", "record"]).refused(27, 1);
    folder.run(&["new", "empty", "record"]).refused(27, 1);
    folder.run(&["new", "good", "record"]).refused(27, 1);
    assert_eq!(folder.names(), ["empty", "good", "longer", "text"]);
}

/// Input without an end is read up to a bound and refused.
#[test]
fn endless_input() {
    let folder = Folder::new();
    let explanation = folder.run(&["report", "/dev/zero"]).refused(1, 0);
    assert_has(&explanation, &["nahokipe: /dev/zero: "]);
    folder.write("many", [&BRIDGE[..], &[0; 3_000_000]].concat());
    folder.run(&["report", "many"]).refused(25, BRIDGE.len());
    let error = folder.run(&["enter", "/dev/zero", "record"]).failed();
    assert_eq!(
        error,
        "nahokipe: /dev/zero: over 64 MiB, too long for a text\n"
    );
    let error = folder.run(&["add-part", "/dev/zero"]).failed();
    assert_eq!(
        error,
        "nahokipe: /dev/zero: no regular file, so not changed in place\n"
    );
    folder
        .run(&["add-part", "/dev/zero", "-o", "new"])
        .refused(1, 0);
}

/// A file of a pipe is read, and not changed in place.
#[test]
fn files_that_are_pipes() {
    let folder = Folder::with("pumps", PUMPS);
    let shown = folder.shell("cat pumps | nahokipe show /dev/stdin").done();
    assert_has(&shown, &["parts 3 7 12\n"]);
    let error = folder
        .shell("cat pumps | nahokipe add-part /dev/stdin")
        .failed();
    assert!(error.starts_with("nahokipe: /dev/stdin: "), "{error}");
    let printed = folder
        .shell("cat pumps | nahokipe add-part /dev/stdin -o new")
        .done();
    assert!(printed.starts_with("part 16 came"), "{printed}");
}

/// Where nobody may write, not even the superuser.
#[test]
fn folders_that_are_none() {
    let folder = Folder::with("record", BRIDGE);
    folder.write("text", "mark 5\nparts 1 2\nset 1\n");
    folder.write("sheet", SHEET);
    for target in ["text/new", "missing/new", "/proc/nahokipe-new"] {
        for words in [
            ["enter", "text", target].as_slice(),
            &["new", "row", "1", "2", target],
            &["add-part", "record", "-o", target],
            &["edition", "record", "2", "-o", target],
            &["save", "record", "signature", target],
            &["sheet", "sheet", "-o", target],
            &["blocks", "record", "1=sheet", "-o", target],
        ] {
            let error = folder.run(words).failed();
            assert!(
                error.starts_with(&format!("nahokipe: {target}: ")),
                "{error}"
            );
        }
    }
    assert_eq!(folder.read("record"), BRIDGE);
    assert_eq!(folder.names(), ["record", "sheet", "text"]);
}
