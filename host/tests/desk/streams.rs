//! Which stream has what, full disks behind standard output, and pipes that nobody reads.

use crate::folder::{assert_has, between_starts, Folder, Ran, BRIDGE, PUMPS, SHEET};
use nahokipe_testing::making::largest_record;
use std::fs::File;
use std::io::{self, PipeWriter};

/// A file that is always full.
fn full() -> File {
    File::options()
        .write(true)
        .open("/dev/full")
        .expect("/dev/full")
}

/// A pipe that nobody reads, not even a child of another test.
fn unread() -> PipeWriter {
    let pipe = between_starts(|| io::pipe().map(|(_, writer)| writer));
    pipe.expect("a pipe")
}

/// A run whose standard output nobody reads.
fn closed(folder: &Folder, words: &[&str], input: Option<&str>) -> Ran {
    let mut command = folder.command(words);
    if let Some(input) = input {
        command.stdin(File::open(folder.file(input)).expect("a file"));
    }
    command.stdout(unread());
    Ran::of(command)
}

#[test]
fn a_closed_pipe_ends_quietly() {
    let folder = Folder::with("record", largest_record());
    folder.write("pumps", PUMPS);
    folder.write("sheet", SHEET);
    for command in [
        "show", "cuts", "idle", "report", "figures", "drawing", "edition", "page",
    ] {
        let ran = closed(&folder, &[command, "record"], None);
        let quiet = ran.error.is_empty() || command == "drawing" && ran.error.contains("a warning");
        assert!(ran.status == Some(0) && quiet, "{ran:?}");
    }
    for words in [
        ["--help"].as_slice(),
        &["explain", "17"],
        &["diff", "pumps", "record"],
        &["shares", "pumps", "3"],
        &["joint", "pumps", "pumps"],
        &["sheet", "sheet"],
        &["sheet", "sheet", "domination"],
        &["blocks", "pumps", "3=sheet"],
    ] {
        let ran = closed(&folder, words, None);
        assert_eq!((ran.status, ran.error.as_str()), (Some(0), ""), "{words:?}");
    }
}

/// A refusal stays one, and a change stays done, whether or not anybody reads it.
#[test]
fn the_status_behind_a_closed_pipe() {
    let folder = Folder::with("pumps", PUMPS);
    let ran = closed(&folder, &["take-out", "pumps", "9"], None);
    assert_eq!((ran.status, ran.error.as_str()), (Some(1), ""));
    let ran = closed(&folder, &["take-out", "pumps", "7"], None);
    assert_eq!((ran.status, ran.error.as_str()), (Some(0), ""));
    assert_has(&folder.run(&["show", "pumps"]).done(), &["parts 3 12\n"]);
    let ran = closed(&folder, &["add-part", "-"], Some("pumps"));
    assert_eq!((ran.status, ran.error.as_str()), (Some(2), ""));
}

/// The same of sheets: one that is written stays written, one that nobody took is lost, and a refusal stays one.
#[test]
fn sheets_behind_a_closed_pipe() {
    let folder = Folder::with("pumps", PUMPS);
    folder.write("sheet", SHEET);
    let cases: [(&[&str], i32); 10] = [
        (&["save", "pumps", "signature", "new"], 0),
        (&["sheet", "sheet", "-o", "another"], 0),
        (&["save", "pumps", "signature", "-"], 2),
        (&["sheet", "sheet", "-o", "-"], 2),
        (&["save", "pumps", "tail", "third"], 1),
        (&["sheet", "sheet", "tail", "-o", "third"], 1),
        (&["sheet", "pumps"], 1),
        (&["blocks", "pumps", "3=sheet", "-o", "whole"], 0),
        (&["blocks", "pumps", "3=sheet", "-o", "-"], 2),
        (&["blocks", "pumps", "3=pumps", "-o", "third"], 1),
    ];
    for (words, status) in cases {
        let ran = closed(&folder, words, None);
        assert_eq!((ran.status, ran.error.as_str()), (Some(status), ""));
    }
    assert_eq!(
        folder.names(),
        ["another", "new", "pumps", "sheet", "whole"]
    );
    for sheet in ["another", "new", "whole"] {
        folder.run(&["sheet", sheet]).done();
    }
}

#[test]
fn a_closed_standard_error() {
    let folder = Folder::with("pumps", PUMPS);
    let mut command = folder.command(&["take-out", "pumps", "9"]);
    command.stderr(unread());
    let ran = Ran::of(command);
    assert_eq!((ran.status, ran.text()), (Some(1), "refused 17 0\n"));
}

/// A reader that takes the first line alone.
#[test]
fn the_head_of_a_page() {
    let folder = Folder::with("record", largest_record());
    for command in ["page", "show", "cuts", "drawing"] {
        let ran = folder.shell(&format!(
            "nahokipe {command} record 2>/dev/null | head -n 1"
        ));
        assert_eq!((ran.status, ran.text().lines().count()), (Some(0), 1));
    }
}

#[test]
fn a_full_disk_behind_standard_output() {
    let folder = Folder::with("pumps", PUMPS);
    folder.write("text", "mark 5\nparts 1 2\nset 1\n");
    folder.write("sheet", SHEET);
    let printing: [&[&str]; 19] = [
        &["show", "pumps"],
        &["cuts", "pumps"],
        &["idle", "pumps"],
        &["page", "pumps"],
        &["report", "pumps"],
        &["--help"],
        &["enter", "text", "-"],
        &["new", "row", "1", "2", "-"],
        &["add-part", "pumps", "-o", "-"],
        &["edition", "pumps"],
        &["edition", "pumps", "2", "-o", "-"],
        &["diff", "pumps", "pumps"],
        &["joint", "pumps", "pumps"],
        &["sheet", "sheet"],
        &["sheet", "sheet", "-o", "-"],
        &["sheet", "sheet", "domination", "-o", "-"],
        &["save", "pumps", "signature", "-"],
        &["blocks", "pumps", "3=sheet"],
        &["blocks", "pumps", "3=sheet", "-o", "-"],
    ];
    for words in printing {
        let mut command = folder.command(words);
        command.stdout(full());
        let ran = Ran::of(command);
        let said = "nahokipe: standard output: No space left on device\n";
        assert_eq!(
            (ran.status, ran.error.as_str()),
            (Some(2), said),
            "{words:?}"
        );
    }
}

/// Standard output that is open for reading only: what belongs there is lost, and that is said.
#[test]
fn a_standard_output_that_cannot_be_written() {
    let folder = Folder::with("text", "mark 5\nparts 1 2\nset 1\n");
    let error = folder.shell("nahokipe enter text - 1</dev/null").failed();
    assert_has(&error, &["nahokipe: standard output: "]);
}

/// A change that was made is said to be made where its story finds no room.
#[test]
fn a_change_whose_story_finds_no_room() {
    let folder = Folder::with("pumps", PUMPS);
    let mut command = folder.command(&["add-part", "pumps"]);
    command.stdout(full());
    let ran = Ran::of(command);
    let said =
        "nahokipe: standard output: No space left on device; pumps is written all the same\n";
    assert_eq!((ran.status, ran.error.as_str()), (Some(2), said));
    assert_has(
        &folder.run(&["show", "pumps"]).done(),
        &["parts 3 7 12 16\n"],
    );
}

/// So is a sheet that was written, by any command.
#[test]
fn a_sheet_whose_story_finds_no_room() {
    let folder = Folder::with("pumps", PUMPS);
    folder.write("sheet", SHEET);
    for words in [
        ["save", "pumps", "signature", "new"].as_slice(),
        &["sheet", "sheet", "-o", "another"],
        &["blocks", "pumps", "3=sheet", "-o", "whole"],
    ] {
        let target = words[words.len() - 1];
        let mut command = folder.command(words);
        command.stdout(full());
        let ran = Ran::of(command);
        let said = format!(
            "nahokipe: standard output: No space left on device; {target} is written all the same\n"
        );
        assert_eq!((ran.status, ran.error), (Some(2), said));
        folder.run(&["sheet", target]).done();
    }
}

/// What each sort of run writes where.
#[test]
fn which_stream_has_what() {
    let folder = Folder::with("bridge", BRIDGE);
    folder.write("text", "mark 5\nparts 1 2\nset 9\n");
    folder.run(&["show", "bridge"]).done();
    folder.run(&["take-out", "bridge", "9"]).refused(17, 0);
    folder.run(&["take-out", "bridge"]).failed();
    folder.run(&["show", "nothing"]).failed();
    for words in [
        ["enter", "text", "-"].as_slice(),
        &["take-out", "bridge", "9", "-o", "-"],
    ] {
        let ran = folder.run(words);
        assert_eq!((ran.status, &ran.output[..]), (Some(1), &b""[..]));
        assert!(ran.error.starts_with("refused 17 0\nnahokipe: "), "{ran:?}");
    }
}
