//! What is kept whatever happens: the old record of an interrupted run, files that are there, modes, links, and numbers issued at once.

use crate::folder::{assert_has, start, Folder, Ran, BRIDGE, PUMPS, SHEET};
use crate::writing::{create, create_by, Held};
use nahokipe_testing::making::largest_record;
use nahokipe_testing::naive_records::whole_record;
use nahokipe_testing::seeded::Seeded;
use std::collections::BTreeSet;
use std::ffi::OsStr;
use std::fs;
use std::io::{self, ErrorKind};
use std::os::unix::ffi::OsStrExt;
use std::os::unix::fs::{symlink, MetadataExt};
use std::path::Path;
use std::process::Stdio;
use std::thread;
use std::time::Duration;

/// Whether a name is that of a file that a killed run has left.
fn is_left_over(name: &str) -> bool {
    name.starts_with(".nahokipe-") && name.ends_with(".unfinished")
}

/// Runs that are killed at any moment leave the old record or the new one, whole, and do not hinder the next.
#[test]
fn killed_at_any_moment() {
    let mut seeded = Seeded::new(750);
    let old = largest_record();
    let part = whole_record(&old).expect("a record").plain.numbers[5].to_string();
    let folder = Folder::with("record", &old);
    folder
        .run(&["take-out", "record", &part, "-o", "new"])
        .done();
    let new = folder.read("new");
    let mut seen = [0; 2];
    for round in 0..300 {
        fs::write(folder.file("record"), &old).expect("the old record");
        let mut command = folder.command(&["take-out", "record", &part]);
        let mut child = start(command.stdout(Stdio::null())).expect("a run");
        if round % 10 > 0 {
            thread::sleep(Duration::from_micros(seeded.between(0, 6_000) as u64));
            child.kill().expect("a run to kill");
        }
        child.wait().expect("the run's end");
        let found = folder.read("record");
        assert!(
            found == old || found == new,
            "round {round}: {} bytes",
            found.len()
        );
        seen[usize::from(found == new)] += 1;
    }
    assert!(seen.iter().all(|&times| times > 10), "{seen:?}");
    let others = folder
        .names()
        .into_iter()
        .filter(|name| !is_left_over(name));
    assert_eq!(others.collect::<Vec<_>>(), ["new", "record"]);
}

/// The same for a record that is made: it is there whole, or not at all.
#[test]
fn killed_while_a_record_is_made() {
    let mut seeded = Seeded::new(751);
    let bytes = largest_record();
    let folder = Folder::with("record", &bytes);
    folder.write("text", folder.run(&["show", "record"]).done());
    let mut seen = [0; 2];
    for round in 0..100 {
        let mut command = folder.command(&["enter", "text", "made"]);
        let mut child = start(command.stdout(Stdio::null())).expect("a run");
        if round % 10 > 0 {
            thread::sleep(Duration::from_micros(seeded.between(0, 8_000) as u64));
            child.kill().expect("a run to kill");
        }
        child.wait().expect("the run's end");
        let made = folder.file("made").exists();
        seen[usize::from(made)] += 1;
        if made {
            assert!(folder.read("made") == bytes, "round {round}");
            fs::remove_file(folder.file("made")).expect("the file removed");
        }
    }
    assert!(seen.iter().all(|&times| times > 5), "{seen:?}");
}

/// A limit on the length of files, as a full disk: the old record stays, nothing is left, and the run says why.
#[test]
fn a_limit_on_the_length_of_files() {
    let folder = Folder::with("record", BRIDGE);
    folder.write("text", "mark 5\nparts 1 2\nset 1\n");
    folder.write("sheet", SHEET);
    for words in [
        "add-part record",
        "enter text new",
        "new row 1 2 new",
        "add-part record -o new",
        "edition record 2",
        "edition record 2 -o new",
        "save record signature new",
        "sheet sheet -o new",
        "blocks record 1=sheet -o new",
        "page record -o new",
    ] {
        let ran = folder.shell(&format!("ulimit -f 0; exec nahokipe {words}"));
        assert_has(&ran.failed(), &[": File too large\n"]);
    }
    assert_eq!(folder.read("record"), BRIDGE);
    assert_eq!(folder.names(), ["record", "sheet", "text"]);
    folder.write("record", largest_record());
    let ran = folder.shell("ulimit -f 8; exec nahokipe add-set record 281474976710655");
    assert_has(&ran.failed(), &["nahokipe: record: File too large\n"]);
    assert!(folder.read("record") == largest_record());
}

/// The commands that make a file, whose name is their last word.
const MAKING: [&[&str]; 12] = [
    &["enter", "text"],
    &["new", "drawing"],
    &["new", "row", "1", "2"],
    &["add-part", "record", "-o"],
    &["add-set", "record", "1", "-o"],
    &["take-out", "record", "1", "-o"],
    &["edition", "record", "2", "-o"],
    &["save", "record", "signature"],
    &["sheet", "sheet", "-o"],
    &["sheet", "sheet", "domination", "-o"],
    &["blocks", "record", "1=sheet", "-o"],
    &["page", "record", "-o"],
];

/// Files that are there are not replaced: by `new`, `enter`, `save` or -o, not even the record or the sheet itself or a link that leads
/// nowhere.
#[test]
fn files_that_are_there() {
    let folder = Folder::with("record", BRIDGE);
    folder.write("text", "mark 5\nparts 1 2\nset 1\n");
    folder.write("drawing", "parts 2\nset 1\n");
    folder.write("sheet", SHEET);
    folder.write("there", "what is there");
    symlink("nowhere", folder.file("link")).expect("a link");
    fs::create_dir(folder.file("folder")).expect("a folder");
    for target in [
        "there",
        "record",
        "sheet",
        "text",
        "link",
        "folder",
        "/dev/null",
    ] {
        for words in MAKING.map(|words| [words, &[target]].concat()) {
            let error = folder.run(&words).failed();
            let said =
                format!("nahokipe: {target}: there is such a file, and it is not replaced\n");
            assert_eq!(error, said, "{words:?}");
        }
    }
    assert_eq!(folder.read("there"), b"what is there");
    assert_eq!(folder.read("record"), BRIDGE);
    assert_eq!(folder.read("sheet"), SHEET);
    assert_eq!(
        folder.names(),
        ["drawing", "folder", "link", "record", "sheet", "text", "there"]
    );
}

/// Of several runs that make one file at once, one makes it.
#[test]
fn one_file_made_by_many_runs_at_once() {
    let folder = Folder::new();
    for machine in 0..8 {
        folder.write(
            &format!("text{machine}"),
            format!("mark {}\nparts 1 2\nset 1\n", 10 + machine),
        );
    }
    let started = |machine: usize| {
        let text = format!("text{machine}");
        let mut command = folder.command(&["enter", &text, "record"]);
        start(command.stdout(Stdio::null()).stderr(Stdio::null())).expect("a run")
    };
    let runs: Vec<_> = (0..8).map(started).collect();
    let status = |mut run: std::process::Child| run.wait().expect("the run's end").code();
    let statuses: Vec<_> = runs.into_iter().map(status).collect();
    let made = statuses.iter().position(|&status| status == Some(0));
    let made = made.expect("a run that made the file");
    let others = statuses.iter().filter(|&&status| status == Some(2));
    assert_eq!(others.count(), 7);
    assert_eq!(folder.read("record")[1], 10 + made as u8);
}

/// Parts that are added to one record at once get different numbers, each the one that its run said.
#[test]
fn parts_added_at_once() {
    let folder = Folder::with("record", PUMPS);
    let started = |_| {
        let mut command = folder.command(&["add-part", "record"]);
        start(&mut command).expect("a run")
    };
    let runs: Vec<_> = (0..12).map(started).collect();
    let said = runs.into_iter().map(|run| {
        let output = run.wait_with_output().expect("the run's end");
        assert!(output.status.success());
        let text = String::from_utf8(output.stdout).expect("a text");
        let number = text.split(' ').nth(1).expect("a number");
        number.parse::<u64>().expect("a number")
    });
    let said: BTreeSet<u64> = said.collect();
    assert_eq!(said, (16..28).collect());
    let record = whole_record(&folder.read("record"))
        .expect("a record")
        .plain;
    assert_eq!(record.numbers[3..], (16..28).collect::<Vec<u64>>());
    assert_eq!(folder.names(), ["record"]);
}

#[test]
fn modes_and_links_are_kept() {
    let folder = Folder::new();
    fs::create_dir(folder.file("kept")).expect("a folder");
    folder.write("kept/record", BRIDGE);
    symlink("kept/record", folder.file("first")).expect("a link");
    symlink("first", folder.file("second")).expect("a link");
    for mode in [0o600, 0o640, 0o664, 0o755] {
        folder.set_mode("kept/record", mode);
        folder.run(&["add-part", "second"]).done();
        let found = fs::metadata(folder.file("kept/record"))
            .expect("the record")
            .mode();
        assert_eq!(found & 0o7777, mode);
    }
    for (link, target) in [("first", "kept/record"), ("second", "first")] {
        let found = fs::read_link(folder.file(link)).expect("still a link");
        assert_eq!(found, Path::new(target));
    }
    assert_has(
        &folder.run(&["show", "first"]).done(),
        &["parts 1 2 3 4 5 6 7 8 9\n"],
    );
    assert_eq!(folder.names(), ["first", "kept", "second"]);
}

/// A file with several names: the others keep the old record, and that is said where there is a new one.
#[test]
fn hard_links() {
    let folder = Folder::with("record", PUMPS);
    fs::hard_link(folder.file("record"), folder.file("other")).expect("a link");
    let explanation = folder.run(&["take-out", "record", "9"]).refused(17, 0);
    assert!(!explanation.contains("a warning"), "{explanation}");
    let ran = folder.run(&["add-part", "record"]);
    assert_eq!(ran.status, Some(0));
    assert_has(
        &ran.error,
        &["nahokipe: record: a warning: the file has other names (hard links)"],
    );
    assert_eq!(folder.read("other"), PUMPS);
    folder.run(&["add-part", "record"]).done();
}

/// A change that changes nothing leaves the file itself alone.
#[test]
fn nothing_changed() {
    let folder = Folder::with("record", PUMPS);
    let before = fs::metadata(folder.file("record"))
        .expect("the record")
        .ino();
    folder.run(&["add-set", "record", "3", "7"]).done();
    assert_eq!(
        fs::metadata(folder.file("record"))
            .expect("the record")
            .ino(),
        before
    );
    folder
        .run(&["add-set", "record", "3", "7", "-o", "new"])
        .done();
    assert_eq!(folder.read("new"), PUMPS);
}

/// Names that are as long as the system allows, and names that are no text.
#[test]
fn unusual_names() {
    let folder = Folder::new();
    let longest = "r".repeat(255);
    for name in [
        longest.as_str(),
        "with blanks ",
        "line\nfeed",
        "ünï",
        "$(x)'\"",
    ] {
        folder.write(name, PUMPS);
        folder.run(&["add-part", name]).done();
        assert_eq!(folder.read(name).len(), PUMPS.len() + 1);
        let explanation = folder.run(&["take-out", name, "9"]).refused(17, 0);
        assert!(
            !explanation.lines().any(|line| line.starts_with("feed")),
            "{explanation}"
        );
    }
    let name: &OsStr = OsStrExt::from_bytes(b"no\xFFtext");
    fs::write(folder.path.join(name), PUMPS).expect("a file");
    let mut command = folder.command(&["add-part"]);
    command.arg(name);
    Ran::of(command).done();
    assert_eq!(
        fs::read(folder.path.join(name)).expect("the record").len(),
        PUMPS.len() + 1
    );
}

/// On a file system that gives a file one name only, a free name is taken.
#[test]
fn without_hard_links() {
    let folder = Folder::new();
    for (made, kind) in [
        ("first", ErrorKind::PermissionDenied),
        ("second", ErrorKind::Unsupported),
    ] {
        let none = |_: &Path, _: &Path| Err(io::Error::from(kind));
        create_by(none, &folder.file(made), b"made").expect("a free name");
        assert_eq!(folder.read(made), b"made");
    }
    assert_eq!(folder.names(), ["first", "second"]);
}

/// A file that comes into being at the last moment is not replaced, with hard links and without.
#[test]
fn a_file_that_comes_at_the_last_moment() {
    let folder = Folder::new();
    let come = |path: &Path| fs::write(path, b"of another run").expect("a file");
    let linked = |from: &Path, to: &Path| {
        come(to);
        fs::hard_link(from, to)
    };
    let unlinked = |_: &Path, to: &Path| {
        come(to);
        Err(ErrorKind::Unsupported.into())
    };
    let answers = [
        create_by(linked, &folder.file("first"), b"made"),
        create_by(unlinked, &folder.file("second"), b"made"),
    ];
    for (answer, name) in answers.into_iter().zip(["first", "second"]) {
        let error = answer.expect_err("a name that is taken");
        assert_eq!(error.kind(), ErrorKind::AlreadyExists);
        assert_eq!(folder.read(name), b"of another run");
    }
    assert_eq!(folder.names(), ["first", "second"]);
}

/// What killed runs have left, under names that this run would take, stays and is in nobody's way.
#[test]
fn beside_what_killed_runs_left() {
    let folder = Folder::with("record", b"old");
    let left =
        [0, 1].map(|attempt| format!(".nahokipe-{}-{attempt}.unfinished", std::process::id()));
    for name in &left {
        folder.write(name, b"half");
    }
    let doubts = create(&folder.file("made"), b"made").expect("a new file");
    assert!(doubts.is_empty(), "{doubts:?}");
    let held = Held::open(&folder.file("record"), 100).expect("a record");
    assert_eq!(held.bytes, b"old");
    let doubts = held.replace(b"new").expect("the new record");
    assert!(doubts.is_empty(), "{doubts:?}");
    assert_eq!(
        (folder.read("made"), folder.read("record")),
        (b"made".to_vec(), b"new".to_vec())
    );
    assert_eq!(folder.names(), [&left[0], &left[1], "made", "record"]);
}
