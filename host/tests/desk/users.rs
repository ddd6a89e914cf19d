//! Files of other users: what may not be read or written, and the group that a record keeps.

use crate::folder::{command, start, Folder, Ran, BRIDGE, PROGRAM, PUMPS, SHEET};
use std::fs;
use std::io::ErrorKind;
use std::os::unix::fs::{chown, MetadataExt};
use std::os::unix::process::CommandExt;
use std::path::Path;
use std::process::Command;

/// A user without rights, and its group.
const NOBODY: u32 = 65_534;
/// Whose record it is, who else changes it, and the group of both.
const OWNER: u32 = 6_001;
const MEMBER: u32 = 6_002;
const GROUP: u32 = 5_000;

/// A folder that everybody may enter, with a copy of the program.
fn with_program() -> Folder {
    let folder = Folder::new();
    let program = fs::read(PROGRAM).expect("the program");
    folder.write_program("nahokipe", program);
    folder.set_mode(".", 0o755);
    folder
}

/// Whether the tests run as the superuser, whose is then what they make.
fn is_superuser(folder: &Folder) -> bool {
    fs::metadata(&folder.path).expect("the folder").uid() == 0
}

/// Whether the superuser can start this command, which does nothing, as another user. Where there is no way to that, it is said.
fn is_possible(mut nothing: Command) -> bool {
    use ErrorKind::{InvalidInput, NotFound, PermissionDenied};
    let why = match start(&mut nothing) {
        Ok(child) => {
            let ended = child.wait_with_output().expect("the run's end");
            if ended.status.success() {
                return true;
            }
            String::from_utf8_lossy(&ended.stderr).into_owned()
        }
        Err(error) if [InvalidInput, NotFound, PermissionDenied].contains(&error.kind()) => {
            error.to_string()
        }
        Err(error) => panic!("{nothing:?}: {error}"),
    };
    eprintln!("left out, since there is no way to become another user: {why}");
    false
}

/// The program as a user without rights: where the tests run as the superuser, it runs as another one.
struct Unprivileged {
    folder: Folder,
    superuser: bool,
}

impl Unprivileged {
    /// A folder with a copy of the program and these files, unless the superuser cannot become another user.
    fn new(files: &[(&str, &[u8])]) -> Option<Unprivileged> {
        let folder = with_program();
        for (name, bytes) in files {
            folder.write(name, bytes);
        }
        let superuser = is_superuser(&folder);
        let mut nothing = command("/bin/sh", Path::new("/"));
        nothing.args(["-c", ":"]).uid(NOBODY).gid(NOBODY);
        let possible = !superuser || is_possible(nothing);
        possible.then_some(Unprivileged { folder, superuser })
    }

    fn run(&self, words: &[&str]) -> Ran {
        let mut command = command(self.folder.file("nahokipe"), &self.folder.path);
        command.args(words);
        if self.superuser {
            command.uid(NOBODY).gid(NOBODY);
        }
        Ran::of(command)
    }
}

#[test]
fn files_that_may_not_be_read() {
    let files: [(&str, &[u8]); 2] = [("open", &BRIDGE), ("secret", &BRIDGE)];
    let Some(unprivileged) = Unprivileged::new(&files) else {
        return;
    };
    unprivileged.folder.set_mode("secret", 0o000);
    for command in ["show", "report", "add-part", "edition", "sheet"] {
        let error = unprivileged.run(&[command, "secret"]).failed();
        assert_eq!(error, "nahokipe: secret: Permission denied\n");
    }
    for [record, block] in [["secret", "1=open"], ["open", "1=secret"]] {
        let error = unprivileged.run(&["blocks", record, block]).failed();
        assert_eq!(error, "nahokipe: secret: Permission denied\n");
    }
}

/// In a folder that may not be written, and of a record that may not: nothing is changed, and nothing is left.
#[test]
fn read_only_folders_and_records() {
    let text = b"mark 5\nparts 1 2\nset 1\n";
    let files: [(&str, &[u8]); 3] = [("record", &BRIDGE), ("sheet", &SHEET), ("text", text)];
    let Some(unprivileged) = Unprivileged::new(&files) else {
        return;
    };
    let folder = &unprivileged.folder;
    folder.set_mode("record", 0o444);
    let error = unprivileged.run(&["add-part", "record"]).failed();
    assert_eq!(error, "nahokipe: record: Permission denied\n");
    folder.set_mode("record", 0o666);
    folder.set_mode(".", 0o555);
    let error = unprivileged.run(&["add-part", "record"]).failed();
    assert_eq!(error, "nahokipe: record: Permission denied\n");
    for words in [
        ["enter", "text", "new"].as_slice(),
        &["new", "row", "1", "2", "new"],
        &["add-part", "record", "-o", "new"],
        &["edition", "record", "2", "-o", "new"],
        &["save", "record", "signature", "new"],
        &["sheet", "sheet", "-o", "new"],
        &["blocks", "record", "1=sheet", "-o", "new"],
        &["page", "record", "-o", "new"],
    ] {
        let error = unprivileged.run(words).failed();
        assert_eq!(error, "nahokipe: new: Permission denied\n");
    }
    assert_eq!(folder.read("record"), BRIDGE);
    assert_eq!(folder.names(), ["nahokipe", "record", "sheet", "text"]);
    folder.set_mode(".", 0o755);
}

/// A program in this folder as another member of the record's group, whose own group is another.
fn as_member(folder: &Folder, program: &str) -> Command {
    let mut command = command("setpriv", &folder.path);
    command.args([
        format!("--reuid={MEMBER}"),
        format!("--regid={MEMBER}"),
        format!("--groups={GROUP}"),
        program.to_string(),
    ]);
    command
}

/// A record that a group changes stays the group's, with the mode that lets it.
#[test]
fn the_group_of_a_record() {
    let folder = with_program();
    if !is_superuser(&folder) {
        eprintln!("left out, since only the superuser gives files away");
        return;
    }
    if !is_possible(as_member(&folder, "true")) {
        return;
    }
    fs::create_dir(folder.file("shared")).expect("a folder");
    folder.write("shared/record", PUMPS);
    for (name, mode) in [("shared", 0o770), ("shared/record", 0o660)] {
        chown(folder.file(name), Some(OWNER), Some(GROUP)).expect("another owner");
        folder.set_mode(name, mode);
    }
    let mut change = as_member(&folder, "./nahokipe");
    change.args(["add-part", "shared/record"]);
    Ran::of(change).done();
    assert_eq!(folder.read("shared/record").len(), PUMPS.len() + 1);
    let kept = fs::metadata(folder.file("shared/record")).expect("the record");
    assert_eq!((kept.gid(), kept.mode() & 0o7777), (GROUP, 0o660));
}
