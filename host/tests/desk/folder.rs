//! A folder of its own for each test, and runs of the program in it.

use std::env;
use std::ffi::{OsStr, OsString};
use std::fs::{self, File, Permissions};
use std::io::{self, ErrorKind};
use std::os::unix::fs::PermissionsExt;
use std::path::{Path, PathBuf};
use std::process::{self, Child, Command, Output, Stdio};
use std::sync::atomic::{AtomicUsize, Ordering};
use std::sync::RwLock;
use std::thread;

/// The built program.
pub const PROGRAM: &str = env!("CARGO_BIN_EXE_nahokipe");
/// The bridge: five parts, four sets.
pub const BRIDGE: [u8; 12] = [5, 5, 1, 2, 3, 4, 5, 4, 0x09, 0x0E, 0x12, 0x15];
/// A controller, number 3, with two pumps, 7 and 12; number 15 was issued once.
pub const PUMPS: [u8; 8] = [3, 15, 3, 7, 12, 2, 3, 5];
/// The tail sheet of the bridge, stored when such sheets were still written.
pub const SHEET: [u8; 8] = [2, 5, 120, 120, 96, 24, 0, 0];

/// How many folders this process has made.
static FOLDERS: AtomicUsize = AtomicUsize::new(0);

/// A child that another test starts has this process's open files for a moment. So this is held for reading while a child is started,
/// and for writing while a file is open that no child may have.
static STARTS: RwLock<()> = RwLock::new(());

/// A command in a folder, with no input. What it writes is kept.
pub fn command(program: impl AsRef<OsStr>, folder: &Path) -> Command {
    let mut command = Command::new(program);
    command.current_dir(folder).stdin(Stdio::null());
    command.stdout(Stdio::piped()).stderr(Stdio::piped());
    command
}

/// Starts a command. Every test starts its programs by this.
pub fn start(command: &mut Command) -> io::Result<Child> {
    let _starting = STARTS.read().expect("no panic between starts");
    command.spawn()
}

/// Does what opens a file that no child may have, while none is started. It may not panic.
pub fn between_starts<T>(work: impl FnOnce() -> T) -> T {
    let _alone = STARTS.write().expect("no panic between starts");
    work()
}

/// The folders with programs, this one first.
pub fn programs_behind(folder: &Path) -> OsString {
    let others = env::var_os("PATH").unwrap_or_default();
    let folders = [folder.to_path_buf()].into_iter();
    let folders = env::join_paths(folders.chain(env::split_paths(&others)));
    folders.expect("folders without a colon")
}

/// A folder that is removed at the end.
pub struct Folder {
    pub path: PathBuf,
}

impl Folder {
    /// A folder under a name that is free. One that a killed run has left stays, and the next name is taken.
    pub fn new() -> Folder {
        let temporary = fs::canonicalize(env::temp_dir()).expect("a temporary folder");
        loop {
            let count = FOLDERS.fetch_add(1, Ordering::Relaxed);
            let path = temporary.join(format!("nahokipe-desk-{}-{count}", process::id()));
            match fs::create_dir(&path) {
                Err(error) if error.kind() == ErrorKind::AlreadyExists => {}
                made => {
                    made.expect("a new folder");
                    return Folder { path };
                }
            }
        }
    }

    /// A folder with one file.
    pub fn with(name: &str, bytes: impl AsRef<[u8]>) -> Folder {
        let folder = Folder::new();
        folder.write(name, bytes);
        folder
    }

    pub fn file(&self, name: &str) -> PathBuf {
        self.path.join(name)
    }

    pub fn write(&self, name: &str, bytes: impl AsRef<[u8]>) {
        fs::write(self.file(name), bytes).expect("a file that can be written");
    }

    /// Writes a program. The system starts none that is still open for writing, be it in a child of another test.
    pub fn write_program(&self, name: &str, bytes: impl AsRef<[u8]>) {
        let written = between_starts(|| fs::write(self.file(name), bytes));
        written.expect("a file that can be written");
        self.set_mode(name, 0o755);
    }

    pub fn set_mode(&self, name: &str, mode: u32) {
        let mode = Permissions::from_mode(mode);
        fs::set_permissions(self.file(name), mode).expect("another mode");
    }

    pub fn read(&self, name: &str) -> Vec<u8> {
        fs::read(self.file(name)).expect("a file that can be read")
    }

    /// The names of all files in the folder, sorted.
    pub fn names(&self) -> Vec<String> {
        let entries = fs::read_dir(&self.path).expect("the folder's entries");
        let names = entries.map(|entry| entry.expect("an entry").file_name());
        let mut names: Vec<String> = names.map(|name| name.to_string_lossy().into()).collect();
        names.sort();
        names
    }

    /// The program with these words, in this folder.
    pub fn command(&self, words: &[&str]) -> Command {
        let mut command = command(PROGRAM, &self.path);
        command.args(words);
        command
    }

    pub fn run(&self, words: &[&str]) -> Ran {
        Ran::of(self.command(words))
    }

    /// The same with a file of the folder as standard input.
    pub fn run_with(&self, words: &[&str], input: &str) -> Ran {
        let input = File::open(self.file(input)).expect("a file that can be read");
        let mut command = self.command(words);
        command.stdin(input);
        Ran::of(command)
    }

    /// A line of the shell, in this folder; the program is `nahokipe` there.
    pub fn shell(&self, line: &str) -> Ran {
        let folder = Path::new(PROGRAM).parent().expect("the program's folder");
        let mut command = command("sh", &self.path);
        command.arg("-c").arg(line);
        command.env("PATH", programs_behind(folder));
        Ran::of(command)
    }
}

impl Drop for Folder {
    /// A second panic would end all tests, so what cannot be removed is a fault only where nothing else is.
    fn drop(&mut self) {
        let removed = fs::remove_dir_all(&self.path);
        if !thread::panicking() {
            removed.expect("a folder that can be removed");
        }
    }
}

/// What a run wrote, and its status.
#[derive(Debug)]
pub struct Ran {
    pub status: Option<i32>,
    pub output: Vec<u8>,
    pub error: String,
}

impl Ran {
    pub fn of(mut command: Command) -> Ran {
        let child = start(&mut command).expect("a program that starts");
        let Output {
            status,
            stdout,
            stderr,
        } = child.wait_with_output().expect("the run's end");
        Ran {
            status: status.code(),
            output: stdout,
            error: String::from_utf8(stderr).expect("a text on standard error"),
        }
    }

    /// What stands on standard output, as text.
    pub fn text(&self) -> &str {
        std::str::from_utf8(&self.output).expect("a text on standard output")
    }

    /// What a run printed that was done and had nothing to add.
    pub fn done(self) -> String {
        assert_eq!(
            (self.status, self.error.as_str()),
            (Some(0), ""),
            "{self:?}"
        );
        self.text().to_string()
    }

    /// The explanation of a run that was refused by this number and place.
    pub fn refused(self, number: u8, place: usize) -> String {
        let line = format!("refused {number} {place}\n");
        assert_eq!(
            (self.status, self.text()),
            (Some(1), line.as_str()),
            "{self:?}"
        );
        assert!(self.error.starts_with("nahokipe: "), "{self:?}");
        self.error
    }

    /// What a run said that failed or was wrong, and printed nothing.
    pub fn failed(self) -> String {
        assert_eq!((self.status, self.text()), (Some(2), ""), "{self:?}");
        assert!(self.error.starts_with("nahokipe: "), "{self:?}");
        self.error
    }
}

/// Whether a text has all of these in it.
pub fn assert_has(text: &str, parts: &[&str]) {
    for part in parts {
        assert!(text.contains(part), "no {part:?} in {text}");
    }
}
