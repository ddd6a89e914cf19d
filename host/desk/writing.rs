//! Files that are written so that an interrupted run leaves what was there whole. Nothing here knows what the bytes mean.

use std::fs::{self, File, Metadata, OpenOptions};
use std::io::{self, ErrorKind, Read, Write};
use std::os::unix::fs::{fchown, MetadataExt, OpenOptionsExt};
use std::path::{Path, PathBuf};
use std::process;

/// The system's number for a file that is too large.
const FILE_TOO_LARGE: i32 = 27;

/// What could not be kept or made sure of though a file is written.
pub type Doubts = Vec<io::Error>;

/// A file while it is changed. No other run of this program changes it meanwhile.
pub struct Held {
    file: File,
    /// Where the file stands, symbolic links followed.
    path: PathBuf,
    /// What the file has.
    pub bytes: Vec<u8>,
}

impl Held {
    /// Opens a file for a change, waits until no other run holds it, and reads it up to a bound.
    pub fn open(path: &Path, bound: u64) -> io::Result<Held> {
        loop {
            let path = fs::canonicalize(path)?;
            if !fs::metadata(&path)?.is_file() {
                return Err(io::Error::other("no regular file, so not changed in place"));
            }
            let mut file = OpenOptions::new().read(true).write(true).open(&path)?;
            lock(&file)?;
            if same_file(&file.metadata()?, &path) {
                let mut bytes = Vec::new();
                (&mut file).take(bound).read_to_end(&mut bytes)?;
                return Ok(Held { file, path, bytes });
            }
        }
    }

    /// Puts other bytes in the file's place, with its mode and, where the system allows it, its owner and group.
    pub fn replace(&self, bytes: &[u8]) -> io::Result<Doubts> {
        let before = self.file.metadata()?;
        let folder = folder_of(&self.path);
        let (beside, mut doubts) = Beside::written(folder, bytes, Some(&before))?;
        fs::rename(&beside.path, &self.path)?;
        if before.nlink() > 1 {
            let kept = "the file has other names (hard links), which keep the old record";
            doubts.push(io::Error::other(kept));
        }
        doubts.extend(unsettled(folder));
        Ok(doubts)
    }
}

/// Waits for the lock of a file. A file system without locks has to do without.
fn lock(file: &File) -> io::Result<()> {
    match file.lock() {
        Err(error) if error.kind() == ErrorKind::Unsupported => Ok(()),
        locked => locked,
    }
}

/// Whether this file is still the one at this path.
fn same_file(file: &Metadata, path: &Path) -> bool {
    fs::metadata(path).is_ok_and(|there| (there.dev(), there.ino()) == (file.dev(), file.ino()))
}

/// Makes a file that was not there; nothing that stands there is replaced. It stands there whole or not at all, but on a file system that gives a
/// file one name only, where a killed run may leave it empty.
pub fn create(path: &Path, bytes: &[u8]) -> io::Result<Doubts> {
    create_by(|from, to| fs::hard_link(from, to), path, bytes)
}

/// The same, by this way to give a file a second name.
pub fn create_by(
    link: impl Fn(&Path, &Path) -> io::Result<()>,
    path: &Path,
    bytes: &[u8],
) -> io::Result<Doubts> {
    if fs::symlink_metadata(path).is_ok() {
        return Err(ErrorKind::AlreadyExists.into());
    }
    let folder = folder_of(path);
    let (beside, mut doubts) = Beside::written(folder, bytes, None)?;
    match link(&beside.path, path) {
        Err(error) if has_no_links(&error) => beside.take_free_name(path)?,
        linked => linked?,
    }
    drop(beside);
    doubts.extend(unsettled(folder));
    Ok(doubts)
}

/// Whether an error says that the file system gives a file one name only.
fn has_no_links(error: &io::Error) -> bool {
    matches!(
        error.kind(),
        ErrorKind::PermissionDenied | ErrorKind::Unsupported
    )
}

/// The folder in which a file stands.
fn folder_of(path: &Path) -> &Path {
    match path.parent() {
        Some(folder) if !folder.as_os_str().is_empty() => folder,
        _ => Path::new("."),
    }
}

/// Has the system write a folder's entries to the disk, or says why that is not known. A file system that does not flush folders has to do
/// without.
fn unsettled(folder: &Path) -> Option<io::Error> {
    match File::open(folder).and_then(|folder| folder.sync_all()) {
        Err(error) if error.kind() != ErrorKind::InvalidInput => Some(io::Error::other(format!(
            "it is written, but not known to be on the disk: {error}"
        ))),
        _ => None,
    }
}

/// A file beside its target, written and flushed. Its own name is gone when it is dropped, whether or not it has taken the target's.
struct Beside {
    path: PathBuf,
}

impl Beside {
    /// Writes a file into a folder, with the mode, the owner and the group of the one that it will replace.
    fn written(
        folder: &Path,
        bytes: &[u8],
        before: Option<&Metadata>,
    ) -> io::Result<(Beside, Doubts)> {
        if bytes.len() as u64 > longest_file() {
            return Err(io::Error::from_raw_os_error(FILE_TOO_LARGE));
        }
        let (beside, mut file) = Beside::opened(folder, before.is_some())?;
        file.write_all(bytes)?;
        let mut doubts = Doubts::new();
        if let Some(before) = before {
            if !keeps_group(&file, before) {
                doubts.push(io::Error::other("the file's group could not be kept"));
            }
            file.set_permissions(before.permissions())?;
        }
        file.sync_all()?;
        Ok((beside, doubts))
    }

    /// Opens a file under a name that is free. One that a killed run has left stays, and the next name is taken.
    fn opened(folder: &Path, private: bool) -> io::Result<(Beside, File)> {
        let mode = if private { 0o600 } else { 0o666 };
        let mut attempt = 0;
        loop {
            let path = folder.join(format!(".nahokipe-{}-{attempt}.unfinished", process::id()));
            let mut options = OpenOptions::new();
            match options.write(true).create_new(true).mode(mode).open(&path) {
                Err(error) if error.kind() == ErrorKind::AlreadyExists => attempt += 1,
                opened => return opened.map(|file| (Beside { path }, file)),
            }
        }
    }

    /// Takes a name that is free, on a file system that gives a file one name only: an empty file holds the name until then.
    fn take_free_name(&self, path: &Path) -> io::Result<()> {
        File::create_new(path)?;
        fs::rename(&self.path, path).inspect_err(|_| drop(fs::remove_file(path)))
    }
}

impl Drop for Beside {
    fn drop(&mut self) {
        let _ = fs::remove_file(&self.path);
    }
}

/// Gives a file the owner and the group of another, and says whether it has the group. Only the superuser may give a file away; for others it is
/// theirs from now on, in the same group.
fn keeps_group(file: &File, other: &Metadata) -> bool {
    let group = Some(other.gid());
    fchown(file, Some(other.uid()), group).is_ok() || fchown(file, None, group).is_ok()
}

/// The longest file that this run may write. A write beyond it would end the run by a signal, before it could say why.
fn longest_file() -> u64 {
    let limits = fs::read_to_string("/proc/self/limits").unwrap_or_default();
    let line = limits
        .lines()
        .find_map(|line| line.strip_prefix("Max file size"));
    let soft = line.and_then(|line| line.split_whitespace().next());
    soft.and_then(|soft| soft.parse().ok()).unwrap_or(u64::MAX)
}
