//! Files as the command line names them: read up to a bound, and written anew.

use crate::ending::{reason, Ending};
use crate::output;
use crate::writing::{self, Doubts};
use std::ffi::OsStr;
use std::fmt;
use std::fs::File;
use std::io::{self, ErrorKind, Read};
use std::path::PathBuf;

/// How much of a record's or a sheet's file is read. The longest record has under 40,000 bytes, and the longest sheet 155, so what is
/// longer is refused by its first bytes.
pub const RECORD_BOUND: u64 = 1 << 20;
/// The longest text that is taken. No text of a machine comes near it.
const TEXT_BOUND: u64 = 64 << 20;

/// A file by its name, or `-`, which is standard input where it is read and standard output where it is written.
#[derive(Clone, Debug, PartialEq, Eq)]
pub enum FileName {
    Standard,
    Path(PathBuf),
}

impl FileName {
    /// The file that a word of the command line names.
    pub fn of(word: &OsStr) -> FileName {
        match word.as_encoded_bytes() {
            b"-" => FileName::Standard,
            _ => FileName::Path(PathBuf::from(word)),
        }
    }

    /// Whether it is standard input or output.
    pub fn is_standard(&self) -> bool {
        *self == FileName::Standard
    }

    /// The bytes of a file that should be a record or a sheet, cut where neither goes on.
    pub fn read_bytes(&self) -> Result<Vec<u8>, Ending> {
        self.read(RECORD_BOUND)
    }

    /// The bytes of a file that should be a text.
    pub fn read_text(&self) -> Result<Vec<u8>, Ending> {
        let bytes = self.read(TEXT_BOUND + 1)?;
        match bytes.len() as u64 > TEXT_BOUND {
            true => Err(Ending::Failed(format!(
                "{self}: over 64 MiB, too long for a text"
            ))),
            false => Ok(bytes),
        }
    }

    fn read(&self, bound: u64) -> Result<Vec<u8>, Ending> {
        let mut bytes = Vec::new();
        let read = match self {
            FileName::Standard => io::stdin().lock().take(bound).read_to_end(&mut bytes),
            FileName::Path(path) => {
                File::open(path).and_then(|file| file.take(bound).read_to_end(&mut bytes))
            }
        };
        match read {
            Ok(_) => Ok(bytes),
            Err(error) => Err(Ending::failed(self, &error)),
        }
    }

    /// Writes a file that did not exist, or to standard output.
    pub fn write_new(&self, bytes: &[u8]) -> Result<(), Ending> {
        let FileName::Path(path) = self else {
            return output::print_bytes(bytes);
        };
        let doubts = writing::create(path, bytes).map_err(|error| match error.kind() {
            ErrorKind::AlreadyExists => Ending::Failed(format!(
                "{self}: there is such a file, and it is not replaced"
            )),
            _ => Ending::failed(self, &error),
        })?;
        self.warn(&doubts);
        Ok(())
    }

    /// Says what could not be kept or made sure of though the file is written.
    pub fn warn(&self, doubts: &Doubts) {
        for doubt in doubts {
            let doubt = reason(doubt);
            output::say(&format!("nahokipe: {self}: a warning: {doubt}\n"));
        }
    }
}

/// The name for people.
impl fmt::Display for FileName {
    fn fmt(&self, f: &mut fmt::Formatter<'_>) -> fmt::Result {
        match self {
            FileName::Standard => f.write_str("standard input"),
            FileName::Path(path) => f.write_str(&harmless(&path.to_string_lossy())),
        }
    }
}

/// A text with its control characters written out, so that no terminal acts on them.
pub fn harmless(text: &str) -> String {
    let shown = |c: char| match c.is_control() {
        true => c.escape_default().to_string(),
        false => c.to_string(),
    };
    text.chars().map(shown).collect()
}

/// A text without the byte order mark that some editors put in front.
pub fn past_mark(text: &[u8]) -> &[u8] {
    text.strip_prefix(b"\xEF\xBB\xBF").unwrap_or(text)
}
