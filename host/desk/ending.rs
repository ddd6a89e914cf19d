//! How a run ends otherwise than well, and what it then says on which stream.

use crate::explain;
use crate::output::{self, Stream};
use nahokipe::Refusal;
use std::fmt::Display;
use std::io;
use std::process::ExitCode;

/// The exit status of a run whose work was done.
pub const DONE: u8 = 0;
/// The exit status of a run that the library refused.
pub const REFUSED: u8 = 1;
/// The exit status of wrong use, and of a file that cannot be read or written.
pub const FAILED: u8 = 2;

/// Why a run ends before its work is done.
#[derive(Debug)]
pub enum Ending {
    /// The library refused; its line goes to this stream, and what is known beyond its number and place to standard error.
    Refused {
        refusal: Refusal,
        about: String,
        stream: Stream,
    },
    /// The words of the command line, or of a file of names, are not what the command takes.
    WrongUse(String),
    /// A file cannot be read or written.
    Failed(String),
    /// All that can be said is said: nobody reads on, or the output itself tells. The status is this one.
    Quiet(u8),
}

impl Ending {
    /// A refusal about something that is named, with its line on standard output.
    pub fn refused(refusal: Refusal, about: impl Display) -> Ending {
        Ending::Refused {
            refusal,
            about: about.to_string(),
            stream: Stream::Output,
        }
    }

    /// An error of the system about something that is named.
    pub fn failed(name: impl Display, error: &io::Error) -> Ending {
        Ending::Failed(format!("{name}: {}", reason(error)))
    }

    /// The same ending, a refusal's line on this stream.
    pub fn on(self, stream: Stream) -> Ending {
        match self {
            Ending::Refused { refusal, about, .. } => Ending::Refused {
                refusal,
                about,
                stream,
            },
            other => other,
        }
    }

    /// Says why the run ends, and gives its status.
    pub fn told(self) -> ExitCode {
        ExitCode::from(match self {
            Ending::Refused {
                refusal,
                about,
                stream,
            } => {
                let line = nahokipe::refused_line(refusal);
                match output::print(&line, stream) {
                    Ok(()) => output::say(&explain::in_short(refusal, &about)),
                    Err(ending) => drop(ending.told()),
                }
                REFUSED
            }
            Ending::WrongUse(text) | Ending::Failed(text) => {
                output::say(&format!("nahokipe: {text}\n"));
                FAILED
            }
            Ending::Quiet(status) => status,
        })
    }
}

/// The system's reason without the number that Rust puts behind it.
pub fn reason(error: &io::Error) -> String {
    let text = error.to_string();
    match text.rfind(" (os error ") {
        Some(end) => text[..end].to_string(),
        None => text,
    }
}
