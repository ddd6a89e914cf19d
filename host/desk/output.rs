//! The one place that writes to standard output and standard error.

use crate::ending::{Ending, DONE, FAILED};
use std::fs::File;
use std::io::{self, ErrorKind, Write};
use std::os::fd::AsFd;

/// One of the two streams that a run writes to.
#[derive(Clone, Copy, Debug, PartialEq, Eq)]
pub enum Stream {
    Output,
    Error,
}

/// Writes text to a stream. Where nobody reads it any more the run ends, quietly and well: the reader had enough.
pub fn print(text: &str, stream: Stream) -> Result<(), Ending> {
    match stream {
        Stream::Output => written(text.as_bytes()).map_err(|error| unwritten(&error, DONE)),
        Stream::Error => {
            say(text);
            Ok(())
        }
    }
}

/// Writes a file's bytes to standard output. Where nobody reads them they are lost: the run ends quietly, and its status says so.
pub fn print_bytes(bytes: &[u8]) -> Result<(), Ending> {
    written(bytes).map_err(|error| unwritten(&error, FAILED))
}

/// Writes to standard error. Where that fails there is nobody left to tell.
pub fn say(text: &str) {
    let _ = io::stderr().write_all(text.as_bytes());
}

/// Writes to standard output by its file: Rust's own stream takes one that cannot be written to for written.
fn written(bytes: &[u8]) -> io::Result<()> {
    let mut output = File::from(io::stdout().as_fd().try_clone_to_owned()?);
    output.write_all(bytes)
}

fn unwritten(error: &io::Error, closed: u8) -> Ending {
    match error.kind() {
        ErrorKind::BrokenPipe => Ending::Quiet(closed),
        _ => Ending::failed("standard output", error),
    }
}
