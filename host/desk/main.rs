//! The desk: the program `nahokipe` for the people who keep the files. Every record that it writes is made by the library.

#![forbid(unsafe_code)]

mod arguments;
mod blocks;
mod changes;
mod charts;
mod columns;
mod commands;
mod design;
mod diff;
mod edition;
mod ending;
mod entering;
mod entry_text;
mod explain;
mod figures;
mod files;
mod given;
mod idle;
mod joint;
mod meaning;
mod names;
mod nearest;
mod numbers;
mod output;
mod page;
mod patterns;
mod share;
mod shares;
mod sheets;
mod showing;
mod writing;

use arguments::Asked;
use ending::{Ending, DONE};
use output::Stream;
use std::env;
use std::process::ExitCode;

fn main() -> ExitCode {
    match arguments::asked(env::args_os().skip(1)).and_then(run) {
        Ok(()) => ExitCode::from(DONE),
        Err(ending) => ending.told(),
    }
}

/// Does what is asked for.
fn run(asked: Asked) -> Result<(), Ending> {
    match asked {
        Asked::Help(None) => output::print(&commands::overview(), Stream::Output),
        Asked::Help(Some(command)) => output::print(&command.help(), Stream::Output),
        Asked::Version => {
            let version = concat!("nahokipe ", env!("CARGO_PKG_VERSION"), "\n");
            output::print(version, Stream::Output)
        }
        Asked::Run(arguments) => (arguments.command.run)(&arguments),
    }
}
