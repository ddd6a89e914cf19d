//! The words of the command line, sorted.

use crate::commands::{self, Command};
use crate::ending::Ending;
use crate::entry_text::twice;
use crate::files::{harmless, FileName};
use crate::numbers::number;
use std::ffi::{OsStr, OsString};

/// What a run is asked for.
pub enum Asked {
    /// The help of the program, or of a command.
    Help(Option<&'static Command>),
    Version,
    Run(Arguments),
}

/// A command with its words and options.
pub struct Arguments {
    pub command: &'static Command,
    words: Vec<OsString>,
    /// The file of names, behind `--names`.
    pub names: Option<FileName>,
    /// The file to write, behind `-o`.
    pub output: Option<FileName>,
}

/// Sorts the words of a command line, the program's own name left out.
pub fn asked(mut words: impl Iterator<Item = OsString>) -> Result<Asked, Ending> {
    let Some(first) = words.next() else {
        return Err(Ending::WrongUse(format!(
            "no command is given\n{}",
            commands::overview()
        )));
    };
    match first.to_str() {
        Some("--help" | "-h" | "help") => Ok(Asked::Help(None)),
        Some("--version") => Ok(Asked::Version),
        _ => match commands::named(&first) {
            Some(command) => Arguments::of(command, words),
            None => Err(Ending::WrongUse(commands::unknown(&shown(&first)))),
        },
    }
}

impl Arguments {
    /// Sorts the words behind a command. Behind `--` no word is an option.
    fn of(
        command: &'static Command,
        mut words: impl Iterator<Item = OsString>,
    ) -> Result<Asked, Ending> {
        let mut arguments = Arguments {
            command,
            words: Vec::new(),
            names: None,
            output: None,
        };
        while let Some(word) = words.next() {
            match word.to_str() {
                Some("--help" | "-h") => return Ok(Asked::Help(Some(command))),
                Some("--") => arguments.words.extend(words.by_ref()),
                Some("--names") if command.takes_names => {
                    arguments.names = arguments.option(&word, &arguments.names, words.next())?
                }
                Some("-o") if command.takes_output => {
                    arguments.output = arguments.option(&word, &arguments.output, words.next())?
                }
                Some(option) if option.len() > 1 && option.starts_with('-') => {
                    let known = option.starts_with("--names=") && command.takes_names;
                    let hint = if known { "; write `--names FILE`" } else { "" };
                    let why = format!("there is no option `{}`{hint}", harmless(option));
                    return Err(arguments.wrong(&why));
                }
                _ => arguments.words.push(word),
            }
        }
        arguments.checked().map(Asked::Run)
    }

    /// The file behind an option that stands there for the first time.
    fn option(
        &self,
        option: &OsStr,
        before: &Option<FileName>,
        word: Option<OsString>,
    ) -> Result<Option<FileName>, Ending> {
        let option = shown(option);
        match word {
            _ if before.is_some() => Err(self.wrong(&format!("`{option}` stands twice"))),
            None => Err(self.wrong(&format!("a file belongs behind `{option}`"))),
            Some(word) => Ok(Some(FileName::of(&word))),
        }
    }

    /// The same, if there are as many words as the command takes, and standard input is not wanted twice.
    fn checked(self) -> Result<Arguments, Ending> {
        let count = self.words.len();
        if count < self.command.fewest {
            return Err(self.wrong("a word is missing"));
        }
        if self.command.most.is_some_and(|most| count > most) {
            return Err(self.wrong(&format!(
                "`{}` is a word too many",
                shown(&self.words[count - 1])
            )));
        }
        let inputs = (0..self.command.inputs).map(|index| self.file(index));
        self.read_once(inputs)?;
        Ok(self)
    }

    /// Wrong use where standard input is wanted more than once, by these files and the file of names.
    pub fn read_once(&self, files: impl Iterator<Item = FileName>) -> Result<(), Ending> {
        let standard = files
            .chain(self.names.clone())
            .filter(FileName::is_standard);
        match standard.count() > 1 {
            true => Err(self.wrong("standard input cannot be read twice")),
            false => Ok(()),
        }
    }

    /// Wrong use of this command, and how it is used.
    pub fn wrong(&self, why: &str) -> Ending {
        let (name, usage) = (self.command.name, self.command.usage());
        let help = format!("`nahokipe {name} --help` tells more");
        Ending::WrongUse(format!("{name}: {why}\n{usage}{help}"))
    }

    /// The words of the command.
    pub fn words(&self) -> impl Iterator<Item = &OsStr> {
        self.words.iter().map(OsString::as_os_str)
    }

    /// A word as it is shown in a message, by its index from 0.
    pub fn shown(&self, index: usize) -> String {
        shown(&self.words[index])
    }

    /// The file that a word names, by its index from 0.
    pub fn file(&self, index: usize) -> FileName {
        FileName::of(&self.words[index])
    }

    /// The part numbers behind the first word, each once.
    pub fn numbers(&self) -> Result<Vec<u64>, Ending> {
        let words: Vec<&OsStr> = self.words().skip(1).collect();
        self.each_once(&words)
    }

    /// The part numbers that these words are, each once.
    pub fn each_once(&self, words: &[&OsStr]) -> Result<Vec<u64>, Ending> {
        let one = |word: &OsStr| {
            let why = || {
                format!(
                    "`{}` is no part number, in digits without a leading zero",
                    shown(word)
                )
            };
            number(word.as_encoded_bytes()).ok_or_else(|| self.wrong(&why()))
        };
        let numbers = words.iter().map(|word| one(word));
        let numbers = numbers.collect::<Result<Vec<u64>, Ending>>()?;
        match twice(words) {
            Some(word) => Err(self.wrong(&format!("number {} stands twice", shown(word)))),
            None => Ok(numbers),
        }
    }
}

/// A word as it is shown in a message.
fn shown(word: &OsStr) -> String {
    harmless(&word.to_string_lossy())
}
