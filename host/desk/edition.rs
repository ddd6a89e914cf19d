//! The command `edition`: which edition a record is of and which numbers it keeps as retired, and the same record in the other edition.

use crate::arguments::Arguments;
use crate::changes::change;
use crate::design::Design;
use crate::ending::Ending;
use crate::names::Names;
use crate::numbers::listed;
use crate::output::{self, Stream};
use nahokipe::Refusal;

/// What makes a record of one edition from a record of either.
type Conversion = fn(&[u8]) -> Result<Vec<u8>, Refusal>;

/// The command `edition`. With one word it prints, with two it converts; the option of the one is none of the other.
pub fn edition(arguments: &Arguments) -> Result<(), Ending> {
    let converts = arguments.words().count() > 1;
    match (converts, &arguments.names, &arguments.output) {
        (false, _, None) => say(arguments),
        (false, ..) => Err(arguments.wrong("a word is missing: with -o, EDITION is 1 or 2")),
        (true, None, _) => convert(arguments),
        (true, ..) => Err(arguments.wrong("`--names` goes with RECORD alone")),
    }
}

/// Prints the edition, and a line for each retired number.
fn say(arguments: &Arguments) -> Result<(), Ending> {
    let design = Design::read(&arguments.file(0))?;
    let names = Names::read(arguments.names.as_ref(), &design.parts, &design.retired)?;
    let retired = match (design.edition, design.retired.is_empty()) {
        (2, true) => "# no number is retired\n".to_string(),
        _ => names.lines("retired", &design.retired),
    };
    let text = format!("edition {}\n{retired}", design.edition);
    output::print(&text, Stream::Output)
}

/// Has the library write the record in the edition that is asked for.
fn convert(arguments: &Arguments) -> Result<(), Ending> {
    let conversion = conversion(arguments)?;
    let about = |_, design: &Design| {
        let retired = listed(&design.retired);
        format!("edition 1 has no place for its retired numbers, {retired}")
    };
    change(arguments, conversion, about, story)
}

/// The conversion that the second word asks for.
fn conversion(arguments: &Arguments) -> Result<Conversion, Ending> {
    match arguments.shown(1).as_str() {
        "1" => Ok(nahokipe::to_edition_1),
        "2" => Ok(nahokipe::to_edition_2),
        other => Err(arguments.wrong(&format!("there is no edition `{other}`; there are 1 and 2"))),
    }
}

/// What a conversion did. Edition 1 does not say which of the numbers up to the mark have left, so edition 2 begins without them.
fn story(old: &Design, new: &Design) -> String {
    let edition = new.edition;
    let done = match old.edition == edition {
        true => format!("nothing changed: this is a record of edition {edition} already\n"),
        false => format!("edition was {}, is {edition}\n", old.edition),
    };
    let before = match old.edition < edition && old.mark > old.size() as u64 {
        true => "parts that left before are not filed, since edition 1 does not say which\n",
        false => "",
    };
    format!("{done}{before}now {}\n", new.in_short())
}

/// What a text cannot say of an edition 2 record, as comments; nothing of an edition 1 record.
pub fn comments(design: &Design, names: &Names) -> String {
    match design.edition {
        1 => String::new(),
        edition => {
            let retired = names.lines("# retired", &design.retired);
            format!("# edition {edition}\n{retired}")
        }
    }
}
