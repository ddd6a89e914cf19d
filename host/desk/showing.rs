//! The commands `show`, `cuts` and `drawing`, which print a record as a text, and `report`.

use crate::arguments::Arguments;
use crate::design::Design;
use crate::ending::Ending;
use crate::entry_text::text_of;
use crate::files::FileName;
use crate::meaning::Meaning;
use crate::names::Names;
use crate::numbers::listed;
use crate::output::{self, Stream};
use nahokipe::Refusal;

/// The command `show`: a text that `enter` takes, by path sets.
pub fn show(arguments: &Arguments) -> Result<(), Ending> {
    as_text(arguments, Meaning::PathSets)
}

/// The command `cuts`: a text that `enter` takes, by cut sets.
pub fn cuts(arguments: &Arguments) -> Result<(), Ending> {
    as_text(arguments, Meaning::CutSets)
}

/// Prints a record as a text, by its minimal path sets or its minimal cut sets.
fn as_text(arguments: &Arguments, meaning: Meaning) -> Result<(), Ending> {
    let name = arguments.file(0);
    let design = Design::read(&name)?;
    let names = Names::read(arguments.names.as_ref(), &design.parts, &design.retired)?;
    let minimal = design.minimal(meaning);
    let minimal = minimal.map_err(|refusal| Ending::refused(refusal, &name))?;
    let text = text_of(&design, meaning, &minimal, &names);
    output::print(&text, Stream::Output)
}

/// The command `drawing`: the drawing tool's text, and a warning where it loses numbers.
pub fn drawing(arguments: &Arguments) -> Result<(), Ending> {
    let name = arguments.file(0);
    let design = Design::read(&name)?;
    if !design.is_numbered_from_one() {
        output::say(&warning(&name, &design));
    }
    as_the_library_writes(&name, &design, nahokipe::drawing_of_record)
}

/// The command `report`: the library's report.
pub fn report(arguments: &Arguments) -> Result<(), Ending> {
    let name = arguments.file(0);
    let design = Design::read(&name)?;
    as_the_library_writes(&name, &design, nahokipe::report)
}

/// Prints what the library writes of a record, unchanged.
fn as_the_library_writes(
    name: &FileName,
    design: &Design,
    call: impl Fn(&[u8]) -> Result<Vec<u8>, Refusal>,
) -> Result<(), Ending> {
    let text = call(&design.bytes).map_err(|refusal| Ending::refused(refusal, name))?;
    output::print(&String::from_utf8_lossy(&text), Stream::Output)
}

/// What the drawing tool's text does not say.
fn warning(name: &FileName, design: &Design) -> String {
    let (parts, size) = (listed(&design.parts), design.size());
    format!(
        "\
nahokipe: {name}: a warning: this text has positions and no part numbers
  positions 1 to {size} are the parts {parts}, and the mark is {}
  a record that is made from the text numbers its parts 1 to {size} anew, and so starts
  another line of changes, in which numbers may be issued again that this record has used
",
        design.mark
    )
}
