//! The commands `enter` and `new`: records from texts and from patterns.

use crate::arguments::Arguments;
use crate::design::Design;
use crate::ending::Ending;
use crate::entry_text::{text_of, Entry, Refused};
use crate::files::FileName;
use crate::meaning::Meaning;
use crate::names::Names;
use crate::output::{self, Stream};
use crate::patterns::{neither, unread, Stock};
use nahokipe::Refusal;

/// The command `enter`: a record of parts that already have numbers.
pub fn enter(arguments: &Arguments) -> Result<(), Ending> {
    let (source, target) = (arguments.file(0), arguments.file(1));
    let text = source.read_text()?;
    let refused = |(refusal, about): Refused| {
        let about = format!("{source}: {about}{}", other_sort(&text));
        Ending::refused(refusal, about).on(story_stream(&target))
    };
    let entry = Entry::read(&text).map_err(refused)?;
    let record = entry.record().map_err(refused)?;
    made(record, &target, |design| entry.read_back(design))
}

/// What a file is that is not a text by part numbers.
fn other_sort(text: &[u8]) -> &'static str {
    match (
        nahokipe::whole_record(text),
        nahokipe::record_of_drawing(text),
    ) {
        (Ok(_), _) => "\n  this file is a record already",
        (_, Ok(_)) => "\n  this is a drawing's text, by positions, which `nahokipe new` takes",
        _ => "",
    }
}

/// The command `new`: a record from a drawing's text or from a pattern, which the number of words tells apart. The parts are numbered 1
/// to n.
pub fn new(arguments: &Arguments) -> Result<(), Ending> {
    match arguments.words().count() {
        2 => new_of_drawing(arguments),
        3 => Err(neither(arguments)),
        _ => new_of_pattern(arguments),
    }
}

/// A record from a drawing's text.
fn new_of_drawing(arguments: &Arguments) -> Result<(), Ending> {
    let (source, target) = (arguments.file(0), arguments.file(1));
    let text = source
        .read_text()
        .map_err(|ending| unread(arguments, ending))?;
    let refused = |refusal: Refusal| {
        let hint = match Entry::read(&text).is_ok() {
            true => "\n  this is a text by part numbers, which `nahokipe enter` takes",
            false => "",
        };
        let about = format!("{source}: line {}{hint}", refusal.place);
        Ending::refused(refusal, about).on(story_stream(&target))
    };
    let record = nahokipe::record_of_drawing(&text).map_err(refused)?;
    made(record, &target, |design| Ok(sets_back(design)))
}

/// A record from a pattern, with what the pattern says in words.
fn new_of_pattern(arguments: &Arguments) -> Result<(), Ending> {
    let (stock, target) = (Stock::asked(arguments)?, arguments.file(3));
    let record = stock.record().map_err(|refusal| {
        let about = stock.about(refusal);
        Ending::refused(refusal, about).on(story_stream(&target))
    })?;
    made(record, &target, |design| {
        Ok(sets_back(design) + &stock.comment())
    })
}

/// A machine by its sets, as a text to hold beside the drawing.
fn sets_back(design: &Design) -> String {
    let sets = &design.sets;
    text_of(design, Meaning::PathSets, sets, &Names::default())
}

/// Writes a new record, and prints back what it says and which number comes next.
fn made(
    record: Vec<u8>,
    target: &FileName,
    read_back: impl Fn(&Design) -> Result<String, Refusal>,
) -> Result<(), Ending> {
    let refused = |refusal| Ending::refused(refusal, target);
    let design = Design::of(record).map_err(refused)?;
    let text = read_back(&design).map_err(refused)?;
    target.write_new(&design.bytes)?;
    let end = format!("# {}\n", design.next_number());
    told(&(text + &end), target)
}

/// Says what was done when the target is written, and where that cannot be said, that it is.
pub fn told(story: &str, target: &FileName) -> Result<(), Ending> {
    output::print(story, story_stream(target)).map_err(|ending| match ending {
        Ending::Failed(text) => Ending::Failed(format!("{text}; {target} is written all the same")),
        other => other,
    })
}

/// Where a run says what it did: not among a record's bytes.
pub fn story_stream(target: &FileName) -> Stream {
    match target.is_standard() {
        true => Stream::Error,
        false => Stream::Output,
    }
}
