//! The commands that change a record: `add-part`, `add-set` and `take-out`. The library makes each new record, in the edition of the old.

use crate::arguments::Arguments;
use crate::design::{holds, Design, Difference};
use crate::ending::Ending;
use crate::entering::{story_stream, told};
use crate::files::{FileName, RECORD_BOUND};
use crate::numbers::listed;
use crate::writing::Held;
use nahokipe::Refusal;

/// Why a number is dropped from the retired ones.
const FULL: &str = "64 higher ones are retired, and the list holds no more";

/// The command `add-part`: a part more, in no set, with a number that was never issued.
pub fn add_part(arguments: &Arguments) -> Result<(), Ending> {
    change_parts(arguments, &[], nahokipe::add_part)
}

/// The command `add-set`: a set more, of the parts with these numbers.
pub fn add_set(arguments: &Arguments) -> Result<(), Ending> {
    let numbers = arguments.numbers()?;
    change_parts(arguments, &numbers, |record| {
        nahokipe::add_set_of_parts(record, &numbers)
    })
}

/// The command `take-out`: the parts with these numbers leave, together or not at all.
pub fn take_out(arguments: &Arguments) -> Result<(), Ending> {
    let numbers = arguments.numbers()?;
    change_parts(arguments, &numbers, |record| match numbers[..] {
        [number] => nahokipe::take_out_part(record, number),
        _ => nahokipe::take_out_parts(record, &numbers),
    })
}

/// A change by the numbers of parts.
fn change_parts(
    arguments: &Arguments,
    numbers: &[u64],
    call: impl Fn(&[u8]) -> Result<Vec<u8>, Refusal>,
) -> Result<(), Ending> {
    let about = |refusal, old: &Design| about(refusal, old, numbers);
    let story = |old: &Design, new: &Design| story(old, new, numbers);
    change(arguments, call, about, story)
}

/// Reads a record, has the library make the new one, writes that and says what was done, or what is wrong with the old one.
pub fn change(
    arguments: &Arguments,
    call: impl Fn(&[u8]) -> Result<Vec<u8>, Refusal>,
    about: impl Fn(Refusal, &Design) -> String,
    story: impl Fn(&Design, &Design) -> String,
) -> Result<(), Ending> {
    let name = arguments.file(0);
    let target = arguments.output.clone().unwrap_or_else(|| name.clone());
    let stream = story_stream(&target);
    let held = match &name {
        FileName::Path(path) if arguments.output.is_none() => Some(Held::open(path, RECORD_BOUND)),
        _ => None,
    };
    let held = held
        .transpose()
        .map_err(|error| Ending::failed(&name, &error))?;
    let bytes = held
        .as_ref()
        .map_or_else(|| name.read_bytes(), |held| Ok(held.bytes.clone()))?;
    let old = Design::of_file(bytes, &name).map_err(|ending| ending.on(stream))?;
    let refused = |refusal| Ending::refused(refusal, format!("{name}: {}", about(refusal, &old)));
    let new = call(&old.bytes)
        .and_then(Design::of)
        .map_err(|refusal| refused(refusal).on(stream))?;
    match &held {
        Some(held) => replace(held, &name, &old, &new)?,
        None => target.write_new(&new.bytes)?,
    }
    told(&story(&old, &new), &target)
}

/// Puts the new record in the old one's place, unless they are the same.
fn replace(held: &Held, name: &FileName, old: &Design, new: &Design) -> Result<(), Ending> {
    if old != new {
        let replaced = held.replace(&new.bytes);
        name.warn(&replaced.map_err(|error| Ending::failed(name, &error))?);
    }
    Ok(())
}

/// What is wrong with a change, by part numbers.
fn about(refusal: Refusal, design: &Design, numbers: &[u64]) -> String {
    match (refusal.number, numbers) {
        (18, [number]) => format!("every set names part {number}"),
        (18, _) => format!("every set names one of the parts {}", listed(numbers)),
        (20, _) => format!("the mark is {}", design.mark),
        _ => design.stranger(numbers),
    }
}

/// What a change did, by part numbers.
fn story(old: &Design, new: &Design, numbers: &[u64]) -> String {
    let difference = Difference::between(old, new);
    let mut story = String::new();
    for part in &difference.parts_came {
        story += &format!("part {part} came, in no set\n");
    }
    for &part in &difference.parts_left {
        story += &format!("part {part} left{}\n", filed(part, new));
    }
    for number in &difference.retired_left {
        story += &format!("retired number {number} was dropped: {FULL}\n");
    }
    for set in &difference.sets_came {
        story += &format!("set {} came\n", listed(set));
    }
    for set in &difference.sets_left {
        let because = match difference.sets_came.first() {
            Some(came) => format!(", since it holds set {}", listed(came)),
            None => String::new(),
        };
        story += &format!("set {} went{because}\n", listed(set));
    }
    if old == new {
        story += &unchanged(old, numbers);
    }
    story + &format!("now {}\n", new.in_short())
}

/// What became of the number of a part that left: edition 2 files it, unless the list has no place for it.
fn filed(part: u64, new: &Design) -> String {
    match new.edition {
        1 => String::new(),
        _ if new.retired.contains(&part) => "; its number is filed as retired".to_string(),
        _ => format!("; its number is not filed: {FULL}"),
    }
}

/// Why a set that was added changed nothing: a set that it holds suffices already.
fn unchanged(design: &Design, numbers: &[u64]) -> String {
    let held = design.sets.iter().find(|set| holds(numbers, set));
    let held = held.map(|set| listed(set)).unwrap_or_default();
    let mut sorted = numbers.to_vec();
    sorted.sort_unstable();
    match listed(&sorted) {
        set if set == held => format!("nothing changed: set {set} is there already\n"),
        set => format!("nothing changed: set {set} holds set {held}, which suffices\n"),
    }
}
