//! The command `diff`: what differs between two records, by part numbers, and which figures changed.

use crate::arguments::Arguments;
use crate::columns::columns;
use crate::design::{Design, Difference};
use crate::ending::Ending;
use crate::figures::{polynomial, Worked};
use crate::names::Names;
use crate::numbers::listed;
use crate::output::{self, Stream};
use crate::share::Share;
use nahokipe::lent::MOST_RETIRED;

/// What a number that comes back, a lower mark, or a retired number that left or came without cause means.
const OTHER_LINE: &str =
    "  the second record did not come from the first one by changes: it is an older one,
  or on another line of changes
";

/// The command `diff`. Its status is 0 whether or not the records differ.
pub fn diff(arguments: &Arguments) -> Result<(), Ending> {
    let [(old, old_worked), (new, new_worked)] = [machine(arguments, 0)?, machine(arguments, 1)?];
    let parts = [&old.parts[..], &new.parts].concat();
    let retired = [&old.retired[..], &new.retired].concat();
    let names = Names::read(arguments.names.as_ref(), &parts, &retired)?;
    let text = match old.bytes == new.bytes {
        true => "no difference\n".to_string(),
        false => {
            let changed = figures_changed((&old, &old_worked), (&new, &new_worked), &names);
            designs_changed(&old, &new, &names) + &changed
        }
    };
    output::print(&text, Stream::Output)
}

/// One of the two machines and its figures.
fn machine(arguments: &Arguments, index: usize) -> Result<(Design, Worked), Ending> {
    let name = arguments.file(index);
    let design = Design::read(&name)?;
    let worked = Worked::of(&design).map_err(|refusal| Ending::refused(refusal, &name))?;
    Ok((design, worked))
}

/// The edition, the parts, retired numbers and sets that left and came, and the mark.
fn designs_changed(old: &Design, new: &Design, names: &Names) -> String {
    let difference = Difference::between(old, new);
    let set = |set: &[u64], what: &str| match names.is_empty() {
        true => format!("set {} {what}\n", listed(set)),
        false => format!("set {} {what}  # {}\n", listed(set), names.of_set(set)),
    };
    let sets_left = difference.sets_left.iter().map(|one| set(one, "left"));
    let sets_came = difference.sets_came.iter().map(|one| set(one, "came"));
    let lines = [
        other_line(old, new, &difference),
        was_and_is("edition", old.edition.into(), new.edition.into()),
        numbers_changed("part", &difference.parts_left, "left", names),
        numbers_changed("part", &difference.parts_came, "came", names),
        numbers_changed("retired number", &difference.retired_left, "left", names),
        numbers_changed("retired number", &difference.retired_came, "came", names),
        was_and_is("mark", old.mark, new.mark),
    ];
    lines
        .into_iter()
        .chain(sets_left)
        .chain(sets_came)
        .collect()
}

/// A line for a number that changed.
fn was_and_is(what: &str, old: u64, new: u64) -> String {
    match old == new {
        true => String::new(),
        false => format!("{what} was {old}, is {new}\n"),
    }
}

/// A line for each number that left or came.
fn numbers_changed(what: &str, numbers: &[u64], change: &str, names: &Names) -> String {
    let line = |&number: &u64| match names.name(number) {
        "" => format!("{what} {number} {change}\n"),
        name => format!("{what} {number} {change}  # {name}\n"),
    };
    numbers.iter().map(line).collect()
}

/// Why the second record cannot have come from the first by changes: a number would have been issued again, the mark lowered, or a retired
/// number lost, or filed though its part had left before.
fn other_line(old: &Design, new: &Design, difference: &Difference) -> String {
    let came = difference.parts_came.iter();
    let again = came.filter(|&&part| part <= old.mark);
    let mut text = String::new();
    for part in again {
        text += &format!(
            "a warning: {part} is a number again that was issued before, as the old mark says\n"
        );
    }
    if new.mark < old.mark {
        text += "a warning: the mark is lower than it was\n";
    }
    for number in lost(new, difference) {
        text += &format!(
            "a warning: {number} is no longer retired, and 64 higher ones did not take its place\n"
        );
    }
    for number in filed_late(old, difference) {
        text += &format!(
            "a warning: {number} is retired now, and its part had left before, as the old mark says\n"
        );
    }
    match text.is_empty() {
        true => text,
        false => text + OTHER_LINE,
    }
}

/// The retired numbers that left though the list does not have 64 higher ones, for which alone one is dropped.
fn lost<'a>(new: &Design, difference: &'a Difference) -> impl Iterator<Item = &'a u64> {
    let lowest = match new.retired.len() {
        MOST_RETIRED => new.retired[0],
        _ => 0,
    };
    let left = difference.retired_left.iter();
    left.filter(move |&&number| number > lowest)
}

/// The retired numbers that came though they had been issued before and were no part's.
fn filed_late<'a>(old: &'a Design, difference: &'a Difference) -> impl Iterator<Item = &'a u64> {
    let came = difference.retired_came.iter();
    came.filter(|number| **number <= old.mark && !old.parts.contains(number))
}

/// A machine and its figures.
type Machine<'a> = (&'a Design, &'a Worked);

/// The figures that changed, each kind in columns.
fn figures_changed(old: Machine, new: Machine, names: &Names) -> String {
    let blocks = [
        signature(old, new),
        domination(old, new),
        importance(old, new, names),
    ];
    let blocks: String = blocks.into_iter().flatten().collect();
    match blocks.is_empty() {
        true => "\nno figure changed\n".to_string(),
        false => {
            let [before, after] = [old, new].map(|(_, worked)| worked.total);
            let totals = match before == after {
                true => format!("{after} orders in both"),
                false => format!("{before} orders before, {after} now"),
            };
            format!("\nFigures that changed; {totals}\n{blocks}")
        }
    }
}

/// A share before and after, as cells; a part or a failure that one of the machines lacks has none there.
fn before_and_after(old: Option<&Share>, new: Option<&Share>) -> Option<Vec<String>> {
    let same = match (old, new) {
        (Some(old), Some(new)) => old.equals(*new),
        _ => old.is_none() && new.is_none(),
    };
    let cells = |share: Option<&Share>| match share {
        Some(share) => [share.count.to_string(), share.per_cent()],
        None => ["-".to_string(), "-".to_string()],
    };
    (!same).then(|| [cells(old), cells(new)].concat())
}

/// The rows that changed, under a title and headings; nothing where none did.
fn block(title: &str, headings: [&str; 6], rows: Vec<Vec<String>>) -> Option<String> {
    let heading = headings.iter().map(|cell| cell.to_string()).collect();
    let all = [vec![heading], rows].concat();
    (all.len() > 1).then(|| format!("\n{title}\n{}", columns(&all, true)))
}

/// The rows of the signature that changed.
fn signature(old: Machine, new: Machine) -> Option<String> {
    let most = old.0.size().max(new.0.size());
    let one = |failure: usize| {
        let [before, after] = [old, new].map(|(_, worked)| worked.signature.get(failure - 1));
        let cells = before_and_after(before, after)?;
        Some([vec![failure.to_string()], cells].concat())
    };
    let rows = (1..=most).filter_map(one).collect();
    let headings = ["failure", "before", "per cent", "now", "per cent", ""];
    block(
        "Signature: orders in which this failure stops the machine",
        headings,
        rows,
    )
}

/// The polynomials, if they differ.
fn domination(old: Machine, new: Machine) -> Option<String> {
    let text = |(_, worked): Machine| polynomial(&worked.domination, |power| format!("x^{power}"));
    let (before, after) = (text(old), text(new));
    (before != after).then(|| {
        format!("\nDomination: the machine works with\n  before  {before}\n     now  {after}\n")
    })
}

/// The importances that changed, by part number.
fn importance(old: Machine, new: Machine, names: &Names) -> Option<String> {
    let mut parts = [&old.0.parts[..], &new.0.parts].concat();
    parts.sort_unstable();
    parts.dedup();
    let one = |&part: &u64| {
        let [before, after] = [old, new].map(|(design, worked)| {
            let index = design.parts.iter().position(|&one| one == part);
            index.map(|index| &worked.importance[index])
        });
        let cells = before_and_after(before, after)?;
        Some(
            [
                vec![part.to_string()],
                cells,
                vec![names.name(part).to_string()],
            ]
            .concat(),
        )
    };
    let rows = parts.iter().filter_map(one).collect();
    let heading = if names.is_empty() { "" } else { "name" };
    let headings = ["part", "before", "per cent", "now", "per cent", heading];
    block(
        "Importance: orders in which this part's failure stops the machine",
        headings,
        rows,
    )
}
