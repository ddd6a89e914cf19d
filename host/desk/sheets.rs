//! The commands `sheet` and `save`: sheets, each of which keeps one figure of a machine. The library reads, converts and writes them.

use crate::arguments::Arguments;
use crate::design::Design;
use crate::ending::Ending;
use crate::entering::{story_stream, told};
use crate::figures::{all_orders, one_figure, orders};
use crate::files::FileName;
use crate::nearest;
use crate::numbers::counted;
use crate::output::{self, Stream};
use nahokipe::{Kind, Refusal, Vector};

/// The words of the kinds.
const KINDS: [(&str, Kind); 4] = [
    ("path-counts", Kind::PathCounts),
    ("tail", Kind::Tail),
    ("signature", Kind::Signature),
    ("domination", Kind::Domination),
];

/// The command `sheet`. It shows what a sheet holds, and with -o saves that as a new one.
pub fn sheet(arguments: &Arguments) -> Result<(), Ending> {
    let name = arguments.file(0);
    let named = match arguments.words().count() {
        1 => None,
        _ => Some(kind(arguments)?),
    };
    match &arguments.output {
        None => show(&name, named),
        Some(target) => save_anew(&name, named, target),
    }
}

/// The command `save`: the sheet of one figure of a record.
pub fn save(arguments: &Arguments) -> Result<(), Ending> {
    let kind = kind(arguments)?;
    let (name, target) = (arguments.file(0), arguments.file(2));
    let stream = story_stream(&target);
    let design = Design::read(&name).map_err(|ending| ending.on(stream))?;
    let sheet = sheet_of(&design, kind).map_err(|refusal| unsaved(refusal, &name).on(stream))?;
    made(&sheet, &target, "", text)
}

/// The kind that the second word names.
fn kind(arguments: &Arguments) -> Result<Kind, Ending> {
    let asked = arguments.words().nth(1);
    let named = KINDS
        .iter()
        .find(|(word, _)| asked.is_some_and(|asked| asked == *word));
    named.map(|(_, kind)| *kind).ok_or_else(|| {
        let shown = arguments.shown(1);
        let hint = nearest::hint(&shown, KINDS.iter().map(|(word, _)| *word));
        let all = "the kinds are `path-counts`, `tail`, `signature` and `domination`";
        arguments.wrong(&format!("there is no kind `{shown}`{hint}\n{all}"))
    })
}

/// Prints what a sheet holds, or the same as the kind that is named.
fn show(name: &FileName, named: Option<Kind>) -> Result<(), Ending> {
    let stored = stored(name, "")?;
    let (holds, kind) = (what(&stored), named.unwrap_or(stored.kind));
    let shown = converted(stored, kind).map_err(|refusal| Ending::refused(refusal, name))?;
    let line = match named {
        None => format!("{holds}\n"),
        Some(kind) => format!("{holds}; shown as the {kind}\n"),
    };
    output::print(&text(&line, &shown), Stream::Output)
}

/// Saves what a sheet holds as a new one: as the kind that is named, or as its own where none is. The library then saves a tail as the
/// signature.
fn save_anew(name: &FileName, named: Option<Kind>, target: &FileName) -> Result<(), Ending> {
    let stream = story_stream(target);
    let stored = stored(name, "").map_err(|ending| ending.on(stream))?;
    let sheet = match named {
        None => nahokipe::save_sheet(stored.kind, stored.n, &stored.entries),
        Some(kind) => nahokipe::save_sheet_as(stored.kind, stored.n, &stored.entries, kind),
    };
    let sheet = sheet.map_err(|refusal| unsaved(refusal, name).on(stream))?;
    let instead = match (named, stored.kind) {
        (None, Kind::Tail) => "a tail is saved as the signature, which says the same\n",
        _ => "",
    };
    let lines = format!("{}\n{instead}", what(&stored));
    made(&sheet, target, &lines, text)
}

/// The vector of a sheet's file. What is no sheet is told by the file's name and by what stands behind that.
pub fn stored(name: &FileName, behind: &str) -> Result<Vector, Ending> {
    let bytes = name.read_bytes()?;
    nahokipe::read_sheet(&bytes).map_err(|refusal| {
        let hint = match nahokipe::whole_record(&bytes) {
            Ok(_) => "\n  this file is a record, of which `nahokipe save` makes a sheet",
            Err(_) => "",
        };
        let about = format!("{name}{behind}: this is no whole sheet{hint}");
        Ending::refused(refusal, about)
    })
}

/// The vector of another kind that says the same.
pub fn converted(vector: Vector, kind: Kind) -> Result<Vector, Refusal> {
    let entries = nahokipe::convert(vector.kind, vector.n, &vector.entries, kind)?;
    Ok(Vector {
        kind,
        entries,
        ..vector
    })
}

/// The sheet of one figure of a machine, from its path counts.
fn sheet_of(design: &Design, kind: Kind) -> Result<Vec<u8>, Refusal> {
    let n = design.size();
    let table = nahokipe::table_of_record(&design.bytes)?;
    let counts = nahokipe::path_counts(n, &table)?;
    nahokipe::save_sheet_as(Kind::PathCounts, n, &counts, kind)
}

/// What is said of a figure that the library does not save.
pub fn unsaved(refusal: Refusal, name: &FileName) -> Ending {
    Ending::refused(refusal, format!("{name}: nothing is saved"))
}

/// Writes a new sheet, and prints back what the library reads in it, behind lines that say how it came about and in the form that is given.
pub fn made(
    sheet: &[u8],
    target: &FileName,
    lines: &str,
    form: impl Fn(&str, &Vector) -> String,
) -> Result<(), Ending> {
    let written = nahokipe::read_sheet(sheet);
    let written = written.map_err(|refusal| Ending::refused(refusal, target))?;
    target.write_new(sheet)?;
    let bytes = counted(sheet.len(), "byte");
    let line = format!("{lines}written: {}, {bytes}\n", what(&written));
    told(&form(&line, &written), target)
}

/// What a vector is: its kind, by number and by name, and how many parts its machine has.
pub fn what(vector: &Vector) -> String {
    let (number, parts) = (vector.kind.number(), counted(vector.n, "part"));
    format!("kind {number}, {}, {parts}", vector.kind)
}

/// The figure in a vector as `figures` prints it, behind some lines and, where it counts orders, how many there are.
pub fn text(lines: &str, vector: &Vector) -> String {
    let Vector { kind, n, entries } = vector;
    let all = match kind {
        Kind::Tail | Kind::Signature => all_orders(*n, orders(*n)),
        Kind::PathCounts | Kind::Domination => String::new(),
    };
    format!("{lines}{all}\n{}", one_figure(*kind, *n, entries))
}
