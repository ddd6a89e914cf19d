//! The command `page`: one HTML page of a record that needs nothing beside itself.

use crate::arguments::Arguments;
use crate::charts::{chart, Bar};
use crate::design::Design;
use crate::ending::Ending;
use crate::entering::told;
use crate::figures::{polynomial, Worked};
use crate::files::{harmless, FileName};
use crate::names::Names;
use crate::numbers::{counted, listed, ordinal};
use crate::output::{self, Stream};
use crate::share::Share;

/// How many sets are shown at once; more of them, and the bytes of a long record, are unfolded by the reader.
const SETS_AT_ONCE: usize = 100;

/// The command `page`.
pub fn page(arguments: &Arguments) -> Result<(), Ending> {
    let name = arguments.file(0);
    let design = Design::read(&name)?;
    let names = Names::read(arguments.names.as_ref(), &design.parts, &design.retired)?;
    let worked = Worked::of(&design).map_err(|refusal| Ending::refused(refusal, &name))?;
    let text = page_text(&title(&name), &design, &worked, &names);
    match &arguments.output {
        Some(target @ FileName::Path(_)) => {
            target.write_new(text.as_bytes())?;
            told(&format!("page written to {target}\n"), target)
        }
        _ => output::print(&text, Stream::Output),
    }
}

/// The file's name without its folder.
fn title(name: &FileName) -> String {
    match name {
        FileName::Path(path) => {
            let file = path.file_name().unwrap_or(path.as_os_str());
            harmless(&file.to_string_lossy())
        }
        FileName::Standard => "a record".to_string(),
    }
}

fn page_text(title: &str, design: &Design, worked: &Worked, names: &Names) -> String {
    let title = escaped(title);
    let style = include_str!("page.css");
    let sections = [
        head(&title, design, worked),
        parts(design, names),
        retired(design, names),
        sets(design, names),
        signature(worked),
        importance(design, worked, names),
        tail(worked),
        path_counts(worked),
        domination(worked),
        bytes(design),
    ];
    format!(
        "\
<!DOCTYPE html>
<html lang=\"en\">
<head>
<meta charset=\"utf-8\" />
<meta name=\"viewport\" content=\"width=device-width, initial-scale=1\" />
<meta name=\"color-scheme\" content=\"light dark\" />
<title>{title}</title>
<style>
{style}</style>
</head>
<body>
<main>
{}</main>
<footer><p>Made by nahokipe {}. All figures are whole numbers worked out by a proved library; per cent are rounded.</p></footer>
</body>
</html>
",
        sections.concat(),
        env!("CARGO_PKG_VERSION")
    )
}

/// A section under a heading, with a sentence that says what it is.
fn section(heading: &str, sentence: &str, content: &str) -> String {
    format!("<section>\n<h2>{heading}</h2>\n<p>{sentence}</p>\n{content}</section>\n")
}

/// A table with a heading over each column; the first cell of a row is its heading. Cells are markup already.
fn table(headings: &[&str], rows: impl Iterator<Item = Vec<String>>) -> String {
    let heading = |text: &&str| format!("<th scope=\"col\">{text}</th>");
    let headings: String = headings.iter().map(heading).collect();
    let row = |cells: Vec<String>| {
        let rest: String = cells[1..]
            .iter()
            .map(|cell| format!("<td>{cell}</td>"))
            .collect();
        format!("<tr><th scope=\"row\">{}</th>{rest}</tr>\n", cells[0])
    };
    let rows: String = rows.map(row).collect();
    let head = format!("<thead><tr>{headings}</tr></thead>");
    format!("<div class=\"wide\"><table>\n{head}\n<tbody>\n{rows}</tbody>\n</table></div>\n")
}

/// A count with its fraction and per cent, as cells.
fn cells(first: impl ToString, share: &Share) -> Vec<String> {
    let per_cent = escaped(&share.per_cent());
    vec![
        first.to_string(),
        share.count.to_string(),
        share.fraction(),
        per_cent,
    ]
}

fn head(title: &str, design: &Design, worked: &Worked) -> String {
    let (parts, sets) = (
        counted(design.size(), "part"),
        counted(design.sets.len(), "smallest set"),
    );
    format!(
        "\
<h1>{title}</h1>
<p>A machine of {parts} with {sets} of parts that suffice to run it. Its parts can fail in
{}! = {}, all counted alike.</p>
<p>Part numbers in use: <strong>{}</strong>. The mark is <strong>{}</strong>, the highest number ever issued, also to
parts that left; {}. No number is issued twice along one line of changes.</p>
",
        design.size(),
        counted(worked.total as usize, "order"),
        listed(&design.parts),
        design.mark,
        design.next_number()
    )
}

fn parts(design: &Design, names: &Names) -> String {
    let rows = design.parts.iter().map(|&part| {
        let count = design.sets.iter().filter(|set| set.contains(&part)).count();
        vec![escaped(&named(part, names)), count.to_string()]
    });
    let sentence = "Each part by its number, and how many of the smallest sets name it.";
    section("Parts", sentence, &table(&["part", "sets"], rows))
}

/// The retired numbers of an edition 2 record; edition 1 keeps none.
fn retired(design: &Design, names: &Names) -> String {
    if design.edition == 1 {
        return String::new();
    }
    let line = |&number: &u64| format!("<li>{}</li>\n", escaped(&named(number, names)));
    let lines: String = design.retired.iter().map(line).collect();
    let content = match lines.is_empty() {
        true => "<p>There is none.</p>\n".to_string(),
        false => format!("<ul class=\"sets\">\n{lines}</ul>\n"),
    };
    let sentence = "The record is of edition 2, which keeps the numbers of parts that have left: the highest 64, if there are more.";
    section("Retired numbers", sentence, &content)
}

fn sets(design: &Design, names: &Names) -> String {
    let sentence = "The smallest sets of parts that suffice to run the machine, by part numbers. \
        A set that holds one of them suffices too.";
    let line = |set: &Vec<u64>| match names.is_empty() {
        true => format!("<li>{}</li>\n", listed(set)),
        false => format!(
            "<li>{} <small>{}</small></li>\n",
            listed(set),
            escaped(&names.of_set(set))
        ),
    };
    let content = match design.sets.len() {
        0..=SETS_AT_ONCE => {
            let lines: String = design.sets.iter().map(line).collect();
            format!("<ul class=\"sets\">\n{lines}</ul>\n")
        }
        count => {
            let sets: Vec<String> = design.sets.iter().map(|set| listed(set)).collect();
            unfolded(
                &format!("all {count} sets"),
                &format!("<p class=\"compact\">{}</p>\n", sets.join(",\n")),
            )
        }
    };
    section("Sets", sentence, &content)
}

/// What the reader unfolds.
fn unfolded(summary: &str, content: &str) -> String {
    format!("<details>\n<summary>{summary}</summary>\n{content}</details>\n")
}

fn signature(worked: &Worked) -> String {
    let bars = (1..).zip(&worked.signature).map(|(failure, share)| Bar {
        label: failure.to_string(),
        words: format!(
            "the {} failure: {} of {} orders",
            ordinal(failure),
            share.count,
            share.total
        ),
        share: *share,
    });
    let bars: Vec<Bar> = bars.collect();
    let rows = (1..)
        .zip(&worked.signature)
        .map(|(failure, share): (usize, _)| cells(failure, share));
    let table = table(&["failure", "orders", "fraction", "per cent"], rows);
    let about = "Signature: how often the 1st, 2nd, ... failure stops the machine, in per cent of all orders";
    let sentence =
        "In how many of the orders it is the 1st, 2nd, ... failure that stops the machine.";
    section("Signature", sentence, &(chart(about, &bars) + &table))
}

fn importance(design: &Design, worked: &Worked, names: &Names) -> String {
    let parts = || design.parts.iter().zip(&worked.importance);
    let bars = parts().map(|(&part, share)| Bar {
        label: part.to_string(),
        words: format!(
            "part {}: {} of {} orders",
            named(part, names),
            share.count,
            share.total
        ),
        share: *share,
    });
    let bars: Vec<Bar> = bars.collect();
    let rows = parts().map(|(&part, share)| cells(escaped(&named(part, names)), share));
    let table = table(&["part", "orders", "fraction", "per cent"], rows);
    let about = "Importance: how often the failure of each part stops the machine, in per cent of all orders";
    let sentence = "In how many of the orders it is the failure of this part that stops the machine (Barlow and Proschan). \
        The more, the more hangs on the part; a part with 0 is idle: the machine never misses it.";
    section(
        "Importance of the parts",
        sentence,
        &(chart(about, &bars) + &table),
    )
}

/// A part's number, with its name if it has one.
fn named(part: u64, names: &Names) -> String {
    match names.name(part) {
        "" => part.to_string(),
        name => format!("{part} {name}"),
    }
}

fn tail(worked: &Worked) -> String {
    let rows = worked
        .tail
        .iter()
        .enumerate()
        .map(|(failures, share)| cells(failures, share));
    let table = table(&["failures", "orders", "fraction", "per cent"], rows);
    section(
        "Tail",
        "In how many of the orders the machine still runs after so many failures.",
        &table,
    )
}

fn path_counts(worked: &Worked) -> String {
    let rows = worked.path_counts.iter().enumerate().map(|(size, share)| {
        let (count, all) = (share.count.to_string(), share.total.to_string());
        vec![size.to_string(), count, all, escaped(&share.per_cent())]
    });
    let table = table(&["parts", "path sets", "of", "per cent"], rows);
    section(
        "Path counts",
        "How many of all sets of so many parts run the machine.",
        &table,
    )
}

fn domination(worked: &Worked) -> String {
    let polynomial = polynomial(&worked.domination, |power| format!("x<sup>{power}</sup>"));
    let rows = worked.domination.iter().enumerate().skip(1);
    let rows = rows.map(|(power, number)| vec![power.to_string(), number.to_string()]);
    let content = format!(
        "<p class=\"polynomial\">{polynomial}</p>\n{}",
        table(&["power of x", "coefficient"], rows)
    );
    let sentence = "If each part works with the same probability x, independently of the others, \
        the machine works with this probability.";
    section("Domination", sentence, &content)
}

fn bytes(design: &Design) -> String {
    let line = |bytes: &[u8]| {
        let words: Vec<String> = bytes.iter().map(|byte| format!("{byte:02X}")).collect();
        words.join(" ") + "\n"
    };
    let lines: String = design.bytes.chunks(16).map(line).collect();
    let lines = format!("<pre>{lines}</pre>\n");
    let length = design.bytes.len();
    let content = match design.sets.len() {
        0..=SETS_AT_ONCE => lines,
        _ => unfolded("all bytes", &lines),
    };
    section(
        "The record",
        &format!("{} in hexadecimal.", counted(length, "byte")),
        &content,
    )
}

/// A text as it stands in markup, in an element and in an attribute.
pub fn escaped(text: &str) -> String {
    let one = |c: char| match c {
        '&' => "&amp;".to_string(),
        '<' => "&lt;".to_string(),
        '>' => "&gt;".to_string(),
        '"' => "&quot;".to_string(),
        other => other.to_string(),
    };
    text.chars().map(one).collect()
}
