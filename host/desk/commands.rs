//! The commands: their words, what each is for, and the help.

use crate::arguments::Arguments;
use crate::ending::Ending;
use crate::{blocks, changes, diff, edition, entering, explain, figures, idle};
use crate::{joint, nearest, page, shares, sheets, showing};
use std::ffi::OsStr;

/// A command of the program.
pub struct Command {
    pub name: &'static str,
    /// The words behind it, as the usage shows them.
    words: &'static str,
    /// What it does, in a line.
    summary: &'static str,
    /// The words of its second form and what that does, where it has one.
    second: Option<(&'static str, &'static str)>,
    /// What its help says beyond that.
    details: &'static str,
    /// How many words it takes at least and, where there is a limit, at most.
    pub fewest: usize,
    pub most: Option<usize>,
    /// How many of the first words are files that are read.
    pub inputs: usize,
    pub takes_names: bool,
    pub takes_output: bool,
    pub run: fn(&Arguments) -> Result<(), Ending>,
}

/// A command that takes one record and prints something of it.
const ONE_RECORD: Command = Command {
    name: "",
    words: "RECORD",
    summary: "",
    second: None,
    details: "",
    fewest: 1,
    most: Some(1),
    inputs: 1,
    takes_names: false,
    takes_output: false,
    run: showing::report,
};

/// All commands, in the order of the help.
static COMMANDS: [Command; 20] = [
    Command {
        name: "enter",
        words: "TEXT RECORD",
        summary: "make a record of parts that already have numbers",
        details: "\
TEXT says the machine by part numbers, in this order:

    mark 15            the highest number ever issued, also to parts that left
    parts 3 7 12       the numbers of the parts, rising
    set 3 7            a set of parts that suffices to run the machine,
    set 3 12           one line for each; comments go from # to the end of a line

`cut` lines may stand in place of the `set` lines, as service manuals list them, one for each
cut set: a set of parts whose joint failure stops the machine. `cut 3` and `cut 7 12` say the
machine above. Every minimal cut set, one that holds no other, has to be there: failures that
hold none of the listed sets are taken not to stop it.

The mark has no default: the numbers in use do not show which ones were issued before. What
was entered is printed back, with the number that the next part will get. RECORD is a new
file; one that is there is not replaced.

    nahokipe enter tab6.txt tab6.record
",
        fewest: 2,
        most: Some(2),
        run: entering::enter,
        ..ONE_RECORD
    },
    Command {
        name: "new",
        words: "DRAWING RECORD",
        summary: "make a record from a drawing's text, with numbers 1 to n",
        second: Some((
            "PATTERN K N RECORD",
            "the same from a pattern: at-least, row or ring",
        )),
        details: "\
DRAWING is the text that the drawing tool writes: `parts 5`, then `set 1 4` for each set, by
positions. PATTERN is the word of a stock pattern of N parts; N is 1 to 16, and K is 1 to N:

    at-least 2 3       runs exactly if at least 2 of the 3 parts work
    row 2 5            5 parts in a row, stopped exactly if some 2 neighbours have failed
    ring 2 6           the same of 6 parts in a ring, where 6 and 1 are neighbours too

More than K failed neighbours stop a row or a ring as well. Two words are always a drawing and
a record, also where the drawing's file has the name of a pattern.

The parts are numbered from 1 on, along the row or the ring, and the mark is the last number,
whatever numbers they had elsewhere; parts that already have numbers are entered with
`nahokipe enter`. What was made is printed back. RECORD is a new file; one that is there is not
replaced.

    nahokipe new bridge.txt bridge.record
    nahokipe new ring 2 6 sensors.record
",
        fewest: 2,
        most: Some(4),
        run: entering::new,
        ..ONE_RECORD
    },
    Command {
        name: "show",
        words: "RECORD [--names FILE]",
        summary: "mark, parts and sets, as a text that `enter` takes",
        details: "\
What it prints makes the same record again, byte for byte; of an edition 2 record it makes one
of edition 1. That edition and its retired numbers are shown as comments, and so are names.

    nahokipe show tab6.record --names names.txt
",
        takes_names: true,
        run: showing::show,
        ..ONE_RECORD
    },
    Command {
        name: "cuts",
        words: "RECORD [--names FILE]",
        summary: "mark, parts and cut sets, as a text that `enter` takes",
        details: "\
A cut set is a set of parts whose joint failure stops the machine. The minimal ones, which hold
no other, are printed. What it prints makes the same record again, byte for byte; of an edition
2 record it makes one of edition 1. That edition and its retired numbers are shown as comments,
and so are names.

    nahokipe cuts tab6.record --names names.txt
",
        takes_names: true,
        run: showing::cuts,
        ..ONE_RECORD
    },
    Command {
        name: "idle",
        words: "RECORD [--names FILE]",
        summary: "the parts that never change whether it runs",
        details: "\
A part is idle if adding it to a set of parts never changes whether the machine runs. Each idle
part has a line, such as `idle 16`; where there is none, a comment says so. Names are shown as
comments.

Exactly the idle parts have importance 0: in no order of failures does the failure of one stop
the machine. Exactly the idle parts are in none of the sets that `nahokipe show` prints, and
these sets stay as they are if idle parts are taken out.

    nahokipe idle tab6.record --names names.txt
",
        takes_names: true,
        run: idle::idle,
        ..ONE_RECORD
    },
    Command {
        name: "drawing",
        summary: "the record as the drawing tool's text, by positions",
        details: "\
The text has positions and no part numbers. Where the parts are not numbered 1 to n with mark
n, a warning says so: a record that is made from the text numbers them anew.

    nahokipe drawing bridge.record
",
        run: showing::drawing,
        ..ONE_RECORD
    },
    Command {
        name: "report",
        summary: "the report, as the library writes it",
        details: "\
The lines are made for programs: `parts`, `order`, `dom` and `part`. `nahokipe figures` says
the same figures for people.

    nahokipe report bridge.record
",
        ..ONE_RECORD
    },
    Command {
        name: "figures",
        words: "RECORD [--names FILE]",
        summary: "all figures, with fractions and per cent",
        details: "\
Signature, tail, path counts, domination and the importance of each part, out of n! orders of
failure, with a sentence for each that says what it is.

    nahokipe figures bridge.record
",
        takes_names: true,
        run: figures::figures,
        ..ONE_RECORD
    },
    Command {
        name: "shares",
        words: "RECORD NUMBER...",
        summary: "how often the failures inside a group stop the machine",
        details: "\
The group is given by the part numbers. Its shares are worked out set by set and through the
polynomial in two variables, printed side by side and compared.

    nahokipe shares bridge.record 1 2 3
",
        fewest: 2,
        most: None,
        run: shares::shares,
        ..ONE_RECORD
    },
    Command {
        name: "joint",
        words: "FIRST SECOND",
        summary: "two machines on one cart: which failure stops which",
        details: "\
FIRST and SECOND are the records of two machines that share parts. Row k and column l of the
square say in how many orders the k-th failure stops the first machine and the l-th the second;
a dot is 0. The sums, at `any`, are the signatures: of the first machine behind the rows, of the
second below the columns. Then it says in how many orders the first machine stops before the
second, at the same failure, and after it.

Both records must have the same part numbers, and equal numbers are taken for the same part. So
enter both machines with the same `parts` line, that of the cart; a part that one of them does
not need is idle there.

    nahokipe joint heating.record pumping.record
",
        fewest: 2,
        most: Some(2),
        inputs: 2,
        run: joint::joint,
        ..ONE_RECORD
    },
    Command {
        name: "save",
        words: "RECORD KIND SHEET",
        summary: "write a sheet, which keeps one figure of a machine",
        details: "\
KIND is the figure: `path-counts`, `signature` or `domination`. Each of them says the same as
the others. Sheets of the tail are not written any more, so `tail` is refused; the signature
says the same. What was written is printed back. SHEET is a new file; one that is there is not
replaced.

    nahokipe save tab6.record signature tab6.sheet
",
        fewest: 3,
        most: Some(3),
        run: sheets::save,
        ..ONE_RECORD
    },
    Command {
        name: "sheet",
        words: "SHEET [KIND] [-o NEW]",
        summary: "what a sheet holds, as `figures` prints that figure",
        details: "\
A sheet keeps one figure of a machine, without its parts and sets. With KIND, which is
`path-counts`, `tail`, `signature` or `domination`, what it holds is shown as that figure; each
of them says the same as the others.

With -o it is written to NEW, a new sheet: as KIND, or without one as it is. What was written is
printed back. Sheets of the tail are read as before, and none is written any more: a tail is
written as the signature, which says the same, and `tail` with -o is refused.

    nahokipe sheet tail6.sheet
    nahokipe sheet tail6.sheet -o signature6.sheet
",
        most: Some(2),
        takes_output: true,
        run: sheets::sheet,
        ..ONE_RECORD
    },
    Command {
        name: "blocks",
        words: "RECORD NUMBER=BLOCK... [--names FILE] [-o NEW]",
        summary: "a machine made of blocks, by their sheets or path counts",
        details: "\
The parts of RECORD are blocks: its sets say which blocks suffice to run the whole. NUMBER=BLOCK
says what is known of the block that the part with this number is, and BLOCK is one of these:

    pump-unit.sheet    the file of a sheet that holds a figure of it, of any kind
    0,0,2,1            its path counts: how many of its sets of 0, 1, 2, ... parts run it

What is nothing but numbers with commas between them, two at least, is path counts, and a file
of such a name is `./0,1`. A part for which no block is given is one part. The signature and the
path counts of the whole, which has up to 16 parts, are printed; with -o the path counts are
written to NEW, a new sheet.

The figures are those of every machine that is put together so, however its blocks are made
inside and wherever their parts stand, as long as no two blocks share a part. Where two do, a
common battery say, the figures are wrong, and nobody can see that from the files. No part
numbers of the blocks are known, so there are no importances and no record of the whole. If what
is given is a figure that no block has, the figures are what equations (12) and (13) of document
003 give.

    nahokipe blocks units.record 4=pump-unit.sheet 9=gas-unit.sheet
    nahokipe blocks units.record 4=0,0,2,1 9=gas-unit.sheet
",
        fewest: 2,
        most: None,
        takes_names: true,
        takes_output: true,
        run: blocks::blocks,
        ..ONE_RECORD
    },
    Command {
        name: "add-part",
        words: "RECORD [-o NEW]",
        summary: "add a part, with a number that was never issued",
        details: "\
The number is the mark and one, and becomes the mark. RECORD is replaced by the new record; with
-o the new record is written to NEW, a new file, and RECORD stays as it is. Of two copies
go on with one: both issue the same next number.

    nahokipe add-part tab6.record
",
        takes_output: true,
        run: changes::add_part,
        ..ONE_RECORD
    },
    Command {
        name: "add-set",
        words: "RECORD NUMBER... [-o NEW]",
        summary: "add a set of parts that suffices to run it",
        details: "\
The set is given by the part numbers. Sets that hold it go, since they say nothing any more.
RECORD is replaced by the new record; with -o the new record is written to NEW, a new file.

    nahokipe add-set tab6.record 3 16
",
        fewest: 2,
        most: None,
        takes_output: true,
        run: changes::add_set,
        ..ONE_RECORD
    },
    Command {
        name: "take-out",
        words: "RECORD NUMBER... [-o NEW]",
        summary: "take parts out, with every set that names one",
        details: "\
The parts are given by their numbers; several leave together or not at all. Their numbers are
never issued again. An edition 2 record files them as retired, and of more than 64 keeps the
highest 64. RECORD is replaced by the new record; with -o the new record is written to NEW, a
new file.

    nahokipe take-out tab6.record 7
",
        fewest: 2,
        most: None,
        takes_output: true,
        run: changes::take_out,
        ..ONE_RECORD
    },
    Command {
        name: "edition",
        words: "RECORD [--names FILE]",
        summary: "its edition, and the retired numbers",
        second: Some((
            "RECORD EDITION [-o NEW]",
            "the same record in edition 1 or 2",
        )),
        details: "\
An edition 2 record also has the path counts of its machine and its retired numbers: those of
the parts that were taken out of it, the highest 64. Every command takes both editions, and a
change keeps the edition.

EDITION is 1 or 2. RECORD is replaced by the record in that edition; with -o that is written to
NEW, a new file, and RECORD stays as it is. A record with retired numbers does not become one
of edition 1, which has no place for them.

    nahokipe edition tab6.record 2
",
        most: Some(2),
        takes_names: true,
        takes_output: true,
        run: edition::edition,
        ..ONE_RECORD
    },
    Command {
        name: "diff",
        words: "OLD NEW [--names FILE]",
        summary: "parts, sets and figures that changed",
        details: "\
It also says where NEW cannot have come from OLD by changes, because it has a number again
that was issued before, a lower mark, or retired numbers that changes would not have given it.
The status is 0 whether or not the records differ.

    nahokipe diff old.record tab6.record
",
        fewest: 2,
        most: Some(2),
        inputs: 2,
        takes_names: true,
        run: diff::diff,
        ..ONE_RECORD
    },
    Command {
        name: "page",
        words: "RECORD [--names FILE] [-o FILE]",
        summary: "one HTML page: parts, sets, figures, charts",
        details: "\
The page needs nothing beside itself and opens in any browser. It goes to standard output, or
with -o to a new file.

    nahokipe page tab6.record --names names.txt -o tab6.html
",
        takes_names: true,
        takes_output: true,
        run: page::page,
        ..ONE_RECORD
    },
    Command {
        name: "explain",
        words: "REFUSAL [PLACE]",
        summary: "a refusal in words: meaning, usual cause, what to do",
        details: "\
REFUSAL and PLACE are the two numbers of a line `refused NUMBER PLACE`.

    nahokipe explain 17 0
",
        most: Some(2),
        inputs: 0,
        run: explain::explain,
        ..ONE_RECORD
    },
];

impl Command {
    /// Its forms: the words of each and what it does.
    fn forms(&self) -> impl Iterator<Item = (&'static str, &'static str)> {
        [(self.words, self.summary)].into_iter().chain(self.second)
    }

    /// How it is used, a line for each form.
    pub fn usage(&self) -> String {
        let name = self.name;
        let line = |(words, _)| format!("nahokipe {name} {words}\n");
        let lines: Vec<String> = self.forms().map(line).collect();
        format!("usage: {}", lines.join("       "))
    }

    /// The help of this command.
    pub fn help(&self) -> String {
        let (usage, details) = (self.usage(), self.details);
        let summaries = self.forms().map(|(_, summary)| format!("{summary}\n"));
        let summaries: String = summaries.collect();
        format!("{usage}\n{summaries}\n{details}")
    }
}

/// How wide the column of the commands and their words is in the help of the program.
const COLUMN: usize = 37;

/// The help of the program. What a command does stands on a line of its own where its words fill the column.
pub fn overview() -> String {
    let lines = |command: &Command| {
        let name = command.name;
        let line = |(words, summary)| match format!("{name} {words}") {
            form if form.len() < COLUMN => format!("  {form:<COLUMN$}{summary}\n"),
            form => format!("  {form}\n  {:COLUMN$}{summary}\n", ""),
        };
        command.forms().map(line).collect::<String>()
    };
    let lines: String = COMMANDS.iter().map(lines).collect();
    format!(
        "\
Keeps the records of machines of up to 16 parts: the parts by number, the sets of parts that
suffice to run the machine, and how likely the first, second or third failure is to stop it.

usage: nahokipe COMMAND ...

{lines}
  COMMAND --help                       more about a command, with an example
  --help, --version

Parts are named by their numbers everywhere; positions stand in the drawing tool's text alone.
`-` is standard input or output. --names FILE shows names beside the numbers: lines such as
`12 oxygen sensor`. Exit status: 0 done, 1 refused, 2 wrong use or a file that cannot be read
or written.
"
    )
}

/// The command of this name.
pub fn named(name: &OsStr) -> Option<&'static Command> {
    COMMANDS.iter().find(|command| name == command.name)
}

/// What is said of a command that there is not, with the nearest that there is.
pub fn unknown(name: &str) -> String {
    let hint = nearest::hint(name, COMMANDS.iter().map(|command| command.name));
    format!("there is no command `{name}`{hint}\n`nahokipe --help` lists all commands")
}
