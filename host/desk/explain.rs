//! The refusals in words: what each means, what its place is, its usual cause and what to do.

use crate::arguments::Arguments;
use crate::ending::Ending;
use crate::files::harmless;
use crate::numbers::number;
use crate::output::{self, Stream};
use nahokipe::Refusal;

/// A refusal in words.
struct Explanation {
    meaning: &'static str,
    /// What the place is; empty where it is always 0.
    place: &'static str,
    cause: &'static str,
    remedy: &'static str,
}

/// The end of what the place is where it may also stand for none; then a 0 is not explained to who was refused.
const ELSE_NONE: &str = "else 0";
/// What the place is of a refusal that a record, a text and a list of sets can have.
const BYTE_LINE_OR_NONE: &str = "in a record the byte where the number stands, counted from 0; in a drawing's text the line, counted from 1; else 0";
/// What the place is of a refusal that a record and a list of sets can have.
const BYTE_OR_INDEX: &str = "in a record the byte where the set stands, counted from 0; in a program's list the set, counted from 0; 0 for a set that is added";

/// The explanations of refusals 1 to 34.
const EXPLANATIONS: [Explanation; 34] = [
    Explanation {
        meaning: "the number of parts is not 1 to 16",
        place: BYTE_LINE_OR_NONE,
        cause: "a text was given where a record belongs (1 at place 0), a sheet is damaged, or the machine has more than 16 parts",
        remedy: "give the record itself, or a copy of the sheet that is whole; `nahokipe enter` makes a record from a text by part numbers, `nahokipe new` from a drawing's text or a pattern of up to 16 parts",
    },
    Explanation {
        meaning: "there is no set: nothing says what the machine needs to run",
        place: BYTE_LINE_OR_NONE,
        cause: "the `set` lines are missing, and no `cut` lines stand in their place",
        remedy: "write at least one set of parts that suffices to run the machine, or one whose joint failure stops it",
    },
    Explanation {
        meaning: "there are over 12,870 sets, more than 16 parts can have with none holding another",
        place: BYTE_LINE_OR_NONE,
        cause: "sets that repeat or hold others were written down too, or the bytes are no record",
        remedy: "leave out each set that holds another one",
    },
    Explanation {
        meaning: "a set names a part that the machine lacks",
        place: BYTE_OR_INDEX,
        cause: "a set of a larger machine, in bytes that were made by hand",
        remedy: "let `nahokipe enter` write the record from part numbers",
    },
    Explanation {
        meaning: "a set is empty",
        place: BYTE_OR_INDEX,
        cause: "a 0 among the sets, in bytes that were made by hand",
        remedy: "leave the empty set out",
    },
    Explanation {
        meaning: "a table has the wrong length",
        place: "",
        cause: "a program gave the table of a machine with another number of parts",
        remedy: "a table of n parts has 2^n / 8 bytes, and one byte for 1 and 2 parts",
    },
    Explanation {
        meaning: "an unused bit of a table is set",
        place: "",
        cause: "a program did not clear the table of a machine with one or two parts",
        remedy: "clear the byte first",
    },
    Explanation {
        meaning: "in a table the machine runs with no part at all",
        place: "",
        cause: "a program made the table by hand, or turned it round",
        remedy: "make the table from a list of sets",
    },
    Explanation {
        meaning: "in a table the machine does not run with all its parts",
        place: "",
        cause: "a program made the table by hand, or did not fill it",
        remedy: "make the table from a list of sets",
    },
    Explanation {
        meaning: "in a table the machine runs with some parts and not with one part more",
        place: "the smallest such set of parts, as a mask",
        cause: "a program made the table by hand",
        remedy: "make the table from a list of sets",
    },
    Explanation {
        meaning: "a buffer is too short for the result",
        place: "how many cells the result needs",
        cause: "a program lent too little room; the desk always has enough",
        remedy: "lend as many cells as the place says",
    },
    Explanation {
        meaning: "a vector has the wrong length, or the lists of blocks have",
        place: "",
        cause: "a program gave figures of a machine with another number of parts, or of other blocks",
        remedy: "a signature has n entries; path counts, tail and domination have n + 1; blocks have one size each, and size + 1 path counts",
    },
    Explanation {
        meaning: "figures stand for a path count that is not whole or out of its range",
        place: "the smallest size of sets whose count is wrong",
        cause: "a figure was mistyped, or a sheet is damaged",
        remedy: "compare the figures with the machine's report or the supplier's letter, or go back to a copy of the sheet that is whole",
    },
    Explanation {
        meaning: "in figures the proportion of sets that run the machine falls from one size to the next",
        place: "the smaller of the two sizes",
        cause: "figures of two machines were mixed, or a sheet is damaged",
        remedy: "compare the figures with the machine's report or the supplier's letter, or go back to a copy of the sheet that is whole",
    },
    Explanation {
        meaning: "a group of parts is empty",
        place: "",
        cause: "no part was named",
        remedy: "name at least one part",
    },
    Explanation {
        meaning: "a group names a position beyond the last part",
        place: "",
        cause: "a program took a position for a mask; the desk takes part numbers",
        remedy: "the part at position i is bit i - 1 of a mask",
    },
    Explanation {
        meaning: "no part has this number; in a drawing's text, the machine has no such position",
        place: "in a drawing's text the line, counted from 1; else 0",
        cause: "the part has left, the number was mistyped, or it is another machine's",
        remedy: "compare with the part numbers that `nahokipe show` prints, or with the `parts` line of the text",
    },
    Explanation {
        meaning: "every set names one of the parts that should leave, so that nothing would run the machine without them",
        place: "",
        cause: "the machine cannot run without these parts",
        remedy: "first add the set of parts that runs the machine without them: `nahokipe add-set`",
    },
    Explanation {
        meaning: "the machine has 16 parts already, and a record holds no more",
        place: "",
        cause: "a part was to be added to a full record",
        remedy: "take a part out first",
    },
    Explanation {
        meaning: "the highest part number, 281474976710655 (2^48 - 1), has been issued, and none is left",
        place: "",
        cause: "the mark was entered too high, or the record is at the end of its numbers",
        remedy: "start a new record, which is another line of changes: its numbers are not kept apart from the old one's",
    },
    Explanation {
        meaning: "the bytes end before a number does",
        place: "how many bytes there are",
        cause: "the file was cut off in copying, or is empty",
        remedy: "copy it again from where it is whole",
    },
    Explanation {
        meaning: "a number is not written in its shortest form, takes too many bytes or is too large",
        place: "the byte where the number begins, counted from 0",
        cause: "the file is neither a record nor a sheet, or is damaged at that byte",
        remedy: "go back to a copy that is whole",
    },
    Explanation {
        meaning: "a part number is 0, does not rise or is above the mark, or the mark is above 281474976710655 (2^48 - 1)",
        place: "in a record the byte where the number begins; in a text that is entered the number's index among the parts, counted from 0, and the number of parts where it is the mark",
        cause: "the parts were not sorted, or the mark is lower than a part number",
        remedy: "write the part numbers rising; the mark is the highest number ever issued, also to parts that left",
    },
    Explanation {
        meaning: "the sets do not rise, or one holds another",
        place: "the byte where the set begins, counted from 0",
        cause: "a record that was made or changed by hand",
        remedy: "let `nahokipe enter` write the record from part numbers",
    },
    Explanation {
        meaning: "bytes are left behind the record or the sheet",
        place: "the first of these bytes, counted from 0",
        cause: "an editor put a line feed at the end of the file, two files were joined, or it is a file of another sort",
        remedy: "go back to a copy that is whole",
    },
    Explanation {
        meaning: "there is no such kind of vector",
        place: "",
        cause: "the first byte of a sheet is not 1 to 4: the file is a record, a text or of another sort",
        remedy: "give a sheet that the calculator wrote; `nahokipe save` writes one from a record",
    },
    Explanation {
        meaning: "a line of a text is of another form",
        place: "the line, counted from 1",
        cause: "a word mistyped, a number with a leading zero, `set` and `cut` lines in one text, or a file of another sort; in a drawing's text also a tab, a carriage return, a byte order mark, a blank too many, or no line feed at the end",
        remedy: "write `mark 15`, `parts 3 7 12`, `set 3 7` or `cut 7 12` for `nahokipe enter`, by part numbers; `parts 5`, `set 1 4` for `nahokipe new`, by positions",
    },
    Explanation {
        meaning: "a part stands twice in one set or group",
        place: "in a drawing's text the line, counted from 1; else 0",
        cause: "a number was mistyped",
        remedy: "write each part once",
    },
    Explanation {
        meaning: "a pattern's number K is not 1 to N, the number of its parts",
        place: "",
        cause: "K and N were exchanged, as in `nahokipe new at-least 3 2`",
        remedy: "write K first, how many parts have to work or how many neighbours have to fail, and then N: `nahokipe new at-least 2 3`",
    },
    Explanation {
        meaning: "an edition 2 record has over 64 retired numbers, or one that is 0, does not rise, is above the mark or in use",
        place: "the byte where the retired number begins, counted from 0; where there are over 64, that of their count",
        cause: "a record that was made or changed by hand, or is damaged at that byte",
        remedy: "go back to a copy that is whole; `nahokipe edition` and `nahokipe take-out` write the list",
    },
    Explanation {
        meaning: "a path count of an edition 2 record is not the one that its sets give",
        place: "the byte where the path count begins, counted from 0",
        cause: "the sets were changed by hand and the counts were not, or the record is damaged",
        remedy: "go back to a copy that is whole, and look at its sets; `nahokipe add-set` and `nahokipe take-out` keep the counts right",
    },
    Explanation {
        meaning: "the record has retired numbers, which edition 1 has no place for",
        place: "",
        cause: "parts were taken out of the record in edition 2, which files their numbers",
        remedy: "keep it in edition 2, which every command takes; or make another record without them, by `nahokipe show` and `nahokipe enter`",
    },
    Explanation {
        meaning: "the blocks have more than 16 parts in all",
        place: "",
        cause: "a sheet or path counts of another block or of a whole machine were given for a block, or the machine is too large for the calculator",
        remedy: "compare how many parts each sheet has, which `nahokipe sheet` says, and each list of path counts, one fewer than its numbers, with the blocks of the machine; a part for which no block is given counts as one",
    },
    Explanation {
        meaning: "a tail sheet was to be written by name, and none is written any more",
        place: "",
        cause: "`tail` was named as the kind of a new sheet; nobody reads tail sheets on paper any more, and those that are stored are still taken",
        remedy: "save the signature, which says the same; `nahokipe sheet` without -o still shows the tail",
    },
];

/// The command `explain`: a refusal in words.
pub fn explain(arguments: &Arguments) -> Result<(), Ending> {
    let wrong = |word: &str, what| arguments.wrong(&format!("`{}` is no {what}", harmless(word)));
    let words: Vec<_> = arguments
        .words()
        .map(|word| word.to_string_lossy())
        .collect();
    let known = |word: &str| number(word.as_bytes()).and_then(explanation);
    let Some(explanation) = known(&words[0]) else {
        let what = "refusal's number; they are 1 to 34";
        return Err(wrong(&words[0], what));
    };
    let place = words
        .get(1)
        .map(|place| format!(" {place}"))
        .unwrap_or_default();
    match number(place.trim_start().as_bytes()) {
        None if !place.is_empty() => Err(wrong(&words[1], "place, a number")),
        _ => output::print(&told(explanation, &words[0], &place, ""), Stream::Output),
    }
}

/// What a refused run says on standard error: what was refused and why, and what to do.
pub fn in_short(refusal: Refusal, about: &str) -> String {
    let (number, place) = (refusal.number.to_string(), format!(" {}", refusal.place));
    let told = explanation(u64::from(refusal.number)).map(|explanation| {
        let no_place = refusal.place == 0 && explanation.place.ends_with(ELSE_NONE);
        let shorter = Explanation {
            place: "",
            ..*explanation
        };
        told(
            if no_place { &shorter } else { explanation },
            &number,
            &place,
            "  ",
        )
    });
    format!("nahokipe: {about}\n{}", told.unwrap_or_default())
}

/// The explanation of the refusal that has this number.
fn explanation(number: u64) -> Option<&'static Explanation> {
    let index = usize::try_from(number).ok()?.checked_sub(1)?;
    EXPLANATIONS.get(index)
}

/// The parts of an explanation, one below the other. The place has a blank in front or is empty.
fn told(explanation: &Explanation, number: &str, place: &str, indent: &str) -> String {
    let lines = [
        (format!("refused {number}{place}"), explanation.meaning),
        (format!("place{place}"), explanation.place),
        ("usual cause".to_string(), explanation.cause),
        ("what to do".to_string(), explanation.remedy),
    ];
    let told = lines.iter().filter(|(_, text)| !text.is_empty());
    let line = |(label, text): &(String, &str)| wrapped(&format!("{label}: {text}"), indent);
    told.map(line).collect()
}

/// A text in lines of up to 90 characters, all moved in, and all but the first a bit more.
fn wrapped(text: &str, indent: &str) -> String {
    let mut lines = String::new();
    let mut line = indent.to_string();
    for word in text.split_whitespace() {
        if line.chars().count() + word.chars().count() > 90 {
            lines += &format!("{}\n", line.trim_end());
            line = format!("{indent}    ");
        }
        line += &format!("{word} ");
    }
    lines + line.trim_end() + "\n"
}
