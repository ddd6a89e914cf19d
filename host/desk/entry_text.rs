//! The text that people write a machine down in, all by part numbers: `mark 15`, `parts 3 7 12`, and `set 3 7` for each set that suffices
//! to run it, or in their place `cut 7 12` for each set whose joint failure stops it.

use crate::design::{holds, Design, TOP_NUMBER};
use crate::edition;
use crate::files::{harmless, past_mark};
use crate::meaning::Meaning;
use crate::names::Names;
use crate::numbers::{counted, listed, number, said};
use nahokipe::lent::MOST_SETS;
use nahokipe::Refusal;
use std::collections::BTreeSet;

/// The refusal number of a line of another form.
const WRONG_LINE: u8 = 27;
/// Why a text has to say its mark.
const NO_DEFAULT: &str = "
  the mark comes first and has no default: parts that left had numbers too, and those in use do not show them";

/// How many sets are read: one more than a list can have, so that the library refuses what is more.
const SETS_READ: usize = MOST_SETS + 1;

/// Numbers and the line on which they stand.
struct Line {
    place: usize,
    numbers: Vec<u64>,
}

/// What a text says. Whether it is a machine the library decides.
pub struct Entry {
    mark: Line,
    parts: Line,
    meaning: Meaning,
    sets: Vec<Line>,
}

/// A refusal, and what it is about.
pub type Refused = (Refusal, String);

impl Entry {
    /// Reads a text, or refuses its first line of another form.
    pub fn read(text: &[u8]) -> Result<Entry, Refused> {
        let text = past_mark(text);
        if text.starts_with(b"\xFF\xFE") || text.starts_with(b"\xFE\xFF") {
            return Err(other_form(1, "this is UTF-16 text; save it as UTF-8"));
        }
        let end = 1 + text.split_inclusive(|&byte| byte == b'\n').count();
        let lines = text.split(|&byte| byte == b'\n').zip(1..);
        let mut lines = lines.filter_map(content);
        let mark = mark_line(lines.next(), end)?;
        let parts = parts_line(lines.next(), end)?;
        let mut lines = lines.peekable();
        let meaning = meaning_of_text(lines.peek())?;
        let sets = lines.take(SETS_READ).map(|line| set_line(meaning, line));
        let sets = sets.collect::<Result<_, Refused>>()?;
        Ok(Entry {
            mark,
            parts,
            meaning,
            sets,
        })
    }

    /// The record of the text, which the library makes.
    pub fn record(&self) -> Result<Vec<u8>, Refused> {
        let parts = &self.parts.numbers;
        let mask = |set: &Line| {
            let mask = nahokipe::mask_of(parts, &set.numbers);
            mask.map_err(|refusal| (refusal, self.about_set(set, refusal)))
        };
        let list = self
            .sets
            .iter()
            .map(mask)
            .collect::<Result<Vec<u16>, Refused>>()?;
        let sets = self.path_sets(list);
        let record =
            sets.and_then(|sets| nahokipe::entered_record(self.mark.numbers[0], parts, &sets));
        record.map_err(|refusal| (refusal, self.about(refusal)))
    }

    /// The path sets of the machine: those of the text, or those that the library makes of its cut sets.
    fn path_sets(&self, list: Vec<u16>) -> Result<Vec<u16>, Refusal> {
        let n = self.parts.numbers.len();
        match self.meaning {
            Meaning::PathSets => Ok(list),
            Meaning::CutSets => nahokipe::minimal_sets(n, &nahokipe::table_of_cuts(n, &list)?),
        }
    }

    /// What is wrong with a set.
    fn about_set(&self, set: &Line, refusal: Refusal) -> String {
        let (parts, place) = (&self.parts.numbers, set.place);
        let stranger = || set.numbers.iter().find(|part| !parts.contains(part));
        match refusal.number {
            17 => {
                let number = stranger().copied().map(said).unwrap_or_default();
                let parts = listed(parts);
                format!("line {place}: {number} is no part's number; the parts are {parts}")
            }
            28 => {
                let number = twice(&set.numbers).map(|number| number.to_string());
                format!("line {place}: {} stands twice", number.unwrap_or_default())
            }
            _ => self.about(refusal),
        }
    }

    /// What is wrong with the mark, the parts or the number of sets.
    fn about(&self, refusal: Refusal) -> String {
        let (parts, place) = (&self.parts.numbers, self.parts.place);
        match refusal.number {
            1 => format!(
                "line {place}: {}; a machine has 1 to 16",
                counted(parts.len(), "part number")
            ),
            2 => "there is no `set` or `cut` line".to_string(),
            3 => format!("there are over {MOST_SETS} `{}` lines", self.meaning.word()),
            23 if refusal.place >= parts.len() => {
                format!(
                    "line {}: the mark is above {TOP_NUMBER}, which is 2^48 - 1",
                    self.mark.place
                )
            }
            23 => format!("line {place}: {}", self.about_part(refusal.place)),
            _ => format!("line {place}"),
        }
    }

    /// What is wrong with a part number, by its index from 0.
    fn about_part(&self, index: usize) -> String {
        let (parts, mark) = (&self.parts.numbers, self.mark.numbers[0]);
        let part = parts[index];
        match index.checked_sub(1).map(|before| parts[before]) {
            _ if part == 0 => "0 is no part number; they begin at 1".to_string(),
            Some(before) if before == part => format!("{part} stands twice"),
            Some(before) if before > part => {
                format!("{part} stands behind {before}; part numbers rise")
            }
            _ if part > mark => format!("{} is above the mark, {mark}", said(part)),
            _ => format!("{part} is above {TOP_NUMBER}, which is 2^48 - 1"),
        }
    }

    /// The text's record as the library reads it back, by path sets or by cut sets as the text is, so that one can hold the two side by
    /// side.
    pub fn read_back(&self, design: &Design) -> Result<String, Refusal> {
        let minimal = design.minimal(self.meaning)?;
        let text = text_of(design, self.meaning, &minimal, &Names::default());
        Ok(text + &self.left_out(&minimal) + &self.sets_made(design))
    }

    /// The sets of the text that hold another, so that the minimal ones do not have them: comments, one for each.
    fn left_out(&self, minimal: &[Vec<u64>]) -> String {
        let (word, kept) = (self.meaning.word(), minimal.iter().collect::<BTreeSet<_>>());
        let comment = |line: &Line| {
            let mut set = line.numbers.clone();
            set.sort_unstable();
            if kept.contains(&set) {
                return None;
            }
            let held = minimal.iter().find(|held| holds(&set, held))?;
            let (place, set, held) = (line.place, listed(&set), listed(held));
            Some(format!(
                "# line {place}: {word} {set} is left out, since it holds {word} {held}\n"
            ))
        };
        self.sets.iter().filter_map(comment).collect()
    }

    /// What was made of cut sets, as comments: what other failures are taken for, and how many path sets the record has.
    fn sets_made(&self, design: &Design) -> String {
        if self.meaning == Meaning::PathSets {
            return String::new();
        }
        let sets = match design.sets.len() {
            1 => "1 set that suffices".to_string(),
            count => format!("{count} sets that suffice"),
        };
        format!(
            "\
# failures that hold none of these cut sets do not stop this machine
# the record has {sets} to run it, which `nahokipe show` prints
"
        )
    }
}

/// The text of a machine, by its minimal path sets or its minimal cut sets; names, and what edition 2 has beyond edition 1, as comments.
pub fn text_of(design: &Design, meaning: Meaning, minimal: &[Vec<u64>], names: &Names) -> String {
    let mut text = format!("mark {}\nparts {}\n", design.mark, listed(&design.parts));
    for &part in design
        .parts
        .iter()
        .filter(|&&part| !names.name(part).is_empty())
    {
        text += &format!("# {part} {}\n", names.name(part));
    }
    text += &edition::comments(design, names);
    let sets: Vec<String> = minimal.iter().map(|set| listed(set)).collect();
    let width = sets.iter().map(String::len).max().unwrap_or(0);
    let word = meaning.word();
    for (set, numbers) in minimal.iter().zip(&sets) {
        text += &match names.is_empty() {
            true => format!("{word} {numbers}\n"),
            false => format!("{word} {numbers:<width$}  # {}\n", names.of_set(set)),
        };
    }
    text
}

/// What a line has before its comment, and its number.
type Content<'a> = (&'a [u8], usize);

/// The content of a line, if it has any.
fn content((line, place): (&[u8], usize)) -> Option<Content<'_>> {
    let comment = line.iter().position(|&byte| byte == b'#');
    let line = line[..comment.unwrap_or(line.len())].trim_ascii();
    (!line.is_empty()).then_some((line, place))
}

/// The words of a line, blanks and tabs between them.
fn words(line: &[u8]) -> impl Iterator<Item = &[u8]> {
    let words = line.split(|&byte| byte == b' ' || byte == b'\t');
    words.filter(|word| !word.is_empty())
}

/// The first line: `mark` and one number.
fn mark_line(line: Option<Content>, end: usize) -> Result<Line, Refused> {
    let wanted = "`mark` and the highest number ever issued, as in `mark 15`";
    let Some((line, place)) = line else {
        let why = format!("the text ends without {wanted}{NO_DEFAULT}");
        return Err(other_form(end, &why));
    };
    match numbers_behind(b"mark", line, place)?[..] {
        [number] => Ok(Line {
            place,
            numbers: vec![number],
        }),
        _ => {
            let why = format!("`{}` is not {wanted}{NO_DEFAULT}", shown(line));
            Err(other_form(place, &why))
        }
    }
}

/// The second line: `parts` and numbers.
fn parts_line(line: Option<Content>, end: usize) -> Result<Line, Refused> {
    let wanted = "`parts` and the part numbers, as in `parts 3 7 12`";
    match line {
        Some(line) => numbers_line(b"parts", line, wanted),
        None => Err(other_form(end, &format!("the text ends without {wanted}"))),
    }
}

/// What the sets of a text mean, which its first line behind `mark` and `parts` says. A text without such a line is refused with 1 or 2,
/// whatever it is taken for.
fn meaning_of_text(line: Option<&Content>) -> Result<Meaning, Refused> {
    let Some(&(line, place)) = line else {
        return Ok(Meaning::PathSets);
    };
    meaning_of_line(line).ok_or_else(|| {
        let wanted = "`set` or `cut` and the numbers of its parts, as in `set 3 7` or `cut 7 12`";
        other_form(place, &format!("`{}` is not {wanted}", shown(line)))
    })
}

/// The meaning whose word a line begins with.
fn meaning_of_line(line: &[u8]) -> Option<Meaning> {
    let first = words(line).next();
    let mut both = Meaning::BOTH.into_iter();
    both.find(|meaning| first == Some(meaning.word().as_bytes()))
}

/// A line behind `mark` and `parts`: the word of what the text's sets mean, and numbers.
fn set_line(meaning: Meaning, (line, place): Content) -> Result<Line, Refused> {
    let word = meaning.word();
    if meaning_of_line(line).is_some_and(|other| other != meaning) {
        let either = "a text has either `set` or `cut` lines";
        let why = format!("`{}` stands behind a `{word}` line; {either}", shown(line));
        return Err(other_form(place, &why));
    }
    numbers_line(word.as_bytes(), (line, place), meaning.form())
}

/// A line of a word and at least one number.
fn numbers_line(word: &[u8], (line, place): Content, wanted: &str) -> Result<Line, Refused> {
    let numbers = numbers_behind(word, line, place)?;
    match numbers.is_empty() {
        true => Err(other_form(
            place,
            &format!("`{}` is not {wanted}", shown(line)),
        )),
        false => Ok(Line { place, numbers }),
    }
}

/// The numbers behind a word; none where the line begins with another word.
fn numbers_behind(word: &[u8], line: &[u8], place: usize) -> Result<Vec<u64>, Refused> {
    let mut words = words(line);
    if words.next() != Some(word) {
        return Ok(Vec::new());
    }
    let one = |word: &[u8]| {
        let why = "is not a number in digits without a leading zero";
        number(word).ok_or_else(|| other_form(place, &format!("`{}` {why}", shown(word))))
    };
    words.map(one).collect()
}

/// The front of a line or a word as it is shown in a message.
fn shown(text: &[u8]) -> String {
    let front = &text[..text.len().min(60)];
    let dots = if front.len() < text.len() { "..." } else { "" };
    harmless(&String::from_utf8_lossy(front)) + dots
}

fn other_form(place: usize, why: &str) -> Refused {
    let refusal = Refusal {
        number: WRONG_LINE,
        place,
    };
    (refusal, format!("line {place}: {why}"))
}

/// The first number that stands twice.
pub fn twice<T: Ord + Copy>(numbers: &[T]) -> Option<T> {
    let mut seen = BTreeSet::new();
    let again = numbers.iter().find(|number| !seen.insert(**number));
    again.copied()
}
