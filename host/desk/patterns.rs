//! Stock patterns: the shapes that designers draw again and again, each by its word and two numbers.

use crate::arguments::Arguments;
use crate::ending::Ending;
use crate::nearest;
use crate::numbers::{number, said};
use nahokipe::{Pattern, Refusal};

/// The words of the patterns.
const PATTERNS: [(&str, Pattern); 3] = [
    ("at-least", Pattern::AtLeast),
    ("row", Pattern::Row),
    ("ring", Pattern::Ring),
];

/// A pattern with its numbers, of n parts. Whether it is a machine the library decides.
pub struct Stock {
    word: &'static str,
    pattern: Pattern,
    k: u64,
    n: u64,
}

impl Stock {
    /// The pattern that the first three words of a command name.
    pub fn asked(arguments: &Arguments) -> Result<Stock, Ending> {
        let words: Vec<_> = arguments.words().collect();
        let named = PATTERNS.into_iter().find(|(word, _)| words[0] == *word);
        let (word, pattern) = named.ok_or_else(|| {
            let shown = arguments.shown(0);
            let hint = nearest::hint(&shown, PATTERNS.iter().map(|(word, _)| *word));
            let all = "the patterns are `at-least`, `row` and `ring`";
            arguments.wrong(&format!("there is no pattern `{shown}`{hint}\n{all}"))
        })?;
        let read = |index: usize, what: &str| {
            let value = number(words[index].as_encoded_bytes());
            value.ok_or_else(|| {
                let shown = arguments.shown(index);
                let why =
                    format!("`{shown}` is no number {what}, in digits without a leading zero");
                arguments.wrong(&why)
            })
        };
        let (k, n) = (read(1, "K")?, read(2, "N")?);
        Ok(Stock {
            word,
            pattern,
            k,
            n,
        })
    }

    /// The record of the pattern, which the library makes: its parts are numbered 1 to n, and the mark is n.
    pub fn record(&self) -> Result<Vec<u8>, Refusal> {
        let [n, k] = [self.n, self.k].map(|number| usize::try_from(number).unwrap_or(usize::MAX));
        let table = nahokipe::table_of_pattern(self.pattern, n, k)?;
        nahokipe::first_record(n, &nahokipe::minimal_sets(n, &table)?)
    }

    /// What is wrong with the numbers.
    pub fn about(&self, refusal: Refusal) -> String {
        let (k, n) = (said(self.k), said(self.n));
        let why = match refusal.number {
            1 => format!("N is {n}; a machine has 1 to 16 parts"),
            _ => format!("K is {k}, which is not 1 to {n}{}", self.exchanged()),
        };
        format!("{}: {why}", self.word)
    }

    /// The pattern with its numbers exchanged, where it is one.
    fn exchanged(&self) -> String {
        let Stock { word, k, n, .. } = self;
        match (1..=16).contains(k) && (1..=*k).contains(n) {
            true => format!("\n  with the numbers exchanged it is `{word} {n} {k}`"),
            false => String::new(),
        }
    }

    /// What runs or stops the machine, in words, as a comment.
    pub fn comment(&self) -> String {
        let Stock { k, n, .. } = self;
        let (state, when) = match (self.pattern, *k) {
            (Pattern::AtLeast, _) if k == n => ("runs", "all parts work".to_string()),
            (Pattern::AtLeast, 1) => ("runs", format!("at least 1 of the {n} parts works")),
            (Pattern::AtLeast, _) => ("runs", format!("at least {k} of the {n} parts work")),
            _ => ("stopped", self.stopped_by()),
        };
        format!("# {state} exactly if {when}\n")
    }

    /// The failures that stop a row or a ring.
    fn stopped_by(&self) -> String {
        let Stock { k, n, word, .. } = self;
        let beyond = match self.pattern {
            Pattern::Ring => format!("; {n} and 1 are neighbours too"),
            _ => String::new(),
        };
        match k {
            _ if k == n => "all parts have failed".to_string(),
            1 => "at least 1 part has failed".to_string(),
            _ => format!("some {k} neighbours in the {word} have failed{beyond}"),
        }
    }
}

/// Three words behind `new`, which are neither a drawing's two nor a pattern's four.
pub fn neither(arguments: &Arguments) -> Ending {
    let first = arguments.shown(0);
    arguments.wrong(&match is_word(&first) {
        true => format!("a word is missing: K, N and RECORD belong behind `{first}`"),
        false => "a drawing takes two words, and a pattern four".to_string(),
    })
}

/// Two words behind `new` whose drawing cannot be read: where the first is a pattern's, its numbers may have been forgotten.
pub fn unread(arguments: &Arguments, ending: Ending) -> Ending {
    let first = arguments.shown(0);
    match ending {
        Ending::Failed(why) if is_word(&first) => Ending::Failed(format!(
            "{why}\n  as a pattern `{first}` has K, N and RECORD behind it"
        )),
        other => other,
    }
}

/// Whether a word is a pattern's.
fn is_word(word: &str) -> bool {
    PATTERNS.iter().any(|(known, _)| word == *known)
}
