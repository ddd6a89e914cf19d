//! Texts with two faults: which of them `enter` refuses the text by, with `set` lines and with `cut` lines alike.

use crate::entering::{line, WORDS};
use crate::folder::Folder;
use nahokipe_testing::naive::MOST_SETS;
use std::cmp::Reverse;
use std::collections::BTreeSet;

/// A text: its mark, its parts, and the numbers behind the word of each other line.
#[derive(Clone)]
struct Text {
    mark: u64,
    parts: Vec<u64>,
    sets: Vec<Vec<u64>>,
}

/// What makes a text wrong: 1, 2, 3, 17, 28 and, in two ways, 23.
const FAULTS: [fn(&mut Text); 7] = [
    |text| text.parts.extend(101..=114),
    |text| text.sets.clear(),
    |text| text.sets.resize(MOST_SETS + 1, vec![3, 7]),
    |text| text.sets.push(vec![3, 9]),
    |text| text.sets.push(vec![3, 3]),
    |text| text.parts.sort_by_key(|&part| Reverse(part)),
    |text| text.mark = 6,
];

impl Text {
    /// The text with this word in front of each set.
    fn with(&self, word: &str) -> String {
        let sets: String = self.sets.iter().map(|set| line(word, set)).collect();
        line("mark", &[self.mark]) + &line("parts", &self.parts) + &sets
    }

    /// The number and the place of its refusal: 1, the first line with 17 or 28 up to one beyond the most sets, 2, 3, 23.
    fn refusal(&self) -> Option<(u8, usize)> {
        if self.parts.len() > 16 {
            return Some((1, 0));
        }
        let mut lines = self.sets.iter().take(MOST_SETS + 1);
        lines
            .find_map(|set| self.refusal_of(set))
            .or(self.sets.is_empty().then_some((2, 0)))
            .or((self.sets.len() > MOST_SETS).then_some((3, 0)))
            .or(self.first_wrong_part().map(|index| (23, index)))
    }

    /// What is wrong with the numbers of a line: 17 before 28.
    fn refusal_of(&self, set: &[u64]) -> Option<(u8, usize)> {
        let stranger = set.iter().any(|number| !self.parts.contains(number));
        let twice = set.iter().collect::<BTreeSet<_>>().len() < set.len();
        stranger.then_some((17, 0)).or(twice.then_some((28, 0)))
    }

    /// The first part whose number does not rise or is above the mark.
    fn first_wrong_part(&self) -> Option<usize> {
        let parts = &self.parts;
        (0..parts.len()).find(|&index| {
            parts[index] > self.mark || index > 0 && parts[index] <= parts[index - 1]
        })
    }
}

/// Any two faults, one put into the text behind the other.
#[test]
fn texts_with_two_faults() {
    let right = Text {
        mark: 200,
        parts: vec![3, 7, 12],
        sets: vec![vec![3, 7], vec![3, 12], vec![7, 12]],
    };
    let both = |first| FAULTS.map(|second: fn(&mut Text)| [first, second]);
    let mut seen = BTreeSet::new();
    for faults in FAULTS.into_iter().flat_map(both) {
        let mut text = right.clone();
        faults.iter().for_each(|fault| fault(&mut text));
        let (number, place) = text.refusal().expect("a fault");
        for word in WORDS {
            let folder = Folder::with("text", text.with(word));
            folder
                .run(&["enter", "text", "record"])
                .refused(number, place);
        }
        seen.insert(number);
    }
    assert_eq!(seen, BTreeSet::from([1, 2, 3, 17, 23, 28]));
}
