//! The nearest word to one that there is not.

/// What is said behind a word that is none of these: the nearest of them, unless more than half of it would have to change.
pub fn hint<'a>(word: &str, words: impl Iterator<Item = &'a str>) -> String {
    let distance = |known: &&str| changes_between(word, known);
    let nearest = words.min_by_key(distance);
    let near = nearest.filter(|known| 2 * distance(known) <= known.len());
    near.map_or(String::new(), |known| format!("; the nearest is `{known}`"))
}

/// How many letters have to be put in, taken out or changed to make one word of another.
fn changes_between(from: &str, to: &str) -> usize {
    let to: Vec<char> = to.chars().collect();
    let mut row: Vec<usize> = (0..=to.len()).collect();
    for (index, letter) in from.chars().enumerate() {
        let mut before = row[0];
        row[0] = index + 1;
        for column in 0..to.len() {
            let changed = before + usize::from(letter != to[column]);
            before = row[column + 1];
            row[column + 1] = changed.min(before + 1).min(row[column] + 1);
        }
    }
    row[to.len()]
}
