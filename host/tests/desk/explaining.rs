//! `explain`: every refusal in words.

use crate::folder::{assert_has, Folder};
use nahokipe::Refusal;
use std::collections::BTreeSet;

/// The numbers of all refusals.
fn numbers() -> impl Iterator<Item = u8> {
    1..=34
}

/// Every refusal has a meaning, a usual cause and a remedy of its own, with and without a place.
#[test]
fn every_refusal() {
    let folder = Folder::new();
    let mut meanings = BTreeSet::new();
    for number in numbers() {
        let word = number.to_string();
        let text = folder.run(&["explain", &word]).done();
        assert!(text.starts_with(&format!("refused {number}: ")), "{text}");
        assert_has(&text, &["\nusual cause: ", "\nwhat to do: "]);
        meanings.insert(text.lines().next().map(|line| line[12..].to_string()));
        let placed = folder.run(&["explain", &word, "40"]).done();
        assert!(
            placed.starts_with(&format!("refused {number} 40: ")),
            "{placed}"
        );
        assert_eq!(text.contains("\nplace: "), placed.contains("\nplace 40: "));
        assert!(
            placed.lines().all(|line| line.chars().count() <= 95),
            "{placed}"
        );
        let refusal = Refusal { number, place: 0 };
        assert_ne!(
            refusal.reason(),
            Refusal {
                number: 35,
                place: 0
            }
            .reason()
        );
    }
    assert_eq!(meanings.len(), numbers().count());
}

/// The places are explained exactly where there are any.
#[test]
fn places() {
    let folder = Folder::new();
    let without = [6, 7, 8, 9, 12, 15, 16, 18, 19, 20, 26, 29, 32, 33, 34];
    for number in numbers() {
        let text = folder.run(&["explain", &number.to_string(), "3"]).done();
        assert_eq!(
            text.contains("\nplace 3: "),
            !without.contains(&number),
            "{text}"
        );
    }
}

#[test]
fn what_is_no_refusal() {
    let folder = Folder::new();
    for word in ["0", "35", "256", "18446744073709551616", "x", "", "01"] {
        let error = folder.run(&["explain", word]).failed();
        assert_has(
            &error,
            &[&format!(
                "`{word}` is no refusal's number; they are 1 to 34\n"
            )],
        );
    }
    for word in ["x", "", "1.5", "-"] {
        let error = folder.run(&["explain", "17", word]).failed();
        assert_has(&error, &[&format!("`{word}` is no place")]);
    }
    for words in [
        ["explain", "\u{1b}[2J"].as_slice(),
        &["explain", "17", "\u{1b}[2J"],
    ] {
        let error = folder.run(words).failed();
        assert!(!error.contains('\u{1b}'), "{error:?}");
    }
    folder.run(&["explain"]).failed();
    folder.run(&["explain", "17", "0", "0"]).failed();
}
