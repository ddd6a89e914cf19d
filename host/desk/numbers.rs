//! Numbers as people write them.

/// What a negative number is held at.
const LEAST_HELD: i64 = -i64::MAX;

/// A decimal number without a sign or a leading zero. One that is longer than 64 bits is held at the largest value, never cut, so that
/// the library refuses it.
pub fn number(word: &[u8]) -> Option<u64> {
    let well_formed = match word {
        [] => false,
        [b'0', _, ..] => false,
        _ => word.iter().all(u8::is_ascii_digit),
    };
    let longer = |value: u64, digit: &u8| {
        let value = value.saturating_mul(10);
        value.saturating_add(u64::from(digit - b'0'))
    };
    well_formed.then(|| word.iter().fold(0, longer))
}

/// A number in a message; one that is held at the largest value stands for all that are longer.
pub fn said(number: u64) -> String {
    match number {
        u64::MAX => format!("{number} or more"),
        _ => number.to_string(),
    }
}

/// A number as above, with a minus sign in front or without. One that is too long is held at the largest value on its side of 0.
pub fn signed(word: &[u8]) -> Option<i64> {
    let held = |digits| number(digits).map(|value| i64::try_from(value).unwrap_or(i64::MAX));
    match word {
        [b'-', digits @ ..] => held(digits).map(|value| -value),
        digits => held(digits),
    }
}

/// Such a number in a message; one that is held stands for all that are longer.
pub fn signed_said(number: i64) -> String {
    match number {
        i64::MAX => format!("{number} or more"),
        LEAST_HELD => format!("{number} or less"),
        _ => number.to_string(),
    }
}

/// Numbers with a blank between them.
pub fn listed(numbers: &[u64]) -> String {
    let words: Vec<String> = numbers.iter().copied().map(said).collect();
    words.join(" ")
}

/// `1 part`, `2 parts`.
pub fn counted(count: usize, thing: &str) -> String {
    match count {
        1 => format!("1 {thing}"),
        _ => format!("{count} {thing}s"),
    }
}

/// `1st`, `2nd`, `3rd`, `4th`, up to 16.
pub fn ordinal(number: usize) -> String {
    let ending = match number {
        1 => "st",
        2 => "nd",
        3 => "rd",
        _ => "th",
    };
    format!("{number}{ending}")
}
