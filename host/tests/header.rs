//! include/nahokipe.h is held to the definitions: its constants to the specifications and to the largest things there are, its list of
//! refusals to the specifications and to the words of `Refusal`, and its functions to what Rust declares.

use nahokipe::lent::{self, RecordAnswer};
use nahokipe::{
    drawing_of_record, first_record, joint_signature, list_verdict, path_counts,
    path_counts_of_blocks, record_of_drawing, refused_line, reliability, report, retired,
    table_of_record, take_out, whole_record, Kind, Refusal,
};
use nahokipe_testing::making::{drawing_line, sets_of_size, six_of_sixteen};
use nahokipe_testing::making::{largest_edition_2, largest_record};
use nahokipe_testing::naive::refused;
use nahokipe_testing::naive_figures::size;
use nahokipe_testing::stored::tail_sheets;
use std::collections::BTreeMap;
use std::fs;

/// The text of a file of the repository.
fn text(path: &str) -> String {
    let path = format!("{}/../{path}", env!("CARGO_MANIFEST_DIR"));
    fs::read_to_string(&path).unwrap_or_else(|why| panic!("{path}: {why}"))
}

fn header() -> String {
    text("include/nahokipe.h")
}

/// Names with their values.
type Constants = BTreeMap<String, usize>;

/// The names and values in a map; no name stands twice.
fn constants(pairs: impl IntoIterator<Item = (String, usize)>) -> Constants {
    let mut constants = Constants::new();
    for (name, value) in pairs {
        let before = constants.insert(name.clone(), value);
        assert_eq!(before, None, "{name}");
    }
    constants
}

/// The header's constants that have a value.
fn defined() -> Constants {
    let header = header();
    let lines = header.lines().filter_map(|line| {
        let words: Vec<&str> = line.split(' ').collect();
        match words[..] {
            ["#define", name, value] => Some((name.to_string(), number(value))),
            _ => None,
        }
    });
    constants(lines)
}

fn number(digits: &str) -> usize {
    digits.parse().expect("a decimal number")
}

/// A name as the header has it: `WrongPartCount` and `PathCounts` become NAHOKIPE_WRONG_PART_COUNT and NAHOKIPE_PATH_COUNTS, and
/// LONGEST_RECORD becomes NAHOKIPE_LONGEST_RECORD.
fn constant_name(name: &str) -> String {
    let mut words = String::new();
    for letter in name.chars() {
        if letter.is_ascii_uppercase() && name.contains(char::is_lowercase) && !words.is_empty() {
            words.push('_');
        }
        words.push(letter.to_ascii_uppercase());
    }
    format!("NAHOKIPE_{words}")
}

/// The lines `NAME = NUMBER` of a file, behind some words that they all begin with.
fn equations(path: &str, front: &str) -> Constants {
    let text = text(path);
    let lines = text.lines().filter_map(|line| {
        let (name, value) = line.strip_prefix(front)?.split_once(" = ")?;
        Some((constant_name(name), value.parse().ok()?))
    });
    constants(lines)
}

/// The refusals of the specification: as many as have a number there.
fn refusals() -> Constants {
    const PATH: &str = "crates/answer/specs/Refusals.antt";
    let refusals = equations(PATH, "number_of ");
    assert_eq!(refusals.len(), text(PATH).matches("\nnumber_of ").count());
    refusals
}

/// The kinds of the specification.
fn kinds() -> Constants {
    equations("crates/vector_kind/specs/Kinds.antt", "kind_number ")
}

/// The lengths that the Rust calls lend.
fn lengths() -> Constants {
    let lengths = [
        ("MOST_PARTS", lent::MOST_PARTS),
        ("MOST_RETIRED", lent::MOST_RETIRED),
        ("MOST_SETS", lent::MOST_SETS),
        ("MOST_ENTRIES", lent::MOST_ENTRIES),
        ("MOST_COEFFICIENTS", lent::MOST_COEFFICIENTS),
        ("MOST_JOINT", lent::MOST_JOINT),
        ("LONGEST_TABLE", lent::LONGEST_TABLE),
        ("LONGEST_RECORD", lent::LONGEST_RECORD),
        ("LONGEST_SHEET", lent::LONGEST_SHEET),
        ("LONGEST_DRAWING", lent::LONGEST_DRAWING),
        ("ENOUGH_FOR_REPORT", lent::ENOUGH_FOR_REPORT),
        ("ENOUGH_FOR_REFUSED_LINE", lent::ENOUGH_FOR_REFUSED_LINE),
    ];
    constants(lengths.map(|(name, value)| (format!("NAHOKIPE_{name}"), value)))
}

// ---- constants

/// The header's constants are the refusals and the kinds of the specifications and the lengths that Rust has, and no others.
#[test]
fn every_constant() {
    let expected = refusals().into_iter().chain(kinds()).chain(lengths());
    assert_eq!(defined(), constants(expected));
}

/// The constants that the tour from Python needs are the header's.
#[test]
fn constants_of_the_tour() {
    let defined = defined();
    let tour = equations("examples/tour.py", "");
    assert!(!tour.is_empty());
    for (name, value) in tour {
        assert_eq!(defined.get(&name), Some(&value), "{name}");
    }
}

/// The kinds of Rust are those of the specification, and no number has another.
#[test]
fn every_kind() {
    let names = Kind::ALL.map(|kind| (constant_name(&format!("{kind:?}")), kind.number() as usize));
    assert_eq!(constants(names), kinds());
    for number in 0..=255 {
        let kind = Kind::try_from(number);
        match Kind::ALL.iter().find(|kind| kind.number() == number) {
            Some(&known) => assert_eq!(kind, Ok(known)),
            None => assert_eq!(kind, refused(26, 0)),
        }
    }
}

// ---- the list of refusals

/// The rows of the header's list: each number with its words, and the lines below it that belong to it.
fn rows() -> Vec<(usize, String)> {
    let mut rows: Vec<(usize, String)> = Vec::new();
    let header = header();
    let list = header
        .lines()
        .skip_while(|line| !line.starts_with(" *    1  n is not 1 to 16"));
    for line in list.take_while(|line| *line != " *") {
        let line = line.strip_prefix(" *").expect("a line of the list");
        let (digits, words) = line.split_at(5);
        match (digits.trim().parse(), rows.last_mut()) {
            (Ok(number), _) => rows.push((number, words.trim().to_string())),
            (_, Some((_, row))) => row.push_str(&format!(" {}", line.trim())),
            _ => panic!("no number in front of {line}"),
        }
    }
    rows
}

/// Every refusal of the specification has its row, in the order of the numbers, and what stands there in front of the place is what Rust
/// gives as the reason. No other number has one.
#[test]
fn every_row() {
    let rows = rows();
    let numbers: Vec<usize> = rows.iter().map(|(number, _)| *number).collect();
    let mut specified: Vec<usize> = refusals().into_values().collect();
    specified.sort_unstable();
    assert_eq!(numbers, specified);
    for (number, row) in rows {
        let reason = row.split(';').next().expect("some words");
        let refusal = Refusal {
            number: number as u8,
            place: 3,
        };
        assert_eq!(refusal.reason(), reason);
        assert_eq!(refusal.to_string(), format!("refused {number} 3: {reason}"));
    }
    for number in (0..=255).filter(|&number| !specified.contains(&usize::from(number))) {
        let refusal = Refusal { number, place: 0 };
        assert_eq!(refusal.reason(), "no refusal has this number");
    }
}

// ---- lengths

/// The bound that a statement of the crates gives: the first number behind `≤` on the line that has these words.
fn bound(path: &str, words: &str) -> usize {
    let text = text(path);
    let line = text.lines().find(|line| line.contains(words));
    let line = line.unwrap_or_else(|| panic!("{words} is not in {path}"));
    let behind = line.rsplit_once("≤ ").expect("a bound").1;
    let digits: String = behind.chars().take_while(char::is_ascii_digit).collect();
    number(&digits)
}

/// 16 parts, and no 17; all sets of 8 of them, and not one more.
#[test]
fn parts_and_sets() {
    assert!(first_record(lent::MOST_PARTS, &[1]).is_ok());
    assert_eq!(first_record(lent::MOST_PARTS + 1, &[1]), refused(1, 0));
    let answer: RecordAnswer = lent::whole_record_answer(&largest_record());
    assert_eq!(answer.numbers.len(), lent::MOST_PARTS);
    assert_eq!(answer.sets, lent::MOST_SETS);
    let mut list = sets_of_size(16, 8);
    assert_eq!(
        (list.len(), list_verdict(16, &list)),
        (lent::MOST_SETS, Ok(()))
    );
    list.push(1);
    assert_eq!(list_verdict(16, &list), refused(3, 0));
}

/// Vectors of 16 parts, of one machine and of as many blocks, and coefficients for groups of every size.
#[test]
fn entries_and_coefficients() {
    let table = six_of_sixteen();
    let counts = path_counts(16, &table).expect("an accepted table");
    assert_eq!(counts.len(), lent::MOST_ENTRIES);
    let of_blocks = path_counts_of_blocks(16, &table, &[1; 16], &[0, 1].repeat(16));
    assert_eq!(of_blocks.expect("accepted blocks"), counts);
    let groups = (1..=16).map(|parts| (1 << parts) - 1);
    let coefficients = groups.map(|group| {
        let cells = reliability(16, &table, group).expect("an accepted group");
        assert_eq!(cells.len(), (size(group) + 1) * (17 - size(group)));
        cells.len()
    });
    assert_eq!(coefficients.max(), Some(lent::MOST_COEFFICIENTS));
}

/// The joint signature of two machines of 16 parts.
#[test]
fn cells_of_a_square() {
    let table = six_of_sixteen();
    let square = joint_signature(16, &table, &table).expect("accepted tables");
    assert_eq!(square.len(), lent::MOST_JOINT);
}

/// What is proved of records of edition 1 is what the header says of both, with what edition 2 has more: two bytes in front, one for the count
/// of retired numbers, seven for each of them and two for each path count. The records with the most sets and the longest numbers are no
/// longer.
#[test]
fn records_and_tables() {
    let edition_1 = bound("crates/record/proofs/Lengths.antt", "pub record_longest");
    let longest = bound(
        "crates/record_editions/proofs/Lengths.antt",
        "pub stored_longest",
    );
    assert_eq!(lent::LONGEST_RECORD, longest);
    for (record, longest) in [
        (largest_record(), edition_1),
        (largest_edition_2(), longest),
    ] {
        assert!(record.len() <= longest && whole_record(&record).is_ok());
        let table = table_of_record(&record).expect("an accepted record");
        assert_eq!(table.len(), lent::LONGEST_TABLE);
    }
}

/// A record of edition 2 keeps so many retired numbers, and not one more.
#[test]
fn retired_numbers() {
    let record = largest_edition_2();
    let numbers = retired(&record).expect("an accepted record");
    assert_eq!(numbers.len(), lent::MOST_RETIRED);
    let fewer = take_out(&record, 16).expect("a set left");
    let numbers = retired(&fewer).expect("an accepted record");
    assert_eq!(numbers.len(), lent::MOST_RETIRED);
}

/// What is proved of sheets is what the header says, of those that are saved and of those that were stored.
#[test]
fn sheets() {
    let longest = bound("crates/sheet/proofs/Lengths.antt", "pub written_longest");
    assert_eq!(lent::LONGEST_SHEET, longest);
    let tail = nahokipe::tail(16, &six_of_sixteen()).expect("an accepted table");
    let mut sheet = vec![0; 2 * longest];
    for target in [1, 3, 4] {
        let written = lent::save_sheet_as(2, 16, &tail, target, &mut sheet);
        assert!(written.expect("an accepted vector") <= longest);
    }
    assert!(tail_sheets()
        .iter()
        .all(|(sheet, _)| sheet.len() <= longest));
}

/// The longest accepted text has the most lines, with all 16 positions on each; what is written is shorter.
#[test]
fn drawings() {
    let line = drawing_line("set", 1..=16);
    let longest = drawing_line("parts", [16]) + &line.repeat(lent::MOST_SETS);
    assert_eq!(longest.len(), lent::LONGEST_DRAWING);
    assert!(record_of_drawing(longest.as_bytes()).is_ok());
    let longer = longest + "set 1\n";
    assert_eq!(record_of_drawing(longer.as_bytes()), refused(3, 12_872));
    let written = drawing_of_record(&largest_record()).expect("an accepted record");
    assert!(written.len() < lent::LONGEST_DRAWING);
}

/// What is proved of reports is what the header says; a line has at most three digits of a number and twenty of a place.
#[test]
fn reports_and_lines() {
    let enough = bound("crates/report_text/src/lib.rt", "length (report_of");
    assert_eq!(lent::ENOUGH_FOR_REPORT, enough);
    let text = report(&largest_record()).expect("an accepted record");
    assert!(text.len() <= enough);
    let line = refused_line(Refusal {
        number: u8::MAX,
        place: usize::MAX,
    });
    assert_eq!(line, "refused 255 18446744073709551615\n");
    assert!(line.len() <= lent::ENOUGH_FOR_REFUSED_LINE);
}

// ---- functions

/// What a parameter of C is in Rust: its name and its type.
fn parameter(words: &str) -> String {
    let types = [
        ("const uint8_t *", "*const u8"),
        ("const uint16_t *", "*const u16"),
        ("const uint64_t *", "*const u64"),
        ("const int64_t *", "*const i64"),
        ("const size_t *", "*const usize"),
        ("uint8_t *", "*mut u8"),
        ("uint16_t *", "*mut u16"),
        ("uint64_t *", "*mut u64"),
        ("int64_t *", "*mut i64"),
        ("uint8_t ", "u8"),
        ("uint16_t ", "u16"),
        ("uint64_t ", "u64"),
        ("size_t ", "usize"),
    ];
    let known = types.iter().find_map(|(c, rust)| {
        let name = words.strip_prefix(c)?;
        Some(format!("{name}: {rust}"))
    });
    known.unwrap_or_else(|| panic!("{words}"))
}

/// What is declared behind each of these words, up to the semicolon, with one space where there are several or line breaks.
fn declared(text: &str, front: &str) -> Vec<String> {
    let pieces = text.split(front).skip(1).map(|piece| {
        let declared = piece.split(';').next().expect("a declaration");
        let words: Vec<&str> = declared.split_whitespace().collect();
        words.join(" ")
    });
    pieces.collect()
}

/// The header's functions as Rust would declare them.
fn functions_of_c() -> Vec<String> {
    let header = header();
    let answers = [
        ("answer", "Answer"),
        ("sheet", "SheetAnswer"),
        ("record", "RecordAnswer"),
        ("step", "StepAnswer"),
    ];
    let mut functions = Vec::new();
    for (c, rust) in answers {
        for function in declared(&header, &format!("\nnahokipe_{c} ")) {
            let (name, parameters) = function.split_once('(').expect("parameters");
            let parameters = parameters.trim_end_matches(')').split(", ");
            let parameters: Vec<String> = parameters.map(parameter).collect();
            functions.push(format!("{name}({}) -> {rust}", parameters.join(", ")));
        }
    }
    functions.sort();
    functions
}

/// The functions that Rust declares.
fn functions_of_rust() -> Vec<String> {
    let source = text("host/src/declared.rs");
    let tidy = |function: String| function.replace("( ", "(").replace(", )", ")");
    let functions = declared(&source, "pub(crate) fn nahokipe_").into_iter();
    let mut functions: Vec<String> = functions
        .map(|function| tidy(format!("nahokipe_{function}")))
        .collect();
    functions.sort();
    functions
}

/// Rust declares each function of the header, with the same parameters and the same answer.
#[test]
fn every_function() {
    let functions = functions_of_c();
    assert_eq!(functions.len(), header().matches(");\n").count());
    assert_eq!(functions_of_rust(), functions);
}
