//! `joint`: the square of two machines on the same parts beside a count of orders, its sums and the three ways to stop, and records that do
//! not go together.

use crate::counting::counts;
use crate::editions::random_second;
use crate::folder::{assert_has, Folder, Ran, BRIDGE, PUMPS};
use crate::share::Share;
use nahokipe_testing::making::{every_plain, largest_plain, minimal_of_list, random_list};
use nahokipe_testing::making::{random_plain, refused_records, sets_of_size};
use nahokipe_testing::naive_editions::edition_2_bytes;
use nahokipe_testing::naive_figures::factorial;
use nahokipe_testing::naive_joint::joint_signature;
use nahokipe_testing::naive_records::{record_bytes, table_of_record, whole_record};
use nahokipe_testing::naive_records::{Plain, TOP_NUMBER};
use nahokipe_testing::seeded::Seeded;
use std::cmp::Ordering;

/// The machines of document 004's example 2.10: parts 1 and 2 run the first, 2 and 4 or 3 and 4 the second.
const FIRST: [u8; 8] = [4, 4, 1, 2, 3, 4, 1, 0b0011];
const SECOND: [u8; 9] = [4, 4, 1, 2, 3, 4, 2, 0b1010, 0b1100];

/// What is printed of them.
const EXAMPLE: &str = "\
first machine first, second machine second, both with the parts 1 2 3 4
4! = 24 orders in which the parts can fail, all counted alike

Joint signature: in how many orders it is the 1st, 2nd, ... failure that stops the first
machine, by rows, and the 1st, 2nd, ... that stops the second, by columns
  first \\ second  1   2  3  4  any
               1  .   6  6  .   12
               2  4   2  2  .    8
               3  2   2  .  .    4
               4  .   .  .  .    0
             any  6  10  8  0   24

Before and after: in how many orders one machine stops before the other
  orders  fraction  per cent
      14      7/12     58.33  the first machine stops before the second
       2      1/12      8.33  both machines stop at the same failure
       8       1/3     33.33  the first machine stops after the second
";

/// What is said of part numbers that only one of two records has, behind their list.
const ONE_LIST: &str =
    "  usual cause: each machine was entered with the parts that it needs, and not with all of the
      cart, or a part came or left in one of the records alone
  what to do: enter both machines with the same `parts` line, that of the cart; a part that
      one machine does not need is idle there: none of its sets names it
";

/// A folder with the records of two machines.
fn with_machines(first: impl AsRef<[u8]>, second: impl AsRef<[u8]>) -> Folder {
    let folder = Folder::with("first", first);
    folder.write("second", second);
    folder
}

/// A run of `joint` on the two records of a folder.
fn joint(folder: &Folder) -> Ran {
    folder.run(&["joint", "first", "second"])
}

/// A machine and another one of the same parts.
fn with_another(seeded: &mut Seeded, first: Plain) -> [Plain; 2] {
    let n = first.numbers.len();
    let sets = minimal_of_list(n, &random_list(seeded, n));
    let second = Plain {
        sets,
        ..first.clone()
    };
    [first, second]
}

/// Two machines of the same n parts.
fn random_pair(seeded: &mut Seeded, n: usize) -> [Plain; 2] {
    let first = random_plain(seeded, n);
    with_another(seeded, first)
}

// ---- reading what is printed

/// The words of a line.
fn words(line: &str) -> Vec<&str> {
    line.split_whitespace().collect()
}

/// The pieces of the square, each in lines of words.
fn pieces(printed: &str) -> Vec<Vec<Vec<&str>>> {
    let (_, behind) = printed.split_once("by columns\n").expect("a square");
    let (square, _) = behind.split_once("\n\nBefore").expect("its end");
    let pieces = square.split("\n\n");
    pieces
        .map(|piece| piece.lines().map(words).collect())
        .collect()
}

/// The square of two machines of n parts with its sums, row by row. A cell that is 0 is a dot, and a sum a number.
fn square(n: usize, printed: &str) -> Vec<Vec<u64>> {
    let labels: Vec<String> = (1..=n).map(|k| k.to_string()).collect();
    let labels = [&labels[..], &["any".to_string()]].concat();
    let mut headings: Vec<&str> = Vec::new();
    let mut rows: Vec<Vec<&str>> = vec![Vec::new(); n + 1];
    for piece in pieces(printed) {
        let (heading, lines) = piece.split_first().expect("a heading");
        assert_eq!(heading[..3], ["first", "\\", "second"]);
        headings.extend(&heading[3..]);
        let fronts: Vec<&str> = lines.iter().map(|line| line[0]).collect();
        assert_eq!(fronts, labels);
        for (row, line) in rows.iter_mut().zip(lines) {
            row.extend(&line[1..]);
        }
    }
    assert_eq!(headings, labels);
    let cell = |k: usize, l: usize| match rows[k][l] {
        "." if k < n && l < n => 0,
        digits => {
            let count = digits.parse().expect("a number");
            assert!(count > 0 || k == n || l == n, "{printed}");
            count
        }
    };
    let row = |k| (0..=n).map(|l| cell(k, l)).collect();
    (0..=n).map(row).collect()
}

/// Orders, fraction and per cent of the three ways to stop.
fn ways(printed: &str) -> Vec<Vec<&str>> {
    let title = "\n\nBefore and after: in how many orders one machine stops before the other\n";
    let (_, lines) = printed.split_once(title).expect("the ways");
    let lines: Vec<&str> = lines.lines().collect();
    assert_eq!(words(lines[0]), ["orders", "fraction", "per", "cent"]);
    let said = [
        "  the first machine stops before the second",
        "  both machines stop at the same failure",
        "  the first machine stops after the second",
    ];
    assert_eq!(lines.len(), 1 + said.len());
    let ways = lines[1..].iter().zip(said);
    ways.map(|(line, said)| words(line.strip_suffix(said).expect("its sentence")))
        .collect()
}

// ---- what should be printed

/// A square with the sums of its rows and columns.
fn with_sums(n: usize, cells: &[u64]) -> Vec<Vec<u64>> {
    let with_sum = |row: &[u64]| [row, &[row.iter().sum()]].concat();
    let mut rows: Vec<Vec<u64>> = cells.chunks(n).map(with_sum).collect();
    let below = (0..=n)
        .map(|l| rows.iter().map(|row| row[l]).sum())
        .collect();
    rows.push(below);
    rows
}

/// Orders, fraction and per cent of the three ways to stop, from the cells of a square.
fn ways_of(n: usize, cells: &[u64]) -> [[String; 3]; 3] {
    let total = factorial(n) as u64;
    [Ordering::Less, Ordering::Equal, Ordering::Greater].map(|way| {
        let meant = (0..n * n).filter(|index| (index / n).cmp(&(index % n)) == way);
        let count = meant.map(|index| cells[index]).sum();
        let share = Share { count, total };
        [count.to_string(), share.fraction(), share.per_cent()]
    })
}

/// `joint` prints what counting gives, in lines of up to 100 characters behind the first. Gives what is printed.
fn same_as_counted(folder: &Folder, machines: &[Plain; 2]) -> String {
    let n = machines[0].numbers.len();
    let records = machines.each_ref().map(record_bytes);
    let tables = records.each_ref().map(|bytes| table_of_record(bytes));
    let [first, second] = tables.map(|table| table.expect("an accepted record"));
    let cells = joint_signature(n, &first, &second).expect("accepted tables");
    folder.write("first", &records[0]);
    folder.write("second", &records[1]);
    let printed = joint(folder).done();
    assert_eq!(square(n, &printed), with_sums(n, &cells), "{machines:?}");
    assert_eq!(ways(&printed), ways_of(n, &cells), "{machines:?}");
    let mut lines = printed.lines().skip(1);
    assert!(lines.all(|line| line.len() <= 100), "{printed}");
    printed
}

// ---- two machines

#[test]
fn the_example_of_document_004() {
    let folder = with_machines(FIRST, SECOND);
    assert_eq!(joint(&folder).done(), EXAMPLE);
    assert_eq!(folder.names(), ["first", "second"]);
    assert_eq!(folder.read("first"), FIRST);
    assert_eq!(folder.read("second"), SECOND);
}

/// With the machines exchanged, rows become columns, and before becomes after.
#[test]
fn the_other_way_round() {
    let folder = with_machines(SECOND, FIRST);
    let printed = joint(&folder).done();
    let expected = [
        [0, 4, 2, 0, 6],
        [6, 2, 2, 0, 10],
        [6, 2, 0, 0, 8],
        [0, 0, 0, 0, 0],
        [12, 8, 4, 0, 24],
    ];
    assert_eq!(square(4, &printed), expected);
    let expected = [
        ["8", "1/3", "33.33"],
        ["2", "1/12", "8.33"],
        ["14", "7/12", "58.33"],
    ];
    assert_eq!(ways(&printed), expected);
}

#[test]
fn every_pair_of_small_machines() {
    let folder = Folder::new();
    for n in 1..=3 {
        let mut machines = every_plain(n);
        machines.retain(|plain| plain.mark > 4);
        for first in &machines {
            for second in &machines {
                same_as_counted(&folder, &[first.clone(), second.clone()]);
            }
        }
    }
}

/// Random pairs of machines; up to 9 parts their squares are in one piece.
#[test]
fn random_pairs() {
    let mut seeded = Seeded::new(800);
    let folder = Folder::new();
    for n in (1..=16).flat_map(|n| [n; 3]) {
        let machines = random_pair(&mut seeded, n);
        let printed = same_as_counted(&folder, &machines);
        assert!(n > 9 || pieces(&printed).len() == 1, "{printed}");
    }
}

/// The sums of the rows and columns are the signatures that `figures` prints.
#[test]
fn sums_beside_figures() {
    let mut seeded = Seeded::new(801);
    let folder = Folder::new();
    for n in (1..=16).flat_map(|n| [n; 2]) {
        let machines = random_pair(&mut seeded, n);
        folder.write("first", record_bytes(&machines[0]));
        folder.write("second", record_bytes(&machines[1]));
        let rows = square(n, &joint(&folder).done());
        let signature = |record: &str| {
            let figures = folder.run(&["figures", record]).done();
            let signature = counts(&figures, "Signature").into_iter();
            signature.map(|(_, count)| count as u64).collect::<Vec<_>>()
        };
        let behind: Vec<u64> = rows[..n].iter().map(|row| row[n]).collect();
        assert_eq!(behind, signature("first"));
        assert_eq!(rows[n][..n], signature("second"));
        assert_eq!(i128::from(rows[n][n]), factorial(n));
    }
}

/// A machine beside itself stops at the same failure in every order, and the diagonal is its signature.
#[test]
fn a_machine_beside_itself() {
    let folder = Folder::with("bridge", BRIDGE);
    let printed = folder.run(&["joint", "bridge", "bridge"]).done();
    assert_has(&printed, &["first machine bridge, second machine bridge, "]);
    let rows = square(5, &printed);
    for (k, row) in rows[..5].iter().enumerate() {
        let alone = (0..5).all(|l| l == k || row[l] == 0);
        assert!(alone && row[k] == [0, 24, 72, 24, 0][k], "{printed}");
    }
    let never = ["0", "0", "0.00"];
    assert_eq!(ways(&printed), [never, ["120", "1", "100.00"], never]);
}

/// A part that neither machine needs comes to both: the squares grow, and before and after keep their shares.
#[test]
fn a_part_that_is_idle_in_both() {
    let mut seeded = Seeded::new(802);
    let folder = Folder::new();
    let shares = || {
        let printed = joint(&folder).done();
        let share = |way: Vec<&str>| [way[1].to_string(), way[2].to_string()];
        ways(&printed).into_iter().map(share).collect::<Vec<_>>()
    };
    for n in (1..=15).flat_map(|n| [n; 2]) {
        for (name, plain) in ["first", "second"].iter().zip(random_pair(&mut seeded, n)) {
            let mark = plain.numbers[n - 1];
            folder.write(name, record_bytes(&Plain { mark, ..plain }));
        }
        let before = shares();
        for record in ["first", "second"] {
            folder.run(&["add-part", record]).done();
        }
        assert_eq!(shares(), before);
    }
}

// ---- sixteen parts

/// A square that is too wide for a line is in pieces, each with the numbers of all rows in front; the last has the sums of the rows.
#[test]
fn squares_in_pieces() {
    let folder = Folder::new();
    folder.run(&["new", "row", "3", "16", "row"]).done();
    folder.run(&["new", "ring", "4", "16", "ring"]).done();
    let machines = ["row", "ring"].map(|name| whole_record(&folder.read(name)));
    let machines = machines.map(|reading| reading.expect("a record").plain);
    let printed = same_as_counted(&folder, &machines);
    let shown = pieces(&printed);
    let headings: Vec<&[&str]> = shown.iter().map(|piece| &piece[0][3..]).collect();
    assert_eq!(headings[0], ["1", "2", "3", "4", "5", "6", "7", "8"]);
    assert_eq!(headings[1], ["9", "10", "11", "12", "13", "14", "15", "16"]);
    assert_eq!(headings[2..], [["any"]]);
    assert_eq!(shown[2][16..], [["16", "0"], ["any", "20922789888000"]]);
}

/// All orders in one cell: at least 8 of 16 parts stop at the 9th failure, at least 9 at the 8th.
#[test]
fn all_orders_in_one_cell() {
    let first = largest_plain();
    let second = Plain {
        sets: sets_of_size(16, 9),
        ..first.clone()
    };
    let printed = same_as_counted(&Folder::new(), &[first, second]);
    assert_eq!(pieces(&printed).len(), 1, "{printed}");
    let rows = square(16, &printed);
    assert_eq!(i128::from(rows[8][7]), factorial(16));
    let never = ["0", "0", "0.00"];
    let always = ["20922789888000", "1", "100.00"];
    assert_eq!(ways(&printed), [never, never, always]);
}

// ---- records that do not go together

/// Part numbers that only one record has are named, on the line of that record, and nothing is counted.
#[test]
fn other_part_numbers() {
    let cases = [
        ("3 7 12", "3 7 12 16", "  only second has 16\n"),
        ("3 7 12 16", "3 7 12", "  only first has 16\n"),
        (
            "3 7 12",
            "3 7 13",
            "  only first has 12\n  only second has 13\n",
        ),
        (
            "1 2",
            "3 4 5",
            "  only first has 1 2\n  only second has 3 4 5\n",
        ),
        (
            "7",
            "281474976710655",
            "  only first has 7\n  only second has 281474976710655\n",
        ),
        ("4 5", "2 4 5 9", "  only second has 2 9\n"),
    ];
    for (first, second, alone) in cases {
        let folder = Folder::new();
        for (name, parts) in [("first", first), ("second", second)] {
            let text = format!("mark 281474976710655\nparts {parts}\nset {parts}\n");
            folder.write("text", text);
            folder.run(&["enter", "text", name]).done();
        }
        let error = joint(&folder).failed();
        let said = "nahokipe: first and second do not have the same part numbers\n";
        assert_eq!(error, format!("{said}{alone}{ONE_LIST}"));
        assert_eq!(folder.names(), ["first", "second", "text"]);
    }
}

/// Machines of as many parts, numbered otherwise: not taken by their positions, whatever their sets.
#[test]
fn as_many_parts_with_other_numbers() {
    let mut seeded = Seeded::new(803);
    let mut seen = 0;
    for n in (1..=16).flat_map(|n| [n; 2]) {
        let [first, mut second] = random_pair(&mut seeded, n);
        let index = seeded.between(0, n - 1);
        let number = first.numbers[index] + 1;
        if first.numbers.contains(&number) || number > TOP_NUMBER {
            continue;
        }
        seen += 1;
        second.numbers[index] = number;
        second.mark = TOP_NUMBER;
        let folder = with_machines(record_bytes(&first), record_bytes(&second));
        let error = joint(&folder).failed();
        let alone = format!(
            "\n  only first has {}\n  only second has {number}\n",
            first.numbers[index]
        );
        assert_has(&error, &[&alone]);
    }
    assert!(seen > 20, "{seen}");
}

/// The marks, the editions and the retired numbers may be others: the square is about parts and sets alone.
#[test]
fn other_marks_and_editions() {
    let mut seeded = Seeded::new(804);
    let folder = Folder::new();
    for n in 1..=16 {
        let (plain, retired) = random_second(&mut seeded, n);
        let machines = with_another(&mut seeded, plain);
        let expected = same_as_counted(&folder, &machines);
        let [first, second] = machines;
        folder.write("first", edition_2_bytes(&first, &retired));
        assert_eq!(joint(&folder).done(), expected);
        folder.write("second", edition_2_bytes(&second, &[]));
        assert_eq!(joint(&folder).done(), expected);
        let mark = TOP_NUMBER;
        folder.write("second", record_bytes(&Plain { mark, ..second }));
        assert_eq!(joint(&folder).done(), expected);
    }
}

/// What is no record is refused as every command refuses it, as the first and as the second, before part numbers are compared; of two it is
/// the first.
#[test]
fn spoilt_records() {
    let records = refused_records(&mut Seeded::new(805), 3);
    assert!(records.len() > 20, "{}", records.len());
    let folder = Folder::with("pumps", PUMPS);
    folder.write("empty", "");
    for (bytes, refusal) in records {
        folder.write("record", &bytes);
        for words in [["joint", "record", "pumps"], ["joint", "pumps", "record"]] {
            let ran = folder.run(&words);
            let explanation = ran.refused(refusal.number, refusal.place);
            assert_has(&explanation, &["nahokipe: record: this is no whole record"]);
        }
        let ran = folder.run(&["joint", "record", "empty"]);
        ran.refused(refusal.number, refusal.place);
        let explanation = folder.run(&["joint", "empty", "record"]).refused(21, 0);
        assert_has(&explanation, &["nahokipe: empty: "]);
    }
}

#[test]
fn from_standard_input() {
    let folder = with_machines(FIRST, SECOND);
    let printed = folder.run_with(&["joint", "-", "second"], "first").done();
    let expected = EXAMPLE.replace("machine first,", "machine standard input,");
    assert_eq!(printed, expected);
    let printed = folder.run_with(&["joint", "first", "-"], "second").done();
    let expected = EXAMPLE.replace("machine second,", "machine standard input,");
    assert_eq!(printed, expected);
    folder.write("pumps", PUMPS);
    let error = folder.run_with(&["joint", "first", "-"], "pumps").failed();
    assert_has(
        &error,
        &[
            "nahokipe: first and standard input do not",
            "  only standard input has 7 12\n",
        ],
    );
    folder.write("empty", "");
    let ran = folder.run_with(&["joint", "first", "-"], "empty");
    let explanation = ran.refused(21, 0);
    assert_has(&explanation, &["nahokipe: standard input: "]);
}

#[test]
fn the_help_of_joint() {
    let help = Folder::new().run(&["joint", "--help"]).done();
    let usage = "usage: nahokipe joint FIRST SECOND\n";
    assert!(help.starts_with(usage), "{help}");
    assert_has(
        &help,
        &[
            "the k-th failure stops the first machine",
            "the same `parts` line",
        ],
    );
}
