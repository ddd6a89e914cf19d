//! `blocks`: machines made of blocks beside the same machines entered with all their parts, and beside the equations of document 003; every
//! kind of sheet, path counts that are typed, single parts, names and editions, and what is saved.

use crate::counting::counts;
use crate::editions::random_second;
use crate::folder::{assert_has, Folder, Ran};
use nahokipe_testing::making::{accepted_counts, largest_plain, machines, mixed_blocks};
use nahokipe_testing::making::{random_blocks, random_plain, random_sizes, random_table};
use nahokipe_testing::naive::{minimal_of_rising, path_sets, structure_of};
use nahokipe_testing::naive_blocks::{assembled, coefficients, composed, reflected};
use nahokipe_testing::naive_editions::edition_2_bytes;
use nahokipe_testing::naive_figures::path_counts;
use nahokipe_testing::naive_records::{record_bytes, Plain, TOP_NUMBER};
use nahokipe_testing::naive_vectors::{read_sheet, sheet_bytes, vector_for};
use nahokipe_testing::naive_vectors::{KINDS, PATH_COUNTS, SIGNATURE};
use nahokipe_testing::seeded::Seeded;

/// Two blocks, numbers 4 and 9, both of which are needed.
pub const SERIES: [u8; 6] = [2, 15, 4, 9, 1, 0b11];
/// The blocks of the request: the signature 2, 4, 0 of 6 orders, and the path counts whose signature is 0, 16, 8, 0 of 24.
pub const PUMP: [u8; 5] = [3, 3, 2, 4, 0];
pub const GAS: [u8; 7] = [1, 4, 0, 0, 2, 4, 1];
/// The sheet of the path counts of both in series.
pub const WHOLE: [u8; 10] = [1, 7, 0, 0, 0, 0, 4, 10, 6, 1];

/// The words that ask for them.
pub const EXAMPLE: [&str; 4] = ["blocks", "record", "4=pump", "9=gas"];

/// What is printed of them in front of the figures, and where they are saved, the line behind that.
pub const LINES: &str = "\
part 4: pump, kind 3, signature, 3 parts
part 9: gas, kind 1, path counts, 4 parts
the whole: 7 parts, if no part is in two blocks
";
pub const WRITTEN: &str = "written: kind 1, path counts, 7 parts, 10 bytes\n";

/// The figures that are printed of them.
pub const FIGURES: &str = "\
7! = 5040 orders in which the parts can fail, all counted alike

Signature: in how many orders it is the 1st, 2nd, ... failure that stops the machine
  failure  orders  fraction  per cent
        1     720       1/7     14.29
        2    1920      8/21     38.10
        3    1824    38/105     36.19
        4     576      4/35     11.43
        5       0         0      0.00
        6       0         0      0.00
        7       0         0      0.00

Path counts: how many of the sets of so many parts run the machine
  parts  path sets  of  per cent
      0          0   1      0.00
      1          0   7      0.00
      2          0  21      0.00
      3          0  35      0.00
      4          4  35     11.43
      5         10  21     47.62
      6          6   7     85.71
      7          1   1    100.00
";

/// A folder with the request's two blocks in series.
pub fn with_example() -> Folder {
    let folder = Folder::with("record", SERIES);
    folder.write("pump", PUMP);
    folder.write("gas", GAS);
    folder
}

/// The record of the same two blocks in edition 2, with these retired numbers.
pub fn series_with(retired: &[u64]) -> Vec<u8> {
    let plain = Plain {
        mark: 15,
        numbers: vec![4, 9],
        sets: vec![0b11],
    };
    edition_2_bytes(&plain, retired)
}

/// `1 part`, `2 parts`.
fn parts(n: usize) -> String {
    match n {
        1 => "1 part".to_string(),
        n => format!("{n} parts"),
    }
}

/// The line of a part for which no block is given.
pub fn single(number: u64) -> String {
    format!("part {number}: one part, no block is given\n")
}

/// The line of a part of which the path counts of so many parts are typed.
pub fn typed(number: u64, n: usize) -> String {
    format!("part {number}: path counts as given, {}\n", parts(n))
}

/// The line behind those of the parts.
pub fn in_all(n: usize) -> String {
    format!("the whole: {}, if no part is in two blocks\n", parts(n))
}

/// The orders, the signature and the path counts of a record, as `figures` prints them.
fn figures_of(folder: &Folder, record: &str) -> String {
    let printed = folder.run(&["figures", record]).done();
    let pieces: Vec<&str> = printed.split("\n\n").collect();
    let (_, orders) = pieces[0].split_once('\n').expect("the orders");
    let (signature, counts) = (pieces[1], pieces[3]);
    assert!(signature.starts_with("Signature: ") && counts.starts_with("Path counts: "));
    format!("{orders}\n\n{signature}\n\n{counts}\n")
}

/// The path counts that are printed.
fn printed_counts(printed: &str) -> Vec<i128> {
    let rows = counts(printed, "Path counts").into_iter();
    rows.map(|(_, count)| count).collect()
}

/// A machine of n parts by its table.
type Machine = (usize, Vec<u8>);

/// How a block is given: by a sheet of some kind, by its path counts, or, where it is one part, not at all.
#[derive(Clone, Copy)]
enum Form {
    Sheet(u8),
    Typed,
    Single,
}

/// A block of a record: the number of its part, its path counts and how it is given.
struct Block {
    number: u64,
    counts: Vec<i128>,
    form: Form,
}

impl Block {
    /// How many parts it has.
    fn size(&self) -> usize {
        self.counts.len() - 1
    }

    /// Its line.
    fn line(&self) -> String {
        let (number, n) = (self.number, self.size());
        let kind = match self.form {
            Form::Sheet(1) => "1, path counts",
            Form::Sheet(2) => "2, tail",
            Form::Sheet(3) => "3, signature",
            Form::Sheet(_) => "4, domination",
            Form::Typed => return typed(number, n),
            Form::Single => return single(number),
        };
        format!("part {number}: {number}.sheet, kind {kind}, {}\n", parts(n))
    }

    /// The word that gives it, where one does; a sheet is written to a file that the part's number names.
    fn word(&self, folder: &Folder) -> Option<String> {
        let number = self.number;
        match self.form {
            Form::Sheet(kind) => {
                let sheet = sheet_bytes(kind, self.size(), &vector_for(kind, &self.counts));
                folder.write(&format!("{number}.sheet"), sheet);
                Some(format!("{number}={number}.sheet"))
            }
            Form::Typed => Some(format!("{number}={}", commas(&self.counts))),
            Form::Single => None,
        }
    }
}

/// Path counts as they are typed.
pub fn commas(counts: &[i128]) -> String {
    let words: Vec<String> = counts.iter().map(i128::to_string).collect();
    words.join(",")
}

/// A machine of blocks: their record, and what each of its parts is.
struct Made {
    over: Plain,
    blocks: Vec<Block>,
}

impl Made {
    /// Blocks of these path counts, by sheets of random kinds or typed. Most single parts are not given, but one part at least is.
    fn of(seeded: &mut Seeded, over: Plain, all: Vec<Vec<i128>>) -> Made {
        let given = seeded.between(0, all.len() - 1);
        let mut blocks = Vec::new();
        for (index, counts) in all.into_iter().enumerate() {
            let bare = counts.len() == 2 && index != given && seeded.between(0, 2) > 0;
            let form = match seeded.between(0, 1) {
                _ if bare => Form::Single,
                0 => Form::Typed,
                _ => Form::Sheet(seeded.pick(&KINDS)),
            };
            blocks.push(Block {
                number: over.numbers[index],
                counts,
                form,
            });
        }
        Made { over, blocks }
    }

    /// The structure over the blocks.
    fn structure(&self) -> Vec<bool> {
        path_sets(self.blocks.len(), &self.over.sets)
    }

    /// The lines in front of the figures.
    fn lines(&self) -> String {
        let lines: String = self.blocks.iter().map(Block::line).collect();
        lines + &in_all(self.blocks.iter().map(Block::size).sum())
    }

    /// A run on this record and the blocks that are given, the words in any order.
    fn run(&self, folder: &Folder, seeded: &mut Seeded, record: &[u8], options: &[&str]) -> Ran {
        folder.write("record", record);
        let words = self.blocks.iter().filter_map(|block| block.word(folder));
        let mut words: Vec<String> = words.collect();
        seeded.shuffle(&mut words);
        let words: Vec<&str> = words.iter().map(String::as_str).collect();
        folder.run(&[&["blocks", "record"], &words[..], options].concat())
    }

    /// What is printed of it.
    fn printed(&self, folder: &Folder, seeded: &mut Seeded) -> String {
        let record = record_bytes(&self.over);
        self.run(folder, seeded, &record, &[]).done()
    }
}

/// Blocks that are these machines, under a record: what is printed is what `figures` prints of the whole machine that is entered with all
/// its parts, wherever they stand.
fn same_as_whole(folder: &Folder, seeded: &mut Seeded, over: Plain, inside: &[Machine]) {
    let counts = |(n, table): &Machine| path_counts(*n, &structure_of(*n, table));
    let made = Made::of(seeded, over, inside.iter().map(counts).collect());
    let works = assembled(&made.structure(), &mixed_blocks(seeded, inside));
    let n = inside.iter().map(|(n, _)| n).sum();
    let whole = Plain {
        mark: 16,
        numbers: (1..=n as u64).collect(),
        sets: minimal_of_rising(n, &works),
    };
    folder.write("whole", record_bytes(&whole));
    let printed = made.printed(folder, seeded);
    assert_eq!(printed, made.lines() + &figures_of(folder, "whole"));
}

// ---- machines made of blocks

#[test]
fn the_example_of_the_request() {
    let folder = with_example();
    let printed = folder.run(&EXAMPLE).done();
    assert_eq!(printed, format!("{LINES}{FIGURES}"));
    assert_eq!(folder.names(), ["gas", "pump", "record"]);
    assert_eq!(folder.read("record"), SERIES);
    assert_eq!(folder.read("pump"), PUMP);
    assert_eq!(folder.read("gas"), GAS);
}

/// The words stand in any order; what is printed follows the parts of the record.
#[test]
fn words_in_any_order() {
    let folder = with_example();
    folder.write("names", "4 pump unit\n9 gas unit\n");
    let printed = folder.run(&["blocks", "record", "9=gas", "4=pump"]).done();
    assert_eq!(printed, format!("{LINES}{FIGURES}"));
    let lines = LINES.replace("signature, 3 parts", "signature, 3 parts  # pump unit");
    let lines = lines.replace("counts, 4 parts", "counts, 4 parts  # gas unit");
    for words in [
        ["blocks", "record", "4=pump", "9=gas", "--names", "names"],
        ["blocks", "--names", "names", "record", "9=gas", "4=pump"],
        ["blocks", "record", "9=gas", "--names", "names", "4=pump"],
    ] {
        assert_eq!(folder.run(&words).done(), format!("{lines}{FIGURES}"));
    }
}

/// The sheet of a block may be of any kind: all say the same.
#[test]
fn every_kind_of_sheet() {
    let folder = with_example();
    let pumps: [(&str, &[u8]); 4] = [
        ("1, path counts", &[1, 3, 0, 0, 2, 1]),
        ("2, tail", &[2, 3, 6, 4, 0, 0]),
        ("3, signature", &PUMP),
        ("4, domination", &[4, 3, 0, 0, 4, 1]),
    ];
    let gases: [(&str, &[u8]); 4] = [
        ("1, path counts", &GAS),
        ("2, tail", &[2, 4, 24, 24, 8, 0, 0]),
        ("3, signature", &[3, 4, 0, 16, 8, 0]),
        ("4, domination", &[4, 4, 0, 0, 4, 0, 1]),
    ];
    for (first, pump) in pumps {
        for (second, gas) in gases {
            folder.write("pump", pump);
            folder.write("gas", gas);
            let lines = format!(
                "part 4: pump, kind {first}, 3 parts\npart 9: gas, kind {second}, 4 parts\n{}",
                in_all(7)
            );
            assert_eq!(folder.run(&EXAMPLE).done(), lines + FIGURES);
        }
    }
}

/// Every machine of one or two blocks that are machines of one or two parts, and of one block of three.
#[test]
fn every_small_machine() {
    let (folder, mut seeded) = (Folder::new(), Seeded::new(830));
    let of_size = |n| machines(n).into_iter().map(move |table| (n, table));
    let small: Vec<Machine> = of_size(1).chain(of_size(2)).collect();
    let mut insides: Vec<Vec<Machine>> = of_size(3).map(|block| vec![block]).collect();
    for first in &small {
        insides.push(vec![first.clone()]);
        let beside = |second: &Machine| vec![first.clone(), second.clone()];
        insides.extend(small.iter().map(beside));
    }
    for inside in insides {
        let r = inside.len();
        for table in machines(r) {
            let over = Plain {
                mark: 900,
                numbers: [3, 700][..r].to_vec(),
                sets: minimal_of_rising(r, &structure_of(r, &table)),
            };
            same_as_whole(&folder, &mut seeded, over, &inside);
        }
    }
}

/// Random machines of 1 to 16 blocks with up to 16 parts in all.
#[test]
fn random_machines() {
    let (folder, mut seeded) = (Folder::new(), Seeded::new(831));
    for r in (1..=16).flat_map(|r| [r; 4]) {
        let over = random_plain(&mut seeded, r);
        let sizes = random_sizes(&mut seeded, r).into_iter();
        let inside = sizes.map(|n| (n, random_table(&mut seeded, n)));
        let inside: Vec<Machine> = inside.collect();
        same_as_whole(&folder, &mut seeded, over, &inside);
    }
}

/// Sixteen single parts, one of them by a sheet: the machine of the record itself.
#[test]
fn sixteen_single_parts() {
    let folder = Folder::with("record", record_bytes(&largest_plain()));
    folder.write("one", [4, 1, 0, 2]);
    let word = format!("{TOP_NUMBER}=one");
    let printed = folder.run(&["blocks", "record", &word]).done();
    let others: String = (TOP_NUMBER - 15..TOP_NUMBER).map(single).collect();
    let last = format!("part {TOP_NUMBER}: one, kind 4, domination, 1 part\n");
    let lines = others + &last + &in_all(16);
    assert_eq!(printed, lines + &figures_of(&folder, "record"));
}

/// A part for which no block is given is one part, whichever it is, and is said to be one.
#[test]
fn parts_without_a_block() {
    let folder = with_example();
    let block = |number| format!("part {number}: gas, kind 1, path counts, 4 parts\n");
    for (word, lines) in [
        ("9=gas", single(4) + &block(9)),
        ("4=gas", block(4) + &single(9)),
    ] {
        let printed = folder.run(&["blocks", "record", word]).done();
        let start = format!("{lines}{}5! = 120 orders ", in_all(5));
        assert!(printed.starts_with(&start), "{printed}");
        let signature = [(1, 24), (2, 72), (3, 24), (4, 0), (5, 0)];
        assert_eq!(counts(&printed, "Signature"), signature);
    }
}

/// The machine of one block is the block.
#[test]
fn a_single_block() {
    let folder = Folder::with("record", [1, 8, 7, 1, 1]);
    folder.write("sheet", GAS);
    let words = ["blocks", "record", "7=sheet", "-o", "new"];
    assert_has(&folder.run(&words).done(), &[&in_all(4)]);
    assert_eq!(folder.read("new"), GAS);
    folder.write("sheet", [1, 1, 0, 1]);
    let printed = folder.run(&["blocks", "record", "7=sheet"]).done();
    let line = "part 7: sheet, kind 1, path counts, 1 part\n";
    assert!(printed.starts_with(&(line.to_string() + &in_all(1))));
}

/// One sheet may stand for several blocks, which are then alike.
#[test]
fn one_sheet_for_two_blocks() {
    let folder = with_example();
    let words = ["blocks", "record", "4=pump", "9=pump"];
    let printed = folder.run(&words).done();
    let line = "part 9: pump, kind 3, signature, 3 parts\n";
    assert_has(&printed, &[&(line.to_string() + &in_all(6))]);
    assert_eq!(printed_counts(&printed), [0, 0, 0, 0, 4, 4, 1]);
}

/// What was saved of blocks stands for a block itself: two steps come to the same as one.
#[test]
fn blocks_of_blocks() {
    let folder = with_example();
    folder.write("three", [3, 15, 4, 9, 12, 1, 0b111]);
    let saved = |words: &[&str]| {
        folder.run(&[words, &["-o", "saved"]].concat()).done();
        let bytes = folder.read("saved");
        std::fs::remove_file(folder.file("saved")).expect("the file removed");
        bytes
    };
    let one_step = saved(&["blocks", "three", "4=pump", "9=gas", "12=pump"]);
    folder.write("both", saved(&EXAMPLE));
    let two_steps = saved(&["blocks", "record", "4=both", "9=pump"]);
    assert_eq!(one_step, two_steps);
    assert_eq!(one_step[..2], [PATH_COUNTS, 10]);
}

// ---- counts that no block has

/// What is printed of blocks with these counts holds to equations (12) and (13) of document 003, at more points than polynomials of this
/// degree can have in common, and the signature is that of the path counts.
fn same_as_equations(folder: &Folder, seeded: &mut Seeded, over: Plain, blocks: Vec<Vec<i128>>) {
    let made = Made::of(seeded, over, blocks.clone());
    let printed = made.printed(folder, seeded);
    assert!(printed.starts_with(&made.lines()), "{printed}");
    let whole = printed_counts(&printed);
    let coefficients = coefficients(&made.structure());
    for x in 0..=17 {
        let composed = composed(&coefficients, &blocks, x);
        assert_eq!(reflected(&whole, x), composed, "x = {x}: {printed}");
    }
    let signature = counts(&printed, "Signature").into_iter();
    let signature: Vec<i64> = signature.map(|(_, count)| count as i64).collect();
    assert_eq!(signature, vector_for(SIGNATURE, &whole), "{printed}");
}

/// All accepted counts of two blocks of up to three parts, of which some are no machine's, in series and in parallel.
#[test]
fn every_accepted_count() {
    let (folder, mut seeded) = (Folder::new(), Seeded::new(832));
    let all: Vec<Vec<i128>> = (1..=3).flat_map(accepted_counts).collect();
    let of_no_machine = vec![0, 1, 1, 1];
    assert!(all.contains(&of_no_machine));
    for (first, second) in all
        .iter()
        .flat_map(|first| all.iter().map(move |s| (first, s)))
    {
        for sets in [vec![0b11], vec![0b01, 0b10]] {
            let over = Plain {
                mark: 8,
                numbers: vec![2, 5],
                sets,
            };
            let blocks = vec![first.clone(), second.clone()];
            same_as_equations(&folder, &mut seeded, over, blocks);
        }
    }
}

#[test]
fn random_accepted_counts() {
    let (folder, mut seeded) = (Folder::new(), Seeded::new(833));
    for r in (1..=8).flat_map(|r| [r; 5]) {
        let over = random_plain(&mut seeded, r);
        let blocks = random_blocks(&mut seeded, r);
        same_as_equations(&folder, &mut seeded, over, blocks);
    }
}

// ---- names and editions

/// Names are shown beside the parts, also beside single ones. A name for no part is said, but not that of a retired number.
#[test]
fn names_of_blocks() {
    let folder = with_example();
    folder.write("names", "4 pump unit\n7 heater\n9 gas unit\n");
    let words = ["blocks", "record", "9=gas", "--names", "names"];
    let lines = "\
part 4: one part, no block is given  # pump unit
part 9: gas, kind 1, path counts, 4 parts  # gas unit
";
    let ran = folder.run(&words);
    let stranger = "nahokipe: names: 7 heater: no part has number 7; the parts are 4 9\n";
    assert_eq!((ran.status, ran.error.as_str()), (Some(0), stranger));
    assert!(ran.text().starts_with(&(lines.to_string() + &in_all(5))));
    folder.write("record", series_with(&[7]));
    assert_eq!(folder.run(&words).done(), ran.text());
    folder.write("names", "9 gas unit\n");
    let without = ran.text().replace("  # pump unit", "");
    assert_eq!(folder.run(&words).done(), without);
    folder.write("names", "gas unit\n");
    let error = "nahokipe: names: line 1: `gas unit` is not a part number and a name\n";
    assert_eq!(folder.run(&words).failed(), error);
}

/// The edition, the retired numbers and the mark of the record change nothing.
#[test]
fn records_of_edition_2() {
    let (folder, mut seeded) = (Folder::new(), Seeded::new(834));
    for r in 1..=16 {
        let (over, retired) = random_second(&mut seeded, r);
        let blocks = random_blocks(&mut seeded, r);
        let made = Made::of(&mut seeded, over, blocks);
        let expected = made.printed(&folder, &mut seeded);
        let (mark, over) = (TOP_NUMBER, made.over.clone());
        for record in [
            edition_2_bytes(&made.over, &retired),
            record_bytes(&Plain { mark, ..over }),
        ] {
            let ran = made.run(&folder, &mut seeded, &record, &[]);
            assert_eq!(ran.done(), expected);
        }
    }
}

// ---- saving

/// With -o the path counts are a new sheet, which a line says, and the figures are printed all the same.
#[test]
fn the_example_saved() {
    let folder = with_example();
    let printed = folder.run(&[&EXAMPLE[..], &["-o", "new"]].concat()).done();
    assert_eq!(printed, format!("{LINES}{WRITTEN}{FIGURES}"));
    assert_eq!(folder.read("new"), WHOLE);
    let words = ["blocks", "-o", "another", "record", "9=gas", "4=pump"];
    assert_eq!(folder.run(&words).done(), printed);
    assert_eq!(folder.read("another"), WHOLE);
    assert_eq!(folder.names(), ["another", "gas", "new", "pump", "record"]);
    let shown = folder.run(&["sheet", "new", "signature"]).done();
    let signature = FIGURES.split("\n\n").nth(1).expect("the signature");
    assert_has(&shown, &[&format!("\n\n{signature}\n")]);
}

/// The sheets that are saved of random blocks are those of the path counts that are printed.
#[test]
fn random_machines_saved() {
    let (folder, mut seeded) = (Folder::new(), Seeded::new(835));
    for r in (1..=16).flat_map(|r| [r; 2]) {
        let over = random_plain(&mut seeded, r);
        let blocks = random_blocks(&mut seeded, r);
        let made = Made::of(&mut seeded, over, blocks);
        let printed = made.printed(&folder, &mut seeded);
        let whole = vector_for(PATH_COUNTS, &printed_counts(&printed));
        let n = whole.len() - 1;
        let sheet = sheet_bytes(PATH_COUNTS, n, &whole);
        assert!(read_sheet(&sheet).is_ok(), "{sheet:?}");
        let record = record_bytes(&made.over);
        let ran = made.run(&folder, &mut seeded, &record, &["-o", "-"]);
        assert_eq!((ran.status, &ran.output), (Some(0), &sheet));
        let (what, bytes) = (parts(n), sheet.len());
        let written = format!("written: kind 1, path counts, {what}, {bytes} bytes\n");
        let (lines, figures) = printed.split_at(made.lines().len());
        assert_eq!(ran.error, format!("{lines}{written}{figures}"));
    }
}
