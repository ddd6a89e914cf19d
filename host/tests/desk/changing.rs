//! `add-part`, `add-set` and `take-out`: what they do to a record, and what they say they did.

use crate::folder::{assert_has, Folder, BRIDGE, PUMPS};
use nahokipe::Refusal;
use nahokipe_testing::making::{largest_record, machines, random_group, random_plain};
use nahokipe_testing::naive::minimal_sets;
use nahokipe_testing::naive_records::{self as by_words, named, record_bytes, Design, Plain};
use nahokipe_testing::seeded::Seeded;

/// What a change should give: the design that its words say, as a record.
fn expected(changed: Result<Design, Refusal>) -> Result<Vec<u8>, Refusal> {
    changed.map(|design| record_bytes(&design.plain()))
}

/// Runs a change on a record's file and compares what stands there afterwards.
pub fn same_change(
    bytes: &[u8],
    command: &str,
    numbers: &[u64],
    expected: Result<Vec<u8>, Refusal>,
) {
    let folder = Folder::with("record", bytes);
    let numbers: Vec<String> = numbers.iter().map(u64::to_string).collect();
    let words: Vec<&str> = [command, "record"]
        .into_iter()
        .chain(numbers.iter().map(String::as_str))
        .collect();
    let ran = folder.run(&words);
    match expected {
        Ok(record) => {
            ran.done();
            assert!(folder.read("record") == record, "{words:?} of {bytes:02X?}");
        }
        Err(Refusal { number, place }) => {
            ran.refused(number, place);
            assert!(folder.read("record") == bytes, "{words:?} of {bytes:02X?}");
        }
    }
    assert_eq!(folder.names(), ["record"]);
}

/// The spreadsheet's fault: a pump leaves, a sensor comes. The sensor's number is new, and no set has it.
#[test]
fn a_pump_out_and_a_sensor_in() {
    let text = "mark 6\nparts 1 2 3 4 5 6\nset 1 2 6\nset 1 3 6\nset 4 5\n";
    let folder = Folder::with("tab6.txt", text);
    folder.run(&["enter", "tab6.txt", "tab6"]).done();
    let printed = folder.run(&["take-out", "tab6", "6"]).done();
    let left = "part 6 left\nset 1 2 6 went\nset 1 3 6 went\n";
    let next = "now 5 parts, 1 set, mark 6; the next part that is added gets number 7\n";
    assert_eq!(printed, format!("{left}{next}"));
    let printed = folder.run(&["add-part", "tab6"]).done();
    assert!(printed.starts_with("part 7 came, in no set\n"), "{printed}");
    let shown = folder.run(&["show", "tab6"]).done();
    assert_eq!(shown, "mark 7\nparts 1 2 3 4 5 7\nset 4 5\n");
    let printed = folder.run(&["add-set", "tab6", "6", "1"]).refused(17, 0);
    assert_has(
        &printed,
        &["no part has number 6; the parts are 1 2 3 4 5 7"],
    );
    folder.run(&["take-out", "tab6", "7"]).done();
    let printed = folder.run(&["add-part", "tab6"]).done();
    assert!(printed.starts_with("part 8 came, in no set\n"), "{printed}");
}

/// After part 3 has left, part 4 stands at position 3. The desk takes part numbers, so part 4 leaves and not part 5.
#[test]
fn numbers_and_not_positions() {
    let folder = Folder::with("bridge", BRIDGE);
    folder.run(&["take-out", "bridge", "3"]).done();
    let printed = folder.run(&["take-out", "bridge", "4"]).done();
    assert!(
        printed.starts_with("part 4 left\nset 1 4 went\n"),
        "{printed}"
    );
    let shown = folder.run(&["show", "bridge"]).done();
    assert_eq!(shown, "mark 5\nparts 1 2 5\nset 2 5\n");
}

#[test]
fn what_a_set_does() {
    let folder = Folder::with("bridge", BRIDGE);
    let printed = folder.run(&["add-set", "bridge", "3", "2"]).done();
    let story = "set 2 3 came\nset 2 3 4 went, since it holds set 2 3\n";
    assert!(printed.starts_with(story), "{printed}");
    let before = folder.read("bridge");
    let printed = folder.run(&["add-set", "bridge", "5", "2", "1"]).done();
    let story = "nothing changed: set 1 2 5 holds set 2 5, which suffices\n";
    assert!(printed.starts_with(story), "{printed}");
    let printed = folder.run(&["add-set", "bridge", "3", "2"]).done();
    assert!(
        printed.starts_with("nothing changed: set 2 3 is there already\n"),
        "{printed}"
    );
    assert_eq!(folder.read("bridge"), before);
    let printed = folder
        .run(&["add-set", "bridge", "1", "-o", "other"])
        .done();
    assert_has(
        &printed,
        &[
            "set 1 came\n",
            "set 1 4 went, since it holds set 1\n",
            "set 1 3 5 went",
        ],
    );
    assert_eq!(folder.read("bridge"), before);
    assert_eq!(
        folder.run(&["show", "other"]).done().lines().last(),
        Some("set 2 5")
    );
}

/// Several parts leave together or not at all.
#[test]
fn together_or_not_at_all() {
    let folder = Folder::with("bridge", BRIDGE);
    let printed = folder.run(&["take-out", "bridge", "5", "3"]).done();
    let story = "part 3 left\npart 5 left\nset 2 3 4 went\nset 2 5 went\nset 1 3 5 went\n";
    assert!(printed.starts_with(story), "{printed}");
    folder.write("bridge", BRIDGE);
    let explanation = folder.run(&["take-out", "bridge", "1", "2"]).refused(18, 0);
    assert_has(
        &explanation,
        &["bridge: every set names one of the parts 1 2"],
    );
    let explanation = folder.run(&["take-out", "bridge", "3", "6"]).refused(17, 0);
    assert_has(&explanation, &["no part has number 6"]);
    assert_eq!(folder.read("bridge"), BRIDGE);
    folder.write("pumps", PUMPS);
    let explanation = folder.run(&["take-out", "pumps", "3"]).refused(18, 0);
    assert_has(&explanation, &["pumps: every set names part 3\n"]);
}

/// Every change of every machine of up to three parts, by part numbers with gaps and above a byte.
#[test]
fn every_change_of_small_machines() {
    for n in 1..=3 {
        for table in machines(n) {
            let sets = minimal_sets(n, &table).expect("an accepted table");
            let numbers = [2, 9, 300][..n].to_vec();
            let mark = 1 << 40;
            let plain = Plain {
                mark,
                numbers,
                sets,
            };
            every_change(&plain);
        }
    }
}

/// A part more, and every group of parts out and as a set.
fn every_change(plain: &Plain) {
    let (bytes, design) = (record_bytes(plain), Design::of(plain));
    same_change(&bytes, "add-part", &[], expected(design.clone().add_part()));
    for group in 1..1 << plain.numbers.len() {
        let numbers: Vec<u64> = named(&plain.numbers, group).into_iter().rev().collect();
        let out = design.clone().take_out_parts(&numbers);
        same_change(&bytes, "take-out", &numbers, expected(out));
        let set = design.clone().add_set_of_parts(&numbers);
        same_change(&bytes, "add-set", &numbers, expected(set));
    }
}

#[test]
fn changes_of_random_machines() {
    let mut seeded = Seeded::new(710);
    for n in 1..=16 {
        for _ in 0..4 {
            let plain = random_plain(&mut seeded, n);
            let (bytes, design) = (record_bytes(&plain), Design::of(&plain));
            let group = random_group(&mut seeded, n) as u16;
            let mut numbers: Vec<u64> = named(&plain.numbers, group).into_iter().collect();
            seeded.shuffle(&mut numbers);
            same_change(&bytes, "add-part", &[], expected(design.clone().add_part()));
            let out = design.clone().take_out_parts(&numbers);
            same_change(&bytes, "take-out", &numbers, expected(out));
            let out = design.clone().take_out_part(numbers[0]);
            same_change(&bytes, "take-out", &numbers[..1], expected(out));
            let set = design.add_set_of_parts(&numbers);
            same_change(&bytes, "add-set", &numbers, expected(set));
        }
    }
}

/// The machine of 16 parts with all 12,870 sets of 8: full, and 6,435 sets go with a part.
#[test]
fn the_largest_machine() {
    let folder = Folder::with("record", largest_record());
    let numbers = by_words::whole_record(&largest_record())
        .expect("a record")
        .plain
        .numbers;
    folder.run(&["add-part", "record"]).refused(19, 0);
    let first = numbers[0].to_string();
    let printed = folder.run(&["take-out", "record", &first]).done();
    let went = printed
        .lines()
        .filter(|line| line.ends_with(" went"))
        .count();
    assert_eq!(went, 6_435);
    assert_has(
        &printed,
        &[&format!("part {first} left\n"), "now 15 parts, 6435 sets"],
    );
    folder.run(&["add-part", "record"]).refused(20, 0);
    folder.run(&["take-out", "record", &first]).refused(17, 0);
}

/// Numbers beyond what a record holds are no part's, however long they are.
#[test]
fn numbers_of_any_length() {
    let folder = Folder::with("pumps", PUMPS);
    let longest = "7".repeat(400);
    let long = [
        "281474976710656",
        "18446744073709551615",
        "18446744073709551623",
        &longest,
    ];
    for number in long {
        folder.run(&["take-out", "pumps", number]).refused(17, 0);
        folder
            .run(&["take-out", "pumps", "7", number])
            .refused(17, 0);
        folder.run(&["add-set", "pumps", number]).refused(17, 0);
        folder.run(&["shares", "pumps", number]).refused(17, 0);
    }
    folder.run(&["take-out", "pumps", "0"]).refused(17, 0);
    let two = ["take-out", "pumps", "18446744073709551616", &longest];
    let error = folder.run(&two).refused(17, 0);
    assert!(error.contains("18446744073709551615 or more"), "{error}");
    assert_eq!(folder.read("pumps"), PUMPS);
}

/// `-` as the record: the new one goes to standard output, and the story to standard error.
#[test]
fn through_pipes() {
    let folder = Folder::with("bridge", BRIDGE);
    let ran = folder.run_with(&["take-out", "-", "3"], "bridge");
    assert_eq!(
        (ran.status, &ran.output[..]),
        (Some(0), &[4, 5, 1, 2, 4, 5, 2, 5, 10][..])
    );
    assert!(ran.error.starts_with("part 3 left\n"), "{ran:?}");
    let ran = folder.run_with(&["take-out", "-", "9"], "bridge");
    assert_eq!((ran.status, &ran.output[..]), (Some(1), &b""[..]));
    assert!(
        ran.error
            .starts_with("refused 17 0\nnahokipe: standard input: "),
        "{ran:?}"
    );
    let ran = folder.run(&["add-part", "bridge", "-o", "-"]);
    assert_eq!((ran.status, ran.output.len()), (Some(0), BRIDGE.len() + 1));
    assert!(ran.error.starts_with("part 6 came, in no set\n"), "{ran:?}");
    assert_eq!(folder.read("bridge"), BRIDGE);
    let printed = folder
        .run_with(&["add-part", "-", "-o", "new"], "bridge")
        .done();
    assert!(printed.starts_with("part 6 came, in no set\n"), "{printed}");
    assert_eq!(folder.read("new").len(), BRIDGE.len() + 1);
    let line = "nahokipe take-out - 3 <bridge 2>/dev/null | nahokipe add-part - 2>/dev/null | nahokipe show -";
    let shown = folder.shell(line).done();
    assert_eq!(shown, "mark 6\nparts 1 2 4 5 6\nset 1 4\nset 2 5\n");
}
