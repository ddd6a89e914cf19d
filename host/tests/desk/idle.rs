//! `idle`: the parts that never change whether the machine runs, beside a search over all sets, and what other commands say of them.

use crate::counting::counts;
use crate::folder::{assert_has, Folder, BRIDGE, PUMPS};
use crate::manual::with_examples;
use nahokipe_testing::making::{every_plain, largest_record, minimal_of_list, random_list_over};
use nahokipe_testing::making::{random_plain, random_set, refused_records};
use nahokipe_testing::naive_idle::idle_parts;
use nahokipe_testing::naive_records::{named, record_bytes, table_of_record};
use nahokipe_testing::naive_records::{Plain, TOP_NUMBER};
use nahokipe_testing::seeded::Seeded;

/// What is printed where no part is idle.
const NONE: &str = "# no part is idle\n";

/// The numbers of the idle parts of a machine, searched over all sets.
fn idle_of(plain: &Plain) -> Vec<u64> {
    let table = table_of_record(&record_bytes(plain)).expect("an accepted record");
    let idle = idle_parts(plain.numbers.len(), &table).expect("an accepted table");
    named(&plain.numbers, idle).into_iter().collect()
}

/// The lines of these parts, as they should be printed.
fn lines_of(idle: &[u64]) -> String {
    match idle {
        [] => NONE.to_string(),
        _ => idle.iter().map(|part| format!("idle {part}\n")).collect(),
    }
}

/// `idle` prints what the search finds.
fn same_as_searched(folder: &Folder, plain: &Plain) {
    folder.write("record", record_bytes(plain));
    let printed = folder.run(&["idle", "record"]).done();
    assert_eq!(printed, lines_of(&idle_of(plain)), "{plain:?}");
}

/// A machine of n parts whose sets name no part outside a group, so that the others are idle.
fn within_a_group(seeded: &mut Seeded, n: usize) -> Plain {
    let group = random_set(seeded, n);
    let sets = random_list_over(seeded, group);
    Plain {
        sets: minimal_of_list(n, &sets),
        ..random_plain(seeded, n)
    }
}

/// The lines of `show` that say the sets.
fn shown_sets(folder: &Folder, record: &str) -> Vec<String> {
    let shown = folder.run(&["show", record]).done();
    let sets = shown.lines().filter(|line| line.starts_with("set "));
    sets.map(String::from).collect()
}

#[test]
fn machines_without_an_idle_part() {
    let folder = Folder::new();
    for record in [&BRIDGE[..], &PUMPS, &largest_record()] {
        folder.write("record", record);
        assert_eq!(folder.run(&["idle", "record"]).done(), NONE);
    }
    folder.write("names", "3 controller\n7 pump\n12 pump\n");
    folder.write("pumps", PUMPS);
    let words = ["idle", "pumps", "--names", "names"];
    assert_eq!(folder.run(&words).done(), NONE);
}

/// The last coefficient of the domination is 0, and yet no part is idle.
#[test]
fn no_idle_part_where_the_last_coefficient_is_0() {
    let folder = Folder::with("text", "parts 4\nset 1 2\nset 2 3\nset 3 4\n");
    folder.run(&["new", "text", "record"]).done();
    let figures = folder.run(&["figures", "record"]).done();
    let domination = counts(&figures, "Domination");
    assert_eq!(domination, [(1, 0), (2, 3), (3, -2), (4, 0)]);
    assert!(!figures.contains("idle"), "{figures}");
    assert_eq!(folder.run(&["idle", "record"]).done(), NONE);
}

/// Machines of 1 to 16 parts that run exactly if one part works: all others are idle, with numbers of any width.
#[test]
fn all_parts_but_one() {
    let folder = Folder::new();
    let machines = (1..=16).flat_map(|n| (0..n).map(move |needed| (n, needed)));
    for (n, needed) in machines {
        let plain = Plain {
            mark: TOP_NUMBER,
            numbers: (0..n).map(|i| TOP_NUMBER >> (3 * (n - 1 - i))).collect(),
            sets: vec![1 << needed],
        };
        let mut others = plain.numbers.clone();
        others.remove(needed);
        folder.write("record", record_bytes(&plain));
        let printed = folder.run(&["idle", "record"]).done();
        assert_eq!(printed, lines_of(&others));
    }
}

#[test]
fn every_small_machine() {
    let folder = Folder::new();
    for plain in (1..=4).flat_map(every_plain) {
        same_as_searched(&folder, &plain);
    }
}

/// Random machines with and without idle parts; each position of 16 is seen idle and needed.
#[test]
fn random_machines() {
    let mut seeded = Seeded::new(780);
    let folder = Folder::new();
    let mut seen = [[0; 2]; 16];
    for n in (1..=16).chain([16; 8]).flat_map(|n| [n; 4]) {
        same_as_searched(&folder, &random_plain(&mut seeded, n));
        let plain = within_a_group(&mut seeded, n);
        same_as_searched(&folder, &plain);
        let idle = idle_of(&plain);
        let parts = plain.numbers.iter().zip(&mut seen);
        parts.for_each(|(part, seen)| seen[usize::from(idle.contains(part))] += 1);
    }
    let times = seen.as_flattened();
    assert!(times.iter().all(|&times| times > 3), "{seen:?}");
}

/// Random machines with no idle part, one and more, and some whose last coefficient of the domination is not 0.
#[test]
fn what_figures_and_sets_say() {
    let mut seeded = Seeded::new(781);
    let folder = Folder::new();
    let mut seen = [0; 4];
    for n in (1..=16).flat_map(|n| [n; 2]) {
        let (idle, last) = figures_and_sets_agree(&folder, &within_a_group(&mut seeded, n));
        seen[idle.min(2)] += 1;
        seen[3] += usize::from(last != 0);
        figures_and_sets_agree(&folder, &random_plain(&mut seeded, n));
    }
    assert!(seen.iter().all(|&times| times > 0), "{seen:?}");
}

/// Idle are exactly the parts whose importance `figures` prints as 0, which it says, and exactly those that no set names which `show`
/// prints; and there is none where the last coefficient of the domination is not 0. Gives their number and that coefficient.
fn figures_and_sets_agree(folder: &Folder, plain: &Plain) -> (usize, i128) {
    folder.write("record", record_bytes(plain));
    let printed = folder.run(&["idle", "record"]).done();
    let figures = folder.run(&["figures", "record"]).done();
    let importance = counts(&figures, "Importance").into_iter();
    let never_missed = importance.filter(|&(_, count)| count == 0);
    let parts: Vec<u64> = never_missed.map(|(part, _)| part as u64).collect();
    assert_eq!(printed, lines_of(&parts));
    assert_eq!(said_by_figures(&figures), said_of(&parts));
    let unnamed = named_by_no_set(plain, &shown_sets(folder, "record"));
    assert_eq!(parts, unnamed);
    let domination = counts(&figures, "Domination");
    let (_, last) = domination[plain.numbers.len() - 1];
    assert!(last == 0 || parts.is_empty(), "{figures}");
    (parts.len(), last)
}

/// What `figures` says of idle parts: its lines that have the word.
fn said_by_figures(figures: &str) -> String {
    let said = figures.lines().filter(|line| line.contains("idle"));
    said.map(|line| format!("{line}\n")).collect()
}

/// What it should say of these parts.
fn said_of(idle: &[u64]) -> String {
    let parts: Vec<String> = idle.iter().map(u64::to_string).collect();
    match &parts[..] {
        [] => String::new(),
        [part] => {
            format!("Part {part} is idle: the machine never misses it, and no set names it\n")
        }
        parts => format!(
            "The parts {} are idle: the machine never misses them, and no set names them\n",
            parts.join(" ")
        ),
    }
}

/// The parts of a machine whose numbers stand on none of these lines.
fn named_by_no_set(plain: &Plain, sets: &[String]) -> Vec<u64> {
    let names = |set: &String, part: &u64| set.split(' ').any(|word| word == part.to_string());
    let parts = plain.numbers.iter().copied();
    parts
        .filter(|part| !sets.iter().any(|set| names(set, part)))
        .collect()
}

/// All idle parts leave together: no set goes, and of the parts that are left none is idle.
#[test]
fn idle_parts_taken_out() {
    let mut seeded = Seeded::new(782);
    let folder = Folder::new();
    let mut seen = 0;
    for n in (2..=16).flat_map(|n| [n; 3]) {
        let plain = within_a_group(&mut seeded, n);
        folder.write("record", record_bytes(&plain));
        let sets = shown_sets(&folder, "record");
        let printed = folder.run(&["idle", "record"]).done();
        let parts = printed
            .lines()
            .filter_map(|line| line.strip_prefix("idle "));
        let words: Vec<&str> = ["take-out", "record"].into_iter().chain(parts).collect();
        if words.len() == 2 {
            continue;
        }
        seen += 1;
        let story = folder.run(&words).done();
        assert!(!story.contains(" went"), "{story}");
        assert_eq!(shown_sets(&folder, "record"), sets);
        assert_eq!(folder.run(&["idle", "record"]).done(), NONE);
    }
    assert!(seen > 30, "{seen}");
}

/// A part that was added is idle, beside those that were, until a set of the record names it.
#[test]
fn a_part_that_was_added() {
    let folder = Folder::with("pumps", PUMPS);
    let idle = || folder.run(&["idle", "pumps"]).done();
    folder.run(&["add-part", "pumps"]).done();
    assert_eq!(idle(), "idle 16\n");
    folder.run(&["add-part", "pumps"]).done();
    assert_eq!(idle(), "idle 16\nidle 17\n");
    let printed = folder.run(&["add-set", "pumps", "3", "7", "16"]).done();
    assert_has(&printed, &["nothing changed: "]);
    assert_eq!(idle(), "idle 16\nidle 17\n");
    folder.run(&["add-set", "pumps", "3", "16"]).done();
    assert_eq!(idle(), "idle 17\n");
    folder.run(&["take-out", "pumps", "17"]).done();
    assert_eq!(idle(), NONE);
}

/// A part is idle too when the last set that named it has gone, with another part or for a smaller set.
#[test]
fn a_part_whose_sets_have_gone() {
    let folder = with_examples();
    folder.run(&["enter", "tab6.txt", "tab6"]).done();
    let idle = || folder.run(&["idle", "tab6"]).done();
    assert_eq!(idle(), NONE);
    folder.run(&["take-out", "tab6", "7"]).done();
    assert_eq!(idle(), "idle 14\n");
    folder.run(&["add-set", "tab6", "3", "12"]).done();
    assert_eq!(idle(), "idle 5\nidle 14\n");
    folder.run(&["take-out", "tab6", "5"]).done();
    assert_eq!(idle(), "idle 14\n");
}

/// Parts that are added to random machines come behind the idle parts that were there.
#[test]
fn parts_added_to_random_machines() {
    let mut seeded = Seeded::new(783);
    let folder = Folder::new();
    let mut seen = 0;
    for n in (1..=15).flat_map(|n| [n; 3]) {
        let plain = within_a_group(&mut seeded, n);
        if plain.mark == TOP_NUMBER {
            continue;
        }
        seen += 1;
        folder.write("record", record_bytes(&plain));
        folder.run(&["add-part", "record"]).done();
        let idle = [idle_of(&plain), vec![plain.mark + 1]].concat();
        let printed = folder.run(&["idle", "record"]).done();
        assert_eq!(printed, lines_of(&idle));
    }
    assert!(seen > 20, "{seen}");
}

/// Names stand behind the numbers as comments, below each other; a part without one has its line all the same.
#[test]
fn names_behind_idle_parts() {
    let text = "mark 2000\nparts 3 5 14 16 1000\nset 3\n";
    let folder = Folder::with("text", text);
    folder.run(&["enter", "text", "record"]).done();
    folder.write(
        "names",
        "3 controller\n5 Pump #2\tleft\n14 Fühler <1>\n1000 spare\n",
    );
    let expected = "\
idle 5     # Pump #2 left
idle 14    # Fühler <1>
idle 16
idle 1000  # spare
";
    for words in [
        ["idle", "record", "--names", "names"],
        ["idle", "--names", "names", "record"],
    ] {
        assert_eq!(folder.run(&words).done(), expected);
    }
    let printed = folder.run_with(&["idle", "record", "--names", "-"], "names");
    assert_eq!(printed.done(), expected);
    let without_names = folder.run(&["idle", "record"]).done();
    assert_eq!(without_names, "idle 5\nidle 14\nidle 16\nidle 1000\n");
    folder.write("names", "3 controller\n5\n");
    let error = folder.run(&["idle", "record", "--names", "names"]).failed();
    let why = "nahokipe: names: line 2: `5` is not a part number and a name\n";
    assert_eq!(error, why);
}

#[test]
fn from_standard_input() {
    let folder = Folder::with("pumps", PUMPS);
    let printed = folder.run_with(&["idle", "-"], "pumps").done();
    assert_eq!(printed, NONE);
    let line = "nahokipe add-part - <pumps 2>/dev/null | nahokipe idle -";
    assert_eq!(folder.shell(line).done(), "idle 16\n");
    assert_eq!(folder.read("pumps"), PUMPS);
    folder.write("empty", "");
    let explanation = folder.run_with(&["idle", "-"], "empty").refused(21, 0);
    let about = "nahokipe: standard input: this is no whole record\n";
    assert!(explanation.starts_with(about), "{explanation}");
}

/// What is no record is refused as every command refuses it, and a file of names is then not read.
#[test]
fn spoilt_records() {
    let records = refused_records(&mut Seeded::new(784), 4);
    assert!(records.len() > 30, "{}", records.len());
    let folder = Folder::new();
    for (bytes, refusal) in records {
        folder.write("record", &bytes);
        let ran = folder.run(&["idle", "record", "--names", "nothing"]);
        let explanation = ran.refused(refusal.number, refusal.place);
        assert_has(&explanation, &["nahokipe: record: this is no whole record"]);
        assert_eq!(folder.read("record"), bytes);
    }
}

#[test]
fn the_help_of_idle() {
    let help = Folder::new().run(&["idle", "--help"]).done();
    let usage = "usage: nahokipe idle RECORD [--names FILE]\n";
    assert!(help.starts_with(usage), "{help}");
    assert_has(
        &help,
        &["never changes whether the machine runs", "`idle 16`"],
    );
}
