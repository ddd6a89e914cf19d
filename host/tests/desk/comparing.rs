//! `diff`: what differs between two records.

use crate::folder::{assert_has, Folder, BRIDGE, PUMPS};
use nahokipe_testing::making::random_record;
use nahokipe_testing::seeded::Seeded;

#[test]
fn no_difference() {
    let mut seeded = Seeded::new(720);
    let folder = Folder::new();
    for n in 1..=16 {
        let record = random_record(&mut seeded, n);
        folder.write("old", &record);
        folder.write("new", &record);
        assert_eq!(
            folder.run(&["diff", "old", "new"]).done(),
            "no difference\n"
        );
        assert_eq!(
            folder.run_with(&["diff", "old", "-"], "new").done(),
            "no difference\n"
        );
    }
}

#[test]
fn a_part_left_and_another_came() {
    let folder = Folder::with("old", PUMPS);
    folder.run(&["take-out", "old", "7", "-o", "new"]).done();
    folder.run(&["add-part", "new"]).done();
    folder.run(&["add-set", "new", "3", "16"]).done();
    folder.write("names", "7 pump left\n16 oxygen sensor\n3 controller\n");
    let printed = folder
        .run(&["diff", "old", "new", "--names", "names"])
        .done();
    let expected = "\
part 7 left  # pump left
part 16 came  # oxygen sensor
mark was 15, is 16
set 3 7 left  # controller, pump left
set 3 16 came  # controller, oxygen sensor

Figures that changed; 6 orders in both

Importance: orders in which this part's failure stops the machine
  part  before  per cent  now  per cent  name
     7       1     16.67    -         -  pump left
    16       -         -    1     16.67  oxygen sensor
";
    assert_eq!(printed, expected);
}

#[test]
fn figures_that_changed() {
    let folder = Folder::with("old", BRIDGE);
    folder.run(&["take-out", "old", "3", "-o", "new"]).done();
    let printed = folder.run(&["diff", "old", "new"]).done();
    let expected = "\
part 3 left
set 2 3 4 left
set 1 3 5 left

Figures that changed; 120 orders before, 24 now

Signature: orders in which this failure stops the machine
  failure  before  per cent  now  per cent
        2      24     20.00   16     66.67
        3      72     60.00    8     33.33
        4      24     20.00    0      0.00
        5       0      0.00    -         -

Domination: the machine works with
  before  2x^2 + 2x^3 - 5x^4 + 2x^5
     now  2x^2 - x^4

Importance: orders in which this part's failure stops the machine
  part  before  per cent  now  per cent
     1      28     23.33    6     25.00
     2      28     23.33    6     25.00
     3       8      6.67    -         -
     4      28     23.33    6     25.00
     5      28     23.33    6     25.00
";
    assert_eq!(printed, expected);
}

/// A part that is in no set changes the signature, and neither the polynomial nor what hangs on the other parts.
#[test]
fn a_part_in_no_set() {
    let folder = Folder::with("old", BRIDGE);
    folder.run(&["add-part", "old", "-o", "new"]).done();
    let printed = folder.run(&["diff", "old", "new"]).done();
    assert_has(
        &printed,
        &[
            "part 6 came\nmark was 5, is 6\n\n",
            "120 orders before, 720 now",
        ],
    );
    assert_has(
        &printed,
        &["Signature", "     6       -         -    0      0.00\n"],
    );
    assert!(
        !printed.contains("Domination") && !printed.contains("     1      28"),
        "{printed}"
    );
}

#[test]
fn figures_that_stay() {
    let folder = Folder::with("old.txt", "mark 5\nparts 1 2\nset 1 2\n");
    folder.write("new.txt", "mark 9\nparts 1 2\nset 1 2\n");
    folder.run(&["enter", "old.txt", "old"]).done();
    folder.run(&["enter", "new.txt", "new"]).done();
    let printed = folder.run(&["diff", "old", "new"]).done();
    assert_eq!(printed, "mark was 5, is 9\n\nno figure changed\n");
}

/// A number that comes back, or a mark that falls, says that the records are not on one line of changes.
#[test]
fn two_lines_of_changes() {
    let folder = Folder::with("old", PUMPS);
    folder.run(&["take-out", "old", "7", "-o", "new"]).done();
    folder.run(&["add-part", "new"]).done();
    let forward = folder.run(&["diff", "old", "new"]).done();
    assert!(!forward.contains("warning"), "{forward}");
    let backward = folder.run(&["diff", "new", "old"]).done();
    assert_has(
        &backward,
        &[
            "part 7 came\n",
            "a warning: 7 is a number again that was issued before",
        ],
    );
    assert_has(
        &backward,
        &[
            "a warning: the mark is lower",
            "did not come from the first one",
        ],
    );
    assert!(backward.starts_with("a warning"), "{backward}");
    folder.write("fault.txt", "mark 15\nparts 3 7\nset 3\n");
    folder.write("before.txt", "mark 15\nparts 3 12\nset 3\n");
    folder.run(&["enter", "fault.txt", "fault"]).done();
    folder.run(&["enter", "before.txt", "before"]).done();
    let printed = folder.run(&["diff", "before", "fault"]).done();
    assert_has(&printed, &["a warning: 7 is a number again"]);
    assert!(!printed.contains("lower"), "{printed}");
}
