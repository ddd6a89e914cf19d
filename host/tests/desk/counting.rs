//! `figures` and `shares`: counts, fractions and per cent.

use crate::folder::{assert_has, Folder, BRIDGE, PUMPS};
use crate::share::Share;
use nahokipe_testing::making::{largest_record, random_group, random_plain, sets_of_size};
use nahokipe_testing::naive_figures::{self, factorial};
use nahokipe_testing::naive_records::{named, record_bytes, table_of_record, Plain};
use nahokipe_testing::naive_shares;
use nahokipe_testing::seeded::Seeded;

/// The figures of the bridge as they are printed.
const FIGURES_OF_THE_BRIDGE: &str = "\
5 parts, 4 sets, mark 5; the next part that is added gets number 6
5! = 120 orders in which the parts can fail, all counted alike

Signature: in how many orders it is the 1st, 2nd, ... failure that stops the machine
  failure  orders  fraction  per cent
        1       0         0      0.00
        2      24       1/5     20.00
        3      72       3/5     60.00
        4      24       1/5     20.00
        5       0         0      0.00

Tail: in how many orders the machine still runs after so many failures
  failures  orders  fraction  per cent
         0     120         1    100.00
         1     120         1    100.00
         2      96       4/5     80.00
         3      24       1/5     20.00
         4       0         0      0.00
         5       0         0      0.00

Path counts: how many of the sets of so many parts run the machine
  parts  path sets  of  per cent
      0          0   1      0.00
      1          0   5      0.00
      2          2  10     20.00
      3          8  10     80.00
      4          5   5    100.00
      5          1   1    100.00

Domination: if each part works with the same probability x, the machine works with
  2x^2 + 2x^3 - 5x^4 + 2x^5
  power  coefficient
      1            0
      2            2
      3            2
      4           -5
      5            2

Importance: in how many orders it is this part's failure that stops the machine
  part  orders  fraction  per cent
     1      28      7/30     23.33
     2      28      7/30     23.33
     3       8      1/15      6.67
     4      28      7/30     23.33
     5      28      7/30     23.33
";

#[test]
fn the_figures_of_the_bridge() {
    let folder = Folder::with("bridge", BRIDGE);
    let printed = folder.run(&["figures", "bridge"]).done();
    assert_eq!(printed, FIGURES_OF_THE_BRIDGE);
}

/// The cells of a block of figures: its lines behind the headings.
fn block<'a>(printed: &'a str, title: &str) -> Vec<Vec<&'a str>> {
    let start = printed.find(&format!("\n{title}")).expect("a block") + 1;
    let block = printed[start..].split("\n\n").next().expect("its lines");
    let is_row = |line: &&str| line.trim_start().starts_with(|c: char| c.is_ascii_digit());
    let rows = block.lines().skip(1).filter(is_row);
    let rows = rows.filter(|line| !line.contains('x') && line.starts_with(' '));
    rows.map(|line| line.split_whitespace().collect()).collect()
}

/// The first two cells of each row of a block, as numbers.
pub fn counts(printed: &str, title: &str) -> Vec<(i128, i128)> {
    let number = |cell: &str| cell.parse::<i128>().expect("a number");
    let rows = block(printed, title).into_iter();
    rows.map(|row| (number(row[0]), number(row[1]))).collect()
}

/// All counts of random machines as their definitions say, by part numbers.
#[test]
fn the_figures_of_random_machines() {
    let mut seeded = Seeded::new(730);
    let folder = Folder::new();
    for n in 1..=16 {
        let plain = random_plain(&mut seeded, n);
        let bytes = record_bytes(&plain);
        folder.write("record", &bytes);
        let printed = folder.run(&["figures", "record"]).done();
        let table = table_of_record(&bytes).expect("an accepted record");
        let figures = naive_figures::figures(n, &table).expect("figures");
        let indexed = |first: i128, cells: Vec<i128>| (first..).zip(cells).collect::<Vec<_>>();
        let wide = |cells: &[i64]| {
            cells
                .iter()
                .map(|&cell| i128::from(cell))
                .collect::<Vec<_>>()
        };
        assert_eq!(
            counts(&printed, "Signature"),
            indexed(1, wide(&figures.signature))
        );
        assert_eq!(
            counts(&printed, "Path counts"),
            indexed(0, wide(&figures.counts))
        );
        assert_eq!(
            counts(&printed, "Domination"),
            indexed(1, wide(&figures.domination[1..]))
        );
        assert_eq!(counts(&printed, "Tail"), indexed(0, wide(&figures.tail)));
        let parts = plain.numbers.iter().map(|&number| i128::from(number));
        let importance = figures.importance.iter().map(|&count| i128::from(count));
        assert_eq!(
            counts(&printed, "Importance"),
            parts.zip(importance).collect::<Vec<_>>()
        );
        assert_has(&printed, &[&format!("\n{n}! = {} order", factorial(n))]);
    }
}

/// The one order of a machine of one part is one order.
#[test]
fn a_machine_of_one_part() {
    let folder = Folder::with("text", "mark 1\nparts 1\nset 1\n");
    folder.run(&["enter", "text", "record"]).done();
    let printed = folder.run(&["figures", "record"]).done();
    assert_has(&printed, &["\n1! = 1 order in "]);
}

/// A machine of 16 parts whose sets are all of 8 of the first 15 parts, and part 16 with the first 7. The failure of part 16 stops it where
/// the other 8 failed before it and these 7 behind it, in one of 102,960 orders.
pub fn with_a_rare_part() -> Plain {
    let mut sets = sets_of_size(15, 8);
    sets.push(1 << 15 | 0x7F);
    Plain {
        mark: 16,
        numbers: (1..=16).collect(),
        sets,
    }
}

/// What is not 0 is not printed as 0, and what is less than all not as all, where rounding would make it that.
#[test]
fn per_cent_next_to_the_ends() {
    let folder = Folder::with("record", record_bytes(&with_a_rare_part()));
    let all = factorial(16);
    let rare = all / 102_960;
    let [all, rare, rest] = [all, rare, all - rare].map(|count| count.to_string());
    let printed = folder.run(&["figures", "record"]).done();
    for title in ["Signature", "Tail", "Importance"] {
        for row in block(&printed, title) {
            let (count, per_cent) = (row[1], row[3]);
            assert_eq!(per_cent == "0.00", count == "0", "{row:?}");
            assert_eq!(per_cent == "100.00", count == all, "{row:?}");
        }
    }
    let importance = block(&printed, "Importance");
    assert_eq!(importance[15], ["16", &rare, "1/102960", "<0.01"]);
    let printed = folder.run(&["shares", "record", "16"]).done();
    let row = ["1", &rare, &rare, "1/102960", "<0.01"];
    assert_eq!(block(&printed, "Shares"), [row]);
    let others: Vec<String> = (1..=15).map(|number| number.to_string()).collect();
    let words = ["shares", "record"].into_iter();
    let words = words.chain(others.iter().map(String::as_str));
    let printed = folder.run(&words.collect::<Vec<&str>>()).done();
    let any = printed.lines().find(|line| line.contains(" any "));
    let any: Vec<&str> = any.expect("the sum").split_whitespace().collect();
    assert_eq!(any, ["any", &rest, &rest, "102959/102960", ">99.99"]);
}

#[test]
fn the_largest_machine() {
    let folder = Folder::with("record", largest_record());
    let printed = folder.run(&["figures", "record"]).done();
    assert_has(
        &printed,
        &["16 parts, 12870 sets, mark 281474976710655; no number is left"],
    );
    assert_has(&printed, &["16! = 20922789888000 orders"]);
    let signature = counts(&printed, "Signature");
    assert_eq!(signature[8], (9, factorial(16)));
    assert!(signature
        .iter()
        .all(|&(failure, count)| count == 0 || failure == 9));
}

#[test]
fn idle_parts_below_the_importances() {
    let folder = Folder::with("pumps", PUMPS);
    let printed = folder.run(&["figures", "pumps"]).done();
    assert!(!printed.contains("idle"), "{printed}");
    folder.run(&["add-part", "pumps"]).done();
    let printed = folder.run(&["figures", "pumps"]).done();
    assert!(
        printed.ends_with("\nPart 16 is idle: the machine never misses it, and no set names it\n"),
        "{printed}"
    );
    folder.run(&["add-part", "pumps"]).done();
    let printed = folder.run(&["figures", "pumps"]).done();
    let said = "\nThe parts 16 17 are idle: the machine never misses them, and no set names them\n";
    assert!(printed.ends_with(said), "{printed}");
}

#[test]
fn the_shares_of_the_bridge() {
    let folder = Folder::with("bridge", BRIDGE);
    let expected = "\
5! = 120 orders in which the parts can fail, all counted alike

Shares of the group 1 2 3: in how many orders it is the 1st, 2nd, ... failure
inside the group that stops the machine
  failure  set by set  through h(x,z)  fraction  per cent
        1           0               0         0      0.00
        2          44              44     11/30     36.67
        3          20              20       1/6     16.67
      any          64              64      8/15     53.33
both routes agree
";
    assert_eq!(
        folder.run(&["shares", "bridge", "1", "2", "3"]).done(),
        expected
    );
}

/// The shares of random groups as their definition says, in both columns.
#[test]
fn the_shares_of_random_groups() {
    let mut seeded = Seeded::new(731);
    let folder = Folder::new();
    for n in 1..=16 {
        let plain = random_plain(&mut seeded, n);
        let bytes = record_bytes(&plain);
        folder.write("record", &bytes);
        let group = random_group(&mut seeded, n);
        let numbers: Vec<String> = named(&plain.numbers, group as u16)
            .iter()
            .map(u64::to_string)
            .collect();
        let words = ["shares", "record"]
            .into_iter()
            .chain(numbers.iter().map(String::as_str));
        let printed = folder.run(&words.collect::<Vec<&str>>()).done();
        assert!(printed.ends_with("both routes agree\n"), "{printed}");
        let table = table_of_record(&bytes).expect("an accepted record");
        let shares = naive_shares::shares(n, &table, group).expect("shares");
        let expected = (1..).zip(shares).map(|(k, share)| [k, share, share]);
        let rows = block(&printed, "Shares").into_iter();
        let number = |cell: &&str| cell.parse::<i64>().expect("a number");
        let rows = rows.map(|row| [number(&row[0]), number(&row[1]), number(&row[2])]);
        assert_eq!(rows.collect::<Vec<_>>(), expected.collect::<Vec<_>>());
    }
}

/// Half a hundredth and more is rounded up, and the ends are never reached by rounding.
#[test]
fn per_cent() {
    let cases = [
        (0, 6, "0.00"),
        (1, 6, "16.67"),
        (5, 6, "83.33"),
        (6, 6, "100.00"),
        (1, 8, "12.50"),
        (1, 20_000, "0.01"),
        (1, 20_001, "<0.01"),
        (3, 20_000, "0.02"),
        (19_999, 20_000, ">99.99"),
        (19_998, 20_000, "99.99"),
        (20_922_789_887_999, 20_922_789_888_000, ">99.99"),
        (1, 20_922_789_888_000, "<0.01"),
        (1_046_139_494, 20_922_789_888_000, "<0.01"),
        (1_046_139_495, 20_922_789_888_000, "0.01"),
    ];
    for (count, total, expected) in cases {
        let share = Share { count, total };
        assert_eq!(share.per_cent(), expected, "{share:?}");
    }
}

/// Per cent of any count: no further from the true value than half a hundredth, and where they are not told exactly than a whole one.
#[test]
fn per_cent_of_any_count() {
    let mut seeded = Seeded::new(732);
    for _ in 0..10_000 {
        let total = 1 + seeded.number() % 20_922_789_888_000;
        let count = seeded.number() % (total + 1);
        let text = Share { count, total }.per_cent();
        let digits: String = text.chars().filter(char::is_ascii_digit).collect();
        let hundredths: i128 = digits.parse().expect("digits");
        // Twice the distance from the true value, in units of 1/total of a hundredth.
        let off = 2 * (hundredths * i128::from(total) - 10_000 * i128::from(count));
        let most = match text.starts_with(['<', '>']) {
            true => 2 * i128::from(total),
            false => i128::from(total),
        };
        assert!(-most < off && off <= most, "{count} of {total}: {text}");
    }
}

#[test]
fn fractions() {
    let fraction = |count, total| Share { count, total }.fraction();
    assert_eq!(fraction(0, 120), "0");
    assert_eq!(fraction(120, 120), "1");
    assert_eq!(fraction(28, 120), "7/30");
    assert_eq!(fraction(1, 20_922_789_888_000), "1/20922789888000");
    let mut seeded = Seeded::new(733);
    for _ in 0..1_000 {
        let total = 1 + seeded.number() % 1_000;
        let count = seeded.number() % (total + 1);
        let text = fraction(count, total);
        let (above, below) = text.split_once('/').unwrap_or((&text, "1"));
        let [above, below] = [above, below].map(|digits| digits.parse::<u64>().expect("digits"));
        assert_eq!(above * total, count * below);
        assert!(
            (2..=below).all(|factor| above % factor > 0 || below % factor > 0),
            "{text}"
        );
        let [one, other] =
            [(above, below), (count, total)].map(|(count, total)| Share { count, total });
        assert!(one.equals(other));
        assert!(!one.equals(Share {
            count: above + 1,
            total: below
        }));
    }
}
