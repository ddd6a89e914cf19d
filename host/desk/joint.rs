//! The command `joint`: two machines on one cart, which share their parts, and how often which failure stops the one and which the other.

use crate::arguments::Arguments;
use crate::columns::{columns, pieces, row};
use crate::design::{numbers_lacking, Design};
use crate::ending::Ending;
use crate::figures::{all_orders, orders};
use crate::files::FileName;
use crate::numbers::listed;
use crate::output::{self, Stream};
use crate::share::Share;
use nahokipe::Refusal;
use std::cmp::Ordering;

/// Why two records may have other part numbers, and what to do.
const ONE_LIST: &str =
    "  usual cause: each machine was entered with the parts that it needs, and not with all of the
      cart, or a part came or left in one of the records alone
  what to do: enter both machines with the same `parts` line, that of the cart; a part that
      one machine does not need is idle there: none of its sets names it";

/// The three ways in which two machines stop, by how the failure that stops the first stands to the one that stops the second.
const WAYS: [(Ordering, &str); 3] = [
    (Ordering::Less, "the first machine stops before the second"),
    (Ordering::Equal, "both machines stop at the same failure"),
    (
        Ordering::Greater,
        "the first machine stops after the second",
    ),
];

/// The command `joint`. Parts are shared by number, so records with other part numbers are wrong use: none is taken for another.
pub fn joint(arguments: &Arguments) -> Result<(), Ending> {
    let names = [arguments.file(0), arguments.file(1)];
    let machines = [Design::read(&names[0])?, Design::read(&names[1])?];
    if machines[0].parts != machines[1].parts {
        return Err(Ending::WrongUse(other_parts(&names, &machines)));
    }
    let about = || format!("{} and {}", names[0], names[1]);
    let refused = |refusal| Ending::refused(refusal, about());
    let square = Square::of(&machines).map_err(refused)?;
    let blocks = [
        head(&names, &machines[0].parts),
        square.text(),
        square.ways(),
    ];
    output::print(&blocks.join("\n"), Stream::Output)
}

/// What is said of two records with other part numbers: those that only one of them has.
fn other_parts([first, second]: &[FileName; 2], [these, those]: &[Design; 2]) -> String {
    let alone = |name: &FileName, numbers: Vec<u64>| match &numbers[..] {
        [] => String::new(),
        numbers => format!("  only {name} has {}\n", listed(numbers)),
    };
    format!(
        "{first} and {second} do not have the same part numbers\n{}{}{ONE_LIST}",
        alone(first, numbers_lacking(&these.parts, &those.parts)),
        alone(second, numbers_lacking(&those.parts, &these.parts))
    )
}

/// Which machine is the first, the parts of both, and what all counts are out of.
fn head([first, second]: &[FileName; 2], parts: &[u64]) -> String {
    let n = parts.len();
    format!(
        "first machine {first}, second machine {second}, both with the parts {}\n{}",
        listed(parts),
        all_orders(n, orders(n))
    )
}

/// The joint signature of two machines of n parts, in rows of n cells: in row k and column l, both counted from 1, in how many failure
/// orders the k-th failure stops the first machine and the l-th the second.
struct Square {
    n: usize,
    cells: Vec<u64>,
}

impl Square {
    /// The square of two machines of the same parts, as the library works it out.
    fn of([first, second]: &[Design; 2]) -> Result<Square, Refusal> {
        let n = first.size();
        let first = nahokipe::table_of_record(&first.bytes)?;
        let second = nahokipe::table_of_record(&second.bytes)?;
        let cells = nahokipe::joint_signature(n, &first, &second)?;
        Ok(Square { n, cells })
    }

    /// The sum of the cells whose row and column are among those that are meant.
    fn sum(&self, meant: impl Fn(usize, usize) -> bool) -> u64 {
        let cells = self.cells.iter().enumerate();
        let meant = cells.filter(|(index, _)| meant(index / self.n + 1, index % self.n + 1));
        meant.map(|(_, count)| count).sum()
    }

    /// The square with the sums of its rows and columns, which are the signatures of the two machines. A cell that is 0 is a dot.
    fn text(&self) -> String {
        let failures = (1..=self.n).map(|l| l.to_string());
        let mut rows = vec![line(&"first \\ second", failures, &"any")];
        for (k, cells) in (1..).zip(self.cells.chunks(self.n)) {
            let cell = |&count: &u64| match count {
                0 => ".".to_string(),
                _ => count.to_string(),
            };
            let sum = cells.iter().sum::<u64>();
            rows.push(line(&k, cells.iter().map(cell), &sum));
        }
        let sums = (1..=self.n).map(|l| self.sum(|_, column| column == l).to_string());
        rows.push(line(&"any", sums, &self.sum(|_, _| true)));
        format!(
            "\
Joint signature: in how many orders it is the 1st, 2nd, ... failure that stops the first
machine, by rows, and the 1st, 2nd, ... that stops the second, by columns
{}",
            pieces(&rows)
        )
    }

    /// In how many orders the first machine stops before the second, at the same failure, and after it.
    fn ways(&self) -> String {
        let total = orders(self.n);
        let mut rows = vec![row([&"orders", &"fraction", &"per cent", &""])];
        for (way, said) in WAYS {
            let count = self.sum(|k, l| k.cmp(&l) == way);
            let share = Share { count, total };
            rows.push(row([&count, &share.fraction(), &share.per_cent(), &said]));
        }
        format!(
            "Before and after: in how many orders one machine stops before the other\n{}",
            columns(&rows, true)
        )
    }
}

/// A row of the square with what stands in front of it and behind it.
fn line(
    front: &dyn ToString,
    cells: impl Iterator<Item = String>,
    behind: &dyn ToString,
) -> Vec<String> {
    [row([front]), cells.collect(), row([behind])].concat()
}
