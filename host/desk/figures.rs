//! The command `figures`, and the figures of a machine as the library works them out.

use crate::arguments::Arguments;
use crate::columns::{columns, row};
use crate::design::Design;
use crate::ending::Ending;
use crate::names::Names;
use crate::numbers::{counted, listed};
use crate::output::{self, Stream};
use crate::share::Share;
use nahokipe::{Kind, Refusal};

/// The figures of a machine, counts of failure orders out of `total`, which is n!.
pub struct Worked {
    pub total: u64,
    /// In how many orders the 1st, 2nd, ... failure stops the machine.
    pub signature: Vec<Share>,
    /// In how many orders the machine still runs after 0, 1, 2, ... failures.
    pub tail: Vec<Share>,
    /// How many of the sets of 0, 1, 2, ... parts run the machine.
    pub path_counts: Vec<Share>,
    /// The numbers in front of x^0, x^1, x^2, ...
    pub domination: Vec<i64>,
    /// In how many orders the failure of a part stops the machine, in the order of the parts.
    pub importance: Vec<Share>,
}

impl Worked {
    /// The figures of a machine.
    pub fn of(design: &Design) -> Result<Worked, Refusal> {
        let n = design.size();
        let table = nahokipe::table_of_record(&design.bytes)?;
        let figures = nahokipe::figures(n, &table)?;
        let total = orders(n);
        let of_all = |&count: &u64| Share { count, total };
        Ok(Worked {
            total,
            signature: of_orders(n, &figures.signature),
            tail: of_orders(n, &nahokipe::tail(n, &table)?),
            path_counts: of_sets(n, &figures.path_counts),
            domination: figures.domination,
            importance: figures.importance.iter().map(of_all).collect(),
        })
    }
}

/// Counts of failure orders of n parts, out of all of them.
fn of_orders(n: usize, counts: &[i64]) -> Vec<Share> {
    let total = orders(n);
    let share = |count: &i64| Share {
        count: count.unsigned_abs(),
        total,
    };
    counts.iter().map(share).collect()
}

/// Counts of sets of 0, 1, 2, ... of n parts, each out of all sets of that size.
fn of_sets(n: usize, counts: &[i64]) -> Vec<Share> {
    let share = |(size, count): (usize, &i64)| Share {
        count: count.unsigned_abs(),
        total: sets_of_size(n, size),
    };
    counts.iter().enumerate().map(share).collect()
}

/// How many sets of this size n parts have.
pub fn sets_of_size(n: usize, size: usize) -> u64 {
    orders(n) / (orders(size) * orders(n - size))
}

/// In how many orders so many parts can fail: n!, which 64 bits hold for 16 parts.
pub fn orders(n: usize) -> u64 {
    (1..=n as u64).product()
}

/// The command `figures`: all figures for people.
pub fn figures(arguments: &Arguments) -> Result<(), Ending> {
    let name = arguments.file(0);
    let design = Design::read(&name)?;
    let names = Names::read(arguments.names.as_ref(), &design.parts, &design.retired)?;
    let refused = |refusal| Ending::refused(refusal, &name);
    let worked = Worked::of(&design).map_err(refused)?;
    let idle = design.idle().map_err(refused)?;
    let blocks = [
        head(&design, &worked),
        signature(&worked.signature),
        tail(&worked.tail),
        path_counts(&worked.path_counts),
        domination(&worked.domination),
        importance(&design, &worked, &names) + &idle_parts(&idle),
    ];
    let text = blocks.join("\n") + &retired(&design, &names);
    output::print(&text, Stream::Output)
}

fn head(design: &Design, worked: &Worked) -> String {
    let orders = all_orders(design.size(), worked.total);
    format!("{}\n{orders}", design.in_short())
}

/// What all counts are out of.
pub fn all_orders(n: usize, total: u64) -> String {
    let orders = counted(total as usize, "order");
    format!("{n}! = {orders} in which the parts can fail, all counted alike\n")
}

/// One figure of n parts by itself, in the same words and columns. Its entries are those of a vector that the library accepts.
pub fn one_figure(kind: Kind, n: usize, entries: &[i64]) -> String {
    match kind {
        Kind::PathCounts => path_counts(&of_sets(n, entries)),
        Kind::Tail => tail(&of_orders(n, entries)),
        Kind::Signature => signature(&of_orders(n, entries)),
        Kind::Domination => domination(entries),
    }
}

fn signature(shares: &[Share]) -> String {
    let mut rows = vec![row([&"failure", &"orders", &"fraction", &"per cent"])];
    rows.extend((1..).zip(shares).map(share_row));
    format!(
        "Signature: in how many orders it is the 1st, 2nd, ... failure that stops the machine\n{}",
        columns(&rows, false)
    )
}

fn tail(shares: &[Share]) -> String {
    let mut rows = vec![row([&"failures", &"orders", &"fraction", &"per cent"])];
    rows.extend((0..).zip(shares).map(share_row));
    format!(
        "Tail: in how many orders the machine still runs after so many failures\n{}",
        columns(&rows, false)
    )
}

/// A number with a share of all orders.
fn share_row((number, share): (u64, &Share)) -> Vec<String> {
    row([&number, &share.count, &share.fraction(), &share.per_cent()])
}

fn path_counts(shares: &[Share]) -> String {
    let mut rows = vec![row([&"parts", &"path sets", &"of", &"per cent"])];
    let one = |(size, share): (usize, &Share)| {
        row([&size, &share.count, &share.total, &share.per_cent()])
    };
    rows.extend(shares.iter().enumerate().map(one));
    format!(
        "Path counts: how many of the sets of so many parts run the machine\n{}",
        columns(&rows, false)
    )
}

fn domination(numbers: &[i64]) -> String {
    let mut rows = vec![row([&"power", &"coefficient"])];
    let one = |(power, number): (usize, &i64)| row([&power, number]);
    rows.extend(numbers.iter().enumerate().skip(1).map(one));
    let polynomial = polynomial(numbers, |power| format!("x^{power}"));
    format!(
        "\
Domination: if each part works with the same probability x, the machine works with
  {polynomial}
{}",
        columns(&rows, false)
    )
}

/// A sum of powers of x, each power from the second on as it is to be written.
pub fn polynomial(numbers: &[i64], power: impl Fn(usize) -> String) -> String {
    let mut text = String::new();
    for (exponent, &number) in numbers
        .iter()
        .enumerate()
        .filter(|(_, &number)| number != 0)
    {
        let sign = match (text.is_empty(), number < 0) {
            (true, false) => "",
            (true, true) => "-",
            (false, false) => " + ",
            (false, true) => " - ",
        };
        let factor = match number.unsigned_abs() {
            1 if exponent > 0 => String::new(),
            factor => factor.to_string(),
        };
        let power = match exponent {
            0 => String::new(),
            1 => "x".to_string(),
            _ => power(exponent),
        };
        text += &format!("{sign}{factor}{power}");
    }
    text
}

fn importance(design: &Design, worked: &Worked, names: &Names) -> String {
    let heading = if names.is_empty() { "" } else { "name" };
    let mut rows = vec![row([
        &"part",
        &"orders",
        &"fraction",
        &"per cent",
        &heading,
    ])];
    for (&part, share) in design.parts.iter().zip(&worked.importance) {
        let mut cells = share_row((part, share));
        cells.push(names.name(part).to_string());
        rows.push(cells);
    }
    format!(
        "Importance: in how many orders it is this part's failure that stops the machine\n{}",
        columns(&rows, true)
    )
}

/// What is said of the idle parts, which are those of importance 0; nothing where there is none.
fn idle_parts(idle: &[u64]) -> String {
    match idle {
        [] => String::new(),
        [part] => {
            format!("Part {part} is idle: the machine never misses it, and no set names it\n")
        }
        parts => format!(
            "The parts {} are idle: the machine never misses them, and no set names them\n",
            listed(parts)
        ),
    }
}

/// The retired numbers, a block by themselves; nothing where there is none.
fn retired(design: &Design, names: &Names) -> String {
    if design.retired.is_empty() {
        return String::new();
    }
    let heading = if names.is_empty() { "" } else { "name" };
    let mut rows = vec![row([&"number", &heading])];
    let one = |&number: &u64| row([&number, &names.name(number)]);
    rows.extend(design.retired.iter().map(one));
    format!(
        "\nRetired numbers: those of parts that have left\n{}",
        columns(&rows, true)
    )
}
