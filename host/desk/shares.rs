//! The command `shares`: a group's shares by both routes, and that they agree.

use crate::arguments::Arguments;
use crate::columns::{columns, row};
use crate::design::Design;
use crate::ending::{Ending, REFUSED};
use crate::figures::{all_orders, orders};
use crate::numbers::listed;
use crate::output::{self, Stream};
use crate::share::Share;
use nahokipe::Refusal;

/// The command `shares`. The library proves that the routes agree; the desk compares them all the same.
pub fn shares(arguments: &Arguments) -> Result<(), Ending> {
    let name = arguments.file(0);
    let numbers = arguments.numbers()?;
    let design = Design::read(&name)?;
    let about = || format!("{name}: {}", design.stranger(&numbers));
    let refused = |refusal| Ending::refused(refusal, about());
    let (first, second) = both_routes(&design, &numbers).map_err(refused)?;
    let text = shares_text(&design, &numbers, &first, &second);
    output::print(&text, Stream::Output)?;
    match first == second {
        true => Ok(()),
        false => Err(Ending::Quiet(REFUSED)),
    }
}

/// The shares of the parts with these numbers, set by set and through h(x,z).
fn both_routes(design: &Design, numbers: &[u64]) -> Result<(Vec<i64>, Vec<i64>), Refusal> {
    let group = nahokipe::mask_of(&design.parts, numbers)?;
    let table = nahokipe::table_of_record(&design.bytes)?;
    nahokipe::shares_by_both_routes(design.size(), &table, usize::from(group))
}

fn shares_text(design: &Design, numbers: &[u64], first: &[i64], second: &[i64]) -> String {
    let total = orders(design.size());
    let headings: [&dyn ToString; 5] = [
        &"failure",
        &"set by set",
        &"through h(x,z)",
        &"fraction",
        &"per cent",
    ];
    let mut rows = vec![row(headings)];
    for (index, (&one, &other)) in first.iter().zip(second).enumerate() {
        rows.push(share_row(&(index + 1), one, other, total));
    }
    let (one, other) = (first.iter().sum(), second.iter().sum());
    rows.push(share_row(&"any", one, other, total));
    let verdict = match first == second {
        true => "both routes agree",
        false => "THE ROUTES DIFFER",
    };
    format!(
        "\
{}
Shares of the group {}: in how many orders it is the 1st, 2nd, ... failure
inside the group that stops the machine
{}{verdict}
",
        all_orders(design.size(), total),
        listed(numbers),
        columns(&rows, false)
    )
}

/// A share by both routes, and the first as a fraction and in per cent.
fn share_row(label: &dyn ToString, one: i64, other: i64, total: u64) -> Vec<String> {
    let count = one.unsigned_abs();
    let share = Share { count, total };
    row([label, &one, &other, &share.fraction(), &share.per_cent()])
}
