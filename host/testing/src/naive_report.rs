//! The report a second time, from document 01's words alone.
//!
//! Nothing here is shared with the calculator; the tests compare the two.

use crate::naive::{structure_of, table_of_list};
use crate::naive_figures::{failure_orders, figures_of, listed};
use crate::naive_records::{whole_record, Plain};
use nahokipe::Refusal;

/// Up to so many parts the orders are listed; above, the formulas count them.
const FEW_PARTS: usize = 6;

/// What the report's text is made of.
struct Counts {
    signature: Vec<i64>,
    domination: Vec<i64>,
    importance: Vec<u64>,
}

fn counts(n: usize, works: &[bool]) -> Counts {
    let figures = figures_of(n, works);
    let domination = figures.domination;
    if n > FEW_PARTS {
        return Counts {
            signature: figures.signature,
            domination,
            importance: figures.importance,
        };
    }
    let listed = listed(works, &failure_orders(n));
    Counts {
        signature: listed.signature,
        domination,
        importance: listed.importance,
    }
}

/// A record's table and its report, or the record's refusal.
pub fn report(bytes: &[u8]) -> Result<(Vec<u8>, String), Refusal> {
    let plain = whole_record(bytes)?.plain;
    let n = plain.numbers.len();
    let table = table_of_list(n, &plain.sets)?;
    let text = text(&plain, &counts(n, &structure_of(n, &table)));
    Ok((table, text))
}

fn text(plain: &Plain, counts: &Counts) -> String {
    let n = plain.numbers.len();
    let first = format!("parts {n} sets {} mark {}\n", plain.sets.len(), plain.mark);
    let order = |k: usize| format!("order {k} {}\n", counts.signature[k - 1]);
    let dom = |k: usize| format!("dom {k} {}\n", counts.domination[k]);
    let part = |i: usize| {
        format!(
            "part {} {}\n",
            plain.numbers[i - 1],
            counts.importance[i - 1]
        )
    };
    let orders: String = (1..=n).map(order).collect();
    let doms: String = (1..=n).map(dom).collect();
    let parts: String = (1..=n).map(part).collect();
    [first, orders, doms, parts].concat()
}

/// The one line for a refused record.
pub fn refused_line(refusal: Refusal) -> String {
    format!("refused {} {}\n", refusal.number, refusal.place)
}

/// What the program prints for an input.
pub fn printed(bytes: &[u8]) -> String {
    match report(bytes) {
        Ok((_, text)) => text,
        Err(refusal) => refused_line(refusal),
    }
}
