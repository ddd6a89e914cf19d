//! The calls with a buffer that the caller lends, and the lengths that are always enough: nothing is allocated.
//!
//! A call that is given answers how many cells it wrote, and writes not one more. A call that is refused leaves what was lent as it was; a
//! buffer that is too short is 11 at the length needed.
//!
//! ```
//! use nahokipe::{lent, Refusal};
//!
//! let bridge = [5, 5, 1, 2, 3, 4, 5, 4, 0x09, 0x0E, 0x12, 0x15];
//! let mut table = [0; lent::LONGEST_TABLE];
//! assert_eq!(lent::table_of_record(&bridge, &mut table), Ok(4));
//!
//! let mut signature = [7; 4];
//! let short = lent::signature(5, &table[..4], &mut signature);
//! assert_eq!(short, Err(Refusal { number: 11, place: 5 }));
//! assert_eq!(signature, [7; 4]);
//! ```

mod blocks;
mod changes;
mod cuts;
mod drawings;
mod editions;
mod figures;
mod joint;
mod part_numbers;
mod patterns;
mod records;
mod report;
mod shares;
mod structures;
mod vectors;

pub use crate::declared::{RecordAnswer, SheetAnswer, StepAnswer};
pub use blocks::path_counts_of_blocks;
pub use changes::{
    add_part, add_set, add_set_of_parts, take_out, take_out_group, take_out_part, take_out_parts,
};
pub use cuts::{dual, minimal_cuts, table_of_cuts};
pub use drawings::{drawing_of_record, record_of_drawing};
pub use editions::{retired, to_edition_1, to_edition_2};
pub use figures::{domination, figures, importance, path_counts, signature, tail};
pub use joint::joint_signature;
pub use part_numbers::numbers_of;
pub use patterns::table_of_pattern;
pub use records::{entered_record, first_record, table_of_record};
pub use records::{record_at_answer, step_answer, whole_record_answer};
pub use report::{refused_line, report};
pub use shares::{reliability, shares_by_both_routes, shares_by_reliability, shares_by_sets};
pub use structures::{minimal_sets, table_of_list};
pub use vectors::{convert, vector_verdict};
pub use vectors::{read_sheet, save_sheet, save_sheet_as, sheet_answer, Sheet};

use crate::declared::{OfBytes, OfTable};
use crate::Refusal;

/// The most parts that a machine has, and the most cells of a signature, of importances, of shares and of part numbers.
pub const MOST_PARTS: usize = 16;

/// The most retired part numbers of a record.
pub const MOST_RETIRED: usize = 64;

/// The most sets of a list, and the most minimal sets and minimal cut sets of a machine.
pub const MOST_SETS: usize = 12_870;

/// The most entries of a vector: n + 1 of 16 parts.
pub const MOST_ENTRIES: usize = 17;

/// The most coefficients of h(x,z).
pub const MOST_COEFFICIENTS: usize = 81;

/// The most cells of a joint signature: 16 rows of 16.
pub const MOST_JOINT: usize = 256;

/// The bytes of a table of 16 parts, the longest.
pub const LONGEST_TABLE: usize = 8_192;

/// No record of either edition has more bytes.
pub const LONGEST_RECORD: usize = 39_217;

/// No sheet has more bytes.
pub const LONGEST_SHEET: usize = 155;

/// No drawing's text that is written or accepted has more bytes.
pub const LONGEST_DRAWING: usize = 553_419;

/// Bytes that are enough for every report.
pub const ENOUGH_FOR_REPORT: usize = 4_096;

/// Bytes that are enough for the line of every refusal.
pub const ENOUGH_FOR_REFUSED_LINE: usize = 64;

/// What a call writes that works on a table.
fn of_table<T>(
    call: OfTable<T>,
    n: usize,
    table: &[u8],
    cells: &mut [T],
) -> Result<usize, Refusal> {
    let (room, length) = (cells.as_mut_ptr(), cells.len());
    unsafe { call(n, table.as_ptr(), table.len(), room, length) }.given()
}

/// What a call writes that works on bytes.
fn of_bytes(call: OfBytes, bytes: &[u8], buffer: &mut [u8]) -> Result<usize, Refusal> {
    let (room, length) = (buffer.as_mut_ptr(), buffer.len());
    unsafe { call(bytes.as_ptr(), bytes.len(), room, length) }.given()
}
