//! Safe calls of the signature calculator, a proved static library for machines of up to 16 parts.
//!
//! Every function takes every input: what the calculator does not accept is answered with a [`Refusal`]. The calls at the root make their
//! buffers themselves and give vectors; those in [`lent`] write into a buffer that the caller lends, and allocate nothing.
//!
//! # From a record to figures and a change
//!
//! A record keeps a machine: its parts by number, the highest number ever issued, which is its mark, and the minimal sets of parts that
//! suffice to run it. A record of edition 2 keeps the numbers of parts that left and the path counts too. Part numbers stay with their parts.
//! Positions, 1 to n in the order of the part numbers, move when a part leaves. A set of positions is a mask: the part at position i is bit
//! i - 1.
//!
//! ```
//! use nahokipe::{add_part, add_set_of_parts, entered_record, figures, idle_parts, mask_of, report};
//! use nahokipe::{numbers_of, sets_of_record, table_of_record, take_out_part, whole_record};
//!
//! # fn main() -> Result<(), nahokipe::Refusal> {
//! // A controller, number 3, with two pumps, 7 and 12. Number 15 was issued once, and its part has left.
//! let numbers = [3, 7, 12];
//! let sets = [mask_of(&numbers, &[3, 7])?, mask_of(&numbers, &[3, 12])?];
//! let record = entered_record(15, &numbers, &sets)?;
//!
//! // What a record says, and its sets by part numbers.
//! let read = whole_record(&record)?;
//! assert_eq!((read.mark, read.sets), (15, 2));
//! assert_eq!(read.numbers, numbers);
//! let second = sets_of_record(&record)?[1];
//! assert_eq!(numbers_of(&read.numbers, second as usize)?, [3, 12]);
//!
//! // The figures count the 3! = 6 orders in which the parts can fail.
//! let figures = figures(3, &table_of_record(&record)?)?;
//! assert_eq!(figures.signature, [2, 4, 0]);
//! assert_eq!(figures.importance, [4, 1, 1]);
//! assert!(report(&record)?.starts_with(b"parts 3 sets 2 mark 15\n"));
//!
//! // Pump 7 leaves and another comes. Its number is one that was never issued, and it is in no set, so idle, until one is added.
//! let record = add_part(&take_out_part(&record, 7)?)?;
//! assert_eq!(whole_record(&record)?.numbers, [3, 12, 16]);
//! assert_eq!(idle_parts(3, &table_of_record(&record)?)?, 0b100);
//! let record = add_set_of_parts(&record, &[3, 16])?;
//! assert_eq!(sets_of_record(&record)?, [0b011, 0b101]);
//!
//! // There is no part 7 any more.
//! let refusal = take_out_part(&record, 7).unwrap_err();
//! assert_eq!(refusal.number, 17);
//! # Ok(())
//! # }
//! ```
//!
//! # Building
//!
//! The package links libnahokipe.a, which `rt lib` in crates/nahokipe writes to out/ there; the variable NAHOKIPE_LIB_DIR
//! names another folder that has it. Calls keep nothing between them and may run in any number of threads at once; 256 KiB of stack are
//! enough for every call but [`joint_signature`], which needs 640 KiB.
//!
//! `./check` runs the tests, and `cargo bench --manifest-path host/Cargo.toml` the benchmarks.

mod blocks;
mod changes;
mod cuts;
mod declared;
mod drawings;
mod editions;
mod figures;
mod idle;
mod joint;
mod kind;
pub mod lent;
mod part_numbers;
mod patterns;
mod records;
mod refusal;
mod report;
mod shares;
mod structures;
mod vectors;

pub use blocks::path_counts_of_blocks;
pub use changes::{add_part, add_set_of_parts, take_out_part, take_out_parts};
pub use changes::{add_set, take_out, take_out_group};
pub use cuts::{dual, minimal_cuts, table_of_cuts};
pub use drawings::{drawing_of_record, record_of_drawing};
pub use editions::{edition, retired, to_edition_1, to_edition_2};
pub use figures::{domination, figures, importance, path_counts, signature, tail, Figures};
pub use idle::idle_parts;
pub use joint::joint_signature;
pub use kind::Kind;
pub use part_numbers::{mask_of, numbers_of, position_of};
pub use patterns::{table_of_pattern, Pattern};
pub use records::{entered_record, first_record, record_at, table_of_record, whole_record, Record};
pub use records::{next_set, record_end, sets_of_record, stretch, walk, Step, Walk};
pub use refusal::Refusal;
pub use report::{refused_line, report};
pub use shares::{reliability, shares_by_both_routes, shares_by_reliability, shares_by_sets};
pub use structures::{list_verdict, minimal_sets, table_of_list, table_verdict};
pub use vectors::{convert, read_sheet, save_sheet, save_sheet_as, vector_verdict, Vector};

/// What a call writes into a buffer that is always enough, cut to its length.
fn written<T: Clone + Default>(
    enough: usize,
    call: impl FnOnce(&mut [T]) -> Result<usize, Refusal>,
) -> Result<Vec<T>, Refusal> {
    let mut buffer = vec![T::default(); enough];
    let length = call(&mut buffer)?;
    buffer.truncate(length);
    buffer.shrink_to_fit();
    Ok(buffer)
}
