//! Vectors and their sheets into lent buffers. A kind goes as its number here, since the calculator judges it.

use crate::declared::{
    nahokipe_convert, nahokipe_read_sheet, nahokipe_save_sheet, nahokipe_save_sheet_as,
    nahokipe_vector_verdict, Answer, SheetAnswer,
};
use crate::Refusal;

/// Whether a vector of n parts is accepted.
pub fn vector_verdict(kind: u8, n: usize, entries: &[i64]) -> Result<(), Refusal> {
    let answer = unsafe { nahokipe_vector_verdict(kind, n, entries.as_ptr(), entries.len()) };
    answer.given().map(drop)
}

/// The vector of another kind that stands for the same path counts, into `cells`: how many were written.
pub fn convert(
    kind: u8,
    n: usize,
    entries: &[i64],
    target: u8,
    cells: &mut [i64],
) -> Result<usize, Refusal> {
    let answer = unsafe {
        nahokipe_convert(
            kind,
            n,
            entries.as_ptr(),
            entries.len(),
            target,
            cells.as_mut_ptr(),
            cells.len(),
        )
    };
    answer.given()
}

/// The sheet that a vector is saved as, for a tail that of the signature, into `sheet`: how many bytes were written.
pub fn save_sheet(kind: u8, n: usize, entries: &[i64], sheet: &mut [u8]) -> Result<usize, Refusal> {
    let answer = unsafe {
        nahokipe_save_sheet(
            kind,
            n,
            entries.as_ptr(),
            entries.len(),
            sheet.as_mut_ptr(),
            sheet.len(),
        )
    };
    answer.given()
}

/// The sheet of the vector of the target kind that stands for the same path counts, into `sheet`: how many bytes were written. A tail sheet is
/// refused with 34, whatever the rest is.
pub fn save_sheet_as(
    kind: u8,
    n: usize,
    entries: &[i64],
    target: u8,
    sheet: &mut [u8],
) -> Result<usize, Refusal> {
    let answer = unsafe {
        nahokipe_save_sheet_as(
            kind,
            n,
            entries.as_ptr(),
            entries.len(),
            target,
            sheet.as_mut_ptr(),
            sheet.len(),
        )
    };
    answer.given()
}

/// What a sheet says of its vector, beside the entries.
#[derive(Clone, Copy, Debug, PartialEq, Eq)]
pub struct Sheet {
    /// The kind's number.
    pub kind: u8,
    /// The number of parts.
    pub n: usize,
    /// How many entries were written.
    pub entries: usize,
}

/// The vector of a sheet: its entries into `cells`.
pub fn read_sheet(sheet: &[u8], cells: &mut [i64]) -> Result<Sheet, Refusal> {
    let SheetAnswer {
        number,
        value,
        kind,
        n,
    } = sheet_answer(sheet, cells);
    let entries = Answer { number, value }.given()?;
    Ok(Sheet { kind, n, entries })
}

/// The same as [`read_sheet`], and what is handed out beside a refusal.
pub fn sheet_answer(sheet: &[u8], cells: &mut [i64]) -> SheetAnswer {
    unsafe { nahokipe_read_sheet(sheet.as_ptr(), sheet.len(), cells.as_mut_ptr(), cells.len()) }
}
