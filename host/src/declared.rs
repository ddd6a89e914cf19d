//! The answers and functions of include/nahokipe.h, in its order. A slice goes as a pointer and a length; the pointer of an empty Rust slice
//! is not null, as the functions ask for.

use crate::Refusal;

/// The answer as it comes through C: number 0 with the length written or with what was asked for, or a refusal's number with its place.
#[repr(C)]
pub(crate) struct Answer {
    pub(crate) number: u8,
    pub(crate) value: usize,
}

impl Answer {
    pub(crate) fn given(self) -> Result<usize, Refusal> {
        match self.number {
            0 => Ok(self.value),
            number => Err(Refusal {
                number,
                place: self.value,
            }),
        }
    }

    /// What a call gives whose value is a mask.
    pub(crate) fn mask(self) -> Result<u16, Refusal> {
        let narrow = |value| u16::try_from(value).expect("a set of up to 16 parts");
        self.given().map(narrow)
    }
}

/// The answer about a sheet as it comes through C. Of a refused one the kind is 1 and n is 0.
#[repr(C)]
#[derive(Clone, Copy, Debug, PartialEq, Eq)]
pub struct SheetAnswer {
    /// 0, or the refusal's number.
    pub number: u8,
    /// How many entries were written, or the refusal's place.
    pub value: usize,
    /// The vector's kind.
    pub kind: u8,
    /// The vector's number of parts.
    pub n: usize,
}

/// The answer about a record as it comes through C. Of a refused one all is 0 beside the number and the place.
#[repr(C)]
#[derive(Clone, Copy, Debug, PartialEq, Eq)]
pub struct RecordAnswer {
    /// 0, or the refusal's number.
    pub number: u8,
    /// 0, or the refusal's place.
    pub value: usize,
    /// How many parts there are.
    pub parts: usize,
    /// The highest part number ever issued.
    pub mark: u64,
    /// The part numbers by position, and 0 behind them.
    pub numbers: [u64; 16],
    /// How many minimal sets there are.
    pub sets: usize,
    /// Where the first set's first byte is.
    pub offset: usize,
    /// How many bytes carry the sets.
    pub length: usize,
}

/// A step as it comes through C: given 1 and a step, or all 0 at the end.
#[repr(C)]
#[derive(Clone, Copy, Debug, PartialEq, Eq)]
pub struct StepAnswer {
    /// 1 where there is a set, else 0.
    pub given: u8,
    /// The set.
    pub set: u64,
    /// The position behind it.
    pub next: usize,
    /// How many sets are left there.
    pub left: usize,
}

/// A call that works on a table and writes into a buffer.
pub(crate) type OfTable<T> = unsafe extern "C" fn(usize, *const u8, usize, *mut T, usize) -> Answer;

/// A call that works on a table and a group and writes into a buffer.
pub(crate) type OfGroup =
    unsafe extern "C" fn(usize, *const u8, usize, usize, *mut i64, usize) -> Answer;

/// A call that makes the table of a stock pattern.
pub(crate) type OfPattern = unsafe extern "C" fn(usize, usize, *mut u8, usize) -> Answer;

/// A call that works on bytes and writes into a buffer.
pub(crate) type OfBytes = unsafe extern "C" fn(*const u8, usize, *mut u8, usize) -> Answer;

/// A call that works on a record and wanted part numbers and writes into a buffer.
pub(crate) type OfWanted =
    unsafe extern "C" fn(*const u8, usize, *const u64, usize, *mut u8, usize) -> Answer;

extern "C" {
    pub(crate) fn nahokipe_table_of_list(
        n: usize,
        list: *const u16,
        list_len: usize,
        table: *mut u8,
        table_len: usize,
    ) -> Answer;

    pub(crate) fn nahokipe_list_verdict(n: usize, list: *const u16, list_len: usize) -> Answer;

    pub(crate) fn nahokipe_table_verdict(n: usize, table: *const u8, table_len: usize) -> Answer;

    pub(crate) fn nahokipe_minimal_sets(
        n: usize,
        table: *const u8,
        table_len: usize,
        sets: *mut u16,
        sets_len: usize,
    ) -> Answer;

    pub(crate) fn nahokipe_table_of_cuts(
        n: usize,
        cuts: *const u16,
        cuts_len: usize,
        table: *mut u8,
        table_len: usize,
    ) -> Answer;

    pub(crate) fn nahokipe_minimal_cuts(
        n: usize,
        table: *const u8,
        table_len: usize,
        cuts: *mut u16,
        cuts_len: usize,
    ) -> Answer;

    pub(crate) fn nahokipe_dual(
        n: usize,
        table: *const u8,
        table_len: usize,
        dual: *mut u8,
        dual_len: usize,
    ) -> Answer;

    pub(crate) fn nahokipe_idle_parts(n: usize, table: *const u8, table_len: usize) -> Answer;

    pub(crate) fn nahokipe_table_at_least(
        n: usize,
        k: usize,
        table: *mut u8,
        table_len: usize,
    ) -> Answer;

    pub(crate) fn nahokipe_table_of_row(
        n: usize,
        k: usize,
        table: *mut u8,
        table_len: usize,
    ) -> Answer;

    pub(crate) fn nahokipe_table_of_ring(
        n: usize,
        k: usize,
        table: *mut u8,
        table_len: usize,
    ) -> Answer;

    pub(crate) fn nahokipe_path_counts(
        n: usize,
        table: *const u8,
        table_len: usize,
        cells: *mut i64,
        cells_len: usize,
    ) -> Answer;

    pub(crate) fn nahokipe_tail(
        n: usize,
        table: *const u8,
        table_len: usize,
        cells: *mut i64,
        cells_len: usize,
    ) -> Answer;

    pub(crate) fn nahokipe_signature(
        n: usize,
        table: *const u8,
        table_len: usize,
        cells: *mut i64,
        cells_len: usize,
    ) -> Answer;

    pub(crate) fn nahokipe_domination(
        n: usize,
        table: *const u8,
        table_len: usize,
        cells: *mut i64,
        cells_len: usize,
    ) -> Answer;

    pub(crate) fn nahokipe_importance(
        n: usize,
        table: *const u8,
        table_len: usize,
        cells: *mut u64,
        cells_len: usize,
    ) -> Answer;

    pub(crate) fn nahokipe_figures(
        n: usize,
        table: *const u8,
        table_len: usize,
        counts: *mut i64,
        counts_len: usize,
        signature: *mut i64,
        signature_len: usize,
        domination: *mut i64,
        domination_len: usize,
        importance: *mut u64,
        importance_len: usize,
    ) -> Answer;

    pub(crate) fn nahokipe_shares_by_sets(
        n: usize,
        table: *const u8,
        table_len: usize,
        group: usize,
        cells: *mut i64,
        cells_len: usize,
    ) -> Answer;

    pub(crate) fn nahokipe_shares_by_reliability(
        n: usize,
        table: *const u8,
        table_len: usize,
        group: usize,
        cells: *mut i64,
        cells_len: usize,
    ) -> Answer;

    pub(crate) fn nahokipe_shares_by_both_routes(
        n: usize,
        table: *const u8,
        table_len: usize,
        group: usize,
        first: *mut i64,
        first_len: usize,
        second: *mut i64,
        second_len: usize,
    ) -> Answer;

    pub(crate) fn nahokipe_reliability(
        n: usize,
        table: *const u8,
        table_len: usize,
        group: usize,
        cells: *mut i64,
        cells_len: usize,
    ) -> Answer;

    pub(crate) fn nahokipe_joint_signature(
        n: usize,
        first: *const u8,
        first_len: usize,
        second: *const u8,
        second_len: usize,
        cells: *mut u64,
        cells_len: usize,
    ) -> Answer;

    pub(crate) fn nahokipe_vector_verdict(
        kind: u8,
        n: usize,
        entries: *const i64,
        entries_len: usize,
    ) -> Answer;

    pub(crate) fn nahokipe_convert(
        kind: u8,
        n: usize,
        entries: *const i64,
        entries_len: usize,
        target: u8,
        cells: *mut i64,
        cells_len: usize,
    ) -> Answer;

    pub(crate) fn nahokipe_path_counts_of_blocks(
        blocks: usize,
        table: *const u8,
        table_len: usize,
        sizes: *const usize,
        sizes_len: usize,
        vectors: *const i64,
        vectors_len: usize,
        cells: *mut i64,
        cells_len: usize,
    ) -> Answer;

    pub(crate) fn nahokipe_save_sheet(
        kind: u8,
        n: usize,
        entries: *const i64,
        entries_len: usize,
        sheet: *mut u8,
        sheet_len: usize,
    ) -> Answer;

    pub(crate) fn nahokipe_save_sheet_as(
        kind: u8,
        n: usize,
        entries: *const i64,
        entries_len: usize,
        target: u8,
        sheet: *mut u8,
        sheet_len: usize,
    ) -> Answer;

    pub(crate) fn nahokipe_read_sheet(
        sheet: *const u8,
        sheet_len: usize,
        cells: *mut i64,
        cells_len: usize,
    ) -> SheetAnswer;

    pub(crate) fn nahokipe_whole_record(bytes: *const u8, bytes_len: usize) -> RecordAnswer;

    pub(crate) fn nahokipe_record_at(
        bytes: *const u8,
        bytes_len: usize,
        start: usize,
    ) -> RecordAnswer;

    pub(crate) fn nahokipe_record_end(bytes: *const u8, bytes_len: usize, start: usize) -> Answer;

    pub(crate) fn nahokipe_next_set(
        bytes: *const u8,
        bytes_len: usize,
        next: usize,
        left: usize,
    ) -> StepAnswer;

    pub(crate) fn nahokipe_table_of_record(
        bytes: *const u8,
        bytes_len: usize,
        table: *mut u8,
        table_len: usize,
    ) -> Answer;

    pub(crate) fn nahokipe_first_record(
        n: usize,
        list: *const u16,
        list_len: usize,
        buffer: *mut u8,
        buffer_len: usize,
    ) -> Answer;

    pub(crate) fn nahokipe_entered_record(
        mark: u64,
        numbers: *const u64,
        numbers_len: usize,
        list: *const u16,
        list_len: usize,
        buffer: *mut u8,
        buffer_len: usize,
    ) -> Answer;

    pub(crate) fn nahokipe_position_of(bytes: *const u8, bytes_len: usize, number: u64) -> Answer;

    pub(crate) fn nahokipe_mask_of(
        numbers: *const u64,
        numbers_len: usize,
        wanted: *const u64,
        wanted_len: usize,
    ) -> Answer;

    pub(crate) fn nahokipe_numbers_of(
        numbers: *const u64,
        numbers_len: usize,
        mask: usize,
        cells: *mut u64,
        cells_len: usize,
    ) -> Answer;

    pub(crate) fn nahokipe_add_part(
        bytes: *const u8,
        bytes_len: usize,
        buffer: *mut u8,
        buffer_len: usize,
    ) -> Answer;

    pub(crate) fn nahokipe_take_out_part(
        bytes: *const u8,
        bytes_len: usize,
        number: u64,
        buffer: *mut u8,
        buffer_len: usize,
    ) -> Answer;

    pub(crate) fn nahokipe_take_out_parts(
        bytes: *const u8,
        bytes_len: usize,
        wanted: *const u64,
        wanted_len: usize,
        buffer: *mut u8,
        buffer_len: usize,
    ) -> Answer;

    pub(crate) fn nahokipe_add_set_of_parts(
        bytes: *const u8,
        bytes_len: usize,
        wanted: *const u64,
        wanted_len: usize,
        buffer: *mut u8,
        buffer_len: usize,
    ) -> Answer;

    pub(crate) fn nahokipe_take_out(
        bytes: *const u8,
        bytes_len: usize,
        position: usize,
        buffer: *mut u8,
        buffer_len: usize,
    ) -> Answer;

    pub(crate) fn nahokipe_take_out_group(
        bytes: *const u8,
        bytes_len: usize,
        group: usize,
        buffer: *mut u8,
        buffer_len: usize,
    ) -> Answer;

    pub(crate) fn nahokipe_add_set(
        bytes: *const u8,
        bytes_len: usize,
        set: u16,
        buffer: *mut u8,
        buffer_len: usize,
    ) -> Answer;

    pub(crate) fn nahokipe_edition(bytes: *const u8, bytes_len: usize) -> Answer;

    pub(crate) fn nahokipe_retired(
        bytes: *const u8,
        bytes_len: usize,
        numbers: *mut u64,
        numbers_len: usize,
    ) -> Answer;

    pub(crate) fn nahokipe_to_edition_1(
        bytes: *const u8,
        bytes_len: usize,
        buffer: *mut u8,
        buffer_len: usize,
    ) -> Answer;

    pub(crate) fn nahokipe_to_edition_2(
        bytes: *const u8,
        bytes_len: usize,
        buffer: *mut u8,
        buffer_len: usize,
    ) -> Answer;

    pub(crate) fn nahokipe_record_of_drawing(
        text: *const u8,
        text_len: usize,
        buffer: *mut u8,
        buffer_len: usize,
    ) -> Answer;

    pub(crate) fn nahokipe_drawing_of_record(
        bytes: *const u8,
        bytes_len: usize,
        buffer: *mut u8,
        buffer_len: usize,
    ) -> Answer;

    pub(crate) fn nahokipe_report(
        bytes: *const u8,
        bytes_len: usize,
        table: *mut u8,
        table_len: usize,
        text: *mut u8,
        text_len: usize,
    ) -> Answer;

    pub(crate) fn nahokipe_refused_line(
        number: u8,
        place: usize,
        text: *mut u8,
        text_len: usize,
    ) -> Answer;
}
