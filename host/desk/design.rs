//! A machine as its record says it, by part numbers.

use crate::ending::Ending;
use crate::files::FileName;
use crate::meaning::Meaning;
use crate::numbers::{counted, listed, said};
use nahokipe::Refusal;
use std::collections::BTreeSet;

/// The highest number that a part can have.
pub const TOP_NUMBER: u64 = (1 << 48) - 1;

/// What a record says, its sets by part numbers in the record's order.
#[derive(Clone, Debug, PartialEq, Eq)]
pub struct Design {
    /// The record's bytes, as the library made or accepted them.
    pub bytes: Vec<u8>,
    /// The edition that the record is written in, 1 or 2.
    pub edition: u8,
    pub mark: u64,
    pub parts: Vec<u64>,
    /// The numbers that were filed when their parts left, rising; edition 1 has none.
    pub retired: Vec<u64>,
    pub sets: Vec<Vec<u64>>,
}

impl Design {
    /// The machine of a record's bytes.
    pub fn of(bytes: Vec<u8>) -> Result<Design, Refusal> {
        let record = nahokipe::whole_record(&bytes)?;
        let masks = nahokipe::sets_of_record(&bytes)?.into_iter();
        let set = |mask: u16| nahokipe::numbers_of(&record.numbers, usize::from(mask));
        let sets = masks.map(set).collect::<Result<_, Refusal>>()?;
        Ok(Design {
            edition: nahokipe::edition(&bytes)?,
            mark: record.mark,
            parts: record.numbers,
            retired: nahokipe::retired(&bytes)?,
            sets,
            bytes,
        })
    }

    /// The machine of a record's file.
    pub fn read(name: &FileName) -> Result<Design, Ending> {
        Design::of_file(name.read_bytes()?, name)
    }

    /// The machine of the bytes that a file has.
    pub fn of_file(bytes: Vec<u8>, name: &FileName) -> Result<Design, Ending> {
        Design::of(bytes.clone()).map_err(|refusal| no_record(refusal, name, &bytes))
    }

    /// The minimal path sets or the minimal cut sets, in the library's order.
    pub fn minimal(&self, meaning: Meaning) -> Result<Vec<Vec<u64>>, Refusal> {
        match meaning {
            Meaning::PathSets => Ok(self.sets.clone()),
            Meaning::CutSets => self.cuts(),
        }
    }

    /// The minimal cut sets, which the library works out from the record.
    fn cuts(&self) -> Result<Vec<Vec<u64>>, Refusal> {
        let table = nahokipe::table_of_record(&self.bytes)?;
        let masks = nahokipe::minimal_cuts(self.size(), &table)?.into_iter();
        let cut = |mask: u16| nahokipe::numbers_of(&self.parts, usize::from(mask));
        masks.map(cut).collect()
    }

    /// The idle parts, which the library finds: adding one to a set never changes whether the machine runs.
    pub fn idle(&self) -> Result<Vec<u64>, Refusal> {
        let table = nahokipe::table_of_record(&self.bytes)?;
        let mask = nahokipe::idle_parts(self.size(), &table)?;
        nahokipe::numbers_of(&self.parts, usize::from(mask))
    }

    /// How many parts the machine has.
    pub fn size(&self) -> usize {
        self.parts.len()
    }

    /// Which of some numbers is no part's.
    pub fn stranger(&self, numbers: &[u64]) -> String {
        let parts = listed(&self.parts);
        match numbers.iter().find(|number| !self.parts.contains(number)) {
            Some(number) if self.retired.contains(number) => {
                format!("no part has number {number}, which is retired; the parts are {parts}")
            }
            Some(&number) => format!("no part has number {}; the parts are {parts}", said(number)),
            None => format!("the parts are {parts}"),
        }
    }

    /// How many parts and sets there are, the mark, what edition 2 has beyond that, and which number comes next.
    pub fn in_short(&self) -> String {
        let (parts, sets) = (
            counted(self.size(), "part"),
            counted(self.sets.len(), "set"),
        );
        let retired = counted(self.retired.len(), "retired number");
        let edition = match self.edition {
            1 => String::new(),
            edition => format!(", edition {edition}, {retired}"),
        };
        format!(
            "{parts}, {sets}, mark {}{edition}; {}",
            self.mark,
            self.next_number()
        )
    }

    /// Which number the next part gets.
    pub fn next_number(&self) -> String {
        match self.mark {
            TOP_NUMBER => "no number is left for another part".to_string(),
            mark => format!("the next part that is added gets number {}", mark + 1),
        }
    }

    /// Whether the parts are numbered as a drawing's text numbers them.
    pub fn is_numbered_from_one(&self) -> bool {
        let size = self.size() as u64;
        self.mark == size && self.parts.iter().copied().eq(1..=size)
    }
}

/// A file that should be a record and is none.
fn no_record(refusal: Refusal, name: &FileName, bytes: &[u8]) -> Ending {
    let hint = match nahokipe::read_sheet(bytes) {
        Ok(_) => "\n  this file is a sheet, which `nahokipe sheet` takes",
        Err(_) => "",
    };
    Ending::refused(refusal, format!("{name}: this is no whole record{hint}"))
}

/// What differs between two machines, by part numbers.
pub struct Difference<'a> {
    pub parts_left: Vec<u64>,
    pub parts_came: Vec<u64>,
    pub retired_left: Vec<u64>,
    pub retired_came: Vec<u64>,
    pub sets_left: Vec<&'a [u64]>,
    pub sets_came: Vec<&'a [u64]>,
}

impl<'a> Difference<'a> {
    pub fn between(old: &'a Design, new: &'a Design) -> Difference<'a> {
        Difference {
            parts_left: numbers_lacking(&old.parts, &new.parts),
            parts_came: numbers_lacking(&new.parts, &old.parts),
            retired_left: numbers_lacking(&old.retired, &new.retired),
            retired_came: numbers_lacking(&new.retired, &old.retired),
            sets_left: sets_lacking(&old.sets, &new.sets),
            sets_came: sets_lacking(&new.sets, &old.sets),
        }
    }
}

/// The numbers of one machine that another lacks.
pub fn numbers_lacking(these: &[u64], those: &[u64]) -> Vec<u64> {
    let lacking = these.iter().filter(|number| !those.contains(number));
    lacking.copied().collect()
}

/// The sets of one machine that another lacks.
fn sets_lacking<'a>(these: &'a [Vec<u64>], those: &[Vec<u64>]) -> Vec<&'a [u64]> {
    let those: BTreeSet<&Vec<u64>> = those.iter().collect();
    let lacking = these.iter().filter(|set| !those.contains(set));
    lacking.map(Vec::as_slice).collect()
}

/// Whether a set has all parts of another.
pub fn holds(set: &[u64], other: &[u64]) -> bool {
    other.iter().all(|part| set.contains(part))
}
