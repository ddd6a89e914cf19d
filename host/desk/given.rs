//! What the command `blocks` is given for a part: the sheet of a block, or its path counts as a supplier writes them.

use crate::arguments::Arguments;
use crate::ending::Ending;
use crate::figures::sets_of_size;
use crate::files::FileName;
use crate::numbers::{counted, signed, signed_said};
use crate::sheets::{converted, stored, what};
use nahokipe::{Kind, Refusal};
use std::ffi::OsStr;
use std::os::unix::ffi::OsStrExt;

/// What is said where path counts may have been meant and were taken for the name of a file.
const COUNTS_HINT: &str = "
  path counts are written as `0,0,2,1`: no leading zeros, and commas without blanks between them";

/// What is given for a part.
pub enum Given {
    /// The file of a sheet.
    Sheet(FileName),
    /// How many of the sets of 0, 1, 2, ... parts run the block.
    Counts(Vec<i64>),
}

impl Given {
    /// What a word behind an equals sign gives: path counts, or else the file of that name.
    fn of(word: &OsStr) -> Given {
        match counts(word.as_bytes()) {
            Some(counts) => Given::Counts(counts),
            None => Given::Sheet(FileName::of(word)),
        }
    }

    /// The file that is read for it.
    fn file(&self) -> Option<FileName> {
        match self {
            Given::Sheet(name) => Some(name.clone()),
            Given::Counts(_) => None,
        }
    }

    /// What it is, in words, and the path counts that it stands for, which the library accepts.
    pub fn read(&self, part: u64) -> Result<(String, Vec<i64>), Ending> {
        match self {
            Given::Sheet(name) => of_sheet(name, part),
            Given::Counts(counts) => judged(counts, part),
        }
    }
}

/// The part numbers in front of the equals signs, each once, and what stands behind them, of which standard input is one file at most.
pub fn given(arguments: &Arguments) -> Result<Vec<(u64, Given)>, Ending> {
    let words = arguments.words().enumerate().skip(1);
    let pair = |(index, word)| {
        let shown = arguments.shown(index);
        let why = format!("`{shown}` is not NUMBER=BLOCK, as in `7=pump.sheet` or `7=0,0,2,1`");
        halves(word).ok_or_else(|| arguments.wrong(&why))
    };
    let pairs = words.map(pair).collect::<Result<Vec<_>, Ending>>()?;
    let (numbers, blocks): (Vec<&OsStr>, Vec<&OsStr>) = pairs.into_iter().unzip();
    let numbers = arguments.each_once(&numbers)?.into_iter();
    let blocks: Vec<Given> = blocks.into_iter().map(Given::of).collect();
    let files = blocks.iter().filter_map(Given::file);
    arguments.read_once([arguments.file(0)].into_iter().chain(files))?;
    Ok(numbers.zip(blocks).collect())
}

/// What stands in front of the first equals sign and what behind it, where something does.
fn halves(word: &OsStr) -> Option<(&OsStr, &OsStr)> {
    let sign = word.as_bytes().iter().position(|&byte| byte == b'=')?;
    let (number, block) = (&word.as_bytes()[..sign], &word.as_bytes()[sign + 1..]);
    let halves = (OsStr::from_bytes(number), OsStr::from_bytes(block));
    (!block.is_empty()).then_some(halves)
}

/// The numbers of a word that is nothing but numbers with commas between them, two at least. Negative ones are taken, so that the library
/// refuses them by their place.
fn counts(word: &[u8]) -> Option<Vec<i64>> {
    let numbers = word.split(|&byte| byte == b',').map(signed);
    let numbers = numbers.collect::<Option<Vec<i64>>>()?;
    (numbers.len() > 1).then_some(numbers)
}

/// What a sheet holds, in words, and the path counts that say the same.
fn of_sheet(name: &FileName, part: u64) -> Result<(String, Vec<i64>), Ending> {
    let vector = stored(name, &format!(", for part {part}"));
    let vector = vector.map_err(|ending| unread(ending, name))?;
    let told = format!("{name}, {}", what(&vector));
    let counts = converted(vector, Kind::PathCounts);
    let counts = counts.map_err(|refusal| Ending::refused(refusal, name))?;
    Ok((told, counts.entries))
}

/// A sheet that cannot be read: where its name has a digit and nothing that is strange among numbers, path counts may have been meant.
fn unread(ending: Ending, name: &FileName) -> Ending {
    let name = name.to_string();
    let is_digit = |letter: char| letter.is_ascii_digit();
    let is_usual = |letter: char| is_digit(letter) || ",;.+- ".contains(letter);
    match ending {
        Ending::Failed(why) if name.contains(is_digit) && name.chars().all(is_usual) => {
            Ending::Failed(format!("{why}{COUNTS_HINT}"))
        }
        other => other,
    }
}

/// Path counts that the library accepts, and what they are in words.
fn judged(counts: &[i64], part: u64) -> Result<(String, Vec<i64>), Ending> {
    let n = counts.len() - 1;
    nahokipe::vector_verdict(Kind::PathCounts, n, counts).map_err(|refusal| {
        let given = format!("the path counts given for part {part}");
        Ending::refused(refusal, given + &about(counts, refusal))
    })?;
    let told = format!("path counts as given, {}", counted(n, "part"));
    Ok((told, counts.to_vec()))
}

/// What is wrong with path counts, behind what they are given for.
fn about(counts: &[i64], refusal: Refusal) -> String {
    let (n, size) = (counts.len() - 1, refusal.place);
    let parts = |size| counted(size, "part");
    let share = |size| format!("{} of {}", counts[size], sets_of_size(n, size));
    match refusal.number {
        1 => format!(
            ": {} numbers, for 0 to {n} parts; a block has 1 to 16 parts",
            n + 1
        ),
        13 => format!(
            ": the count for {} is {}, which is not {}",
            parts(size),
            signed_said(counts[size]),
            range(n, size)
        ),
        14 => format!(
            ": the count for {} is {}, and that for {} is {}",
            parts(size),
            share(size),
            parts(size + 1),
            share(size + 1)
        ),
        _ => String::new(),
    }
}

/// What a path count of sets of this size can be.
fn range(n: usize, size: usize) -> String {
    match size {
        0 => "0".to_string(),
        _ if size == n => "1".to_string(),
        _ => format!("0 to {}", sets_of_size(n, size)),
    }
}
