//! The command `blocks`: a machine whose parts are blocks, of which a sheet or path counts are given and nothing else is known. The library
//! works out its path counts.

use crate::arguments::Arguments;
use crate::design::Design;
use crate::ending::Ending;
use crate::entering::story_stream;
use crate::files::FileName;
use crate::given::{given, Given};
use crate::names::Names;
use crate::numbers::counted;
use crate::output::{self, Stream};
use crate::sheets::{converted, made, text, unsaved};
use nahokipe::{Kind, Refusal, Vector};

/// The command `blocks`. It prints the figures of the whole, and with -o saves the path counts as a new sheet.
pub fn blocks(arguments: &Arguments) -> Result<(), Ending> {
    let target = arguments.output.as_ref();
    let stream = target.map_or(Stream::Output, story_stream);
    let whole = Whole::read(arguments).map_err(|ending| ending.on(stream))?;
    match target {
        None => output::print(&whole.text(&whole.lines, &whole.counts), stream),
        Some(target) => {
            let unsaved = |refusal| unsaved(refusal, &arguments.file(0)).on(stream);
            let sheet = whole.sheet().map_err(unsaved)?;
            let form = |lines: &str, written: &Vector| whole.text(lines, written);
            made(&sheet, target, &whole.lines, form)
        }
    }
}

/// A machine that is made of blocks.
struct Whole {
    /// What stands for each part of the record, a line for each, and how many parts there are in all.
    lines: String,
    counts: Vector,
    signature: Vector,
}

impl Whole {
    /// The machine that a record makes of the blocks that are given. Words and part numbers are judged before a sheet is read.
    fn read(arguments: &Arguments) -> Result<Whole, Ending> {
        let (name, given) = (arguments.file(0), given(arguments)?);
        let design = Design::read(&name)?;
        let numbers: Vec<u64> = given.iter().map(|(number, _)| *number).collect();
        nahokipe::mask_of(&design.parts, &numbers).map_err(|refusal| {
            let stranger = design.stranger(&numbers);
            Ending::refused(refusal, format!("{name}: {stranger}"))
        })?;
        let names = Names::read(arguments.names.as_ref(), &design.parts, &design.retired)?;
        let blocks = design.parts.iter().map(|&part| Block::read(part, &given));
        let blocks = blocks.collect::<Result<Vec<Block>, Ending>>()?;
        let refused = |refusal| Ending::refused(refusal, in_all(&name, &blocks, &names));
        let counts = path_counts(&design, &blocks).map_err(refused)?;
        let lines = lines(&blocks, &names, "");
        let parts = counted(counts.n, "part");
        Ok(Whole {
            lines: format!("{lines}the whole: {parts}, if no part is in two blocks\n"),
            signature: converted(counts.clone(), Kind::Signature).map_err(refused)?,
            counts,
        })
    }

    /// The sheet of its path counts.
    fn sheet(&self) -> Result<Vec<u8>, Refusal> {
        let Vector { kind, n, entries } = &self.counts;
        nahokipe::save_sheet(*kind, *n, entries)
    }

    /// Its signature and its path counts, these as they are given, behind some lines.
    fn text(&self, lines: &str, counts: &Vector) -> String {
        text(lines, &self.signature) + &text("", counts)
    }
}

/// A part of the record as a block: one that is given, or one part by itself.
struct Block {
    part: u64,
    /// What stands for it, in words.
    told: String,
    counts: Vec<i64>,
}

impl Block {
    /// The block that a part is, by what is given with its number.
    fn read(part: u64, given: &[(u64, Given)]) -> Result<Block, Ending> {
        let (told, counts) = match given.iter().find(|(number, _)| *number == part) {
            Some((_, given)) => given.read(part)?,
            None => ("one part, no block is given".to_string(), vec![0, 1]),
        };
        Ok(Block { part, told, counts })
    }

    /// How many parts it has.
    fn size(&self) -> usize {
        self.counts.len() - 1
    }
}

/// The path counts of the whole, as the library works them out.
fn path_counts(design: &Design, blocks: &[Block]) -> Result<Vector, Refusal> {
    let table = nahokipe::table_of_record(&design.bytes)?;
    let sizes: Vec<usize> = blocks.iter().map(Block::size).collect();
    let vectors: Vec<&[i64]> = blocks.iter().map(|block| &block.counts[..]).collect();
    let vectors = vectors.concat();
    let entries = nahokipe::path_counts_of_blocks(design.size(), &table, &sizes, &vectors)?;
    Ok(Vector {
        kind: Kind::PathCounts,
        n: entries.len() - 1,
        entries,
    })
}

/// What stands for each part of the record, a line for each, all moved in, with the names as comments.
fn lines(blocks: &[Block], names: &Names, indent: &str) -> String {
    let line = |Block { part, told, .. }: &Block| {
        let name = match names.name(*part) {
            "" => String::new(),
            name => format!("  # {name}"),
        };
        format!("{indent}part {part}: {told}{name}\n")
    };
    blocks.iter().map(line).collect()
}

/// What is said of blocks that are refused together: how many parts they have in all, and which of them has how many.
fn in_all(name: &FileName, blocks: &[Block], names: &Names) -> String {
    let parts = counted(blocks.iter().map(Block::size).sum(), "part");
    let lines = lines(blocks, names, "  ");
    format!(
        "{name}: its blocks have {parts} in all\n{}",
        lines.trim_end()
    )
}
