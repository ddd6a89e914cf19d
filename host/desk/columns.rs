//! Text in columns.

use std::mem;

/// The longest line of columns that are put in pieces, as long as the longest of the help.
const LONGEST: usize = 100;

/// Rows of cells in columns, numbers to the right. The cells of a last column of names stand to the left, and may be missing.
pub fn columns(rows: &[Vec<String>], named: bool) -> String {
    let widths = widths(rows);
    let last = widths.len() - 1;
    let line = |row: &Vec<String>| {
        let cell = |(column, cell): (usize, &String)| match named && column == last {
            true => format!("  {cell}"),
            false => format!("  {cell:>width$}", width = widths[column]),
        };
        let cells: String = row.iter().enumerate().map(cell).collect();
        format!("{}\n", cells.trim_end())
    };
    rows.iter().map(line).collect()
}

/// Rows of numbers in columns. Where they are too wide for a line they stand in pieces, one below the other: each has the first column and
/// as many of the others as there is room for.
pub fn pieces(rows: &[Vec<String>]) -> String {
    let widths: Vec<usize> = widths(rows).iter().map(|width| width + 2).collect();
    let mut pieces = Vec::new();
    let (mut piece, mut length) = (vec![0], widths[0]);
    for (column, width) in widths.iter().enumerate().skip(1) {
        if length + width > LONGEST {
            pieces.push(mem::replace(&mut piece, vec![0]));
            length = widths[0];
        }
        piece.push(column);
        length += width;
    }
    pieces.push(piece);
    let text = |piece: Vec<usize>| {
        let cells = |row: &Vec<String>| piece.iter().map(|&column| row[column].clone()).collect();
        columns(&rows.iter().map(cells).collect::<Vec<_>>(), false)
    };
    let texts: Vec<String> = pieces.into_iter().map(text).collect();
    texts.join("\n")
}

/// How wide each column is: as its widest cell.
fn widths(rows: &[Vec<String>]) -> Vec<usize> {
    let width = |column: usize| {
        let cells = rows.iter().filter_map(|row| row.get(column));
        cells.map(|cell| cell.chars().count()).max().unwrap_or(0)
    };
    (0..rows[0].len()).map(width).collect()
}

/// A row of cells.
pub fn row<const COUNT: usize>(cells: [&dyn ToString; COUNT]) -> Vec<String> {
    cells.iter().map(|cell| cell.to_string()).collect()
}
