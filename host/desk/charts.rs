//! Bar charts as inline SVG.

use crate::page::escaped;
use crate::share::Share;

/// How long the longest bar is.
const LONGEST: usize = 240;
/// How high a row is.
const ROW: usize = 22;
/// How wide a digit is, and the room for the per cent behind a bar.
const DIGIT: usize = 8;
const BEHIND: usize = 70;

/// A bar: what stands beside it, what it says in words, and its share.
pub struct Bar {
    pub label: String,
    pub words: String,
    pub share: Share,
}

/// A chart of bars, one below the other, each as long as its count is beside the largest.
pub fn chart(about: &str, bars: &[Bar]) -> String {
    let most = bars.iter().map(|bar| bar.share.count).max().unwrap_or(0);
    let longest = bars
        .iter()
        .map(|bar| bar.label.chars().count())
        .max()
        .unwrap_or(0);
    let left = DIGIT * longest + 8;
    let rows = bars.iter().enumerate();
    let rows: String = rows
        .map(|(index, bar)| drawn(bar, left, ROW * index, most))
        .collect();
    let (width, height) = (left + LONGEST + BEHIND, ROW * bars.len());
    let (shown, about) = (width * 5 / 4, escaped(about));
    format!(
        "\
<svg width=\"{shown}\" viewBox=\"0 0 {width} {height}\" role=\"img\" aria-label=\"{about}\">
<title>{about}</title>
{rows}</svg>
"
    )
}

/// One bar with its label and its per cent.
fn drawn(bar: &Bar, left: usize, top: usize, most: u64) -> String {
    let length = hundredths(bar.share.count, most.max(1));
    format!(
        "\
<text class=\"label\" x=\"{label_end}\" y=\"{base}\">{label}</text>
<rect x=\"{left}\" y=\"{bar_top}\" width=\"{whole}.{part:02}\" height=\"14\"><title>{words}</title></rect>
<text x=\"{behind}\" y=\"{base}\">{per_cent} %</text>
",
        label_end = left - 6,
        base = top + 16,
        label = escaped(&bar.label),
        bar_top = top + 4,
        whole = length / 100,
        part = length % 100,
        words = escaped(&bar.words),
        behind = left as u128 + length / 100 + 6,
        per_cent = escaped(&bar.share.per_cent()),
    )
}

/// How long a bar is, in hundredths, rounded half up.
fn hundredths(count: u64, most: u64) -> u128 {
    let (count, most) = (u128::from(count), u128::from(most));
    (200 * LONGEST as u128 * count + most) / (2 * most)
}
