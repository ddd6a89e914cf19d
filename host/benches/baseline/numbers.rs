//! Numbers as they stand in a record and in a sheet, in groups of seven bits.

use super::table::refused;
use nahokipe::Refusal;

/// The bytes of a number.
#[inline(always)]
pub fn number_length(number: u64) -> usize {
    (number | 1).ilog2() as usize / 7 + 1
}

/// Writes a number: how many bytes it takes.
#[inline(always)]
pub fn write_number(number: u64, buffer: &mut [u8]) -> usize {
    let length = number_length(number);
    for (group, cell) in buffer[..length].iter_mut().enumerate() {
        let more = if group + 1 < length { 0x80 } else { 0 };
        *cell = (number >> (7 * group)) as u8 & 0x7F | more;
    }
    length
}

/// The number at a position and the position behind it, or 21 and 22.
#[inline(always)]
pub fn number_at<const TOP: u64>(bytes: &[u8], at: usize) -> Result<(u64, usize), Refusal> {
    let mut number = 0_u64;
    for group in 0..TOP.ilog2() as usize / 7 + 1 {
        let Some(&byte) = bytes.get(at + group) else {
            return refused(21, bytes.len());
        };
        number |= ((byte & 0x7F) as u64) << (7 * group);
        if byte < 0x80 {
            let is_shortest = byte != 0 || group == 0;
            return match is_shortest && number <= TOP {
                true => Ok((number, at + group + 1)),
                false => refused(22, at),
            };
        }
    }
    refused(22, at)
}
