//! Numbers in bytes a second time, from the words of documents 01 and 02 alone: groups of seven bits, lowest group first, one group a byte, bit 7 set
//! on all but the last; shortest form only.
//!
//! Nothing here is shared with the calculator; the tests compare the two.

use crate::naive::refused;
use nahokipe::Refusal;

/// Where a number stands says how far it reaches, and so how many groups it may have: those of its top value.
#[derive(Clone, Copy, Debug)]
pub struct Field {
    top: u128,
}

impl Field {
    pub const COUNT: Field = Field::up_to((1 << 32) - 1);
    pub const PART_NUMBER: Field = Field::up_to((1 << 48) - 1);
    pub const SET: Field = Field::up_to((1 << 32) - 1);
    pub const SHEET: Field = Field::up_to((1 << 63) - 1);

    pub const fn up_to(top: u128) -> Field {
        Field { top }
    }

    fn groups(self) -> usize {
        number_bytes(self.top).len()
    }
}

/// The shortest form of a number.
pub fn number_bytes(number: u128) -> Vec<u8> {
    let group = (number % 128) as u8;
    match number / 128 {
        0 => vec![group],
        higher => [vec![group + 128], number_bytes(higher)].concat(),
    }
}

/// Several numbers, one behind the other.
pub fn numbers_bytes(numbers: impl IntoIterator<Item = u128>) -> Vec<u8> {
    numbers.into_iter().flat_map(number_bytes).collect()
}

/// The number at a position and the position behind it: 21 at the input's length, 22 at the number's first byte.
pub fn number_at(bytes: &[u8], start: usize, field: Field) -> Result<(u128, usize), Refusal> {
    let form: Vec<u8> = form_at(bytes, start, field.groups());
    let ended = form.last().is_some_and(|&byte| byte < 128);
    if !ended && form.len() < field.groups() {
        return refused(21, bytes.len());
    }
    let number = value_of(&form);
    if !ended || number > field.top || form != number_bytes(number) {
        return refused(22, start);
    }
    Ok((number, start + form.len()))
}

/// The bytes up to the first without bit 7, or as many as there may be groups, or as many as there are.
fn form_at(bytes: &[u8], start: usize, groups: usize) -> Vec<u8> {
    let mut form = Vec::new();
    for &byte in bytes.iter().skip(start).take(groups) {
        form.push(byte);
        if byte < 128 {
            break;
        }
    }
    form
}

/// The groups put together.
fn value_of(form: &[u8]) -> u128 {
    form.iter()
        .rev()
        .fold(0, |value, &byte| value * 128 + (byte % 128) as u128)
}
