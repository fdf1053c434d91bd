//! Lines, fields and bits, shared by all texts.

use crate::network::Bit;
use crate::refusal::{Refusal, BUFFER};

/// A line of a text.
#[derive(Clone, Copy, Debug)]
pub struct Line<'t> {
    /// Counted from 1.
    pub number: usize,
    /// The bytes before the line end.
    pub bytes: &'t [u8],
    /// Whether byte 10 stands at its end.
    pub ended: bool,
}

/// "Lines end with byte 10". Bytes after the last line end are one more line, unended.
pub fn lines(text: &[u8]) -> impl Iterator<Item = Line<'_>> {
    text.split_inclusive(|&byte| byte == b'\n').enumerate().map(|(index, piece)| {
        let ended = piece.ends_with(b"\n");
        let length = piece.len() - usize::from(ended);
        Line { number: index + 1, bytes: &piece[..length], ended }
    })
}

/// "fields are parted by one tab"
pub fn fields(line: &[u8]) -> Vec<&[u8]> {
    line.split(|&byte| byte == b'\t').collect()
}

/// "A decimal field is one to four digits, with no leading zero except `0` itself."
pub fn decimal(field: &[u8]) -> Option<usize> {
    match field {
        b"0" => Some(0),
        [b'1'..=b'9', rest @ ..] if rest.len() <= 3 && rest.iter().all(u8::is_ascii_digit) => {
            Some(field.iter().fold(0, |value, digit| 10 * value + usize::from(digit - b'0')))
        }
        _ => None,
    }
}

/// A bit written as `0` or `1`.
pub fn known_bit(byte: u8) -> Option<bool> {
    match byte {
        b'0' => Some(false),
        b'1' => Some(true),
        _ => None,
    }
}

/// The byte that writes a bit.
pub fn bit_byte(bit: bool) -> u8 {
    if bit {
        b'1'
    } else {
        b'0'
    }
}

/// Start bits as they are written: "BITS starts with the highest bit", and so does RESET; "each `0`, `1`
/// or `X` (unknown)".
pub fn written(bits: &[Bit]) -> String {
    bits.iter().rev().map(|bit| bit.map_or('X', |bit| char::from(bit_byte(bit)))).collect()
}

/// Writes a text to the front of a lent buffer and gives its length, or 13. "Output buffers change only
/// on success, in the bytes needed."
pub fn put(text: &[u8], buffer: &mut [u8]) -> Result<usize, Refusal> {
    let needed = text.len();
    let room = buffer.get_mut(..needed).ok_or(Refusal::new(BUFFER, needed))?;
    room.copy_from_slice(text);
    Ok(needed)
}
