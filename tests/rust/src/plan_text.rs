//! The plan text: "A plan line is `csu BITS`, each `0` or `1`, first bit shifted first, possibly
//! none."

use crate::limits::{MAX_OPERATIONS, MAX_PLAN_BYTES};
use crate::refusal::{Refusal, PLAN_FORM};
use crate::text::{bit_byte, known_bit, lines, Line};

/// The bytes before the bits; "the tab after `csu` always stands".
pub const LINE_START: &[u8] = b"csu\t";

/// The bits fields of a plan text. "The bits of one `csu` line are handed over as a part of the
/// plan text, never as a copy."
///
/// "14, line: plan: line form wrong, or line 17; place 0: text too long"; "text length first".
pub fn plan_lines(text: &[u8]) -> Result<Vec<&[u8]>, Refusal> {
    if text.len() > MAX_PLAN_BYTES {
        return Err(Refusal::new(PLAN_FORM, 0));
    }
    lines(text)
        .map(|line| match bits_field(line) {
            Some(bits) if line.number <= MAX_OPERATIONS => Ok(bits),
            _ => Err(Refusal::new(PLAN_FORM, line.number)),
        })
        .collect()
}

/// The bits of one line, or `None` if its form is wrong.
fn bits_field(line: Line<'_>) -> Option<&[u8]> {
    let bits = line.bytes.strip_prefix(LINE_START)?;
    let good = line.ended && bits.iter().all(|&byte| known_bit(byte).is_some());
    good.then_some(bits)
}

/// The operations of a plan text, the bit that is shifted first at index 0.
pub fn parse_plan(text: &[u8]) -> Result<Vec<Vec<bool>>, Refusal> {
    let fields = plan_lines(text)?;
    let bits = |field: &[u8]| field.iter().map(|&byte| byte == b'1').collect();
    Ok(fields.into_iter().map(bits).collect())
}

/// The plan text of these operations.
pub fn write_plan(operations: &[Vec<bool>]) -> Vec<u8> {
    let mut text = Vec::new();
    for bits in operations {
        text.extend_from_slice(LINE_START);
        text.extend(bits.iter().map(|&bit| bit_byte(bit)));
        text.push(b'\n');
    }
    text
}
