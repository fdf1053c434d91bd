//! The form of one network line: its word, its count of fields and the form of each field.

use crate::network::{Bit, Node, Target};
use crate::text::{decimal, fields, known_bit};

/// A network line of good form. Nothing is checked against other lines.
#[derive(Clone, Debug, PartialEq, Eq)]
pub enum NetworkLine {
    Node(Node),
    Out {
        node: usize,
    },
    /// The bits stand bit 0 first.
    Hold {
        segment: usize,
        bits: Vec<Bit>,
    },
    Target(Target),
}

/// The line as parsed, or `None` if its "word, field count or field form" is wrong. `csu` stands
/// "in plans only", so here it is a wrong word.
pub fn parse_line(line: &[u8]) -> Option<NetworkLine> {
    match fields(line).as_slice() {
        [b"seg", from, len, kind] => parse_segment(from, len, kind, None),
        [b"seg", from, len, kind, reset] => {
            parse_segment(from, len, kind, Some(parse_bits(reset, start_bit)?))
        }
        [b"mux", seg, bit, inputs @ ..] => parse_multiplexer(seg, bit, inputs),
        [b"out", node] => Some(NetworkLine::Out { node: decimal(node)? }),
        [b"hold", segment, bits] => Some(NetworkLine::Hold {
            segment: decimal(segment)?,
            bits: parse_bits(bits, start_bit)?,
        }),
        [b"write", segment, bits] => {
            let (segment, bits) = (decimal(segment)?, parse_bits(bits, known_bit)?);
            Some(NetworkLine::Target(Target::Write { segment, bits }))
        }
        [b"read", segment] => {
            Some(NetworkLine::Target(Target::Read { segment: decimal(segment)? }))
        }
        _ => None,
    }
}

/// "`seg FROM LEN KIND`" with KIND "`s` (with shadow register) or `p` (plain)".
fn parse_segment(
    from: &[u8],
    len: &[u8],
    kind: &[u8],
    reset: Option<Vec<Bit>>,
) -> Option<NetworkLine> {
    let shadow = match kind {
        b"s" => true,
        b"p" => false,
        _ => return None,
    };
    let (from, len) = (decimal(from)?, decimal(len)?);
    Some(NetworkLine::Node(Node::Segment { from, len, shadow, reset }))
}

/// "`mux SEG BIT A B [C [D]]`: 2 to 4 inputs".
fn parse_multiplexer(seg: &[u8], bit: &[u8], inputs: &[&[u8]]) -> Option<NetworkLine> {
    if !(2..=4).contains(&inputs.len()) {
        return None;
    }
    let inputs = inputs.iter().map(|input| decimal(input)).collect::<Option<Vec<_>>>()?;
    Some(NetworkLine::Node(Node::Multiplexer { seg: decimal(seg)?, bit: decimal(bit)?, inputs }))
}

/// "BITS starts with the highest bit", and so does RESET, so the order is turned; "No field is
/// empty".
fn parse_bits<T>(field: &[u8], bit: impl Fn(u8) -> Option<T>) -> Option<Vec<T>> {
    if field.is_empty() {
        return None;
    }
    field.iter().rev().map(|&byte| bit(byte)).collect()
}

/// "start bits, each `0`, `1` or `X` (unknown)"
fn start_bit(byte: u8) -> Option<Bit> {
    match byte {
        b'X' => Some(None),
        _ => known_bit(byte).map(Some),
    }
}
