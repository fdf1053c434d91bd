//! 2, 3, 4 and 5: bounds, size, order of words, and addresses.

use super::Fault;
use crate::generate::base::Base;
use crate::generate::damage::{Damaged, DamagedLine};
use crate::generate::draft::entry_line;
use crate::generate::random::Random;
use crate::limits::{MAX_NETWORK_BITS, MAX_NODES, MAX_SEGMENT_BITS};
use crate::refusal::{BOUNDS, ORDER, SIZE};

/// "FROM, input, LEN or N outside its bounds"
pub fn put_bounds(fault: Fault, random: &mut Random, damaged: &mut Damaged) -> Option<()> {
    let word = match fault {
        Fault::FromBound | Fault::LenBound => "seg",
        Fault::InputBound => "mux",
        _ => "out",
    };
    let index = damaged.draw_line(random, &[word])?;
    let line = &mut damaged.lines[index];
    let field = match fault {
        Fault::LenBound => 2,
        Fault::InputBound => random.between(3, line.fields().len() - 1),
        _ => 1,
    };
    // The index of a node line is its number less one, that of `out` is the count of nodes.
    let value = match fault {
        Fault::LenBound => draw_bad_len(random),
        _ => *random.pick(&[index + 1, index + 2, 9999]),
    };
    line.replace_field(field, value.to_string());
    line.fault = Some(BOUNDS);
    Some(())
}

/// A LEN outside its bounds, often the least above them.
pub fn draw_bad_len(random: &mut Random) -> usize {
    let above = MAX_SEGMENT_BITS + 1;
    let far = random.between(above, 9999);
    *random.pick(&[0, above, above, above + 1, 2 * MAX_SEGMENT_BITS, far, 9999])
}

/// "node 129, or over 4,000 bits; place 0: text too long"
pub fn put_size(fault: Fault, random: &mut Random, damaged: &mut Damaged) -> Option<()> {
    match fault {
        Fault::TextTooLong => damaged.padding = *random.pick(&[1, 2, 1000]),
        Fault::Node129 => {
            fill_nodes(damaged);
            let node = *random.pick(&["seg\t0\t1\ts", "mux\t1\t0\t0\t0", "mux\t0\t9999\t1\t2\t3"]);
            damaged.insert(damaged.out_index(), node, Some(SIZE));
        }
        _ => {
            fill_bits(damaged);
            damaged.insert(damaged.out_index(), "seg\t1\t1\tp", Some(SIZE));
        }
    }
    Some(())
}

/// Adds segments of one bit up to 128 nodes.
pub fn fill_nodes(damaged: &mut Damaged) {
    while damaged.out_index() < MAX_NODES {
        damaged.insert(damaged.out_index(), "seg\t0\t1\tp", None);
    }
}

/// Adds segments up to 4,000 bits, each one as long as it may be.
pub fn fill_bits(damaged: &mut Damaged) {
    let len = |line: &DamagedLine| match line.fields()[..] {
        ["seg", _, len, ..] => len.parse().expect("a sound LEN"),
        _ => 0,
    };
    let bits: usize = damaged.lines.iter().map(len).sum();
    let mut left = MAX_NETWORK_BITS.saturating_sub(bits);
    while left > 0 {
        let len = left.min(MAX_SEGMENT_BITS);
        damaged.insert(damaged.out_index(), format!("seg\t0\t{len}\ts"), None);
        left -= len;
    }
}

/// "word out of order; no `out` (last line number + 1)"
pub fn put_order(
    fault: Fault,
    random: &mut Random,
    base: &Base,
    damaged: &mut Damaged,
) -> Option<()> {
    let out = damaged.out_index();
    let end = damaged.lines.len();
    match fault {
        Fault::EntryBeforeOut => {
            let entry = entry_line(random.pick(&base.draft.entries));
            damaged.insert(random.below(out + 1), entry, Some(ORDER));
        }
        Fault::NodeAfterOut => {
            let node = *random.pick(&["seg\t0\t1\ts", "seg\t9999\t65\ts", "mux\t0\t99\t0\t9999"]);
            damaged.insert(random.between(out + 1, end), node, Some(ORDER));
        }
        Fault::SecondOut => {
            let second = *random.pick(&["out\t0", "out\t9999"]);
            damaged.insert(random.between(out + 1, end), second, Some(ORDER));
        }
        _ => damaged.lines.truncate(out),
    }
    Some(())
}

/// "SEG not a segment with shadow, or an address bit beyond it"
pub fn put_address(
    fault: Fault,
    random: &mut Random,
    base: &Base,
    damaged: &mut Damaged,
) -> Option<()> {
    let index = damaged.draw_line(random, &["mux"])?;
    let line = &mut damaged.lines[index];
    match fault {
        Fault::AddressNoSegment => {
            let number = *random.pick(&[0, base.two_way, base.three_way, 9999]);
            line.replace_field(1, number.to_string());
        }
        Fault::AddressPlain => line.replace_field(1, base.instruments[1].to_string()),
        _ => {
            let (segment, width) = match line.fields().len() {
                5 => (base.two_way_segment, 1),
                _ => (base.three_way_segment, 2),
            };
            let first_beyond = base.draft.len(segment) + 1 - width;
            let far = first_beyond + MAX_SEGMENT_BITS;
            let bit = *random.pick(&[first_beyond, first_beyond + 1, far, 9999]);
            line.replace_field(2, bit.to_string());
        }
    }
    line.bad_address = true;
    Some(())
}
