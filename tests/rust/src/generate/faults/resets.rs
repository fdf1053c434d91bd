//! 18, and the other numbers on lines with a RESET field.

use super::nodes::{draw_bad_len, fill_bits, fill_nodes};
use super::Fault;
use crate::generate::base::Base;
use crate::generate::damage::{Damaged, DamagedLine};
use crate::generate::random::Random;
use crate::limits::MAX_SEGMENT_BITS;

const LETTERS: [char; 3] = ['0', '1', 'X'];

pub fn put_reset(
    fault: Fault,
    random: &mut Random,
    base: &Base,
    damaged: &mut Damaged,
) -> Option<()> {
    match fault {
        Fault::StartResetUnknown | Fault::StartResetBeyond => {
            put_start(fault, random, base, damaged)
        }
        Fault::ResetNode129 | Fault::Node129Reset => {
            fill_nodes(damaged);
            put_new_line(fault, random, damaged)
        }
        Fault::ResetBit4001 | Fault::Bit4001Reset => {
            fill_bits(damaged);
            put_new_line(fault, random, damaged)
        }
        Fault::ResetNewLine | Fault::ResetAfterOut => put_new_line(fault, random, damaged),
        _ => {
            let index = damaged.draw_line(random, &["seg"])?;
            spoil(fault, random, index, &mut damaged.lines[index])
        }
    }
}

/// Another segment before `out`, or behind it, with a RESET that is good in two of the faults.
fn put_new_line(fault: Fault, random: &mut Random, damaged: &mut Damaged) -> Option<()> {
    let good = [Fault::Node129Reset, Fault::Bit4001Reset].contains(&fault);
    let length = if good { 1 } else { random.between(2, MAX_SEGMENT_BITS + 8) };
    let bits = random.letters(&LETTERS, length);
    let out = damaged.out_index();
    let index = match fault {
        Fault::ResetAfterOut => random.between(out + 1, damaged.lines.len()),
        _ => out,
    };
    damaged.insert(index, format!("seg\t0\t1\tp\t{bits}"), Some(fault.number()));
    Some(())
}

/// Spoils the line of segment `index` + 1.
fn spoil(fault: Fault, random: &mut Random, index: usize, line: &mut DamagedLine) -> Option<()> {
    let len: usize = line.fields()[2].parse().expect("a sound line");
    let good = random.letters(&LETTERS, len);
    let shorter = &good[1..];
    let more = *random.pick(&[1, 1, 2, 33, 65, 500]);
    let longer = good.clone() + &random.letters(&LETTERS, more);
    let reset = match fault {
        Fault::ResetShort => (!shorter.is_empty()).then(|| shorter.to_string())?,
        Fault::ResetLong => longer,
        Fault::ResetLetter => {
            let wrong = *random.pick(&["x", "2", " ", "-", "\r", "\u{0}"]);
            let beside = *random.pick(&[shorter, &good, &longer]);
            if random.bit() {
                format!("{wrong}{beside}")
            } else {
                format!("{beside}{wrong}")
            }
        }
        Fault::ResetEmpty => String::new(),
        Fault::SixFields => format!("{good}\t{}", random.pick(&["", "0", "X", &good])),
        Fault::FromBoundReset => {
            let from = *random.pick(&[index + 1, index + 2, 9999]);
            line.replace_field(1, from.to_string());
            longer
        }
        _ => {
            let bad = draw_bad_len(random);
            line.replace_field(2, bad.to_string());
            random.pick(&[good, longer, "0".repeat(bad.clamp(1, 2 * MAX_SEGMENT_BITS))]).clone()
        }
    };
    line.set_reset(&reset);
    line.fault = Some(fault.number());
    Some(())
}

/// "start not valid; first multiplexer met": a RESET of a segment that steers, without a `hold`.
fn put_start(fault: Fault, random: &mut Random, base: &Base, damaged: &mut Damaged) -> Option<()> {
    let three_way = fault == Fault::StartResetBeyond || random.bit();
    let (multiplexer, segment, bit) = base.address(three_way);
    let address = match (fault, three_way) {
        (Fault::StartResetBeyond, _) => "11",
        (_, true) => *random.pick(&["XX", "0X", "X0", "1X", "X1"]),
        (_, false) => "X",
    };
    let bits = base.draft.start_with(random, segment, bit, address);
    let line = damaged.lines.get_mut(segment - 1).filter(|line| line.is_sound())?;
    line.set_reset(&bits);
    damaged.bad_start = Some(multiplexer);
    Some(())
}
