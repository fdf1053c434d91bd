//! Plan texts of wrong form, and the place of refusal 14.

use super::random::Random;
use crate::limits::{MAX_OPERATIONS, MAX_PLAN_BYTES};
use crate::refusal::{Refusal, PLAN_FORM};

#[derive(Clone, Copy, Debug, PartialEq, Eq)]
pub enum PlanFault {
    Word,
    NoTab,
    WrongBit,
    SecondField,
    BehindBits,
    BlankLine,
    Unended,
    Line17,
    TextTooLong,
}

use PlanFault::*;

pub const PLAN_FAULTS: [PlanFault; 9] =
    [Word, NoTab, WrongBit, SecondField, BehindBits, BlankLine, Unended, Line17, TextTooLong];

/// A plan text with this fault, and the refusal it gets. `plan` is of good form.
pub fn damage_plan(random: &mut Random, plan: &[u8], fault: PlanFault) -> (Vec<u8>, Refusal) {
    let mut lines: Vec<Vec<u8>> =
        plan.split_inclusive(|&byte| byte == b'\n').map(<[u8]>::to_vec).collect();
    let at = random.below(lines.len() + 1).min(MAX_OPERATIONS - 1);
    let mut place = at + 1;
    match fault {
        TextTooLong => {
            let length = MAX_PLAN_BYTES + random.between(1, 9);
            lines.push(vec![b'#'; length - plan.len()]);
            place = 0;
        }
        Line17 => {
            lines.resize(MAX_OPERATIONS, b"csu\t\n".to_vec());
            lines.push(random.pick(&[&b"csu\t0\n"[..], b"\n", b"?", b"csu\t"]).to_vec());
            place = MAX_OPERATIONS + 1;
        }
        Unended => {
            lines.truncate(at);
            lines.push(random.pick(&[&b"csu\t0"[..], b"csu\t", b"csu", b"c", b"\t"]).to_vec());
        }
        _ => lines.insert(at, wrong_line(random, fault)),
    }
    (lines.concat(), Refusal::new(PLAN_FORM, place))
}

/// A line of wrong form, ended.
fn wrong_line(random: &mut Random, fault: PlanFault) -> Vec<u8> {
    let choices: &[&[u8]] = match fault {
        Word => &[b"cs\t0\n", b"CSU\t0\n", b" csu\t0\n", b"clk\t0\n", b"out\t0\n", b"\t0\n"],
        NoTab => &[b"csu\n", b"csu0\n", b"csu 0\n"],
        WrongBit => &[b"csu\t0X\n", b"csu\t2\n", b"csu\t0 1\n", b"csu\t0\x001\n", b"csu\t-\n"],
        SecondField => &[b"csu\t0\t1\n", b"csu\t\t\n", b"csu\t\t1\n", b"csu\t1\t\n"],
        BehindBits => &[b"csu\t01\r\n", b"csu\t01 \n", b"csu\t\r\n"],
        _ => &[b"\n"],
    };
    random.pick(choices).to_vec()
}
