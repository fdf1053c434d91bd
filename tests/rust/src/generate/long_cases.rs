//! Cases whose networks have registers up to the greatest LEN. They have random numbers of their own, so
//! those of `cases` stay what they are.

use super::base::{base, reset_base};
use super::cases::{case_of, put_faults, scramble, Case};
use super::damage::Damaged;
use super::draft::Draft;
use super::faults::{all_faults, draw_faults, Fault};
use super::lengths::draw_len;
use super::long_registers::{
    add_bit, branches, longest_choices, longest_row, misfit, registers, stretch,
};
use super::maze::maze;
use super::random::Random;
use super::reset_cases::give_resets;
use super::sib::{sib_chain, sib_tree, Size};
use super::tiny::tiny;
use super::unknown::make_unknown;
use crate::limits::{EARLIER_SEGMENT_BITS, MAX_SEGMENT_BITS};

/// Where the random numbers of a seed differ from those of `cases::case`.
const STREAM: u64 = 0x4c4f_4e47_0000_0000;

/// The faults that have to do with the length of a register or with its upper bits.
pub const LONG_FAULTS: [Fault; 13] = [
    Fault::LenBound,
    Fault::LenBoundReset,
    Fault::Bit4001,
    Fault::Bit4001Reset,
    Fault::AddressBeyond,
    Fault::EntryLength,
    Fault::StartUnknown,
    Fault::StartBeyond,
    Fault::StartResetUnknown,
    Fault::StartResetBeyond,
    Fault::ResetShort,
    Fault::ResetLong,
    Fault::ResetBit4001,
];

/// The random numbers of a seed.
pub fn long_random(seed: u64) -> Random {
    Random::new(seed ^ STREAM)
}

/// The case of a seed.
pub fn long_case(seed: u64) -> Case {
    let random = &mut long_random(seed);
    let network = draw_long_text(random);
    case_of(random, network)
}

/// A network text, about half of them with something that does not fit.
pub fn draw_long_text(random: &mut Random) -> Vec<u8> {
    match random.below(64) {
        0..=31 => draw_long_network(random).text(),
        32..=45 => draw_misfit(random).text(),
        46 => draw_edge_long(random).text(),
        47..=53 => draw_long_damaged(random, 1).text(),
        54..=60 => draw_long_damaged(random, 2).text(),
        _ => {
            let text = draw_long_network(random).text();
            scramble(random, text)
        }
    }
}

/// A network of good form; it may still be refused with 9.
pub fn draw_long_network(random: &mut Random) -> Draft {
    let most = draw_most(random);
    draw_network_up_to(random, most)
}

/// The greatest LEN or, now and then, the one before Change 4.
fn draw_most(random: &mut Random) -> usize {
    if random.percent(85) {
        MAX_SEGMENT_BITS
    } else {
        EARLIER_SEGMENT_BITS
    }
}

fn draw_network_up_to(random: &mut Random, most: usize) -> Draft {
    match random.below(10) {
        0 | 1 => registers(random, most),
        2..=6 => branches(random, most),
        _ => draw_stretched(random, most),
    }
}

/// A small network of any kind, lengthened.
fn draw_stretched(random: &mut Random, most: usize) -> Draft {
    let (sibs, len) = (random.between(1, 7), draw_len(random, most));
    let size = Size { depth: 3, sibs, len };
    let mut draft = match random.below(6) {
        0 | 1 => tiny(random, 7),
        2 => sib_chain(random, size),
        3 => sib_tree(random, size),
        _ => {
            let depth = random.between(1, 3);
            maze(random, depth, 3)
        }
    };
    if random.percent(30) {
        make_unknown(random, &mut draft);
    }
    if random.bit() {
        give_resets(random, &mut draft);
    }
    stretch(random, &mut draft, most);
    draft
}

/// A network with one or two things about long registers that do not fit.
fn draw_misfit(random: &mut Random) -> Draft {
    let most = draw_most(random);
    let mut draft = draw_network_up_to(random, most);
    for _ in 0..*random.pick(&[1, 1, 2]) {
        misfit(random, &mut draft, most);
    }
    draft
}

/// A network of 4,000 bits, or of one more.
fn draw_edge_long(random: &mut Random) -> Draft {
    let mut draft = match random.bit() {
        true => longest_row(random),
        false => longest_choices(random),
    };
    draft.draw_targets(random, 10);
    draft.draw_holds(random, 10);
    draft.draw_resets(random, 10);
    if random.percent(40) {
        add_bit(random, &mut draft);
    }
    draft
}

/// A sound network of long segments with so many faults of different numbers in it.
pub fn draw_long_damaged(random: &mut Random, count: usize) -> Damaged {
    let faults = draw_long_faults(random, count);
    long_damaged_with(random, &faults).0
}

/// So many faults of different numbers, the first one most often at a long register.
pub fn draw_long_faults(random: &mut Random, count: usize) -> Vec<Fault> {
    let all = all_faults();
    let first: &[Fault] = if random.percent(60) { &LONG_FAULTS } else { &all };
    draw_faults(random, first, &all, count)
}

/// A sound network of segments of 63 and 64 bits with these faults, and how many of them could be put in.
pub fn long_damaged_with(random: &mut Random, faults: &[Fault]) -> (Damaged, usize) {
    let base = if random.bit() { base(random, true) } else { reset_base(random, true) };
    put_faults(random, &base, faults)
}
