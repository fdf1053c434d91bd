//! Texts at the limits of length and count, and just beyond.

use super::draft::{Draft, Entry};
use super::large::{chain, full};
use super::random::Random;
use crate::limits::{
    MAX_NETWORK_BITS, MAX_NETWORK_BYTES, MAX_NODES, MAX_OPERATIONS, MAX_PLAN_BYTES,
};

/// A network text at a limit, or one beyond it.
pub fn draw_edge_network(random: &mut Random) -> Vec<u8> {
    let beyond = random.below(2);
    match random.below(7) {
        0 => long_network(MAX_NETWORK_BYTES + beyond),
        1 => vec![b'\n'; MAX_NETWORK_BYTES + beyond],
        2 => chain(MAX_NODES + beyond, MAX_NODES + beyond).text(),
        3 => chain(MAX_NODES, MAX_NETWORK_BITS + beyond).text(),
        4 => held_chain(random).text(),
        _ => full().text(),
    }
}

/// A text of this length whose last line has too many bits, so that it is refused with 6 if it is
/// not too long.
pub fn long_network(length: usize) -> Vec<u8> {
    let mut text = b"seg\t0\t1\ts\nout\t1\nhold\t1\t".to_vec();
    text.resize(length - 1, b'0');
    text.push(b'\n');
    text
}

/// 128 segments and 4,000 bits, with a `hold` line for each segment and four targets: about as
/// long as an accepted text can be.
pub fn held_chain(random: &mut Random) -> Draft {
    let mut draft = chain(MAX_NODES, MAX_NETWORK_BITS);
    for segment in 1..=4 {
        let bits = random.letters(&['0', '1'], draft.len(segment));
        draft.entries.push(Entry::Write { segment, bits });
    }
    draft.draw_holds(random, 100);
    draft
}

/// A plan text at a limit, or one beyond it.
pub fn draw_edge_plan(random: &mut Random) -> Vec<u8> {
    let beyond = random.below(2);
    match random.below(4) {
        0 => plan_line(MAX_PLAN_BYTES - 5 + beyond),
        1 => plan_line(0).repeat(MAX_OPERATIONS + beyond),
        2 => {
            [plan_line(MAX_NETWORK_BITS).repeat(15), plan_line(MAX_NETWORK_BITS + beyond)].concat()
        }
        _ => plan_line(MAX_NETWORK_BITS).repeat(MAX_OPERATIONS),
    }
}

/// A plan line of so many bits, all 0.
pub fn plan_line(bits: usize) -> Vec<u8> {
    [b"csu\t", "0".repeat(bits).as_bytes(), b"\n"].concat()
}
