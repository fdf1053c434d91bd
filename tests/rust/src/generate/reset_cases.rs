//! Cases whose networks have RESET fields. They have random numbers of their own, so those of `cases`
//! stay what they are.

use super::base::reset_base;
use super::cases::{case_of, draw_network, put_faults, scramble, Case};
use super::damage::Damaged;
use super::draft::Draft;
use super::edges::held_chain;
use super::faults::{all_faults, draw_faults, Fault, RESET_FAULTS};
use super::large::chain;
use super::random::Random;
use crate::limits::{MAX_NETWORK_BITS, MAX_NETWORK_BYTES, MAX_NODES, MAX_SEGMENT_BITS};

/// Where the random numbers of a seed differ from those of `cases::case`.
const STREAM: u64 = 0x5245_5345_5400_0000;

/// The random numbers of a seed.
pub fn reset_random(seed: u64) -> Random {
    Random::new(seed ^ STREAM)
}

/// The case of a seed.
pub fn reset_case(seed: u64) -> Case {
    let random = &mut reset_random(seed);
    let network = draw_reset_text(random);
    case_of(random, network)
}

/// A network text, in one of three cases damaged.
pub fn draw_reset_text(random: &mut Random) -> Vec<u8> {
    match random.below(64) {
        0..=39 => draw_reset_network(random).text(),
        40 | 41 => draw_edge_reset(random),
        42..=51 => draw_reset_damaged(random, 1).text(),
        52..=59 => draw_reset_damaged(random, 2).text(),
        _ => {
            let text = draw_reset_network(random).text();
            scramble(random, text)
        }
    }
}

/// A network of good form; it may still be refused with 9.
pub fn draw_reset_network(random: &mut Random) -> Draft {
    let mut draft = draw_network(random);
    give_resets(random, &mut draft);
    draft
}

/// Gives a network RESET fields: some for `hold` lines, some over which a `hold` stands.
pub fn give_resets(random: &mut Random, draft: &mut Draft) {
    let (moved, given) = (*random.pick(&[0, 50, 100]), *random.pick(&[30, 60, 100]));
    draft.move_holds(random, moved);
    draft.draw_resets(random, given);
}

/// A sound network with RESET fields and so many faults of different numbers in it.
pub fn draw_reset_damaged(random: &mut Random, count: usize) -> Damaged {
    let faults = draw_reset_faults(random, count);
    reset_damaged_with(random, &faults).0
}

/// So many faults of different numbers, the first one most often at a RESET field.
pub fn draw_reset_faults(random: &mut Random, count: usize) -> Vec<Fault> {
    let all = all_faults();
    let first: &[Fault] = if random.percent(70) { &RESET_FAULTS } else { &all };
    draw_faults(random, first, &all, count)
}

/// A sound network with RESET fields and these faults, and how many of them could be put in.
pub fn reset_damaged_with(random: &mut Random, faults: &[Fault]) -> (Damaged, usize) {
    let wide = random.percent(20);
    let base = reset_base(random, wide);
    put_faults(random, &base, faults)
}

/// A network text at a limit, or one beyond it.
pub fn draw_edge_reset(random: &mut Random) -> Vec<u8> {
    let beyond = random.below(2);
    match random.below(5) {
        0 => long_reset(MAX_NETWORK_BYTES + beyond),
        1 => long_reset_chain(random, MAX_NETWORK_BYTES + beyond),
        2 => reset_chain(random, MAX_NODES + beyond, MAX_NODES + beyond).text(),
        3 => reset_chain(random, MAX_NODES, MAX_NETWORK_BITS + beyond).text(),
        _ => held_reset_chain(random).text(),
    }
}

/// A text of this length whose one line has a RESET that is not LEN long, so that it is refused with
/// 18 if it is not too long.
pub fn long_reset(length: usize) -> Vec<u8> {
    let mut text = format!("seg\t0\t{MAX_SEGMENT_BITS}\ts\t").into_bytes();
    text.resize(length - 1, b'X');
    text.push(b'\n');
    text
}

/// A chain of this many segments with this many bits in all, each with a RESET.
pub fn reset_chain(random: &mut Random, segments: usize, bits: usize) -> Draft {
    let mut draft = chain(segments, bits);
    draft.draw_resets(random, 100);
    draft
}

/// 128 segments and 4,000 bits, with a RESET and a `hold` line for each segment and four targets:
/// about as long as an accepted text can be.
pub fn held_reset_chain(random: &mut Random) -> Draft {
    let mut draft = held_chain(random);
    draft.draw_resets(random, 100);
    draft
}

/// The same network with a last line that holds segment 1 again and fills the text up to this length,
/// so that it is refused with 6 if it is not too long.
pub fn long_reset_chain(random: &mut Random, length: usize) -> Vec<u8> {
    let mut text = held_reset_chain(random).text();
    text.extend(b"hold\t1\t");
    text.resize(length - 1, b'1');
    text.push(b'\n');
    text
}
