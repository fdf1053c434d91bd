//! Cases of all kinds: a network text, a plan text and the lengths of the lent memory.

use super::base::{base, Base};
use super::damage::Damaged;
use super::draft::Draft;
use super::edges::{draw_edge_network, draw_edge_plan};
use super::faults::{all_faults, draw_faults, Fault, FAULTS};
use super::large::{chain, full, large, steered};
use super::lengths::draw_len;
use super::maze::{gray, maze};
use super::plan_damage::{damage_plan, PLAN_FAULTS};
use super::plans::{lengthened, mutated, planned, unfilled, wander};
use super::random::Random;
use super::sib::{sib_chain, sib_tree, Size};
use super::tiny::tiny;
use super::unknown::make_unknown;
use crate::limits::{
    MAX_NETWORK_BITS, MAX_NODES, MAX_OPERATIONS, MAX_PLAN_BYTES, MAX_SEGMENT_BITS, SEARCH_ENTRIES,
};
use crate::network::Network;
use crate::plan_text::write_plan;
use crate::reader::read_network;

/// One input for all four programs.
#[derive(Clone, Debug)]
pub struct Case {
    pub network: Vec<u8>,
    pub plan: Vec<u8>,
    /// Lent search entries.
    pub search: usize,
    /// Lent bytes for plan, TMS and TDI.
    pub plan_room: usize,
    pub tms_room: usize,
    pub tdi_room: usize,
}

/// The case of a seed.
pub fn case(seed: u64) -> Case {
    let random = &mut Random::new(seed);
    let network = draw_network_text(random);
    case_of(random, network)
}

/// A case with this network text.
pub fn case_of(random: &mut Random, network: Vec<u8>) -> Case {
    let plan = draw_plan_text(random, &network);
    let search =
        *random.pick(&[SEARCH_ENTRIES, SEARCH_ENTRIES, SEARCH_ENTRIES + 5, SEARCH_ENTRIES - 1, 0]);
    let mut draw_room = |needed: usize| match random.below(6) {
        0 => random.below(needed + 1),
        1 => needed,
        2 => needed + 1,
        _ => MAX_PLAN_BYTES,
    };
    let [plan_room, tms_room, tdi_room] = [(); 3].map(|_| draw_room(plan.len()));
    Case { network, plan, search, plan_room, tms_room, tdi_room }
}

/// A network text, in one of four cases damaged.
pub fn draw_network_text(random: &mut Random) -> Vec<u8> {
    match random.below(64) {
        0..=45 => draw_network(random).text(),
        46 | 47 => draw_edge_network(random),
        48..=55 => draw_damaged(random, 1).text(),
        56..=59 => draw_damaged(random, 2).text(),
        _ => {
            let text = draw_network(random).text();
            scramble(random, text)
        }
    }
}

/// A network of good form; it may still be refused with 9.
pub fn draw_network(random: &mut Random) -> Draft {
    let mut draft = draw_known_network(random);
    if random.percent(20) {
        make_unknown(random, &mut draft);
    }
    draft
}

fn draw_known_network(random: &mut Random) -> Draft {
    let drawn = draw_len(random, MAX_SEGMENT_BITS);
    let len = *random.pick(&[drawn, MAX_SEGMENT_BITS]);
    let size = Size { depth: 3, sibs: random.between(1, 7), len };
    match random.below(20) {
        0..=5 => tiny(random, 7),
        6..=8 => tiny(random, 20),
        9 | 10 => sib_chain(random, size),
        11..=13 => sib_tree(random, size),
        14..=16 => {
            let (depth, len) = (random.between(1, 4), random.between(1, 6));
            maze(random, depth, len)
        }
        17 => gray(random.between(1, 20), Some("1001"), &[len]),
        18 => large(random),
        _ => match random.below(4) {
            0 => full(),
            1 => {
                let segments = random.between(1, MAX_NODES);
                let most = (segments * MAX_SEGMENT_BITS).min(MAX_NETWORK_BITS);
                chain(segments, random.between(segments, most))
            }
            _ => steered(random.between(0, 8)),
        },
    }
}

/// A sound network with so many faults of different numbers in it.
pub fn draw_damaged(random: &mut Random, count: usize) -> Damaged {
    let faults = draw_faults(random, &FAULTS, &FAULTS, count);
    damaged_with(random, &faults).0
}

/// A sound network with these faults, and how many of them could be put in.
pub fn damaged_with(random: &mut Random, faults: &[Fault]) -> (Damaged, usize) {
    let wide = random.percent(20);
    let base = base(random, wide);
    put_faults(random, &base, faults)
}

/// The network of a base with these faults, and how many of them could be put in.
pub fn put_faults(random: &mut Random, base: &Base, faults: &[Fault]) -> (Damaged, usize) {
    let mut damaged = Damaged::new(base);
    let chosen = all_faults().into_iter().filter(|fault| faults.contains(fault));
    let put = chosen.filter_map(|fault| fault.put(random, base, &mut damaged)).count();
    (damaged, put)
}

/// A plan text for a network text, of any kind.
pub fn draw_plan_text(random: &mut Random, network_text: &[u8]) -> Vec<u8> {
    let plan = match read_network(network_text) {
        Ok(network) => write_plan(&draw_plan(random, &network)),
        Err(_) => b"csu\t0\ncsu\t\n".to_vec(),
    };
    match random.below(48) {
        0..=3 => {
            let fault = *random.pick(&PLAN_FAULTS);
            damage_plan(random, &plan, fault).0
        }
        4..=7 => scramble(random, plan),
        8 => draw_edge_plan(random),
        _ => plan,
    }
}

/// Operations for a network: the planner's, changed in some way, or random ones.
pub fn draw_plan(random: &mut Random, network: &Network) -> Vec<Vec<bool>> {
    let operations = random.below(MAX_OPERATIONS + 1);
    let Some(plan) = planned(network).filter(|_| random.percent(75)) else {
        return wander(random, network, operations, 80);
    };
    match random.below(6) {
        0 => plan,
        1 => lengthened(random, network, &plan),
        2 => unfilled(random, network, &plan),
        3 => mutated(random, &plan),
        choice => {
            let longer = lengthened(random, network, &plan);
            match choice {
                4 => mutated(random, &longer),
                _ => unfilled(random, network, &longer),
            }
        }
    }
}

/// A text with one byte changed, added or taken away.
pub fn scramble(random: &mut Random, mut text: Vec<u8>) -> Vec<u8> {
    let byte = *random.pick(b"\n\t\r0123456789Xspx \0");
    let index = random.below(text.len() + 1);
    match random.below(3) {
        0 if index < text.len() => text[index] = byte,
        1 if index < text.len() => drop(text.remove(index)),
        _ => text.insert(index, byte),
    }
    text
}
