//! A card: registers and SIBs in a row, with unknown start bits in many places.

use super::draft::Draft;
use super::lengths::draw_len;
use super::random::Random;
use super::sib::sib;
use super::unknown::make_unknown;
use crate::limits::{EARLIER_SEGMENT_BITS, MAX_NETWORK_BITS, MAX_NODES, MAX_SEGMENT_BITS};

/// A card without nodes, or one whose highest node number has one, two or three digits.
pub fn card(random: &mut Random) -> Draft {
    let nodes = match random.below(3) {
        0 => random.between(0, 9),
        1 => random.between(10, 99),
        _ => random.between(100, MAX_NODES + 4).min(MAX_NODES),
    };
    let mut sibs_left = *random.pick(&[0, 1, 3, 6, 6, 12]);
    let mut draft = Draft::default();
    while draft.nodes.len() < nodes {
        let from = draft.out;
        let inner = random.between(1, 3);
        let fits = sibs_left > 0 && draft.nodes.len() + inner + 2 <= nodes;
        draft.out = if fits && random.percent(60) {
            sibs_left -= 1;
            sib(random, &mut draft, from, |random, draft, from| {
                (0..inner).fold(from, |from, _| register(random, draft, from, nodes))
            })
        } else {
            register(random, &mut draft, from, nodes)
        };
    }
    let [targets, holds, resets] =
        [[0, 5, 30], [0, 30, 100], [0, 30, 100]].map(|percents| *random.pick(&percents));
    draft.draw_targets(random, targets);
    draft.draw_holds(random, holds);
    draft.draw_resets(random, resets);
    if random.percent(30) {
        make_unknown(random, &mut draft);
    }
    draft
}

/// A segment of 1 bit, of 32, of 64 or of any number, of either kind. A bit is left for each node to
/// come.
fn register(random: &mut Random, draft: &mut Draft, from: usize, nodes: usize) -> usize {
    let any = draw_len(random, MAX_SEGMENT_BITS);
    let len = *random.pick(&[1, any, EARLIER_SEGMENT_BITS, MAX_SEGMENT_BITS]);
    let to_come = nodes - draft.nodes.len() - 1;
    let room = MAX_NETWORK_BITS - draft.bits() - to_come;
    draft.segment(from, len.min(room), random.bit())
}
