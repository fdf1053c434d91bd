//! Tiny networks, rich in multiplexers, wired at random.

use super::draft::Draft;
use super::random::Random;
use crate::network::Node;

/// A tiny network of at most `bits` segment bits and 12 nodes.
pub fn tiny(random: &mut Random, bits: usize) -> Draft {
    let mut draft = Draft::default();
    let mut bits_left = bits;
    for _ in 0..random.between(1, 12) {
        if bits_left > 0 && (draft.nodes.is_empty() || random.percent(50)) {
            let len = *random.pick(&[1, 1, 1, 2, 2, 3]).min(&bits_left);
            bits_left -= len;
            let from = earlier(random, draft.nodes.len());
            draft.segment(from, len, random.percent(80));
        } else {
            let count = *random.pick(&[2, 2, 2, 3, 4]);
            let inputs = (0..count).map(|_| earlier(random, draft.nodes.len())).collect();
            draft.multiplexer(0, 0, inputs);
        }
    }
    give_addresses(random, &mut draft);
    let last = draft.nodes.len();
    draft.out = if random.percent(80) { last } else { random.below(last + 1) };
    let target_percent = *random.pick(&[20, 50, 90]);
    draft.draw_targets(random, target_percent);
    draft.draw_holds(random, 15);
    draft
}

/// A number from 0 to `highest`, most often one of the last two.
fn earlier(random: &mut Random, highest: usize) -> usize {
    match random.below(10) {
        0..=4 => highest,
        5 | 6 => highest.saturating_sub(1),
        _ => random.below(highest + 1),
    }
}

/// Gives each multiplexer an address in a segment with shadow, earlier or later, often one that
/// another multiplexer has too.
fn give_addresses(random: &mut Random, draft: &mut Draft) {
    if let Node::Segment { shadow, .. } = &mut draft.nodes[0] {
        *shadow = true;
    }
    let mut used: Vec<(usize, usize)> = Vec::new();
    for index in 0..draft.nodes.len() {
        if let Node::Multiplexer { inputs, .. } = &draft.nodes[index] {
            let mut inputs = inputs.clone();
            let choices = addresses(draft, inputs.len());
            let shared: Vec<_> = choices.iter().filter(|choice| used.contains(choice)).collect();
            let address = if !shared.is_empty() && random.percent(45) {
                **random.pick(&shared)
            } else if !choices.is_empty() {
                *random.pick(&choices)
            } else {
                inputs.truncate(2);
                *random.pick(&addresses(draft, 2))
            };
            used.push(address);
            draft.nodes[index] = Node::Multiplexer { seg: address.0, bit: address.1, inputs };
        }
    }
}

/// Every good pair of SEG and BIT for a multiplexer with so many inputs.
fn addresses(draft: &Draft, inputs: usize) -> Vec<(usize, usize)> {
    let last_bit = usize::from(inputs > 2);
    let mut choices = Vec::new();
    for (index, node) in draft.nodes.iter().enumerate() {
        if let Node::Segment { len, shadow: true, .. } = node {
            choices.extend((0..len.saturating_sub(last_bit)).map(|bit| (index + 1, bit)));
        }
    }
    choices
}
