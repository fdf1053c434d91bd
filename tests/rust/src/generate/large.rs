//! Networks near the limits.

use super::draft::{Draft, Entry};
use super::lengths::draw_len;
use super::random::Random;
use crate::limits::{EARLIER_SEGMENT_BITS, MAX_NETWORK_BITS, MAX_NODES, MAX_SEGMENT_BITS};

/// 125 segments of 32 bits in a row, all on the path, with 3 multiplexers between them: 128
/// nodes, 4,000 bits, 6 steering bits and 4 targets. Each operation may have 4,000 bits.
pub fn full() -> Draft {
    let mut draft = Draft::default();
    let mut from = 0;
    for index in 0..125 {
        let before = from;
        from = draft.segment(before, EARLIER_SEGMENT_BITS, index % 2 == 0);
        if index % 40 == 20 {
            let bit = index / 20;
            from = draft.multiplexer(1, bit, vec![from, before, from, from]);
        }
    }
    draft.out = from;
    let ones = "1".repeat(EARLIER_SEGMENT_BITS);
    draft.entries = vec![
        Entry::Read { segment: 2 },
        Entry::Write { segment: 2, bits: ones.clone() },
        Entry::Write { segment: 10, bits: ones },
        Entry::Read { segment: draft.nodes.len() },
    ];
    draft
}

/// A chain of this many segments with this many bits in all, as even as can be.
pub fn chain(segments: usize, bits: usize) -> Draft {
    let mut draft = Draft::default();
    for index in 0..segments {
        let len = bits / segments + usize::from(index < bits % segments);
        draft.out = draft.segment(draft.out, len, true);
    }
    draft
}

/// A network with this many distinct steering bits, all on the path, and one target behind them.
pub fn steered(bits: usize) -> Draft {
    let mut draft = Draft::default();
    let register = draft.segment(0, bits.max(1), true);
    let instrument = draft.segment(register, 3, true);
    draft.out = register;
    for bit in 0..bits {
        draft.out = draft.multiplexer(register, bit, vec![draft.out, instrument]);
    }
    draft.entries.push(Entry::Read { segment: instrument });
    draft
}

/// A network of up to 128 nodes and 4,000 bits, wired at random and steered by few bits.
pub fn large(random: &mut Random) -> Draft {
    let mut draft = Draft::default();
    let nodes = *random.pick(&[60, 100, MAX_NODES]);
    let steering = draw_steering(random, &mut draft);
    while draft.nodes.len() < nodes {
        let last = draft.nodes.len();
        let bits_left = MAX_NETWORK_BITS - draft.bits();
        if random.percent(60) && bits_left > 0 {
            let len = draw_len(random, bits_left.min(MAX_SEGMENT_BITS));
            let from = if random.percent(95) { last } else { near(random, last) };
            draft.segment(from, len, random.percent(60));
        } else {
            let count = *random.pick(&[2, 2, 3, 4]);
            let mut inputs: Vec<usize> = (0..count).map(|_| near(random, last)).collect();
            inputs[random.below(count)] = last;
            let (seg, low) = *random.pick(&steering);
            let bit = if count == 2 { low + random.below(2) } else { low };
            draft.multiplexer(seg, bit, inputs);
        }
    }
    draft.out = nodes;
    draft.draw_targets(random, 10);
    draft.draw_holds(random, 30);
    draft
}

/// Up to 4 steering segments in a row; gives each one with the lower of the two bits that multiplexers
/// may take.
fn draw_steering(random: &mut Random, draft: &mut Draft) -> Vec<(usize, usize)> {
    let mut steering = Vec::new();
    let mut from = 0;
    for _ in 0..*random.pick(&[1, 2, 2, 3, 3, 3, 4]) {
        let len = draw_len(random, MAX_SEGMENT_BITS).max(2);
        let any = random.below(len - 1);
        from = draft.segment(from, len, true);
        steering.push((from, *random.pick(&[0, any, len - 2])));
    }
    steering
}

/// A number from 0 to `last`, most often close to `last`.
fn near(random: &mut Random, last: usize) -> usize {
    match random.below(100) {
        0 => random.below(last + 1),
        _ => last - random.below(last.min(8) + 1),
    }
}
