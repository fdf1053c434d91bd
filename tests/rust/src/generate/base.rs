//! A sound network that every fault can be put into.

use super::draft::{Draft, Entry};
use super::lengths::draw_address;
use super::random::Random;
use crate::limits::MAX_SEGMENT_BITS;

/// The network and the nodes that the faults need.
pub struct Base {
    pub draft: Draft,
    /// Three segments that steer nothing; the second is plain.
    pub instruments: [usize; 3],
    /// The multiplexer with two inputs, the segment that steers it and the address bit.
    pub two_way: usize,
    pub two_way_segment: usize,
    two_way_bit: usize,
    /// The multiplexer with three inputs, which the walk meets first, its segment and the lower
    /// address bit.
    pub three_way: usize,
    pub three_way_segment: usize,
    three_way_bit: usize,
}

impl Base {
    /// The multiplexer with three inputs or that with two, its segment and its BIT.
    pub fn address(&self, three_way: bool) -> (usize, usize, usize) {
        match three_way {
            true => (self.three_way, self.three_way_segment, self.three_way_bit),
            false => (self.two_way, self.two_way_segment, self.two_way_bit),
        }
    }
}

/// Draws a sound network. If `wide`, every segment has 63 or 64 bits, and any of them may be an address.
pub fn base(random: &mut Random, wide: bool) -> Base {
    let mut draft = Draft::default();
    let lead = add_chain(random, &mut draft, 0, wide);
    let instruments = [true, false, true].map(|shadow| {
        let len = draw_len(random, wide, 1, 8);
        draft.segment(lead, len, shadow)
    });
    let number = draft.nodes.len();
    let (two_way, three_way) = (number + 1, number + 2);
    let (two_way_segment, three_way_segment) = (number + 3, number + 4);
    let [(two_way_len, two_way_bit), (three_way_len, three_way_bit)] = [1, 2].map(|width| {
        let len = draw_len(random, wide, width, width + 3);
        (len, if wide { draw_address(random, len - width) } else { 0 })
    });
    draft.multiplexer(two_way_segment, two_way_bit, vec![instruments[0], instruments[1]]);
    draft.multiplexer(three_way_segment, three_way_bit, vec![two_way, instruments[2], lead]);
    draft.segment(three_way, two_way_len, true);
    draft.segment(two_way_segment, three_way_len, true);
    draft.out = add_chain(random, &mut draft, three_way_segment, wide);
    add_entries(random, &mut draft, &instruments);
    Base {
        draft,
        instruments,
        two_way,
        two_way_segment,
        two_way_bit,
        three_way,
        three_way_segment,
        three_way_bit,
    }
}

/// Draws a sound network with RESET fields. The walk still meets both multiplexers.
pub fn reset_base(random: &mut Random, wide: bool) -> Base {
    let mut base = base(random, wide);
    for (three_way, addresses) in [(false, ["0", "1"]), (true, ["00"; 2])] {
        let address = *random.pick(&addresses);
        let (_, segment, bit) = base.address(three_way);
        let bits = base.draft.start_with(random, segment, bit, address);
        base.draft.set_reset(segment, &bits);
    }
    base.draft.draw_resets(random, 50);
    base
}

fn draw_len(random: &mut Random, wide: bool, low: usize, high: usize) -> usize {
    if wide {
        *random.pick(&[MAX_SEGMENT_BITS - 1, MAX_SEGMENT_BITS])
    } else {
        random.between(low, high)
    }
}

/// Adds up to three segments in a row and gives the last.
fn add_chain(random: &mut Random, draft: &mut Draft, from: usize, wide: bool) -> usize {
    let mut last = from;
    for _ in 0..random.below(4) {
        let len = draw_len(random, wide, 1, 8);
        last = draft.segment(last, len, random.bit());
    }
    last
}

/// A `hold` of the first instrument, perhaps one of the second, and up to three targets.
fn add_entries(random: &mut Random, draft: &mut Draft, instruments: &[usize; 3]) {
    for &segment in &instruments[..random.between(1, 2)] {
        let bits = random.letters(&['0', '1', 'X'], draft.len(segment));
        draft.entries.push(Entry::Hold { segment, bits });
    }
    let mut targets = instrument_targets(random, draft, instruments);
    targets.truncate(random.below(4));
    draft.entries.extend(targets);
    random.shuffle(&mut draft.entries);
}

/// The six targets that the instruments allow, in a random order.
pub fn instrument_targets(
    random: &mut Random,
    draft: &Draft,
    instruments: &[usize; 3],
) -> Vec<Entry> {
    let mut targets = Vec::new();
    for &segment in instruments {
        let bits = random.letters(&['0', '1'], draft.len(segment));
        targets.push(Entry::Write { segment, bits });
        targets.push(Entry::Read { segment });
    }
    random.shuffle(&mut targets);
    targets
}
