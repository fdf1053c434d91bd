//! Networks with long registers: some have `most` bits or one less, and their upper bits are addresses.

use super::draft::{Draft, Entry};
use super::lengths::{draw_address, draw_len};
use super::random::Random;
use crate::limits::{MAX_NETWORK_BITS, MAX_SEGMENT_BITS};
use crate::network::Node;
use crate::steering::{address_width, is_steering_segment, steering_bits};
use crate::text::written;

/// Registers in a row, at least one of them long.
pub fn registers(random: &mut Random, most: usize) -> Draft {
    let mut draft = Draft::default();
    let count = *random.pick(&[1, 1, 2, 3, 5]);
    let long = random.below(count);
    for index in 0..count {
        let len = if index == long { long_len(random, most) } else { draw_len(random, most) };
        draft.out = draft.segment(draft.out, len, random.bit());
    }
    give_entries(random, &mut draft);
    draft
}

/// Registers beside one another, once or twice in a row, chosen by bits of long registers that are on
/// every path.
pub fn branches(random: &mut Random, most: usize) -> Draft {
    let mut draft = Draft::default();
    if random.bit() {
        let len = draw_len(random, most);
        draft.out = draft.segment(0, len, random.bit());
    }
    let len = long_len(random, most);
    let steering = add_choice(random, &mut draft, most, None, len);
    draft.out = draft.segment(draft.out, len, true);
    match random.below(4) {
        0 => _ = add_choice(random, &mut draft, most, Some(steering), len),
        1 => {
            let len = long_len(random, most);
            add_choice(random, &mut draft, most, None, len);
            draft.out = draft.segment(draft.out, len, true);
        }
        _ => {}
    }
    give_entries(random, &mut draft);
    draft
}

fn long_len(random: &mut Random, most: usize) -> usize {
    *random.pick(&[most - 1, most, most])
}

/// Adds a multiplexer of two to four ways on from the last node. A segment of `len` bits steers it:
/// the given one, or the one that comes next. Gives that segment.
fn add_choice(
    random: &mut Random,
    draft: &mut Draft,
    most: usize,
    steering: Option<usize>,
    len: usize,
) -> usize {
    let from = draft.out;
    let mut inputs = Vec::new();
    for _ in 0..*random.pick(&[2, 2, 3, 4]) {
        inputs.push(match random.below(4) {
            0 => from,
            _ => draft.segment(from, draw_len(random, most), random.percent(70)),
        });
    }
    let steering = steering.unwrap_or(draft.nodes.len() + 2);
    let bit = draw_address(random, len - address_width(inputs.len()));
    draft.out = draft.multiplexer(steering, bit, inputs);
    steering
}

/// Start bits of most steering segments and of some others, and targets.
fn give_entries(random: &mut Random, draft: &mut Draft) {
    for segment in draft.segments() {
        let steers = is_steering_segment(&draft.nodes, segment);
        if random.percent(if steers { 85 } else { 35 }) {
            give_start(random, draft, segment);
        }
    }
    let percent = *random.pick(&[20, 60]);
    draft.draw_targets(random, percent);
    random.shuffle(&mut draft.entries);
}

/// Start bits in a RESET, in a `hold`, or in a `hold` over a RESET of other bits.
fn give_start(random: &mut Random, draft: &mut Draft, segment: usize) {
    let bits = draw_bits(random, draft, segment);
    match random.below(5) {
        0 | 1 => draft.set_reset(segment, &bits),
        choice => {
            if choice == 2 {
                let other = draw_bits(random, draft, segment);
                draft.set_reset(segment, &other);
            }
            draft.entries.push(Entry::Hold { segment, bits });
        }
    }
}

/// Start bits, most often all known or all but one, which may be an address bit.
fn draw_bits(random: &mut Random, draft: &Draft, segment: usize) -> String {
    let mut bits = random.letters(&['0', '1'], draft.len(segment));
    match random.below(6) {
        0..=2 => bits,
        3 | 4 => {
            let mut places: Vec<usize> = (0..draft.len(segment)).collect();
            let steering = steering_bits(&draft.nodes);
            if random.bit() && is_steering_segment(&draft.nodes, segment) {
                places.retain(|&bit| steering.contains(&(segment, bit)));
            }
            let index = bits.len() - 1 - *random.pick(&places);
            bits.replace_range(index..=index, "X");
            bits
        }
        _ => draft.draw_start(random, segment),
    }
}

/// Lengthens segments, most of them up to `most` bits or one less, by bits above and below their own.
/// Addresses and start bits move with the bits, so that the paths stay what they were.
pub fn stretch(random: &mut Random, draft: &mut Draft, most: usize) {
    for segment in draft.segments() {
        let len = draft.len(segment);
        let drawn = draw_len(random, most);
        let longer = *random.pick(&[len, drawn, most - 1, most]);
        let more = longer.saturating_sub(len);
        let below = *random.pick(&[more, more, more / 2]);
        lengthen(random, draft, segment, more - below, below);
    }
}

/// Gives a segment so many bits above and below its own.
fn lengthen(random: &mut Random, draft: &mut Draft, number: usize, above: usize, below: usize) {
    let start: &[char] = if random.percent(60) { &['0', '1'] } else { &['0', '1', 'X'] };
    let mut padded = |letters: &[char], bits: &str| {
        random.letters(letters, above) + bits + &random.letters(letters, below)
    };
    if let Some(bits) = draft.reset(number).map(written) {
        draft.set_reset(number, &padded(start, &bits));
    }
    for entry in &mut draft.entries {
        match entry {
            Entry::Hold { segment, bits } if *segment == number => *bits = padded(start, bits),
            Entry::Write { segment, bits } if *segment == number => {
                *bits = padded(&['0', '1'], bits)
            }
            _ => {}
        }
    }
    for (index, node) in draft.nodes.iter_mut().enumerate() {
        match node {
            Node::Segment { len, .. } if index + 1 == number => *len += above + below,
            Node::Multiplexer { seg, bit, .. } if *seg == number => *bit += below,
            _ => {}
        }
    }
}

/// Makes one thing about a long register not fit, if there is such a register: its LEN is one above
/// `most`, or its RESET, a `hold` or a `write` is of another length, or an address goes one bit beyond it.
pub fn misfit(random: &mut Random, draft: &mut Draft, most: usize) {
    let mut long = draft.segments();
    long.retain(|&segment| draft.len(segment) + 1 >= most);
    if long.is_empty() {
        return;
    }
    let number = *random.pick(&long);
    let len = draft.len(number);
    let mut lengths = vec![most - 1, most, most + 1];
    lengths.retain(|&length| length != len);
    let length = *random.pick(&lengths);
    let bits = random.letters(&['0', '1'], length);
    match random.below(6) {
        0 => draft.set_reset(number, &bits),
        1 => replace_entry(random, draft, Entry::Hold { segment: number, bits }),
        2 => replace_entry(random, draft, Entry::Write { segment: number, bits }),
        3 | 4 if put_beyond(random, draft, &long) => {}
        _ => lengthen(random, draft, number, most + 1 - len, 0),
    }
}

/// Adds an entry in place of one with the same word and segment.
fn replace_entry(random: &mut Random, draft: &mut Draft, new: Entry) {
    draft.entries.retain(|entry| match (entry, &new) {
        (Entry::Hold { segment, .. }, Entry::Hold { segment: other, .. })
        | (Entry::Write { segment, .. }, Entry::Write { segment: other, .. }) => segment != other,
        _ => true,
    });
    draft.entries.push(new);
    random.shuffle(&mut draft.entries);
}

/// Moves an address in one of these segments to the first bit that is beyond it; false if there is none.
fn put_beyond(random: &mut Random, draft: &mut Draft, segments: &[usize]) -> bool {
    let beyond = |node: &Node| match node {
        Node::Multiplexer { seg, inputs, .. } if segments.contains(seg) => {
            Some(draft.len(*seg) + 1 - address_width(inputs.len()))
        }
        _ => None,
    };
    let nodes = draft.nodes.iter().enumerate();
    let found: Vec<_> = nodes.filter_map(|(index, node)| Some((index, beyond(node)?))).collect();
    if found.is_empty() {
        return false;
    }
    let (index, beyond) = *random.pick(&found);
    if let Node::Multiplexer { bit, .. } = &mut draft.nodes[index] {
        *bit = beyond;
    }
    true
}

/// 62 segments of 64 bits and one of 32 in a row: 4,000 bits.
pub fn longest_row(random: &mut Random) -> Draft {
    let mut draft = Draft::default();
    let count = MAX_NETWORK_BITS.div_ceil(MAX_SEGMENT_BITS);
    let short = random.between(1, count - 1);
    for index in 0..count {
        let len =
            if index == short { MAX_NETWORK_BITS % MAX_SEGMENT_BITS } else { MAX_SEGMENT_BITS };
        draft.out = draft.segment(draft.out, len, index == 0 || random.bit());
    }
    draft
}

/// The same with three multiplexers of four inputs behind it; the six highest bits of the first segment
/// are their addresses. Each leads on to the whole row, or past its last segments.
pub fn longest_choices(random: &mut Random) -> Draft {
    let mut draft = longest_row(random);
    let last = draft.out;
    for bit in [MAX_SEGMENT_BITS - 6, MAX_SEGMENT_BITS - 4, MAX_SEGMENT_BITS - 2] {
        let past = last - random.between(1, 9);
        let mut inputs = vec![draft.out, draft.out, past, draft.out];
        random.shuffle(&mut inputs);
        draft.out = draft.multiplexer(1, bit, inputs);
    }
    draft
}

/// One bit more: in the segment of 32 bits or in a new one.
pub fn add_bit(random: &mut Random, draft: &mut Draft) {
    let short = draft.segments().into_iter().find(|&segment| draft.len(segment) < MAX_SEGMENT_BITS);
    match short.filter(|_| random.bit()) {
        Some(segment) => lengthen(random, draft, segment, 1, 0),
        None => _ = draft.segment(0, 1, random.bit()),
    }
}
