//! A network with much to search: 128 nodes, 6 steering bits, 4 targets, 16 operations.

use super::draft::{Draft, Entry};
use super::maze::{gray_number, tree, Level};
use crate::limits::{EARLIER_SEGMENT_BITS, MAX_NODES, MAX_OPERATIONS};

/// The steering bits that number the leaves.
const LEVELS: usize = 4;

/// The number of the last target's leaf: one operation leads to leaf 0, one goes on from each leaf
/// before the last, and one is on the last.
const LAST: usize = MAX_OPERATIONS - 2;
const _: () = assert!(LAST < 1 << LEVELS);

/// While the bit of the first segment is 0, all six steering bits are on the path, no target is, and
/// the other five bits may have any value, known or not. Its value 1 leads to a Gray walk
/// (`maze::GrayWalk`) that it can't leave: leaves 0, 1 and 2 each have a segment to read, the last
/// one has a segment to write and no way on. So all targets are reached only from leaf 0 on.
/// Segments of 32 bits that are on every path make up 128 nodes.
pub fn many_rounds() -> Draft {
    let mut draft = Draft::default();
    let half = draft.segment(0, 1, true);
    let last = draft.segment(0, EARLIER_SEGMENT_BITS, true);
    let mut levels = Vec::new();
    let mut all = half;
    for _ in 0..=LEVELS {
        let from = draft.multiplexer(half, 0, vec![all, 0]);
        all = draft.segment(from, 1, true);
        levels.push(Level { seg: all, bit: 0, inputs: 2 });
    }
    draft.multiplexer(all, 0, vec![0, 0]);
    let onward = |number: usize| levels[(number + 1).trailing_zeros() as usize].seg;
    let reads = [0, 1, 2].map(|number| draft.segment(onward(number), 1, true));
    let mut leaf = |chosen: &[usize]| {
        let number = gray_number(chosen);
        (chosen.len() == LEVELS).then(|| match reads.get(number) {
            Some(&read) => read,
            None if number < LAST => onward(number),
            None => last,
        })
    };
    let root = tree(&mut draft, &levels, &mut Vec::new(), &mut leaf);
    draft.out = draft.multiplexer(half, 0, vec![all, root]);
    while draft.nodes.len() < MAX_NODES {
        draft.out = draft.segment(draft.out, EARLIER_SEGMENT_BITS, false);
    }
    draft.entries = reads.map(|segment| Entry::Read { segment }).to_vec();
    let bits = "10".repeat(EARLIER_SEGMENT_BITS / 2);
    draft.entries.push(Entry::Write { segment: last, bits });
    draft
}
