//! Trees of multiplexers whose leaves put few segments on the path, so that targets lie many
//! operations away.

use super::draft::{Draft, Entry};
use super::random::Random;

/// A level of a tree: the address and the count of inputs.
#[derive(Clone, Copy)]
pub(super) struct Level {
    pub seg: usize,
    pub bit: usize,
    pub inputs: usize,
}

/// Adds a tree and gives its root. `leaf` gives the node for the inputs chosen so far; it may
/// give one before the last level.
pub(super) fn tree(
    draft: &mut Draft,
    levels: &[Level],
    chosen: &mut Vec<usize>,
    leaf: &mut dyn FnMut(&[usize]) -> Option<usize>,
) -> usize {
    if let Some(node) = leaf(chosen) {
        return node;
    }
    let level = levels[chosen.len()];
    let mut inputs = Vec::new();
    for input in 0..level.inputs {
        chosen.push(input);
        inputs.push(tree(draft, levels, chosen, leaf));
        chosen.pop();
    }
    draft.multiplexer(level.seg, level.bit, inputs)
}

/// A network whose targets need exactly `operations` operations, from 1 to 2^`bits`.
///
/// Each steering bit is a segment of its own. Their values, read as a Gray code, number the
/// leaves; the leaf of a number has that segment on the path whose bit leads to the next number,
/// and no other that steers. So one operation goes at most one number on, and the last target's
/// segment is at number `operations` - 1.
pub struct GrayWalk<'w> {
    pub bits: usize,
    pub operations: usize,
    /// The bits to write into the last target; without any, it is read.
    pub write: Option<&'w str>,
    /// Lower numbers at which one more segment is to be read.
    pub stops: &'w [usize],
    /// Lengths of plain segments that are on every path.
    pub always: &'w [usize],
}

impl GrayWalk<'_> {
    pub fn draft(&self) -> Draft {
        let mut draft = Draft::default();
        let last = draft.segment(0, self.write.map_or(1, str::len), true);
        let levels: Vec<Level> = (0..self.bits)
            .map(|_| Level { seg: draft.segment(0, 1, true), bit: 0, inputs: 2 })
            .collect();
        let onward = |number: usize| levels[(number + 1).trailing_zeros() as usize].seg;
        let stops: Vec<usize> =
            self.stops.iter().map(|&number| draft.segment(onward(number), 1, true)).collect();
        let mut leaf = |chosen: &[usize]| {
            let number = gray_number(chosen);
            let stop = self.stops.iter().position(|&stop| stop == number);
            (chosen.len() == self.bits).then(|| match stop {
                Some(index) => stops[index],
                None if number + 1 < self.operations => onward(number),
                None => last,
            })
        };
        let root = tree(&mut draft, &levels, &mut Vec::new(), &mut leaf);
        draft.out = self.always.iter().fold(root, |from, &len| draft.segment(from, len, false));
        draft.entries.extend(stops.into_iter().map(|segment| Entry::Read { segment }));
        draft.entries.push(match self.write {
            Some(bits) => Entry::Write { segment: last, bits: bits.to_string() },
            None => Entry::Read { segment: last },
        });
        draft
    }
}

/// A network whose one target, with bits to write or else to read, needs exactly so many
/// operations, at most 64.
pub fn gray(operations: usize, write: Option<&str>, always: &[usize]) -> Draft {
    let bits = operations.next_power_of_two().trailing_zeros().max(1) as usize;
    GrayWalk { bits, operations, write, stops: &[], always }.draft()
}

/// The number whose Gray code has these bits, bit 0 first.
pub(super) fn gray_number(code: &[usize]) -> usize {
    let mut number = 0;
    let mut above = 0;
    for bit in code.iter().rev() {
        above ^= bit;
        number = 2 * number + above;
    }
    number
}

/// A tree with random segments as leaves, most often one that steers.
pub fn maze(random: &mut Random, depth: usize, len: usize) -> Draft {
    let mut draft = Draft::default();
    for _ in 0..random.between(1, 3) {
        let from = draw_from(random, &draft);
        let len = random.between(1, len);
        draft.segment(from, len, random.percent(70));
    }
    let targets = draft.segments();
    let levels: Vec<Level> = (0..depth).map(|_| draw_level(random, &mut draft)).collect();
    let steering: Vec<usize> = levels.iter().map(|level| level.seg).collect();
    let mut leaf = |chosen: &[usize]| {
        let ends = chosen.len() == depth || (!chosen.is_empty() && random.percent(15));
        ends.then(|| match random.below(12) {
            0 => 0,
            1 | 2 => *random.pick(&targets),
            _ => *random.pick(&steering),
        })
    };
    draft.out = tree(&mut draft, &levels, &mut Vec::new(), &mut leaf);
    draft.draw_targets(random, 45);
    draft.draw_holds(random, 10);
    draft
}

/// One or two steering bits of a new segment, with two to four inputs.
fn draw_level(random: &mut Random, draft: &mut Draft) -> Level {
    let inputs = *random.pick(&[2, 2, 2, 2, 3, 4]);
    let from = draw_from(random, draft);
    Level { seg: draft.segment(from, if inputs == 2 { 1 } else { 2 }, true), bit: 0, inputs }
}

/// Scan-in, or now and then a segment that is on the path with the new one.
fn draw_from(random: &mut Random, draft: &Draft) -> usize {
    if random.percent(40) {
        random.below(draft.nodes.len() + 1)
    } else {
        0
    }
}
