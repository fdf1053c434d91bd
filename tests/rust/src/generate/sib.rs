//! Segment insertion bits (SIB): a steering bit that puts what lies behind it on the path.

use super::draft::Draft;
use super::lengths::draw_len;
use super::random::Random;

/// How large the parts of a SIB network may become.
#[derive(Clone, Copy)]
pub struct Size {
    /// Levels of SIB inside SIB.
    pub depth: usize,
    /// SIBs in all.
    pub sibs: usize,
    /// The longest register behind a SIB.
    pub len: usize,
}

/// A chain of SIBs, each with a register behind it.
pub fn sib_chain(random: &mut Random, size: Size) -> Draft {
    let mut draft = Draft::default();
    let mut from = 0;
    for _ in 0..size.sibs {
        from = sib(random, &mut draft, from, |random, draft, from| {
            let len = draw_len(random, size.len);
            draft.segment(from, len, random.percent(70))
        });
    }
    finish(random, draft, from)
}

/// A tree of SIBs: behind each there is a register, another SIB, or several of both.
pub fn sib_tree(random: &mut Random, size: Size) -> Draft {
    let mut draft = Draft::default();
    let mut sibs_left = size.sibs;
    let mut from = 0;
    while sibs_left > 0 {
        from = branch(random, &mut draft, from, size, &mut sibs_left);
    }
    finish(random, draft, from)
}

/// One SIB with a series of parts behind it.
fn branch(
    random: &mut Random,
    draft: &mut Draft,
    from: usize,
    size: Size,
    sibs_left: &mut usize,
) -> usize {
    *sibs_left -= 1;
    sib(random, draft, from, |random, draft, from| {
        let mut last = from;
        for _ in 0..random.between(1, 2) {
            if size.depth > 0 && *sibs_left > 0 && random.percent(65) {
                let inner = Size { depth: size.depth - 1, ..size };
                last = branch(random, draft, last, inner, sibs_left);
            } else {
                let len = draw_len(random, size.len);
                last = draft.segment(last, len, random.percent(70));
            }
        }
        last
    })
}

/// One SIB: its bit stands before or behind its multiplexer on the way from scan-in.
pub(super) fn sib(
    random: &mut Random,
    draft: &mut Draft,
    from: usize,
    inside: impl FnOnce(&mut Random, &mut Draft, usize) -> usize,
) -> usize {
    if random.bit() {
        let inner = inside(random, draft, from);
        let bit_segment = draft.nodes.len() + 2;
        let multiplexer = draft.multiplexer(bit_segment, 0, vec![from, inner]);
        draft.segment(multiplexer, 1, true)
    } else {
        let bit_segment = draft.segment(from, 1, true);
        let inner = inside(random, draft, bit_segment);
        draft.multiplexer(bit_segment, 0, vec![bit_segment, inner])
    }
}

fn finish(random: &mut Random, mut draft: Draft, out: usize) -> Draft {
    draft.out = out;
    draft.draw_targets(random, 50);
    draft.draw_holds(random, 8);
    draft
}
