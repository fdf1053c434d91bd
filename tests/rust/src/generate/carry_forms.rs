//! The forms of exercises that pass, so that tests can count them.

use super::exercises::Exercise;
use crate::limits::{EARLIER_SEGMENT_BITS, MAX_NODES, MAX_SEGMENT_BITS, MAX_TARGETS};
use crate::marker::{mark_texts, Marked};
use crate::network::{Bit, Node};
use crate::path::walk;
use crate::refusal::Refusal;
use crate::steering::is_steering_segment;

/// The names of the forms that an exercise has, or its refusal.
pub fn carry_forms(exercise: &Exercise) -> Result<Vec<&'static str>, Refusal> {
    let marked = mark_texts(&exercise.network, &exercise.plan)?;
    let mut forms = Forms { marked: &marked, names: Vec::new() };
    forms.note_counts();
    forms.note_segments();
    forms.note_bits();
    Ok(forms.names)
}

struct Forms<'m> {
    marked: &'m Marked,
    names: Vec<&'static str>,
}

impl Forms<'_> {
    fn note(&mut self, name: &'static str, holds: bool) {
        self.names.extend(holds.then_some(name));
    }

    /// Operations, targets and paths.
    fn note_counts(&mut self) {
        let (network, operations) = (&self.marked.network, self.marked.pass.operations);
        let path = |configuration: &[Vec<Bit>]| walk(network, configuration).expect("it is valid");
        let (first, last) = (path(&network.start), path(&self.marked.last));
        let longer = last.iter().any(|segment| !first.contains(segment));
        let shorter = first.iter().any(|segment| !last.contains(segment));
        self.note("no operation", operations == 0);
        self.note("one operation", operations == 1);
        self.note("two operations", operations == 2);
        self.note("three operations or more", operations >= 3);
        self.note("no target", network.targets.is_empty());
        self.note("four targets", network.targets.len() == MAX_TARGETS);
        self.note("branch left open", longer);
        self.note("branch left closed", shorter);
    }

    /// The segments' numbers, kinds and lengths.
    fn note_segments(&mut self) {
        let network = &self.marked.network;
        let segments: Vec<usize> =
            (1..=network.nodes.len()).filter(|&number| network.len(number) > 0).collect();
        let any = |test: &dyn Fn(usize) -> bool| segments.iter().any(|&segment| test(segment));
        let plain = any(&|segment| network.is_plain(segment));
        let shadow = any(&|segment| !network.is_plain(segment));
        let [one, two, three] =
            [1..10, 10..100, 100..1_000].map(|range| any(&|segment| range.contains(&segment)));
        let [one_bit, earlier_bits, most_bits] = [1, EARLIER_SEGMENT_BITS, MAX_SEGMENT_BITS]
            .map(|len| any(&|segment| network.len(segment) == len));
        let between = segments.len() < network.nodes.len();
        let count = segments.len();
        self.note("plain segment", plain);
        self.note("segment with shadow", shadow);
        self.note("number of one digit", one);
        self.note("number of two digits", two);
        self.note("number of three digits", three);
        self.note("segment of one bit", one_bit);
        self.note("segment of 32 bits", earlier_bits);
        self.note("segment of 64 bits", most_bits);
        self.note("multiplexer, which has no line", between);
        self.note("no segment", count == 0);
        self.note("128 segments", count == MAX_NODES);
    }

    /// What becomes of the bits.
    fn note_bits(&mut self) {
        let Marked { network, last, .. } = self.marked;
        let each = || {
            let bits = network.start.iter().zip(last).enumerate();
            bits.flat_map(|(index, (start, last))| {
                start.iter().zip(last).map(move |(start, last)| (index, *start, *last))
            })
        };
        let any = |test: &dyn Fn(usize, Bit, Bit) -> bool| {
            each().any(|(index, start, last)| test(index + 1, start, last))
        };
        let has_reset = |segment: usize| match &network.nodes[segment - 1] {
            Node::Segment { reset, .. } => reset.is_some(),
            Node::Multiplexer { .. } => false,
        };
        let steers = |segment: usize| is_steering_segment(&network.nodes, segment);
        let names = [
            ("X", any(&|_, _, last| last.is_none())),
            (
                "X of a plain segment",
                any(&|segment, _, last| last.is_none() && network.is_plain(segment)),
            ),
            ("X of a steering segment", any(&|segment, _, last| last.is_none() && steers(segment))),
            ("X from a RESET", any(&|segment, _, last| last.is_none() && has_reset(segment))),
            ("known bits in place of X", any(&|_, start, last| start.is_none() && last.is_some())),
            ("bit turned", any(&|_, start, last| last.is_some() && start == last.map(|bit| !bit))),
            ("known bits only", each().count() > 0 && !any(&|_, _, last| last.is_none())),
            (
                "X and known bits in one segment",
                last.iter().any(|bits| bits.contains(&None) && bits.iter().any(Option::is_some)),
            ),
            ("X above bit 31", upper(last).any(Option::is_none)),
            ("bit 1 above bit 31", upper(last).any(|bit| *bit == Some(true))),
        ];
        names.into_iter().for_each(|(name, holds)| self.note(name, holds));
    }
}

/// The bits of segments above bit 31.
fn upper(configuration: &[Vec<Bit>]) -> impl Iterator<Item = &Bit> {
    configuration.iter().flat_map(|bits| bits.iter().skip(EARLIER_SEGMENT_BITS))
}
