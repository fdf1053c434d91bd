//! A network in the making, and its text.

use super::random::Random;
use crate::limits::MAX_TARGETS;
use crate::network::{segment_len, Network, Node};
use crate::steering::is_steering_segment;
use crate::text::written;

/// A line after `out`. Bits stand as they are written, highest bit first.
#[derive(Clone, Debug, PartialEq, Eq)]
pub enum Entry {
    Hold { segment: usize, bits: String },
    Write { segment: usize, bits: String },
    Read { segment: usize },
}

/// The lines of a network text. Nothing keeps them from being refused.
#[derive(Clone, Debug, Default)]
pub struct Draft {
    pub nodes: Vec<Node>,
    pub out: usize,
    pub entries: Vec<Entry>,
}

impl Draft {
    /// The nodes and the `out` line of a network, without further lines.
    pub fn of(network: &Network) -> Draft {
        Draft { nodes: network.nodes.clone(), out: network.out, entries: Vec::new() }
    }

    /// Adds a segment and gives its number.
    pub fn segment(&mut self, from: usize, len: usize, shadow: bool) -> usize {
        self.nodes.push(Node::Segment { from, len, shadow, reset: None });
        self.nodes.len()
    }

    /// Adds a multiplexer and gives its number.
    pub fn multiplexer(&mut self, seg: usize, bit: usize, inputs: Vec<usize>) -> usize {
        self.nodes.push(Node::Multiplexer { seg, bit, inputs });
        self.nodes.len()
    }

    /// The numbers of all segments.
    pub fn segments(&self) -> Vec<usize> {
        (1..=self.nodes.len()).filter(|&n| segment_len(&self.nodes, n).is_some()).collect()
    }

    /// The length of a segment; 0 for a multiplexer.
    pub fn len(&self, segment: usize) -> usize {
        segment_len(&self.nodes, segment).unwrap_or(0)
    }

    /// The bits of all segments together.
    pub fn bits(&self) -> usize {
        (1..=self.nodes.len()).map(|number| self.len(number)).sum()
    }

    /// The segments that may be targets.
    pub fn candidates(&self) -> Vec<usize> {
        let mut segments = self.segments();
        segments.retain(|&segment| !is_steering_segment(&self.nodes, segment));
        segments
    }

    /// Adds targets: each candidate is read and written with the given chance, up to four.
    pub fn draw_targets(&mut self, random: &mut Random, percent: usize) {
        let mut candidates = self.candidates();
        random.shuffle(&mut candidates);
        let mut targets = Vec::new();
        for segment in candidates {
            if random.percent(percent) {
                targets.push(Entry::Read { segment });
            }
            if random.percent(percent) {
                let bits = random.letters(&['0', '1'], self.len(segment));
                targets.push(Entry::Write { segment, bits });
            }
        }
        random.shuffle(&mut targets);
        targets.truncate(MAX_TARGETS);
        self.entries.extend(targets);
    }

    /// Adds `hold` lines: each segment has one with the given chance. Bits of steering segments
    /// are seldom unknown.
    pub fn draw_holds(&mut self, random: &mut Random, percent: usize) {
        for segment in self.segments() {
            if !random.percent(percent) {
                continue;
            }
            let bits = self.draw_start(random, segment);
            self.entries.push(Entry::Hold { segment, bits });
        }
        random.shuffle(&mut self.entries);
    }

    /// Start bits of a segment.
    pub fn draw_start(&self, random: &mut Random, segment: usize) -> String {
        let letters: &[char] = match is_steering_segment(&self.nodes, segment) {
            true => &['0', '0', '0', '0', '1', '1', '1', 'X'],
            false => &['0', '1', 'X'],
        };
        random.letters(letters, self.len(segment))
    }

    /// Any start bits of a segment with these characters from a bit up.
    pub fn start_with(
        &self,
        random: &mut Random,
        segment: usize,
        bit: usize,
        chosen: &str,
    ) -> String {
        let letters = ['0', '1', 'X'];
        let above = random.letters(&letters, self.len(segment) - chosen.len() - bit);
        above + chosen + &random.letters(&letters, bit)
    }

    /// The lines, without their ends.
    pub fn lines(&self) -> Vec<String> {
        let nodes = self.nodes.iter().map(node_line);
        let out = std::iter::once(format!("out\t{}", self.out));
        nodes.chain(out).chain(self.entries.iter().map(entry_line)).collect()
    }

    pub fn text(&self) -> Vec<u8> {
        join(&self.lines())
    }
}

/// The text of these lines, each one ended.
pub fn join(lines: &[String]) -> Vec<u8> {
    lines.iter().flat_map(|line| [line.as_bytes(), b"\n"].concat()).collect()
}

pub fn node_line(node: &Node) -> String {
    match node {
        Node::Segment { from, len, shadow, reset } => {
            let kind = if *shadow { 's' } else { 'p' };
            let reset = reset.as_ref().map(|bits| format!("\t{}", written(bits)));
            format!("seg\t{from}\t{len}\t{kind}{}", reset.unwrap_or_default())
        }
        Node::Multiplexer { seg, bit, inputs } => {
            let inputs: String = inputs.iter().map(|input| format!("\t{input}")).collect();
            format!("mux\t{seg}\t{bit}{inputs}")
        }
    }
}

pub fn entry_line(entry: &Entry) -> String {
    match entry {
        Entry::Hold { segment, bits } => format!("hold\t{segment}\t{bits}"),
        Entry::Write { segment, bits } => format!("write\t{segment}\t{bits}"),
        Entry::Read { segment } => format!("read\t{segment}"),
    }
}
