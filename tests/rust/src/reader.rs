//! The reader: a network text becomes a network, or one of the refusals 1 to 9 and 18.

use crate::limits::{
    MAX_NETWORK_BITS, MAX_NETWORK_BYTES, MAX_NODES, MAX_SEGMENT_BITS, MAX_TARGETS,
};
use crate::network::{segment_len, Bit, Configuration, Network, Node, Target};
use crate::network_line::{parse_line, NetworkLine};
use crate::path::walk;
use crate::refusal::{
    Refusal, ADDRESS, BOUNDS, ENTRY, FORM, ORDER, RESET, SIZE, START, STEERING_TARGET, TARGET_COUNT,
};
use crate::steering::{address_width, is_steering_segment};
use crate::text::{lines, Line};

/// "Order: text length; then line by line 1, 4, 2, 3, 6, 7, 8; 5 follows 2 on the `out` line; a
/// missing `out` at the end; then 9." 18 comes "directly after 2".
pub fn read_network(text: &[u8]) -> Result<Network, Refusal> {
    read_network_up_to(MAX_SEGMENT_BITS, text)
}

/// The same with this greatest LEN.
pub fn read_network_up_to(most: usize, text: &[u8]) -> Result<Network, Refusal> {
    if text.len() > MAX_NETWORK_BYTES {
        return Err(Refusal::new(SIZE, 0));
    }
    let mut reading = Reading { most, ..Reading::default() };
    let mut last_line = 0;
    for line in lines(text) {
        reading.take_line(line)?;
        last_line = line.number;
    }
    reading.finish(last_line)
}

/// What the lines read so far have given.
#[derive(Default)]
struct Reading {
    /// The greatest LEN.
    most: usize,
    nodes: Vec<Node>,
    network_bits: usize,
    out: Option<usize>,
    holds: Vec<(usize, Vec<Bit>)>,
    targets: Vec<Target>,
}

impl Reading {
    /// "word, field count or field form wrong; last line unended"
    fn take_line(&mut self, line: Line) -> Result<(), Refusal> {
        let parsed = if line.ended { parse_line(line.bytes) } else { None };
        match parsed.ok_or(Refusal::new(FORM, line.number))? {
            NetworkLine::Node(node) => self.take_node(node, line.number),
            NetworkLine::Out { node } => self.take_out(node, line.number),
            NetworkLine::Hold { segment, bits } => self.take_hold(segment, bits, line.number),
            NetworkLine::Target(target) => self.take_target(target, line.number),
        }
    }

    /// "Node lines come first": 4 after `out`; then 2; then 18; then "node 129, or over 4,000 bits".
    fn take_node(&mut self, node: Node, line: usize) -> Result<(), Refusal> {
        if self.out.is_some() {
            return Err(Refusal::new(ORDER, line));
        }
        if !in_bounds(&node, self.nodes.len() + 1, self.most) {
            return Err(Refusal::new(BOUNDS, line));
        }
        if let Node::Segment { len, reset, .. } = &node {
            // "a RESET whose length is not LEN"
            if reset.as_ref().is_some_and(|bits| bits.len() != *len) {
                return Err(Refusal::new(RESET, line));
            }
            self.network_bits += len;
        }
        if self.nodes.len() == MAX_NODES || self.network_bits > MAX_NETWORK_BITS {
            return Err(Refusal::new(SIZE, line));
        }
        self.nodes.push(node);
        Ok(())
    }

    /// "then one `out`"; "N may be any node or 0"; "5 follows 2 on the `out` line".
    fn take_out(&mut self, node: usize, line: usize) -> Result<(), Refusal> {
        if self.out.is_some() {
            return Err(Refusal::new(ORDER, line));
        }
        if node > self.nodes.len() {
            return Err(Refusal::new(BOUNDS, line));
        }
        if let Some(number) = first_bad_address(&self.nodes) {
            return Err(Refusal::new(ADDRESS, number));
        }
        self.out = Some(node);
        Ok(())
    }

    /// `hold`: 4 before `out`, then 6.
    fn take_hold(&mut self, segment: usize, bits: Vec<Bit>, line: usize) -> Result<(), Refusal> {
        self.after_out(line)?;
        let again = self.holds.iter().any(|(held, _)| *held == segment);
        if again || segment_len(&self.nodes, segment) != Some(bits.len()) {
            return Err(Refusal::new(ENTRY, line));
        }
        self.holds.push((segment, bits));
        Ok(())
    }

    /// `write` and `read`: 4 before `out`, then 6, 7 and 8.
    fn take_target(&mut self, target: Target, line: usize) -> Result<(), Refusal> {
        self.after_out(line)?;
        let segment = target.segment();
        let len = segment_len(&self.nodes, segment).ok_or(Refusal::new(ENTRY, line))?;
        let wrong_length = matches!(&target, Target::Write { bits, .. } if bits.len() != len);
        if wrong_length || self.targets.iter().any(|earlier| same_entry(earlier, &target)) {
            return Err(Refusal::new(ENTRY, line));
        }
        if is_steering_segment(&self.nodes, segment) {
            return Err(Refusal::new(STEERING_TARGET, line));
        }
        if self.targets.len() == MAX_TARGETS {
            return Err(Refusal::new(TARGET_COUNT, line));
        }
        self.targets.push(target);
        Ok(())
    }

    /// "then one `out`, then the rest in any mixture"
    fn after_out(&self, line: usize) -> Result<(), Refusal> {
        self.out.map(|_| ()).ok_or(Refusal::new(ORDER, line))
    }

    /// "no `out` (last line number + 1)"; then 9, "first multiplexer met".
    fn finish(self, last_line: usize) -> Result<Network, Refusal> {
        let out = self.out.ok_or(Refusal::new(ORDER, last_line + 1))?;
        let start = start_configuration(&self.nodes, self.holds);
        let network = Network { nodes: self.nodes, out, start, targets: self.targets };
        match walk(&network, &network.start) {
            Ok(_) => Ok(network),
            Err(multiplexer) => Err(Refusal::new(START, multiplexer)),
        }
    }
}

/// "FROM and mux inputs are smaller than the node's own number"; a segment has a bit and at most the
/// greatest LEN: "65 is refused as 33 was".
fn in_bounds(node: &Node, number: usize, most: usize) -> bool {
    match node {
        Node::Segment { from, len, .. } => *from < number && (1..=most).contains(len),
        Node::Multiplexer { inputs, .. } => inputs.iter().all(|input| *input < number),
    }
}

/// "SEG not a segment with shadow, or an address bit beyond it; lowest such line"
fn first_bad_address(nodes: &[Node]) -> Option<usize> {
    let bad = |node: &Node| match node {
        Node::Multiplexer { seg, bit, inputs } => {
            let last_bit = bit + address_width(inputs.len()) - 1;
            match seg.checked_sub(1).and_then(|index| nodes.get(index)) {
                Some(Node::Segment { len, shadow: true, .. }) => last_bit >= *len,
                _ => true,
            }
        }
        Node::Segment { .. } => false,
    };
    nodes.iter().position(bad).map(|index| index + 1)
}

/// "same word and segment again"
fn same_entry(earlier: &Target, target: &Target) -> bool {
    let same_word = matches!(earlier, Target::Read { .. }) == matches!(target, Target::Read { .. });
    same_word && earlier.segment() == target.segment()
}

/// "Steering segments start as all 0 and others as all X (001, section 7.1) unless a `hold` says
/// otherwise"; "a segment without a `hold` line starts from" its RESET.
fn start_configuration(nodes: &[Node], holds: Vec<(usize, Vec<Bit>)>) -> Configuration {
    let unknown = |node: &Node| match node {
        Node::Segment { len, .. } => vec![None; *len],
        Node::Multiplexer { .. } => Vec::new(),
    };
    let mut start: Configuration = nodes.iter().map(unknown).collect();
    for node in nodes {
        if let Node::Multiplexer { seg, .. } = node {
            start[seg - 1].fill(Some(false));
        }
    }
    for (bits, node) in start.iter_mut().zip(nodes) {
        if let Node::Segment { reset: Some(reset), .. } = node {
            bits.clone_from(reset);
        }
    }
    for (segment, bits) in holds {
        start[segment - 1] = bits;
    }
    start
}
