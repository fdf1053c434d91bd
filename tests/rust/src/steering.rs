//! "An address bit is a steering bit; its segment is a steering segment."

use crate::network::Node;

/// How many address bits a multiplexer with so many inputs has: one for two inputs, two "for
/// three or four".
pub fn address_width(inputs: usize) -> usize {
    if inputs == 2 {
        1
    } else {
        2
    }
}

/// The distinct steering bits as pairs (segment, bit), in rising order.
pub fn steering_bits(nodes: &[Node]) -> Vec<(usize, usize)> {
    let mut bits: Vec<(usize, usize)> = nodes.iter().flat_map(address_bits).collect();
    bits.sort_unstable();
    bits.dedup();
    bits
}

/// The address bits of one node; none for a segment.
fn address_bits(node: &Node) -> impl Iterator<Item = (usize, usize)> {
    let (seg, first, width) = match node {
        Node::Multiplexer { seg, bit, inputs } => (*seg, *bit, address_width(inputs.len())),
        Node::Segment { .. } => (0, 0, 0),
    };
    (first..first + width).map(move |bit| (seg, bit))
}

/// Whether some multiplexer, on the path or not, takes its address from this segment.
pub fn is_steering_segment(nodes: &[Node], segment: usize) -> bool {
    nodes.iter().any(|node| matches!(node, Node::Multiplexer { seg, .. } if *seg == segment))
}
