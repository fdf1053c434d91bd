//! The walk, the path's places and the CSU operation.

use crate::network::{Bit, Configuration, Network, Node};

/// "The walk [..] starts at N; a segment leads to FROM, a multiplexer to the addressed input; it
/// ends at 0." Gives the segments met, in walk order, which is the path.
///
/// "A configuration is valid if no multiplexer met has an unknown address bit or an address that
/// is not below its count of inputs." If it is not valid, gives the multiplexer where the walk
/// stops.
pub fn walk(network: &Network, configuration: &[Vec<Bit>]) -> Result<Vec<usize>, usize> {
    let mut path = Vec::new();
    let mut number = network.out;
    while number != 0 {
        if let Node::Segment { .. } = network.nodes[number - 1] {
            path.push(number);
        }
        number = leads_to(network, configuration, number).ok_or(number)?;
    }
    Ok(path)
}

/// "a segment leads to FROM, a multiplexer to the addressed input". `None` if an address bit is unknown
/// or the address is not below the count of inputs.
pub fn leads_to(network: &Network, configuration: &[Vec<Bit>], number: usize) -> Option<usize> {
    match &network.nodes[number - 1] {
        Node::Segment { from, .. } => Some(*from),
        Node::Multiplexer { seg, bit, inputs } => {
            let address = address(&configuration[*seg - 1], *bit, inputs.len());
            address.and_then(|input| inputs.get(input).copied())
        }
    }
}

/// "The address is bit BIT of segment SEG for two inputs, and BIT + 2 × (the bit above) by their
/// values for three or four." `None` if one of these bits is unknown.
fn address(segment_bits: &[Bit], bit: usize, inputs: usize) -> Option<usize> {
    let low = usize::from(segment_bits[bit]?);
    if inputs == 2 {
        return Some(low);
    }
    let high = usize::from(segment_bits[bit + 1]?);
    Some(low + 2 * high)
}

/// Whether a configuration is valid.
pub fn is_valid(network: &Network, configuration: &[Vec<Bit>]) -> bool {
    walk(network, configuration).is_ok()
}

/// The count of bit places on a path.
pub fn path_length(network: &Network, path: &[usize]) -> usize {
    path.iter().map(|&segment| network.len(segment)).sum()
}

/// "The walk numbers bit places from 0: bits 0, 1, .. of the first segment met, then the next."
/// The place of a segment's bit 0, if the segment is on the path.
pub fn place_of(network: &Network, path: &[usize], segment: usize) -> Option<usize> {
    let index = path.iter().position(|&met| met == segment)?;
    Some(path_length(network, &path[..index]))
}

/// "Scan-in bit i (from 0) ends at place i. [..] A CSU loads every segment on the path with its
/// scan-in bits; every other segment is unchanged." There are as many bits as places.
pub fn csu(network: &Network, configuration: &mut Configuration, path: &[usize], bits: &[bool]) {
    let mut rest = bits;
    for &segment in path {
        let (own, behind) = rest.split_at(network.len(segment));
        configuration[segment - 1] = own.iter().copied().map(Some).collect();
        rest = behind;
    }
}
