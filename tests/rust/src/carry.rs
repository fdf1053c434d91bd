//! "Members continue on a card that is already open. After a pass, a program prints the last configuration
//! as one `hold` line for each segment in number order."

use crate::marker::mark_texts;
use crate::network::{Bit, Node};
use crate::refusal::Refusal;
use crate::text::{put, written};

/// The `hold` lines of the last configuration, or the mark's refusal.
pub fn carried(network_text: &[u8], plan_text: &[u8]) -> Result<Vec<u8>, Refusal> {
    let marked = mark_texts(network_text, plan_text)?;
    Ok(hold_lines(&marked.network.nodes, &marked.last))
}

/// Writes these lines to the front of `holds` and gives their bytes: the mark's refusals, then 13.
pub fn carry(network_text: &[u8], plan_text: &[u8], holds: &mut [u8]) -> Result<usize, Refusal> {
    put(&carried(network_text, plan_text)?, holds)
}

/// "one `hold` line for each segment in number order", whatever its kind; "`hold SEG BITS`"
fn hold_lines(nodes: &[Node], configuration: &[Vec<Bit>]) -> Vec<u8> {
    let mut lines = String::new();
    for (index, (node, bits)) in nodes.iter().zip(configuration).enumerate() {
        if let Node::Segment { .. } = node {
            lines += &format!("hold\t{}\t{}\n", index + 1, written(bits));
        }
    }
    lines.into_bytes()
}
