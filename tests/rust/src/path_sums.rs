//! "the routine that gives the path's length shall add the segments as the walk returns from scan-in to
//! scan-out. In a valid configuration its sum at each node met must be proved to be the count of path bits
//! from scan-in up to and with that node"

use crate::network::{Bit, Network};
use crate::path::{is_valid, leads_to};

/// "each node met", multiplexers too, from scan-out on. A multiplexer that stops the walk is the last.
pub fn nodes_met(network: &Network, configuration: &[Vec<Bit>]) -> Vec<usize> {
    let mut met = Vec::new();
    let mut next = Some(network.out);
    while let Some(number) = next.filter(|&number| number != 0) {
        met.push(number);
        next = leads_to(network, configuration, number);
    }
    met
}

/// "add the segments as the walk returns from scan-in to scan-out": the sum at each node met, in the order
/// of `nodes_met`. `None` if the configuration is not valid.
pub fn sums(network: &Network, configuration: &[Vec<Bit>]) -> Option<Vec<usize>> {
    if !is_valid(network, configuration) {
        return None;
    }
    let mut sums = Vec::new();
    let mut sum = 0;
    for node in nodes_met(network, configuration).into_iter().rev() {
        sum += network.len(node);
        sums.push(sum);
    }
    sums.reverse();
    Some(sums)
}

/// "the count of path bits from scan-in up to and with that node", one of the nodes met. A multiplexer has
/// no bits.
pub fn bits_up_to(network: &Network, met: &[usize], node: usize) -> usize {
    let towards_scan_in = met.iter().skip_while(|&&other| other != node);
    towards_scan_in.map(|&segment| network.len(segment)).sum()
}
