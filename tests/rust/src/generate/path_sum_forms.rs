//! The forms of a walk and of its sums, so that tests can count them.

use crate::limits::{MAX_NETWORK_BITS, MAX_NODES};
use crate::network::{Bit, Network, Node};
use crate::path::{leads_to, path_length, walk};
use crate::path_sums::{nodes_met, sums};

/// The names of the forms that the walk in a configuration has.
pub fn path_sum_forms(network: &Network, configuration: &[Vec<Bit>]) -> Vec<&'static str> {
    let met = nodes_met(network, configuration);
    let mut forms = Forms { network, configuration, met: &met, names: Vec::new() };
    forms.note_nodes();
    match sums(network, configuration) {
        Some(sums) => {
            forms.note_way();
            forms.note_sums(&sums);
        }
        None => forms.note("walk that stops", true),
    }
    forms.names
}

struct Forms<'n> {
    network: &'n Network,
    configuration: &'n [Vec<Bit>],
    met: &'n [usize],
    names: Vec<&'static str>,
}

impl Forms<'_> {
    fn note(&mut self, name: &'static str, holds: bool) {
        self.names.extend(holds.then_some(name));
    }

    /// The count of inputs of a multiplexer, none for a segment.
    fn inputs(&self, node: usize) -> Option<usize> {
        match &self.network.nodes[node - 1] {
            Node::Segment { .. } => None,
            Node::Multiplexer { inputs, .. } => Some(inputs.len()),
        }
    }

    fn is_multiplexer(&self, node: usize) -> bool {
        self.inputs(node).is_some()
    }

    /// Which nodes are met, and which are not.
    fn note_nodes(&mut self) {
        let (met, out) = (self.met, self.network.out);
        let multiplexers = met.iter().filter(|&&node| self.is_multiplexer(node)).count();
        let [two, three, four] =
            [2, 3, 4].map(|count| met.iter().any(|&node| self.inputs(node) == Some(count)));
        self.note("no node met", met.is_empty());
        self.note("segment met", multiplexers < met.len());
        self.note("multiplexer met", multiplexers > 0);
        self.note("multiplexer of two inputs met", two);
        self.note("multiplexer of three inputs met", three);
        self.note("multiplexer of four inputs met", four);
        self.note("128 nodes met", met.len() == MAX_NODES);
        self.note("node passed by", met.len() < out && !met.is_empty());
        self.note("node that is not before scan-out", out < self.network.nodes.len());
    }

    /// How the nodes met follow one another.
    fn note_way(&mut self) {
        let met = self.met;
        let ends = [met.first(), met.last()];
        let [feeds, leads] = ends.map(|end| end.is_some_and(|&node| self.is_multiplexer(node)));
        let row = met.windows(2).any(|pair| pair.iter().all(|&node| self.is_multiplexer(node)));
        let equal = met.iter().any(|&node| self.has_equal_input(node));
        self.note("multiplexer that feeds scan-out", feeds);
        self.note("multiplexer that leads to scan-in", leads);
        self.note("two multiplexers in a row", row);
        self.note("other input with the same sum", equal);
    }

    /// Whether a node is a multiplexer with another input than the addressed one that has its sum.
    fn has_equal_input(&self, node: usize) -> bool {
        let Node::Multiplexer { inputs, .. } = &self.network.nodes[node - 1] else { return false };
        let addressed = leads_to(self.network, self.configuration, node).expect("it is valid");
        let length = self.length_from(addressed);
        inputs.iter().any(|&input| input != addressed && self.length_from(input) == length)
    }

    /// The length of the path if this node fed scan-out.
    fn length_from(&self, node: usize) -> Option<usize> {
        let network = Network { out: node, ..self.network.clone() };
        let path = walk(&network, self.configuration).ok()?;
        Some(path_length(&network, &path))
    }

    /// How large the sums are, and where they stay the same.
    fn note_sums(&mut self, sums: &[usize]) {
        let most = sums.first().copied().unwrap_or(0);
        self.note("sum above 255", most > 255);
        self.note("sum of 4,000", most == MAX_NETWORK_BITS);
        self.note("same sum at three nodes", sums.windows(3).any(|three| three[0] == three[2]));
    }
}
