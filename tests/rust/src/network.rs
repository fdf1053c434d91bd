//! The network as the reader leaves it.

/// One bit of a configuration: `None` is unknown (`X`).
pub type Bit = Option<bool>;

/// The bits of every node, bit 0 first, at index node number - 1; empty for multiplexers.
pub type Configuration = Vec<Vec<Bit>>;

/// "A node is a segment or a multiplexer, and each kind has its own fields. Its number is its
/// line number; 0 is scan-in."
#[derive(Clone, Debug, PartialEq, Eq)]
pub enum Node {
    /// "`seg FROM LEN KIND`: a segment of 1 to 32 bits", and "LEN may be 64". "KIND is `s` (with
    /// shadow register) or `p` (plain)." "A `seg` line gets a last field RESET, LEN characters of
    /// `0`, `1` or `X`, highest bit first"; here it stands bit 0 first, and there is none in "the old
    /// form".
    Segment { from: usize, len: usize, shadow: bool, reset: Option<Vec<Bit>> },
    /// "`mux SEG BIT A B [C [D]]`: 2 to 4 inputs, numbered from 0."
    Multiplexer { seg: usize, bit: usize, inputs: Vec<usize> },
}

/// "`write SEG BITS` (each `0` or `1`) and `read SEG`: targets, counted from 1 in line order."
#[derive(Clone, Debug, PartialEq, Eq)]
pub enum Target {
    Read {
        segment: usize,
    },
    /// The bits stand bit 0 first.
    Write {
        segment: usize,
        bits: Vec<bool>,
    },
}

impl Target {
    /// The number of the target's segment.
    pub fn segment(&self) -> usize {
        match self {
            Target::Read { segment } | Target::Write { segment, .. } => *segment,
        }
    }
}

/// A network that none of the refusals 1 to 9 and 18 applies to.
#[derive(Clone, Debug, PartialEq, Eq)]
pub struct Network {
    /// Node n stands at index n - 1.
    pub nodes: Vec<Node>,
    /// "`out N`: the node that feeds scan-out." 0 joins scan-in to scan-out.
    pub out: usize,
    /// The configuration before the first operation.
    pub start: Configuration,
    /// Target t stands at index t - 1.
    pub targets: Vec<Target>,
}

impl Network {
    /// The length of segment `number`; 0 for a multiplexer.
    pub fn len(&self, number: usize) -> usize {
        segment_len(&self.nodes, number).unwrap_or(0)
    }

    /// Whether node `number` is a plain segment.
    pub fn is_plain(&self, number: usize) -> bool {
        matches!(self.nodes[number - 1], Node::Segment { shadow: false, .. })
    }

    /// The bits of all segments together.
    pub fn bits(&self) -> usize {
        (1..=self.nodes.len()).map(|number| self.len(number)).sum()
    }

    /// The bits that a write target wants in segment `number`.
    pub fn write_bits(&self, number: usize) -> Option<&[bool]> {
        self.targets.iter().find_map(|target| match target {
            Target::Write { segment, bits } if *segment == number => Some(bits.as_slice()),
            _ => None,
        })
    }
}

/// The length of node `number` if it is a segment.
pub fn segment_len(nodes: &[Node], number: usize) -> Option<usize> {
    match nodes.get(number.checked_sub(1)?)? {
        Node::Segment { len, .. } => Some(*len),
        Node::Multiplexer { .. } => None,
    }
}
