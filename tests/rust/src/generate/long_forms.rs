//! The forms of long registers that a network text has, so that tests can count them.

use crate::limits::{EARLIER_SEGMENT_BITS, MAX_NETWORK_BITS};
use crate::network::{segment_len, Bit, Configuration, Network, Node, Target};
use crate::network_line::{parse_line, NetworkLine};
use crate::path::{is_valid, walk};
use crate::reader::{read_network, read_network_up_to};
use crate::refusal::{Refusal, ADDRESS, BOUNDS, ENTRY, RESET, SIZE, START};
use crate::steering::{address_width, steering_bits};
use crate::text::lines;

/// The names of the forms that a text has.
pub fn long_forms(text: &[u8]) -> Vec<&'static str> {
    let mut forms = Forms { found: Found::new(text), names: Vec::new() };
    match read_network(text) {
        Ok(network) => forms.note_accepted(text, &network),
        Err(refusal) => forms.note_refused(refusal),
    }
    forms.names
}

/// Where the start bits of a segment stand.
#[derive(Clone, Copy, PartialEq, Eq)]
enum Source {
    Hold,
    Reset,
}

/// The lines of a text; `None` for one of wrong form.
struct Found(Vec<Option<NetworkLine>>);

impl Found {
    fn new(text: &[u8]) -> Found {
        Found(lines(text).map(|line| parse_line(line.bytes)).collect())
    }

    fn line(&self, number: usize) -> Option<&NetworkLine> {
        self.0.get(number.checked_sub(1)?)?.as_ref()
    }

    /// The nodes before the first line that is none.
    fn nodes(&self) -> Vec<Node> {
        let node = |line: &Option<NetworkLine>| match line {
            Some(NetworkLine::Node(node)) => Some(node.clone()),
            _ => None,
        };
        self.0.iter().map_while(node).collect()
    }

    /// The start bits that a line gives a segment: its `hold`, else its RESET.
    fn given(&self, number: usize) -> Option<(Source, &[Bit])> {
        let held = self.0.iter().find_map(|line| match line {
            Some(NetworkLine::Hold { segment, bits }) if *segment == number => Some(&bits[..]),
            _ => None,
        });
        match (held, self.line(number)) {
            (Some(bits), _) => Some((Source::Hold, bits)),
            (None, Some(NetworkLine::Node(Node::Segment { reset: Some(bits), .. }))) => {
                Some((Source::Reset, bits))
            }
            _ => None,
        }
    }
}

/// Of a multiplexer: the length of its segment, its BIT and its count of inputs.
type Address = (usize, usize, usize);

/// Addresses that are good, for two inputs and for more.
const GOOD: [(&str, &[Address]); 6] = [
    ("address of one bit, the highest of 64", &[(64, 63, 2)]),
    ("address of two bits, the highest of 64", &[(64, 62, 3), (64, 62, 4)]),
    ("address of one bit, the highest of 63", &[(63, 62, 2)]),
    ("address of two bits, the highest of 63", &[(63, 61, 3), (63, 61, 4)]),
    ("address of one bit, the first above 31", &[(64, 32, 2), (63, 32, 2)]),
    ("address of two bits, 31 and 32", &[(64, 31, 3), (64, 31, 4), (63, 31, 3), (63, 31, 4)]),
];

/// Addresses that are refused with 5.
const BEYOND: [(&str, &[Address]); 4] = [
    ("5, one bit at 64 of 64", &[(64, 64, 2)]),
    ("5, two bits at 63 of 64", &[(64, 63, 3), (64, 63, 4)]),
    ("5, one bit at 63 of 63", &[(63, 63, 2)]),
    ("5, two bits at 62 of 63", &[(63, 62, 3), (63, 62, 4)]),
];

/// LEN and another count of characters: in a RESET, in a `hold` and in a `write`.
const LENGTHS: [([&str; 3], (usize, usize)); 4] = [
    (["18, 64 for 63", "6, hold of 64 for 63", "6, write of 64 for 63"], (63, 64)),
    (["18, 65 for 63", "6, hold of 65 for 63", "6, write of 65 for 63"], (63, 65)),
    (["18, 63 for 64", "6, hold of 63 for 64", "6, write of 63 for 64"], (64, 63)),
    (["18, 65 for 64", "6, hold of 65 for 64", "6, write of 65 for 64"], (64, 65)),
];

struct Forms {
    found: Found,
    names: Vec<&'static str>,
}

impl Forms {
    fn note(&mut self, name: &'static str, holds: bool) {
        self.names.extend((holds && !self.names.contains(&name)).then_some(name));
    }

    /// What an accepted text has.
    fn note_accepted(&mut self, text: &[u8], network: &Network) {
        let earlier = read_network_up_to(EARLIER_SEGMENT_BITS, text).is_ok();
        self.note("accepted before Change 4", earlier);
        self.note("accepted since Change 4", !earlier);
        self.note_segments(network);
        self.note_addresses(network);
        self.note_starts(network);
        self.note_targets(network);
    }

    fn note_segments(&mut self, network: &Network) {
        let segments: Vec<usize> = (1..=network.nodes.len()).collect();
        let count = |len: usize| segments.iter().filter(|&&n| network.len(n) == len).count();
        let any = |len: usize, plain: bool| {
            segments.iter().any(|&n| network.len(n) == len && network.is_plain(n) == plain)
        };
        self.note("63 bits with shadow", any(63, false));
        self.note("63 bits, plain", any(63, true));
        self.note("64 bits with shadow", any(64, false));
        self.note("64 bits, plain", any(64, true));
        self.note("64 bits alone", segments.len() == 1 && count(64) == 1);
        let full = network.bits() == MAX_NETWORK_BITS && count(64) == 62 && count(32) == 1;
        self.note("62 segments of 64 bits and one of 32", full);
    }

    /// The addresses whose lower bit the start's walk meets, and their values.
    fn note_addresses(&mut self, network: &Network) {
        let met = |segment: usize, bit: usize| {
            let mut start = network.start.clone();
            start[segment - 1][bit] = None;
            !is_valid(network, &start)
        };
        for node in &network.nodes {
            let Node::Multiplexer { seg, bit, inputs } = node else { continue };
            if !met(*seg, *bit) {
                continue;
            }
            let address = (network.len(*seg), *bit, inputs.len());
            for (name, addresses) in GOOD {
                self.note(name, addresses.contains(&address));
            }
            let value = |bit: usize| usize::from(network.start[seg - 1][bit] == Some(true));
            if let (64, 63, 2) = address {
                self.note(["bit 63 is 0", "bit 63 is 1"][value(63)], true);
            }
            if let (64, 62, 3..=4) = address {
                let names =
                    ["bits 62, 63: 0", "bits 62, 63: 1", "bits 62, 63: 2", "bits 62, 63: 3"];
                self.note(names[value(62) + 2 * value(63)], true);
            }
        }
    }

    /// Start bits of 63 and 64, one X among them, and bits above 31 without which the path is another.
    fn note_starts(&mut self, network: &Network) {
        let steering = steering_bits(&network.nodes);
        let mut without: [Configuration; 2] = [(); 2].map(|_| network.start.clone());
        for segment in 1..=network.nodes.len() {
            let Some((source, bits)) = self.found.given(segment) else { continue };
            let (len, held) = (bits.len(), source == Source::Hold);
            let unknown = only_unknown(bits);
            for bit in without[usize::from(held)][segment - 1].iter_mut().skip(EARLIER_SEGMENT_BITS)
            {
                *bit = Some(false);
            }
            self.note("hold of 63", len == 63 && held);
            self.note("hold of 64", len == 64 && held);
            self.note("RESET of 63", len == 63 && !held);
            self.note("RESET of 64", len == 64 && !held);
            if let (64, Some(bit)) = (len, unknown) {
                self.note("hold with one X of 64", held);
                self.note("RESET with one X of 64", !held);
                self.note(
                    "one X of 64 that steers, off the path",
                    steering.contains(&(segment, bit)),
                );
            }
        }
        let path = walk(network, &network.start);
        self.note("RESET that decides by bits above 31", path != walk(network, &without[0]));
        self.note("hold that decides by bits above 31", path != walk(network, &without[1]));
    }

    fn note_targets(&mut self, network: &Network) {
        for target in &network.targets {
            match target {
                Target::Read { segment } => self.note("read of 64", network.len(*segment) == 64),
                Target::Write { bits, .. } => {
                    let palindrome = bits.iter().rev().eq(bits);
                    self.note("write of 64, another when turned", bits.len() == 64 && !palindrome);
                }
            }
        }
    }

    /// What a refused text has.
    fn note_refused(&mut self, Refusal { number, place }: Refusal) {
        let nodes = self.found.nodes();
        let len = |segment: usize| segment_len(&nodes, segment).unwrap_or(0);
        let mut names = Vec::new();
        let mut note = |name: &'static str, holds: bool| names.extend(holds.then_some(name));
        match (number, self.found.line(place)) {
            (BOUNDS, Some(NetworkLine::Node(Node::Segment { len: 65, shadow, reset, .. }))) => {
                note("2, 65 bits with shadow", *shadow);
                note("2, 65 bits, plain", !*shadow);
                note("2, 65 bits and a RESET of 65", reset.as_ref().is_some_and(|r| r.len() == 65));
                note("2, 65 bits alone", nodes.len() == 1);
            }
            (SIZE, Some(NetworkLine::Node(Node::Segment { .. }))) => {
                let bits: usize = (1..=place).map(len).sum();
                note("3, bit 4,001", bits == MAX_NETWORK_BITS + 1);
            }
            (ADDRESS, Some(NetworkLine::Node(Node::Multiplexer { seg, bit, inputs }))) => {
                let address = (len(*seg), *bit, inputs.len());
                BEYOND.into_iter().for_each(|(name, wrong)| note(name, wrong.contains(&address)));
            }
            (RESET, Some(NetworkLine::Node(Node::Segment { len, reset: Some(bits), .. }))) => {
                note_lengths(0, (*len, bits.len()), &mut note);
            }
            (ENTRY, Some(NetworkLine::Hold { segment, bits })) => {
                note_lengths(1, (len(*segment), bits.len()), &mut note);
            }
            (ENTRY, Some(NetworkLine::Target(Target::Write { segment, bits }))) => {
                note_lengths(2, (len(*segment), bits.len()), &mut note);
            }
            (START, Some(NetworkLine::Node(Node::Multiplexer { seg, bit, inputs }))) => {
                let address = *bit..bit + address_width(inputs.len());
                if let Some((source, bits)) = self.found.given(*seg) {
                    let one = only_unknown(bits).is_some_and(|unknown| address.contains(&unknown));
                    let one_of_64 = one && bits.len() == 64;
                    note("9, one X of 64 in a hold", one_of_64 && source == Source::Hold);
                    note("9, one X of 64 in a RESET", one_of_64 && source == Source::Reset);
                    let known = bits[address].iter().all(Option::is_some);
                    note("9, address too high above bit 31", known && *bit >= EARLIER_SEGMENT_BITS);
                }
            }
            _ => {}
        }
        self.names.extend(names);
    }
}

/// Notes LEN and count of characters in a RESET (0), a `hold` (1) or a `write` (2).
fn note_lengths(kind: usize, pair: (usize, usize), note: &mut impl FnMut(&'static str, bool)) {
    LENGTHS.into_iter().for_each(|(names, wrong)| note(names[kind], wrong == pair));
}

/// The one bit that is unknown, if there is just one.
fn only_unknown(bits: &[Bit]) -> Option<usize> {
    let mut unknown = (0..bits.len()).filter(|&bit| bits[bit].is_none());
    unknown.next().filter(|_| unknown.next().is_none())
}
