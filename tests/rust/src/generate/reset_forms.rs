//! The forms of RESET that a network text has, so that tests can count them.

use crate::limits::{EARLIER_SEGMENT_BITS, MAX_NETWORK_BYTES, MAX_NODES, MAX_SEGMENT_BITS};
use crate::network::{Bit, Network, Node};
use crate::network_line::{parse_line, NetworkLine};
use crate::path::walk;
use crate::reader::read_network;
use crate::refusal::{Refusal, RESET, START};
use crate::steering::is_steering_segment;
use crate::text::lines;

/// The names of the forms that a text has.
pub fn reset_forms(text: &[u8]) -> Vec<&'static str> {
    let mut forms = Forms::default();
    let found = find(text);
    forms.note_text(text, &found);
    match read_network(text) {
        Ok(network) => forms.note_accepted(text, &found, &network),
        Err(refusal) => forms.note_refused(text, &found, refusal),
    }
    forms.names
}

/// The lines of good form that are segments with RESET or `hold` lines.
#[derive(Default)]
struct Found {
    /// Line number, LEN and RESET, bit 0 first.
    resets: Vec<(usize, usize, Vec<Bit>)>,
    /// Segment and bits.
    holds: Vec<(usize, Vec<Bit>)>,
    old_lines: usize,
}

fn find(text: &[u8]) -> Found {
    let mut found = Found::default();
    for line in lines(text) {
        match parse_line(line.bytes) {
            Some(NetworkLine::Node(Node::Segment { len, reset: Some(bits), .. })) => {
                found.resets.push((line.number, len, bits))
            }
            Some(NetworkLine::Node(Node::Segment { .. })) => found.old_lines += 1,
            Some(NetworkLine::Hold { segment, bits }) => found.holds.push((segment, bits)),
            _ => {}
        }
    }
    found
}

/// The text without RESET fields.
fn without_resets(text: &[u8]) -> Vec<u8> {
    let old = |line: &[u8]| match line.split(|&byte| byte == b'\t').collect::<Vec<_>>()[..] {
        [word @ b"seg", from, len, kind, _] => [word, from, len, kind].join(&b'\t'),
        _ => line.to_vec(),
    };
    lines(text).flat_map(|line| [old(line.bytes), b"\n".to_vec()].concat()).collect()
}

/// The text without the `hold` lines of these segments.
fn without_holds(text: &[u8], segments: &[usize]) -> Vec<u8> {
    let kept = |line: &[u8]| match parse_line(line) {
        Some(NetworkLine::Hold { segment, .. }) => !segments.contains(&segment),
        _ => true,
    };
    let kept = lines(text).filter(|line| kept(line.bytes));
    kept.flat_map(|line| [line.bytes, b"\n"].concat()).collect()
}

/// The start's path, or the refusal.
fn first_path(text: &[u8]) -> Result<Vec<usize>, Refusal> {
    let network = read_network(text)?;
    Ok(walk(&network, &network.start).expect("the start is valid"))
}

#[derive(Default)]
struct Forms {
    names: Vec<&'static str>,
}

impl Forms {
    fn note(&mut self, name: &'static str, holds: bool) {
        self.names.extend(holds.then_some(name));
    }

    /// What any text has.
    fn note_text(&mut self, text: &[u8], found: &Found) {
        let resets = !found.resets.is_empty();
        self.note("no RESET", !resets);
        self.note("RESET", resets);
        self.note("lines with and without RESET", resets && found.old_lines > 0);
        self.note("16,384 bytes, with RESET", resets && text.len() == MAX_NETWORK_BYTES);
        self.note("16,385 bytes, with RESET", resets && text.len() == MAX_NETWORK_BYTES + 1);
    }

    /// What a refused text has.
    fn note_refused(&mut self, text: &[u8], found: &Found, refusal: Refusal) {
        let at_line = found.resets.iter().find(|(line, _, _)| *line == refusal.place);
        let other_length = |other: fn(usize) -> usize| {
            let is_other = |(_, len, bits): &(usize, usize, Vec<Bit>)| bits.len() == other(*len);
            refusal.number == RESET && at_line.is_some_and(is_other)
        };
        self.note("refused with 18", refusal.number == RESET);
        self.note("18 with a RESET one too short", other_length(|len| len - 1));
        self.note("18 with a RESET one too long", other_length(|len| len + 1));
        if refusal.number == START {
            self.note("9 by RESET", read_network(&without_resets(text)).is_ok());
            let over: Vec<usize> = found.resets.iter().map(|(line, _, _)| *line).collect();
            let by_hold = read_network(&without_holds(text, &over)).is_ok();
            self.note("9 by hold over RESET", by_hold);
        }
    }

    /// What an accepted text has.
    fn note_accepted(&mut self, text: &[u8], found: &Found, network: &Network) {
        self.note("accepted, with RESET", !found.resets.is_empty());
        self.note("accepted, 128 nodes with RESET", found.resets.len() == MAX_NODES);
        self.note_bits(found, network);
        self.note_holds(found, network);
        let path = first_path(text);
        self.note("RESET that opens another path", path != first_path(&without_resets(text)));
        let over: Vec<usize> = found.resets.iter().map(|(segment, _, _)| *segment).collect();
        let decides = path != first_path(&without_holds(text, &over));
        self.note("hold that decides the path over RESET", decides);
    }

    /// What the RESET fields of an accepted text have.
    fn note_bits(&mut self, found: &Found, network: &Network) {
        let steers = |segment: usize| is_steering_segment(&network.nodes, segment);
        let unknown = |bits: &[Bit]| bits.iter().any(Option::is_none);
        let mut note = |name, test: &dyn Fn(usize, &[Bit]) -> bool| {
            self.note(name, found.resets.iter().any(|(segment, _, bits)| test(*segment, bits)));
        };
        note("RESET of 32 bits", &|_, bits| bits.len() == EARLIER_SEGMENT_BITS);
        note("RESET of 64 bits", &|_, bits| bits.len() == MAX_SEGMENT_BITS);
        note("RESET of a plain segment", &|segment, _| network.is_plain(segment));
        note("RESET with X", &|_, bits| unknown(bits));
        note("RESET of a steering segment", &|segment, _| steers(segment));
        note("RESET of a steering segment, with X", &|segment, bits| {
            steers(segment) && unknown(bits)
        });
    }

    /// What the `hold` lines over RESET fields of an accepted text have.
    fn note_holds(&mut self, found: &Found, network: &Network) {
        let held = |segment| found.holds.iter().find(|(held, _)| *held == segment);
        let pairs: Vec<(usize, &[Bit], &[Bit])> = found
            .resets
            .iter()
            .filter_map(|(segment, _, reset)| Some((*segment, &reset[..], &held(*segment)?.1[..])))
            .collect();
        let any_bit = |test: fn(Bit, Bit) -> bool| {
            let mut bits = pairs.iter().flat_map(|(_, reset, hold)| reset.iter().zip(*hold));
            bits.any(|(reset, hold)| test(*reset, *hold))
        };
        let steers = |segment: usize| is_steering_segment(&network.nodes, segment);
        self.note("hold over RESET", !pairs.is_empty());
        let made_unknown = any_bit(|reset, hold| reset.is_some() && hold.is_none());
        self.note("hold over RESET, X for a known bit", made_unknown);
        let made_known = any_bit(|reset, hold| reset.is_none() && hold.is_some());
        self.note("hold over RESET, a known bit for X", made_known);
        let steering = pairs.iter().any(|(segment, _, _)| steers(*segment));
        self.note("hold over RESET of a steering segment", steering);
    }
}
