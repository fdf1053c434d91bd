//! The test frame: a network played one controller clock at a time.

use crate::controller::{next, State};
use crate::network::{Bit, Configuration, Network, Node};
use crate::path::{is_valid, path_length, walk};

/// "It keeps the controller's state, first Run-Test/Idle, and for each segment held bits, first
/// the start, and shift bits, first any; a plain segment has one set that is both, first the
/// start."
pub struct Frame<'n> {
    network: &'n Network,
    state: State,
    /// Every bit is known.
    held: Configuration,
    /// The shift bits of segments with shadow; empty for the others.
    shift: Configuration,
}

impl<'n> Frame<'n> {
    /// "fed a network, its start with any bit for each unknown one": `any` gives these bits and
    /// the first shift bits.
    pub fn new(network: &'n Network, any: &mut dyn FnMut() -> bool) -> Frame<'n> {
        let mut held = network.start.clone();
        for bit in held.iter_mut().flatten() {
            *bit = Some(bit.unwrap_or_else(&mut *any));
        }
        let shift = any_shift(network, any);
        Frame::resumed(network, State::RunTestIdle, held, shift)
    }

    /// A frame as other clocks have left it: in any state, with any bits.
    pub fn resumed(
        network: &'n Network,
        state: State,
        held: Configuration,
        shift: Configuration,
    ) -> Frame<'n> {
        Frame { network, state, held, shift }
    }

    pub fn state(&self) -> State {
        self.state
    }

    /// The shift bits of segments with shadow; empty for the others.
    pub fn shift(&self) -> &Configuration {
        &self.shift
    }

    /// "A setting is the frame's held bits, all of them known".
    pub fn setting(&self) -> &Configuration {
        &self.held
    }

    /// "it is valid if it is a valid configuration"
    pub fn setting_is_valid(&self) -> bool {
        is_valid(self.network, &self.held)
    }

    /// One clock. `fed` gives the bit captured at a place, called with its segment and bit, in
    /// place order. The result is the bit that scan-out shows, if one shows.
    ///
    /// "In other states, and wherever the held bits are no valid setting, no bit changes or
    /// shows. Then TMS picks the next state."
    pub fn clock(
        &mut self,
        tms: bool,
        tdi: bool,
        fed: &mut dyn FnMut(usize, usize) -> bool,
    ) -> Option<bool> {
        let mut shown = None;
        // "The path is the walk over the held bits."
        if let Ok(path) = walk(self.network, &self.held) {
            match self.state {
                State::CaptureDr => self.capture(&path, fed),
                State::ShiftDr => shown = Some(self.shift_once(&path, tdi)),
                State::UpdateDr => self.update(&path),
                _ => {}
            }
        }
        self.state = next(self.state, tms);
        shown
    }

    /// The shift bits of a segment; those of a plain segment are its held bits.
    fn shift_bits(&mut self, segment: usize) -> &mut Vec<Bit> {
        match self.network.nodes[segment - 1] {
            Node::Segment { shadow: true, .. } => &mut self.shift[segment - 1],
            _ => &mut self.held[segment - 1],
        }
    }

    /// "A clock in Capture-DR sets the path's shift bits to those fed."
    fn capture(&mut self, path: &[usize], fed: &mut dyn FnMut(usize, usize) -> bool) {
        for &segment in path {
            for (index, bit) in self.shift_bits(segment).iter_mut().enumerate() {
                *bit = Some(fed(segment, index));
            }
        }
    }

    /// "One in Shift-DR shows place 0's shift bit; then each place takes the next higher one's
    /// and the highest takes TDI; a path without bits shows TDI."
    fn shift_once(&mut self, path: &[usize], tdi: bool) -> bool {
        if path_length(self.network, path) == 0 {
            return tdi;
        }
        let shown = self.shift_bits(path[0])[0];
        for (index, &segment) in path.iter().enumerate() {
            let above = match path.get(index + 1) {
                Some(&higher) => self.shift_bits(higher)[0],
                None => Some(tdi),
            };
            let bits = self.shift_bits(segment);
            bits.remove(0);
            bits.push(above);
        }
        shown == Some(true)
    }

    /// "One in Update-DR copies shift bits to held bits on the path."
    fn update(&mut self, path: &[usize]) {
        for &segment in path {
            self.held[segment - 1] = self.shift_bits(segment).clone();
        }
    }
}

/// "shift bits, first any", for the segments with shadow.
pub fn any_shift(network: &Network, any: &mut dyn FnMut() -> bool) -> Configuration {
    let first = |node: &Node| match node {
        Node::Segment { len, shadow: true, .. } => (0..*len).map(|_| Some(any())).collect(),
        _ => Vec::new(),
    };
    network.nodes.iter().map(first).collect()
}
