//! Lists of clocks for the test frame that go everywhere, not only where a plan's clocks go.

use super::draft::{Draft, Entry};
use super::random::Random;
use super::reset_cases::reset_random;
use super::tiny::tiny;
use crate::clocks::Clock;
use crate::controller::{next, State, STATES};
use crate::frame::{any_shift, Frame};
use crate::network::{Configuration, Network};
use crate::path::walk;
use crate::reader::read_network;
use crate::text::written;

/// What the frame is given.
pub struct ClockList {
    pub text: Vec<u8>,
    /// What the text says.
    pub network: Network,
    pub state: State,
    pub held: Configuration,
    pub shift: Configuration,
    pub clocks: Vec<Clock>,
    /// The bits fed at each clock, place 0 first, at least one for each place; none outside
    /// Capture-DR.
    pub fed: Vec<Vec<bool>>,
}

impl ClockList {
    /// The frame before the first clock.
    pub fn first(&self) -> Frame<'_> {
        Frame::resumed(&self.network, self.state, self.held.clone(), self.shift.clone())
    }

    /// Plays the list: the frame after it, and what shows at each clock. `look` is called before
    /// each clock.
    pub fn play(&self, mut look: impl FnMut(&Frame, Clock)) -> (Frame<'_>, Vec<Option<bool>>) {
        let mut frame = self.first();
        let mut shown = Vec::new();
        for (&clock, fed) in self.clocks.iter().zip(&self.fed) {
            look(&frame, clock);
            let mut fed = fed.iter();
            let mut source = |_, _| *fed.next().expect("a bit for each place");
            shown.push(frame.clock(clock.tms, clock.tdi, &mut source));
        }
        (frame, shown)
    }
}

/// The list of a seed. Every second list starts from Run-Test/Idle with the network's start, the
/// others from any state with any bits. Of eight lists one ends in a setting that is not valid, one
/// starts in such a setting, one with a path without bits and one with a plain segment on the path.
pub fn clock_list(seed: u64) -> ClockList {
    let random = &mut Random::new(seed);
    loop {
        let list = draw_list(random, seed % 2 == 1);
        let path = walk(&list.network, &list.held);
        let wanted = match seed % 8 {
            0 => !list.play(|_, _| {}).0.setting_is_valid(),
            1 => path.is_err(),
            2 => path.is_ok_and(|path| path.is_empty()),
            3 => path.is_ok_and(|path| path.iter().any(|&segment| list.network.is_plain(segment))),
            _ => true,
        };
        if wanted {
            return list;
        }
    }
}

/// The same list; its text says the start with RESET fields and `hold` lines.
pub fn reset_clock_list(seed: u64) -> ClockList {
    let mut list = clock_list(seed);
    list.text = reset_text(seed, &list.network);
    list.network = read_network(&list.text).expect("the same start");
    list
}

/// A list of 10 to 40 clocks, from the start or from anywhere.
fn draw_list(random: &mut Random, anywhere: bool) -> ClockList {
    let (text, network) = draw_network(random);
    let mut held = network.start.clone();
    for bit in held.iter_mut().flatten() {
        *bit = bit.filter(|_| !anywhere).or_else(|| Some(random.bit()));
    }
    let shift = any_shift(&network, &mut || random.bit());
    let first = if anywhere { *random.pick(&STATES) } else { State::RunTestIdle };
    let (mut clocks, mut fed) = (Vec::new(), Vec::new());
    let mut state = first;
    for _ in 0..random.between(10, 40) {
        let clock = Clock { tms: random.percent(percent_of_ones(state)), tdi: random.bit() };
        let places = if state == State::CaptureDr { network.bits() } else { 0 };
        fed.push((0..places).map(|_| random.bit()).collect());
        clocks.push(clock);
        state = next(state, clock.tms);
    }
    ClockList { text, network, state: first, held, shift, clocks, fed }
}

/// A tiny network that is accepted, without targets, as the frame has no use for them.
fn draw_network(random: &mut Random) -> (Vec<u8>, Network) {
    loop {
        let mut draft = tiny(random, 8);
        draft.entries.retain(|entry| matches!(entry, Entry::Hold { .. }));
        let text = draft.text();
        if let Ok(network) = read_network(&text) {
            return (text, network);
        }
    }
}

/// The text of a network without targets that says its start with RESET fields and `hold` lines.
fn reset_text(seed: u64, network: &Network) -> Vec<u8> {
    let mut draft = Draft::of(network);
    for segment in draft.segments() {
        let bits = written(&network.start[segment - 1]);
        draft.entries.push(Entry::Hold { segment, bits });
    }
    draft.respell(&mut reset_random(seed), &network.start);
    draft.text()
}

/// How often TMS is 1 in a state, so that many clocks capture and shift.
fn percent_of_ones(state: State) -> usize {
    match state {
        State::RunTestIdle => 80,
        State::SelectDr => 40,
        State::CaptureDr | State::ShiftDr | State::SelectIr => 30,
        _ => 50,
    }
}
